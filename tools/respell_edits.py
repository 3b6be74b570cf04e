#!/usr/bin/env python3
"""Brings the must-fail edits over to today's spelling, and checks that each is the edit that it was.

    tools/respell_edits.py [--check] BASE [CRATE=COMMIT:FOLDER ..]

BASE is the commit before the port. Each `old:` and `new:` text of an edit of specs/ is turned by the rules below, where the text no
longer stands once in its file. Then, for every edit, it is said whether each `old:` text stands once (ok, else BAD), and whether
the line that it changes, and what it makes of it, are those of BASE (same, else DIFFERS, with the lines to be read).
Of a CRATE the edits are those of another COMMIT, and the sources of today lie in FOLDER. With --check nothing is written.
"""
import difflib
import glob
import os
import re
import subprocess
import sys

CAMEL = re.compile(r"(?<![A-Za-z0-9_'·-])([a-z][a-z0-9]*(?:[A-Z][a-z0-9]*)+)(?![A-Za-z0-9_'])")
# in an argument of its own, behind the application of a definition, and behind a name
PROJECTIONS = [
    (r"\(([A-Za-z]\w*) \.(\w+)\)", r"\1.\2"),
    (r"\(((?:network_of|plan_of|table_sizes|plan_sizes) \w+) \.(\w+)\)", r"(\1).\2"),
    (r"\b((?:network_of|plan_of|table_sizes|plan_sizes) \w+|next_job desk tag s) \.(\w+)", r"(\1).\2"),
    (r"\b([A-Za-z]\w*) \.(\w+)", r"\1.\2"),
]
# what the imports of one file became
IMPORTS = {"use Prim.Native.Nat.{ℕ, ": "use Rattle.std.specs.Prelude.{ℕ, "}


def snake(name):
    return re.sub(r"([A-Z])", lambda m: "_" + m.group(1).lower(), name)


def respelled(text, path):
    if not path.endswith(".antt"):
        return text
    if text.startswith("use "):
        for was, now in IMPORTS.items():
            text = text.replace(was, now)
        return re.sub(r"_([^\w\s,]{1,2})_", r"◌\1◌", text).removesuffix("}") + ("," if text.endswith("}") else "")
    text = CAMEL.sub(lambda m: snake(m.group(1)), text)
    for was, now in PROJECTIONS:
        text = re.sub(was, now, text)
    return text


def read(commit, path):
    return subprocess.run(["git", "show", f"{commit}:{path}"], capture_output=True, text=True, check=True).stdout


def applied(text, source):
    """Returns the files as they were and as the edit makes them, and the texts that do not stand once."""
    was, now, bad, path, old = {}, {}, [], None, None
    for line in text.split("\n"):
        if line.startswith("file: "):
            path = line[6:]
        elif line.startswith("old: "):
            old = line[5:]
        elif line.startswith("new:"):
            if path not in was:
                was[path] = now[path] = source(path)
            if now[path].count(old) != 1:
                bad.append((path, now[path].count(old), old))
            now[path] = now[path].replace(old, line[4:].removeprefix(" "))
    return was, now, bad


def turned(text):
    path, lines = "", []
    for line in text.split("\n"):
        if line.startswith("file: "):
            path = line[6:]
        key = line[:5]
        lines.append(key + respelled(line[5:], path) if key in ("old: ", "new: ") else line)
    return "\n".join(lines)


def changes(was, now):
    """Returns the lines that the edit changes, each with what it makes of it (an edit keeps the count of lines)."""
    found = []
    for path in was:
        before, after = was[path].split("\n"), now[path].split("\n")
        assert len(before) == len(after)
        found += [(path, at, before[at], after[at]) for at in range(len(before)) if before[at] != after[at]]
    return found


def same(base, today):
    """Returns what is not the same of the changes of BASE and those of today."""
    said = []
    for path in base[0]:
        a, b = ([line.strip() for line in it[0][path].split("\n")] for it in (base, today))
        pairs = {}
        for tag, i, j, k, m in difflib.SequenceMatcher(None, [respelled(line, path) for line in a], b, autojunk=False).get_opcodes():
            if tag == "equal" or j - i == m - k:
                pairs.update(zip(range(i, j), range(k, m)))
        one, two = ([it for it in changes(*it[:2]) if it[0] == path] for it in (base, today))
        if len(one) != len(two):
            said.append(f"{path}: {len(one)} lines changed, and {len(two)} today")
        for (_, at, old, new), (_, here, then, made) in zip(one, two):
            if pairs.get(at) != here:
                said.append(f"{path}: line {at + 1} is line {pairs.get(at, -2) + 1} today, and line {here + 1} is changed")
            if respelled(old.strip(), path) != then.strip() or respelled(new.strip(), path) != made.strip():
                said.append("\n".join([f"{path}:{here + 1}", "  - " + old, "  + " + new, "  today", "  - " + then, "  + " + made]))
    return said


def main():
    words = [it for it in sys.argv[1:] if it != "--check"]
    base, writes = words[0], "--check" not in sys.argv
    others = {it.split("=")[0]: it.split("=")[1].split(":") for it in words[1:]}
    count = {"ok": 0, "BAD": 0, "same": 0, "DIFFERS": 0}
    for edit in sorted(glob.glob("crates/*/must-fail/*.edit")):
        crate = edit.split("/")[1]
        commit, folder = others.get(crate, (base, "."))
        try:
            before = read(commit, edit)
        except subprocess.CalledProcessError:
            print(f"NOT IN {commit}: {edit}")
            continue
        was = applied(before, lambda path: read(commit, f"crates/{crate}/{path}"))
        assert not was[2], (edit, was[2])

        def here(path):
            with open(f"{folder}/crates/{crate}/{path}", encoding="utf-8") as it:
                return it.read()

        with open(edit, encoding="utf-8") as it:
            text = it.read()
        now = applied(text, here)
        if now[2] and writes:
            text = turned(before)
            with open(edit, "w", encoding="utf-8") as it:
                it.write(text)
            now = applied(text, here)
        kept = [[line for line in it.split("\n") if not line.startswith(("old: ", "new: "))] for it in (before, text)]
        print(f"{'BAD' if now[2] else 'ok'} {crate}/{os.path.basename(edit)}")
        count["BAD" if now[2] else "ok"] += 1
        for it in now[2]:
            print(f"  {it[0]} {it[1]} times: {it[2]}")
        said = (["its other lines are not as they were"] if kept[0] != kept[1] else []) + same(was, now)
        count["DIFFERS" if said else "same"] += 1
        for it in said:
            print("DIFFERS " + it)
    print(count)


main()
