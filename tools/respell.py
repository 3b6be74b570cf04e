#!/usr/bin/env python3
"""Brings the repository's own definitions and lemmas to snake case, after port.py: `sumOver` becomes `sum_over`, and the
definition `no-feeds` of specs/ `no_feeds`.

Run once, at the top. Words of the contracts, of specs/ and of proofs/ are respelled, and so are the texts of the must-fail edits.
Functions of src/ have been in snake case all along, and types and modules keep their capitals. Prints each name and where its new
spelling stood before, so that names that would fall together are seen.
"""
import pathlib
import re
import sys

WORD = re.compile(r"(?<![A-Za-z0-9_'·-])([a-z][a-z0-9]*(?:[A-Z][a-z0-9]*)+)(?![A-Za-z0-9_'])")


# Definitions of specs/ and fields of its records, which have no dash.
DASHED = """
    no-feeds none-remarks plain-again same-verdict first-bytes text-again list-again links-of unit-steps nine-only
    even-accepted bounded-lag bounded-overrun plan-bytes check-bytes plan-room
""".split()
DASHES = re.compile(r"(?<![A-Za-z0-9_'·-])(%s)(?![A-Za-z0-9_'-])" % "|".join(DASHED))


def snake(name):
    return re.sub(r"([A-Z])", lambda m: "_" + m.group(1).lower(), name)


def files():
    for path in sorted(pathlib.Path("crates").rglob("*")):
        if path.is_file() and path.suffix in (".antt", ".rt", ".edit") and "out" not in path.parts:
            yield path


def main():
    dry = "--dry" in sys.argv
    texts = {path: path.read_text() for path in files()}
    names = set()
    for path, text in texts.items():
        names.update(WORD.findall(text))
    everything = "\n".join(text for path, text in texts.items())
    for name in sorted(names):
        new = snake(name)
        before = len(re.findall(r"(?<![A-Za-z0-9_'·-])%s(?![A-Za-z0-9_'])" % re.escape(new), everything))
        print(f"{name} {new}" + (f" STOOD {before}" if before else ""))
    if dry:
        return
    for path, text in texts.items():
        new = WORD.sub(lambda m: snake(m.group(1)), text)
        new = DASHES.sub(lambda m: m.group(1).replace("-", "_"), new)
        if new != text:
            path.write_text(new)


main()
