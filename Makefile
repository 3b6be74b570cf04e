.PHONY: help test check plan check-plan page card compare bench install

NETWORK ?= samples/swap/network.txt
PLAN ?= samples/swap/plan.txt
STEP ?= 1

# The cases of `make compare`, and their seed.
CASES ?= 200000
SEED ?= 20131008

# Where `make install` puts things; DESTDIR is put before it, for packages. What the environment has for them stands.
PREFIX ?= /usr/local
DESTDIR ?=

help:
	@echo 'make test    prove every crate, try the must-fail edits, run every other test; the last line is the total'
	@echo 'make check   prove every crate, without the must-fail edits'
	@echo 'make plan NETWORK=FILE                  print the plan for a network, as make plan NETWORK=samples/swap/network.txt'
	@echo 'make check-plan NETWORK=FILE PLAN=FILE  print whether a plan is accepted for a network'
	@echo 'make page NETWORK=FILE PLAN=FILE STEP=N print the page of one step of a plan, for the change board'
	@echo 'make card    print the card of step bounds, from the table in the code'
	@echo 'make compare CASES=10000000 SEED=1      hold every operation against the second implementation on so many cases'
	@echo 'make bench   print the time of every operation beside the second implementation'
	@echo 'make install PREFIX=DIR                 install programs, static library, header and man pages (DESTDIR is put before it)'
	@echo 'make help    print this list'

test:
	@tools/test

check:
	@rt all check

# A program is proved and built first, unless it is newer than all of its sources. What that says goes to the error stream,
# so that standard output has the program's own lines alone.
plan:
	@tools/program make_plan 1>&2
	@target/bin/make_plan < '$(NETWORK)'

check-plan:
	@tools/program check_plan 1>&2
	@tools/check-plan '$(NETWORK)' '$(PLAN)'

# The example in C. It fails after a refusal, whose lines it prints, and `make` with it.
page:
	@tools/library 1>&2
	@mkdir -p target/examples
	@$(CC) -std=c99 -O2 -Iinclude examples/c/page.c target/staticlib/libpavuneshil.a -o target/examples/page 1>&2
	@target/examples/page '$(NETWORK)' '$(PLAN)' '$(STEP)'

card:
	@tools/card

compare:
	@tools/library 1>&2
	@CARGO_TARGET_DIR='$(CURDIR)/target/rust' cargo run --release --offline --quiet \
		--manifest-path rust/compare/Cargo.toml -- $(CASES) $(SEED)

# A program of its own: nothing fails for being slow.
bench:
	@tools/library 1>&2
	@CARGO_TARGET_DIR='$(CURDIR)/target/rust' cargo run --release --offline --quiet \
		--manifest-path rust/bench/Cargo.toml

# What is not built yet is proved and built first.
install:
	@tools/program make_plan check_plan 1>&2
	@tools/library 1>&2
	install -d '$(DESTDIR)$(PREFIX)/bin' '$(DESTDIR)$(PREFIX)/lib' '$(DESTDIR)$(PREFIX)/include' \
		'$(DESTDIR)$(PREFIX)/share/man/man1' '$(DESTDIR)$(PREFIX)/share/man/man5'
	install -m 755 target/bin/make_plan target/bin/check_plan '$(DESTDIR)$(PREFIX)/bin'
	install -m 644 target/staticlib/libpavuneshil.a '$(DESTDIR)$(PREFIX)/lib'
	install -m 644 include/pavuneshil.h '$(DESTDIR)$(PREFIX)/include'
	install -m 644 man/make_plan.1 man/check_plan.1 '$(DESTDIR)$(PREFIX)/share/man/man1'
	install -m 644 man/pavuneshil-network.5 man/pavuneshil-plan.5 man/pavuneshil-page.5 man/pavuneshil-rules.5 \
		'$(DESTDIR)$(PREFIX)/share/man/man5'
