# make test               the whole gate
# make also-fail          more wrong programs, each refused (half an hour); CRATE=NAME for those of one crate
# make list BOOK=FILE     lists a book
# make restore            the example program in C, target/c/restore
# make cut LINE=..        cuts a line as typed and runs its tokens; without LINE, the lines on standard input
# make sheet BOOK=FILE    writes a book's sheet, the book as text that can be typed
# make book SHEET=FILE    writes a sheet's book
# make bench              the benchmark
# make stack              the machine stack that each C function uses
SHELL := /bin/bash
.SHELLFLAGS := -eu -o pipefail -c
.PHONY: test also-fail list list-test compiler

CC ?= cc
LIB := target/libdesk.a

# Its last line is the last line of rt ci, printed once everything has passed. A wrong program that cannot be applied fails it.
test: compiler
	@tools/also-fail --fits
	@tools/promises
	@log=$$(mktemp); trap 'rm -f "$$log"' EXIT; rt ci | tee "$$log"; \
	if grep '^rt: ok' "$$log" | grep -E ', [1-9][0-9]* bad'; then echo "make: a wrong program does not apply" >&2; exit 1; fi; \
	$(MAKE) --no-print-directory list-test c-test; tail -n 1 "$$log"

also-fail:
	@tools/also-fail $(CRATE)

list:
	@[ -n "$(BOOK)" ] || { echo "usage: make list BOOK=FILE" >&2; exit 2; }
	@tools/program lister < "$(BOOK)"

# Every book lists as its stored listing says.
list-test:
	@for book in books/*.book; do tools/program lister < "$$book" | diff - "$${book%.book}.listing"; done

compiler:
	@command -v $(CC) > /dev/null || { echo "make: no C compiler $(CC): the tests at the C boundary need one" >&2; exit 1; }

# Made anew whenever a file of a crate is newer; what is proved is not proved again.
$(LIB): tools/library crates.txt $(shell find crates -name '*.rt' -o -name '*.antt')
	@tools/library $@

include tests/c/c.mk
