# The C side, all built into target/c: tests at the boundary, the example program, benchmark and stack measurement.
# LIB is the library and CC the compiler.

BISON ?= $(shell command -v bison)
C_OUT := target/c
C_FLAGS := -std=c11 -O2 -Wall -Wextra -Wpedantic -Iinclude -Itests/c -Ibench
C_EXAMPLES := tests/c/lent.c $(addprefix tests/c/examples/,main.c check.c books.c calls.c refused.c sets.c checks.c \
              runs.c slr.c expansions.c rooms.c trees.c formula.c patterns.c cuts.c machines.c sheets.c profile.c)
C_DIFFERENTIAL := tests/c/lent.c tests/c/plain.c tests/c/cases.c $(addprefix tests/c/differential/,pick.c shape.c \
                  inputs.c strings.c needs.c compare.c laws.c depths.c counts.c)
C_LINES := tests/c/lent.c tests/c/plain_lines.c tests/c/cases.c tests/c/differential/pick.c $(addprefix tests/c/lines/,\
           trees.c inputs.c compare.c)
C_SHEETS := tests/c/lent.c tests/c/plain.c tests/c/plain_sheets.c tests/c/cases.c $(addprefix tests/c/differential/,\
            pick.c shape.c inputs.c) $(addprefix tests/c/sheets/,inputs.c compare.c)
C_PROFILES := tests/c/lent.c tests/c/plain.c tests/c/cases.c tests/c/profiles/compare.c \
              $(addprefix tests/c/differential/,pick.c shape.c inputs.c strings.c needs.c)
C_HEADERS := include/desk.h bench/source.h bench/timing.h c/answers.h $(wildcard tests/c/*.h tests/c/*/*.h)
C_COMPILE = $(CC) $(C_FLAGS) $(1) -o $@ $(filter %.c,$^) $(LIB)

ifneq ($(BISON),)
C_PARSERS := $(C_OUT)/house.tab.c $(C_OUT)/json.tab.c
C_BENCH_FLAGS := -DWITH_BISON
endif

FLEX ?= $(shell command -v flex)
ifneq ($(FLEX),)
C_SCANNER := $(C_OUT)/house.lex.c
C_LINES_FLAGS := -DWITH_FLEX
endif

.PHONY: c-test restore cut sheet book sheets-test bench stack

c-test: $(addprefix $(C_OUT)/,examples differential lines sheets-cases examples-checked differential-checked \
        lines-checked sheets-cases-checked restore line sheets stack)
c-test: $(addprefix $(C_OUT)/,profiles profiles-checked)
	$(C_OUT)/examples
	$(C_OUT)/differential
	$(C_OUT)/lines
	$(C_OUT)/sheets-cases
	$(C_OUT)/examples-checked
	$(C_OUT)/differential-checked 100000
	$(C_OUT)/lines-checked 40000
	$(C_OUT)/sheets-cases-checked 100000
	$(C_OUT)/profiles
	$(C_OUT)/profiles-checked 40000
	printf '\0\1\2\1\3\1' > $(C_OUT)/order
	$(C_OUT)/restore books/house.book - $(C_OUT)/order | diff - tests/c/restore.stdout
	printf '\0\377\377\377\377\377\1\377\377\377\377\377\2\377\3\377\377\377\4\5' > $(C_OUT)/table
	{ $(C_OUT)/restore books/house.book $(C_OUT)/table $(C_OUT)/order || true; } | diff - tests/c/checked.stdout
	{ $(C_OUT)/line books/house.patterns books/house.book < tests/c/line.stdin || true; } | diff - tests/c/line.stdout
	@$(MAKE) --no-print-directory sheets-test
	$(C_OUT)/stack

restore: $(C_OUT)/restore

# The line is taken as it is, whatever bytes it has.
ifneq ($(origin LINE),undefined)
override LINE := $(value LINE)
export LINE
endif

cut: $(C_OUT)/line
	@$(C_OUT)/line $(or $(PATTERNS),books/house.patterns) $(or $(BOOK),books/house.book)

# The output is the bytes alone: what make and the compiler say goes to standard error.
sheet:
	@[ -n "$(BOOK)" ] || { echo "usage: make sheet BOOK=FILE" >&2; exit 2; }
	@$(MAKE) --no-print-directory $(C_OUT)/sheets >&2
	@$(C_OUT)/sheets write < "$(BOOK)"

book:
	@[ -n "$(SHEET)" ] || { echo "usage: make book SHEET=FILE" >&2; exit 2; }
	@$(MAKE) --no-print-directory $(C_OUT)/sheets >&2
	@$(C_OUT)/sheets read < "$(SHEET)"

# Every book that reads has its sheet beside it: over and back gives the same bytes; and what is said of slips.
sheets-test: $(C_OUT)/sheets
	@for sheet in books/*.sheet; do \
	  $(C_OUT)/sheets write < "$${sheet%.sheet}.book" | cmp - "$$sheet"; \
	  $(C_OUT)/sheets read < "$$sheet" | cmp - "$${sheet%.sheet}.book"; \
	done
	@for slip in tests/c/slips/*.sheet; do \
	  { ! $(C_OUT)/sheets read < "$$slip" 2>&1 || echo "no refusal"; } | diff - "$${slip%.sheet}.said"; \
	done

bench: $(C_OUT)/bench $(C_OUT)/bench-lines
	$(C_OUT)/bench
	$(C_OUT)/bench-lines

stack: $(C_OUT)/stack
	$(C_OUT)/stack

$(C_OUT):
	mkdir -p $@

# The sanitizers' flags, or nothing where the compiler has none or what it makes with them does not run.
$(C_OUT)/sanitize: | $(C_OUT)
	@echo 'int main(void) { return 0; }' > $@.c
	@if $(CC) -fsanitize=address,undefined -o $@.try $@.c 2> /dev/null && $@.try; \
	then echo '-g -fsanitize=address,undefined -fno-sanitize-recover=all' > $@; \
	else : > $@; echo "no sanitizers here: the checked programs are the plain ones again"; fi
	@rm -f $@.c $@.try

$(C_OUT)/examples $(C_OUT)/examples-checked: $(C_EXAMPLES)
$(C_OUT)/differential $(C_OUT)/differential-checked: $(C_DIFFERENTIAL)
$(C_OUT)/lines $(C_OUT)/lines-checked: $(C_LINES)
$(C_OUT)/sheets-cases $(C_OUT)/sheets-cases-checked: $(C_SHEETS)
$(C_OUT)/profiles $(C_OUT)/profiles-checked: $(C_PROFILES)
$(C_OUT)/restore: c/restore.c
$(C_OUT)/sheets: c/sheets.c
$(C_OUT)/line: c/line.c
$(C_OUT)/stack: tests/c/stack.c
$(C_OUT)/bench: bench/bench.c bench/timing.c $(C_PARSERS) tests/c/plain.c tests/c/plain_sheets.c
$(C_OUT)/bench-lines: bench/lines.c bench/timing.c $(C_SCANNER) tests/c/plain_lines.c

# FLEX_TABLES=-Cf makes the scanner with flex's full tables.
$(C_OUT)/%.lex.c: bench/%.l | $(C_OUT)
	$(FLEX) $(FLEX_TABLES) -o $@ $<

$(C_OUT)/%.tab.c: bench/%.y bench/source.h | $(C_OUT)
	$(BISON) -Wall -o $@ $<

$(addprefix $(C_OUT)/,examples differential lines profiles sheets-cases restore line sheets stack): $(C_HEADERS) $(LIB) | $(C_OUT)
	$(call C_COMPILE,)

$(addprefix $(C_OUT)/,examples-checked differential-checked lines-checked profiles-checked sheets-cases-checked): $(C_HEADERS) $(LIB) \
        $(C_OUT)/sanitize
	$(call C_COMPILE,$$(cat $(C_OUT)/sanitize))

$(C_OUT)/bench: $(C_HEADERS) $(LIB) | $(C_OUT)
	$(call C_COMPILE,$(C_BENCH_FLAGS))

$(C_OUT)/bench-lines: $(C_HEADERS) $(LIB) | $(C_OUT)
	$(call C_COMPILE,$(C_LINES_FLAGS) -Wno-unused-function -Wno-sign-compare)
