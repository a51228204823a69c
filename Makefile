# `make test` is the gate. SECONDS is how long the comparison with the Rust goes on; SOURCES is the folder that has the Rust's files as src--*.
SECONDS =
SOURCES = ../shared
export SOURCES

.PHONY: edits kit test run lib native size list driver differential faults fixed fuzz fuzz-faults outlines bench clean

# the proofs, the compiler and the loader are the kit's
kit:
	@command -v rt >/dev/null || { echo 'make: the Rattle kit is not at hand: its command, rt, is not in PATH' >&2; exit 1; }

test: kit
	@tools/test $(or $(SECONDS),60)

# the programs `flatten` and `why`, proved and built, on four font parts
run: kit
	@echo 'make run: proves and builds the programs flatten and why, which takes some minutes the first time, and then runs them on four font parts.'
	@for name in flatten why; do (cd crates/$$name && rt run <stdin >/dev/null) || exit 1; done
	@echo
	@echo 'examples/squares.part, a glyph that calls one subroutine twice: 0, the length, the tokens run and the width, - for none; then its flat string.'
	@tools/run flatten examples/squares.part
	@echo
	@echo 'examples/font.part, a whole font of three such glyphs: 0 and the length; then the INDEX of their flat strings.'
	@tools/run flatten --font examples/font.part
	@echo
	@echo 'examples/forty.part, forty subroutines that each call the next twice: refused once the budget is spent, for the last would run 549755813888 times.'
	@tools/run flatten examples/forty.part
	@echo
	@echo 'The same, to why: the refusal and its token, and a line for each call that was open, the outermost first, of which here three; and in words, cut short.'
	@tools/run why examples/forty.part | sed 4q
	@tools/run why --words examples/forty.part | cut -c 1-120
	@echo
	@echo 'examples/absent.part, to why: the subroutine that is not there is asked for by local 1, which global 0 calls at its byte 1.'
	@tools/run why examples/absent.part
	@tools/run why --words examples/absent.part

# what a user links, under target/lib: the proved archive, the header and a pkg-config file
lib: kit
	@tools/lib

# the same under target/native, where the comparison and the benchmark look for it
native: kit
	@tools/native-staticlib ighzamrel
	@tools/lib target/native
	@echo 'native: target/native has libighzamrel.a, include/ighzamrel.h and pkgconfig/ighzamrel.pc'

# how many bytes each C function brings into a program that is linked for size
size: lib
	@tools/text-size target/lib/libighzamrel.a

# the stored list of the program `cases`, made anew from the Rust's answers and the rules
list:
	tools/oracle/build
	target/oracle/driver list crates/cases

# every operation, the proved functions against the Rust and the rules in one process: the stored list and more, all charstrings of up to three
# bytes, CASES random charstrings and the other operations beside them, and the glyphs of the fonts in the folders FONTS; with SECONDS, a sample
# of so many seconds. SEED repeats a run.
CASES = 10000000
SEED =
FONTS =
differential: driver
	target/oracle/driver compare CASES=$(CASES) SECONDS=$(SECONDS) SEED=$(SEED) FONTS='$(FONTS)'

# the driver over the library as it stands now
driver:
	tools/native-staticlib ighzamrel
	tools/tried
	tools/oracle/build

# that comparison against faults that are planted in the Rust and before the library, at most SECONDS for each
faults: driver
	tools/oracle/faults $(or $(SECONDS),20) $(SEED)

# all 2^32 Fixed values as call indexes, the proved function against the Rust
fixed: driver
	target/oracle/driver fixed

# every operation under libFuzzer for SECONDS, against the Rust and the rules; what it learns is kept in the folder CORPUS
CORPUS = target/fuzz/corpus
fuzz: driver
	fuzz/build
	fuzz/run $(or $(SECONDS),60) $(CORPUS)

# that target against faults that are planted before the library, at most SECONDS for each
fuzz-faults: driver
	fuzz/build
	fuzz/faults $(or $(SECONDS),60)

# real fonts flattened whole and drawn before and after, by fontTools and FreeType; GLYPHS is the most that are drawn of each, FONTS as for the bench
GLYPHS =
outlines: native
	tools/outlines --self-test $(FONTS)
	tools/outlines $(GLYPHS:%=--glyphs %) $(FONTS)

# speed, the proved functions against the Rust; FONTS names folders to look for fonts in, else Debian's are searched
bench:
	bench/run $(FONTS)

# all facts that refuse the must-fail edits, and not the first alone: each edit is tried once more
edits:
	tools/must-fail-logs

clean:
	rm -rf target
