# make play     plays SCRIPT with the program axs, which Rattle's kit alone proves and builds
# make examples plays every script of examples/ and compares what is written
# make c_examples builds every C program of examples/ with the library, runs it and compares what it writes
# make test     the gate: everything is proved, run and compared (.ci/run)
# make quick    for work between commits, and no verdict: what changed is proved, stored cases, 5,000 comparisons a layer, no edits
# make edits    every edit, of crates/*/must-fail and of docs/edits: refused by the prover, and seen to change an answer
# make lib      libpipeteasel.a, for C and whatever calls C (include/pipeteasel.h)
# make shared   libpipeteasel.so.0, the same as a shared library
# make install  header, both libraries, pipeteasel.pc for pkg-config, and axs, below PREFIX; make uninstall removes them
# make python   the library from Python: the example is run and compared, and every call tried (examples/pipeteasel.py)
# make compare  the C library and axs against the independent second program: CASES fresh cases, TREES sequences, DEEP of them on trees
#               at their limits, ORDERS trees on which changes come in two orders, SCRIPTS scripts and PIPED scripts handed to axs
#               in pieces, all from SEED
# make hostile  CALLS calls of the C library with hostile bytes between guard pages, and some under valgrind
# make cases    the stored cases and their answers anew, both by the second program
# make bench    the table of docs/BENCH.md: instructions, of the library now and in the last landings, and of the second program; on an
#               x86-64 machine times too (not a test). bash bench/keep NUMBER keeps the library's as that landing's
# The library and axs are for x86-64. On other machines C programs are built for x86-64 too, and run under the kit's emulator.

SCRIPT ?= examples/document.axs
CASES ?= 100000
TREES ?= 10000
DEEP ?= 100
ORDERS ?= 10000
SCRIPTS ?= 20000
PIPED ?= 1000
SEED ?= 1
CALLS ?= 1000000
CARGO_DIR ?= target/cargo
CARGO = cargo build --quiet --release --offline --target-dir $(CARGO_DIR)
SECOND = $(CARGO_DIR)/release/second
C99 = -std=c99 -Wall -Wextra -Werror -pedantic -Iinclude
EMULATED = tools/emulated

MACHINE := $(shell uname -m)
ifeq ($(MACHINE),x86_64)
COMPILER = gcc
CC = $(COMPILER)
AXS = target/bin/axs
FOR_PYTHON = $(SHARED)
else
# static, as the emulator has no C library but the kit's; compare can't link the library, nor Python load it, and have a stand-in
COMPILER = x86_64-linux-gnu-gcc
CC = $(COMPILER) -static
AXS = target/emulated/axs
FOR_PYTHON = target/emulated/$(SHARED)
STAND_IN = stand_in
export PIPETEASEL_LIB = target/emulated
endif

.PHONY: play axs examples c_examples test quick edits lib shared install uninstall python second stand_in hostile cases bench
.PHONY: compare compare_built compare_tests compare_list compare_compute compare_access compare_condition compare_tree compare_deep
.PHONY: compare_order compare_script compare_program compare_wording compare_sidebyside

play: axs
	@$(EMULATED) target/bin/axs <$(SCRIPT)

# rt builds a program where it runs it, and does nothing more where nothing has changed; what it says goes to standard error, so that
# `make play` writes the program's text alone
BUILD_AXS = (cd crates/axs && rt run <../../examples/document.axs >/dev/null) && mkdir -p target/bin && cp crates/axs/out/axs target/bin/axs
axs:
	@$(BUILD_AXS)

# two of them are the same changes in two orders
examples: axs
	@for script in examples/*.axs; do \
		$(EMULATED) target/bin/axs <$$script | cmp - $${script%.axs}.out && echo "$$script: as expected" || exit 1; \
	done
	cmp examples/two_folders_stage_first.out examples/two_folders_foyer_first.out

# play_file is handed the document's script, whose text is that of axs; where a script has the program's name, what it writes is in NAME.c.out
c_examples: lib
	@for program in read_list compute_list undo_tree play_script play_file who_may_open full_control conditional condition_text side_by_side; do \
		$(CC) $(C99) examples/$$program.c -L. -lpipeteasel -o target/$$program || exit 1; \
		expected=examples/$$program.out; [ $$program != play_file ] || expected=examples/document.out; \
		[ ! -e examples/$$program.c.out ] || expected=examples/$$program.c.out; \
		$(EMULATED) target/$$program examples/document.axs >target/$$program.txt && diff target/$$program.txt $$expected || exit 1; \
		echo "examples/$$program.c: as expected"; \
	done

test:
	bash .ci/run

quick:
	tools/claims
	tools/header
	RT_SECONDS=600 rt all test
	$(MAKE) --no-print-directory lib
	tools/archive
	$(MAKE) --no-print-directory -j2 --output-sync=target compare CASES=5000 TREES=5000 DEEP=2 ORDERS=500 SCRIPTS=5000 PIPED=100
	@echo "quick: all held; no edit was tried, and the gate asks for more: no verdict"

edits: second
	rt all check
	tools/edits

# made anew where something of the layers has changed; what rt itself keeps in a crate's out/ aside
LAYERS = octets refusal condition wording list access sidebyside inherit tree script capi capi_c
PROGRAM = octets refusal condition list inherit tree script axs
files_of = $(shell find $(1:%=crates/%) -name out -prune -o -type f -print)
lib: libpipeteasel.a
libpipeteasel.a: crates.txt $(call files_of,$(LAYERS))
	cd crates/capi_c && rt lib
	cp crates/capi_c/out/libcapi_c.a libpipeteasel.a

# No file of the C compiler's own start goes in: it has writable data, and the library has none. What it takes of libc is bound
# as it is loaded, and then nothing of it can be written.
SHARED = libpipeteasel.so.0
shared: $(SHARED)
$(SHARED): libpipeteasel.a pipeteasel.map
	$(COMPILER) -shared -nostartfiles -Wl,--whole-archive libpipeteasel.a -Wl,--no-whole-archive -Wl,-soname,$(SHARED) \
		-Wl,--version-script=pipeteasel.map -Wl,-z,relro,-z,now,-z,noexecstack,-z,defs,-z,text -o $@

# as `make axs`, but only where something of the program has changed, so that `make install` has nothing to prove behind `make`
target/bin/axs: crates.txt $(call files_of,$(PROGRAM))
	@$(BUILD_AXS)

# Modes are the same whatever the umask is; folders that are there already stay as they are.
PREFIX ?= /usr/local
PLACE = $(DESTDIR)$(PREFIX)
PLACE_OK = @case '$(PREFIX)' in /*) ;; *) echo "PREFIX is no absolute path: $(PREFIX)" >&2; exit 1;; esac; \
	[ ! '$(PLACE)/include' -ef include ] || { echo "PREFIX is this folder itself: $(PLACE)" >&2; exit 1; }

install: libpipeteasel.a $(SHARED) target/bin/axs
	$(PLACE_OK)
	umask 022 && mkdir -p '$(PLACE)/include' '$(PLACE)/lib/pkgconfig' '$(PLACE)/bin'
	install -m 644 include/pipeteasel.h '$(PLACE)/include'
	install -m 644 libpipeteasel.a '$(PLACE)/lib'
	install -m 755 $(SHARED) '$(PLACE)/lib'
	ln -sfn $(SHARED) '$(PLACE)/lib/libpipeteasel.so'
	install -m 644 pipeteasel.pc.in '$(PLACE)/lib/pkgconfig/pipeteasel.pc'
	sed -i 's|@PREFIX@|$(PREFIX)|' '$(PLACE)/lib/pkgconfig/pipeteasel.pc'
	install -m 755 target/bin/axs '$(PLACE)/bin'

uninstall:
	$(PLACE_OK)
	rm -f '$(PLACE)/include/pipeteasel.h' '$(PLACE)/lib/libpipeteasel.a' '$(PLACE)/lib/$(SHARED)' '$(PLACE)/lib/libpipeteasel.so' \
		'$(PLACE)/lib/pkgconfig/pipeteasel.pc' '$(PLACE)/bin/axs'

python: export PIPETEASEL_LIBRARY = $(CURDIR)/$(FOR_PYTHON)
python: shared $(STAND_IN)
	@mkdir -p target
	python3 -B examples/from_python.py >target/from_python.txt && diff target/from_python.txt examples/from_python.out
	tools/from_python

second:
	$(CARGO) --manifest-path second/Cargo.toml

# on machines other than x86-64: the library's functions, handed to a driver that runs under the emulator, and axs likewise
stand_in: lib
	mkdir -p target/emulated
	$(CC) $(C99) -O2 compare/emulated/driver.c -L. -lpipeteasel -o target/emulated/driver
	gcc $(C99) -O2 -DEMULATED='"$(CURDIR)/tools/emulated"' -DDRIVER='"$(CURDIR)/target/emulated/driver"' \
		-fPIC -c compare/emulated/stand_in.c -o target/emulated/stand_in.o
	ar rcs target/emulated/libpipeteasel.a target/emulated/stand_in.o
	gcc -shared -pthread target/emulated/stand_in.o -o target/emulated/$(SHARED)
	printf '#!/bin/sh\nexec "%s/tools/emulated" "%s/target/bin/axs" "$$@"\n' "$(CURDIR)" "$(CURDIR)" >target/emulated/axs
	chmod +x target/emulated/axs

# each layer by itself, so that `make -j` compares several at a time
COMPARE = $(CARGO_DIR)/release/compare
compare: compare_list compare_compute compare_tree compare_deep compare_order compare_script compare_program compare_access compare_condition compare_wording \
	compare_sidebyside

compare_built: lib axs $(STAND_IN)
	$(CARGO) --manifest-path compare/Cargo.toml

# that a tally under its floor, or a number that never came, fails a run
compare_tests: compare_built
	cargo test --quiet --release --offline --target-dir $(CARGO_DIR) --manifest-path compare/Cargo.toml

compare_list compare_compute compare_access compare_condition compare_wording compare_sidebyside: compare_%: compare_built
	tools/timed $* $(COMPARE) $* --cases $(CASES) --seed $(SEED)

compare_tree: compare_built
	tools/timed tree $(COMPARE) tree --cases $(TREES) --seed $(SEED)

compare_deep: compare_built
	tools/timed deep $(COMPARE) deep --cases $(DEEP) --seed $(SEED)

compare_order: compare_built
	tools/timed order $(COMPARE) order --cases $(ORDERS) --seed $(SEED)

compare_script: compare_built
	tools/timed script $(COMPARE) script --cases $(SCRIPTS) --seed $(SEED)

compare_program: compare_built
	tools/timed program $(COMPARE) program $(AXS) --cases $(PIPED) --seed $(SEED)

# guard pages and valgrind watch the library; the sanitizers watch the C side
HOSTILE = $(CC) $(C99) -D_DEFAULT_SOURCE -O1 -g hostile/*.c -L. -lpipeteasel
ifeq ($(MACHINE),x86_64)
hostile: lib
	$(HOSTILE) -fsanitize=address,undefined -fno-sanitize-recover=all -o target/hostile
	target/hostile touch | grep -q 'touched byte 0 behind'
	tools/timed hostile target/hostile $(CALLS) $(SEED)
	$(HOSTILE) -o target/hostile_plain
	valgrind --error-exitcode=1 -q target/hostile_plain 3000 $(SEED) >target/hostile.txt
else
# undefined behaviour is a trap there: the library that would tell of it can't be linked statically
hostile: lib
	$(HOSTILE) -fsanitize=undefined -fsanitize-undefined-trap-on-error -o target/hostile
	$(EMULATED) target/hostile touch | grep -q 'touched byte 0 behind'
	tools/timed hostile $(EMULATED) target/hostile $(CALLS) $(SEED)
	@echo "not run on a machine of this kind, $(MACHINE): the address sanitizer and valgrind"
endif

cases: second
	$(SECOND) cases all examples/lists.txt > crates/vectors/stdin
	$(SECOND) answer < crates/vectors/stdin > crates/vectors/stdout

bench: lib
	bash bench/run
