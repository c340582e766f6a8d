# make: proves and builds everything that people use, and prints the verdict on the sample module.
# make test: the test command: rt ci, which has layout, proofs, must-fail edits and programs, and then each of the tests below.
# make archive: the calls for C, as a library to link with.
# make command: the command cc100.
# make install: the header, the library, the programs and the manual pages (PREFIX=/usr/local, DESTDIR=). make uninstall: takes them away.
# make host-test: the calls from C and the verdict program, tested.
# make command-test: the command, plain and under the address and undefined-behaviour sanitizers, and its listing beside GNU objdump's.
# make install-test: an installation, and README's first example and samples/areas.c compiled with it.
# make samples-test: the samples that have a source, assembled anew and compared, and the assembler's masks.
# make expected-test: the stored outputs of the programs, compared with the second emulator. make expected: writes them anew.
# make mips-test: QEMU's results, compared with the product's.
# make program-test: a compiled C program on the product, its figures beside those that the same C gives natively.
# make harness: the calls beside the second emulator, on random and damaged input; make harness ROUNDS=20: a longer run.
# make bench: speed beside plain C and, where it is installed, Unicorn. make bench BEFORE=FILE: beside another archive too, whose calls have the
# same arguments and answers.
SHELL = /bin/bash
VERSION = 1.9.1
PREFIX = /usr/local
CC = cc
CFLAGS = -O2 -Wall -Wextra -Werror -Iinclude -Ibench
ARCHIVE = target/libcc100.a
VERDICT = target/bin/verdict
# The calls, behind cc100_.
EXPORTED = check check_placed check_straight start run step resume read write allocate release
# The libraries for C that they are in. Each is compiled by itself, so that what two calls share is inlined into both, and begins a page, so that
# its speed does not hang on where a host's linker puts it. Five begin some bytes into their page, where they are fastest (docs/DECISIONS.md, Pages).
CALLS = cc100_instruction_c cc100_step_c cc100_run cc100_resume cc100_check cc100_check_placed cc100_check_straight cc100_start \
    cc100_allocate cc100_release
BEGUN = cc100_run:28 cc100_check:24 cc100_check_straight:4 cc100_allocate:28 cc100_release:4
PAGE = 4096
PLAIN = bench/plain_read.c bench/plain_step.c bench/plain_check.c bench/plain_start.c bench/plain_areas.c
TIMED = bench/timing.c $(PLAIN)
# The benchmark of runs has one column more where Unicorn is installed (Debian's libunicorn-dev).
UNICORN = $(shell pkg-config --exists unicorn 2> /dev/null && echo -DUNICORN bench/unicorn.c -lunicorn)
# Another archive's calls, by names of their own; before release 1.3 there was no check for straight-through modules, before 1.7
# no areas, and before 1.9 no start.
HAS = $(if $(shell nm $(BEFORE) | grep -w cc100_$(1)),$(2))
OTHER = $(if $(BEFORE),-DBEFORE $(call HAS,check_straight,-DBEFORE_STRAIGHT) $(call HAS,allocate,-DBEFORE_AREAS) \
    $(call HAS,start,-DBEFORE_START) target/bench/before.a)
# The samples that have a source.
ASSEMBLED = m margin totals forgotten holes
EMULATOR = $(wildcard tests/emulator/*.c)
# The programs whose input and output are stored.
STORED = vectors steps listing verdict
# What is compiled here, without make.sh's qemu.c, which needs Unicorn.
PROGRAM = $(addprefix tests/program/,run.c tables.c words.c compare.c figures.c averages.c)
ROUNDS = 1

# The command, and the same for its tests, which stops at the first thing that C leaves undefined.
COMMAND = $(wildcard command/*.c)
NAMED = -DVERSION='"$(VERSION)"'
SANITIZED = -g -O1 -fsanitize=address,undefined -fno-sanitize-recover=all
# What is installed, below PREFIX; each call has a manual page that leads to that of all.
CALL_PAGES = $(addprefix share/man/man3/,$(EXPORTED:%=cc100_%.3))
INSTALLED = bin/cc100 bin/verdict include/cc100.h lib/libcc100.a lib/pkgconfig/cc100.pc share/man/man1/cc100.1 share/man/man3/cc100.3 $(CALL_PAGES)
INTO = $(DESTDIR)$(PREFIX)
FILLED = sed -e 's|@PREFIX@|$(PREFIX)|' -e 's|@VERSION@|$(VERSION)|'

TESTS = host-test command-test install-test samples-test expected-test mips-test program-test harness
# Two builds side by side would write to the same folders.
.NOTPARALLEL:
.PHONY: sample test bench archive programs command install uninstall expected $(TESTS)

sample: command $(VERDICT)
	@$(VERDICT) < samples/m.module

# The tests in C link what has just been proved. They stand after it, and the toolchain's own last line is then said once more.
test:
	@tools/gate $(TESTS)

archive:
	@tools/build $(CALLS)
	@rm -rf target/archive && mkdir -p target/archive
	@cd target/archive && for c in $(CALLS); do ar x ../lib/lib$$c.a || exit 1; done
	@cd target/archive && for b in $(BEGUN); do \
	    sed "s/BYTES;/$${b#*:};/" ../../tools/begin.ld > begun.ld && ld -r -T begun.ld -o begun.o $${b%:*}.o && mv begun.o $${b%:*}.o || exit 1; \
	done
	@cd target/archive && for c in $(CALLS); do objcopy --set-section-alignment '.text.*=$(PAGE)' $$c.o || exit 1; done
	@rm -f target/libcc100.a && ar rcs target/libcc100.a $(patsubst %,target/archive/%.o,$(CALLS))

# Made anew where anything that it is made from changed; another archive (ARCHIVE=FILE) is taken as it is.
target/libcc100.a: archive

programs:
	@tools/build verdict listing

# Made anew in the same way; another program (VERDICT=FILE) is taken as it is.
target/bin/verdict: programs

command: $(ARCHIVE)
	@mkdir -p target/bin
	@$(CC) $(CFLAGS) $(NAMED) -o target/bin/cc100 $(COMMAND) $(ARCHIVE)

install: command $(VERDICT)
	@install -d $(sort $(dir $(addprefix $(INTO)/,$(INSTALLED))))
	@install -m 755 target/bin/cc100 $(VERDICT) $(INTO)/bin
	@install -m 644 include/cc100.h $(INTO)/include/cc100.h
	@install -m 644 $(ARCHIVE) $(INTO)/lib/libcc100.a
	@$(FILLED) cc100.pc.in > $(INTO)/lib/pkgconfig/cc100.pc
	@$(FILLED) man/cc100.1 > $(INTO)/share/man/man1/cc100.1
	@$(FILLED) man/cc100.3 > $(INTO)/share/man/man3/cc100.3
	@for p in $(CALL_PAGES); do echo .so man3/cc100.3 > $(INTO)/$$p || exit 1; done
	@echo "installed below $(INTO): $(INSTALLED)"

uninstall:
	@rm -f $(addprefix $(INTO)/,$(INSTALLED))

# The archive needs no name from outside: not even the C library.
host-test: $(ARCHIVE) $(VERDICT)
	@needs=$$(nm -u $(ARCHIVE)) || exit 1; if grep -w '[Uw]' <<< "$$needs"; then echo "host tests: the archive needs these names from outside"; exit 1; fi
	@mkdir -p target/host
	@$(CC) $(CFLAGS) -o target/host/test host/test_*.c $(PLAIN) $(ARCHIVE)
	@target/host/test $(VERDICT)

command-test: command $(VERDICT)
	@mkdir -p target/tests
	@$(CC) $(CFLAGS) $(NAMED) $(SANITIZED) -o target/tests/cc100 $(COMMAND) $(ARCHIVE)
	@$(CC) $(CFLAGS) -Itests/emulator -o target/tests/emulated tests/command/emulated.c $(EMULATOR)
	@$(CC) $(CFLAGS) $(NAMED) -Dcc100_start=refused_start -o target/tests/refusing $(COMMAND) tests/command/refused_start.c $(ARCHIVE)
	@python3 tests/command/test.py target/bin/cc100 $(VERDICT) target/tests/emulated target/tests/refusing
	@python3 tests/command/test.py target/tests/cc100 $(VERDICT) target/tests/emulated target/tests/refusing
	@python3 tests/objdump/compare.py target/bin/cc100

install-test:
	@tests/install.sh $(VERSION) $(abspath $(ARCHIVE) $(VERDICT))

samples-test: command
	@mkdir -p target/tests
	@for s in $(ASSEMBLED); do \
	    python3 samples/assemble.py samples/$$s.asm > target/tests/$$s.module && cmp samples/$$s.module target/tests/$$s.module || exit 1; \
	done
	@echo "samples: $(words $(ASSEMBLED)) modules are as assembled from their sources"
	@python3 tests/assembler.py target/bin/cc100

target/tests/expected: tests/expected.c $(EMULATOR) $(wildcard tests/emulator/*.h)
	@mkdir -p target/tests
	@$(CC) $(CFLAGS) -Itests/emulator -o $@ tests/expected.c $(EMULATOR)

expected: target/tests/expected
	@for p in $(STORED); do target/tests/expected $$p < crates/$$p/stdin > crates/$$p/stdout || exit 1; done

expected-test: target/tests/expected
	@for p in $(STORED); do \
	    target/tests/expected $$p < crates/$$p/stdin > target/tests/$$p.out && cmp target/tests/$$p.out crates/$$p/stdout || exit 1; \
	done
	@echo "expected outputs: $(words $(STORED)) programs agree"

mips-test:
	@tools/build steps
	@python3 tests/mips/cases.py target/bin/steps

program-test: $(ARCHIVE)
	@mkdir -p target/tests
	@$(CC) $(CFLAGS) -Itests/emulator -o target/tests/program $(PROGRAM) $(EMULATOR) $(ARCHIVE)
	@target/tests/program tests/program/figures.words

harness: $(ARCHIVE)
	@mkdir -p target/tests
	@$(CC) $(CFLAGS) -Ihost -Itests/emulator -o target/tests/harness tests/harness/*.c host/test_drawings.c $(EMULATOR) $(PLAIN) $(ARCHIVE)
	@target/tests/harness --rounds $(ROUNDS)

bench: $(ARCHIVE)
	@mkdir -p target/bench
	@[ -z "$(BEFORE)" ] || objcopy $(foreach c,$(EXPORTED),--redefine-sym cc100_$c=before_$c) $(BEFORE) target/bench/before.a
	@$(CC) $(CFLAGS) -o target/bench/read bench/read.c $(TIMED) $(ARCHIVE) $(OTHER)
	@$(CC) $(CFLAGS) -o target/bench/run bench/run.c $(TIMED) $(ARCHIVE) $(OTHER) $(UNICORN)
	@$(CC) $(CFLAGS) -o target/bench/check bench/check.c bench/modules.c $(TIMED) $(ARCHIVE) $(OTHER)
	@$(CC) $(CFLAGS) -o target/bench/start bench/start.c bench/modules.c $(TIMED) $(ARCHIVE) $(OTHER)
	@$(CC) $(CFLAGS) -o target/bench/areas bench/areas.c $(TIMED) $(ARCHIVE) $(OTHER)
	@target/bench/read
	@target/bench/run
	@target/bench/check
	@target/bench/start
	@target/bench/areas
