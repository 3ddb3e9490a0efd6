# Everything in C: the library, the command line over it, the example, the tests from outside and the benchmark. `make help` lists
# what can be made.
#
# Whatever is newer than all that it is made from is neither built nor proved again. The library and the program are proved before
# they are built, which takes some minutes on a fresh checkout.

RT = rt
CFLAGS ?= -O2
FUZZ_CC = clang
FUZZ_SECONDS = 600

PREFIX = /usr/local
BINDIR = $(PREFIX)/bin
INCLUDEDIR = $(PREFIX)/include
LIBDIR = $(PREFIX)/lib
MANDIR = $(PREFIX)/share/man

# Object files and test programs; and the programs in C for users.
BUILD = target/c
BIN = target/bin

VERSION := $(shell sed -n 's/^\#define NESSFLURRY_VERSION //p' include/nessflurry.h)

# Where the toolchain leaves what it builds: in the folder of each crate.
LIBRARY = crates/nessflurry_c/out/libnessflurry_c.a
PAIR_SUM = crates/pair_sum_c/out/libpair_sum_c.a
PROGRAM = crates/nessflurry/out/nessflurry

.DELETE_ON_ERROR:
.PHONY: all help install uninstall clean bench fuzz
.PHONY: test test-long test-sanitize test-valgrind test-headers test-plain test-compare test-users

all: $(LIBRARY) $(BIN)/lampline $(BIN)/street

help:
	@echo 'make                 the library for C, and under target/bin lampline and the example'
	@echo 'make test            all tests from outside; test-headers, test-plain, test-compare and test-users are its parts'
	@echo 'make test-long       the comparison with thirteen times as many calls'
	@echo 'make test-sanitize   fewer, with the C side compiled to watch its own memory and arithmetic'
	@echo 'make test-valgrind   fewer, with both sides watched'
	@echo 'make fuzz            library and plain implementation on inputs that a fuzzer makes up; needs clang (FUZZ_SECONDS=600)'
	@echo 'make bench           the library beside the plain implementation'
	@echo 'make install         header, library, lampline, man page and pkg-config file (PREFIX=/usr/local, DESTDIR=)'
	@echo 'make uninstall       removes them'
	@echo 'make clean           removes what was made from C; proofs and the corpus of the fuzzer stay'

# ---- What the toolchain proves and builds, in the folder of a crate. One call of it at a time: they prove the same crates below. ----

sources_of = $(shell find $$(tools/crate_folders $(1)) -name out -prune -o \( -name '*.rt' -o -name '*.antt' \) -print)

# $(call prove,CRATE,COMMAND): a program is built by running it, here on an empty input.
define prove
@mkdir -p target
@echo 'proving and building $@'
@(cd crates/$(1) && $(RT) $(2)) < /dev/null > target/make.log 2>&1 || { cat target/make.log; exit 1; }
@test -s $@ && touch $@
endef

$(LIBRARY): crates.txt $(call sources_of,nessflurry_c)
	$(call prove,nessflurry_c,lib)

$(PAIR_SUM): crates.txt $(call sources_of,pair_sum_c) | $(LIBRARY)
	$(call prove,pair_sum_c,lib)

$(PROGRAM): crates.txt $(call sources_of,nessflurry) | $(LIBRARY) $(PAIR_SUM)
	$(call prove,nessflurry,run)

# ---- What is compiled from C ----

objects_of = $(patsubst %.c,$(BUILD)/%.o,$(wildcard $(1)))

LAMPLINE = $(call objects_of,lampline/*.c)
STREET = $(call objects_of,example/street.c)
SAMPLE_LINE = $(call objects_of,outside/users/sample_line.c)
PLAIN = $(call objects_of,outside/plain*.c outside/job_files/*.c)
SELFTEST = $(call objects_of,outside/selftest/*.c)
COMPARE = $(call objects_of,outside/compare/*.c)
BENCH = $(call objects_of,outside/benchmark/*.c)
FUZZ = $(call objects_of,outside/fuzz/*.c $(addprefix outside/compare/,calls.c lent.c small_stack.c tally.c))

link = @mkdir -p $(@D) && echo 'linking $@' && $(CC) $(CFLAGS) $(LDFLAGS) -pthread $(filter %.o %.a,$^) -o $@

$(BUILD)/%.o: %.c $(GUIDES)
	@mkdir -p $(@D)
	@$(CC) -std=c11 $(CPPFLAGS) $(CFLAGS) -Wall -Wextra -pthread -MMD -MP -Iinclude -Ioutside -c $< -o $@

$(BIN)/lampline: $(LAMPLINE) $(LIBRARY)
	$(link)
$(BIN)/street: $(STREET) $(LIBRARY)
	$(link)
$(BUILD)/sample_line: $(SAMPLE_LINE) $(LIBRARY)
	$(link)
$(BUILD)/selftest: $(SELFTEST) $(PLAIN) $(LIBRARY)
	$(link)
$(BUILD)/compare: $(COMPARE) $(PLAIN) $(LIBRARY) $(PAIR_SUM)
	$(link)
$(BUILD)/bench: $(BENCH) $(PLAIN) $(LIBRARY) $(PAIR_SUM)
	$(link)
$(BUILD)/fuzz: $(FUZZ) $(PLAIN) $(LIBRARY) $(PAIR_SUM)
	$(link)

-include $(patsubst %.o,%.d,$(LAMPLINE) $(STREET) $(SAMPLE_LINE) $(PLAIN) $(SELFTEST) $(COMPARE) $(BENCH) $(FUZZ))

# ---- Tests and measurements. COMPARED says how many files are compared, and UNDER what watches. ----

COMPARED =
UNDER =

# Where the tests of what users get put their files.
export SCRATCH = $(BUILD)/users

test: test-headers test-plain test-compare test-users

# The header under all warnings.
test-headers:
	outside/users/headers

# The plain implementation against the papers' cases, searches over all lines, counts bit by bit and cells written rule by rule.
test-plain: $(BUILD)/selftest
	$(BUILD)/selftest

# The library, and the sum of its pairs by itself, against the plain implementation.
test-compare: $(BUILD)/compare
	$(UNDER) $(BUILD)/compare $(COMPARED)

# What users get: the samples, the command line, the program, the example, what make makes, and an installation; and the table of cases.
test-users: $(BIN)/lampline $(BIN)/street $(BUILD)/sample_line $(PROGRAM)
	outside/users/samples $(PROGRAM) $(BIN)/lampline $(BUILD)/sample_line
	outside/users/program $(PROGRAM)
	outside/users/lampline/test $(BIN)/lampline
	outside/users/example $(BIN)/street
	outside/users/building $(BUILD) $(BIN)
	outside/users/install $(BUILD) $(BIN)
	outside/users/cases

# What is proved comes before, so that modes which are made at once do not prove it at once.
test-long test-sanitize test-valgrind: | $(LIBRARY) $(PAIR_SUM) $(PROGRAM)
fuzz: | $(LIBRARY) $(PAIR_SUM)

test-long:
	$(MAKE) test-compare COMPARED=long

test-sanitize:
	$(MAKE) test-plain test-compare test-users COMPARED=short BUILD=target/sanitize BIN=target/sanitize/bin \
		CFLAGS='-g -O1 -fsanitize=address,undefined -fno-sanitize-recover=all'

test-valgrind:
	$(MAKE) test-compare COMPARED=short UNDER='valgrind --quiet --error-exitcode=1'

bench: $(BUILD)/bench
	$(BUILD)/bench

# What guides the fuzzer are the ways that the plain implementation takes (outside/fuzz/guides), and not its comparisons, which
# would take most of the time. The corpus stays, so that the next run goes on from it; an input with a difference is kept beside
# it.
fuzz:
	$(MAKE) target/fuzz/fuzz BUILD=target/fuzz GUIDES=outside/fuzz/guides CC='$(FUZZ_CC)' CFLAGS='-g -O1 -fsanitize=fuzzer,address,undefined \
		-fno-sanitize-recover=all -fno-sanitize-coverage=trace-cmp -fsanitize-coverage-allowlist=outside/fuzz/guides'
	outside/fuzz/seeds target/fuzz/seeds samples/*.job samples/*.rules
	mkdir -p target/fuzz/corpus
	target/fuzz/fuzz -max_total_time=$(FUZZ_SECONDS) -max_len=4096 -timeout=10 -rss_limit_mb=1024 -print_final_stats=1 \
		-artifact_prefix=target/fuzz/ target/fuzz/corpus target/fuzz/seeds

# ---- Installation ----

install: $(LIBRARY) $(BIN)/lampline
	install -d '$(DESTDIR)$(BINDIR)' '$(DESTDIR)$(INCLUDEDIR)' '$(DESTDIR)$(LIBDIR)/pkgconfig' '$(DESTDIR)$(MANDIR)/man1'
	install -m 755 $(BIN)/lampline '$(DESTDIR)$(BINDIR)/lampline'
	install -m 644 include/nessflurry.h '$(DESTDIR)$(INCLUDEDIR)/nessflurry.h'
	install -m 644 $(LIBRARY) '$(DESTDIR)$(LIBDIR)/libnessflurry_c.a'
	install -m 644 lampline/lampline.1 '$(DESTDIR)$(MANDIR)/man1/lampline.1'
	sed -e 's|@VERSION@|$(VERSION)|' -e 's|@INCLUDEDIR@|$(INCLUDEDIR)|' -e 's|@LIBDIR@|$(LIBDIR)|' include/nessflurry.pc.in \
		> '$(DESTDIR)$(LIBDIR)/pkgconfig/nessflurry.pc'
	chmod 644 '$(DESTDIR)$(LIBDIR)/pkgconfig/nessflurry.pc'

uninstall:
	rm -f '$(DESTDIR)$(BINDIR)/lampline' '$(DESTDIR)$(INCLUDEDIR)/nessflurry.h' '$(DESTDIR)$(LIBDIR)/libnessflurry_c.a' \
		'$(DESTDIR)$(MANDIR)/man1/lampline.1' '$(DESTDIR)$(LIBDIR)/pkgconfig/nessflurry.pc'

clean:
	rm -rf target/c target/sanitize target/fuzz/fuzz target/fuzz/outside
	rm -f target/bin/lampline target/bin/street target/make.log
