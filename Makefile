# The calls from C: archive, tests, example, installation. The proofs and the other tests are run by rt (README.md).
#
#   make archive             prove crate ffr and write crates/ffr/out/libffr.a
#   make segments            prove crate segments_c and write target/libsegments.a (ffr_find_segment)
#   make ctest               the calls compared with a second implementation, from C++ and C; no caller of the first interface can be built
#   make example             a breeding run by the calls, listed by the program ffridwelan, the alleles of its last fish, the stocks
#   make faults              that the tests see planted faults
#   make attacks             wrong programs that the gate has no time for, each refused by the prover (all crates proved before)
#   make bench               the calls beside C++ baselines, in time and instructions (bench/run)
#   make sanitize valgrind   the tests under the sanitizers and under valgrind (on x86-64)
#   make install PREFIX=     headers, archive, ffridwelan.pc
#
# REFERENCE=1 links the second implementation in place of the archive: no rt is needed, and nothing is proved.

PREFIX ?= /usr/local
ROUNDS ?= 10000
REFERENCE ?= 0

# The archive is x86-64 code; elsewhere a cross compiler makes the callers. tools/run runs them on either machine.
ifeq ($(REFERENCE),1)
RUN ?=
else
RUN ?= tools/run
ifneq ($(shell uname -m),x86_64)
CROSS ?= x86_64-linux-gnu-
endif
endif
ifeq ($(origin CXX),default)
CXX := $(CROSS)g++
endif
ifeq ($(origin CC),default)
CC := $(CROSS)gcc
endif

STRICT := -Wall -Wextra -Wpedantic -Werror
CFLAGS ?= -O2
CXXFLAGS ?= -O2

ARCHIVE := crates/ffr/out/libffr.a
LISTER := crates/ffridwelan/out/ffridwelan
# Compiled files, in a folder of their own for each way of building.
OUT := target/cpp$(if $(filter 1,$(REFERENCE)),-reference)
HEADERS := $(wildcard include/*) $(wildcard cpp/*.hpp) $(wildcard bench/*.hpp)
REFERENCES := check clean join position alleles
SOURCES := $(REFERENCES:%=cpp/reference_%.cpp) cpp/histories.cpp cpp/cases.cpp cpp/test_stocks.cpp cpp/test_alleles.cpp cpp/test_stack.cpp cpp/test_calls.cpp
FAULTS := $(shell seq 32)

COMPILE = $(CXX) -std=c++17 $(STRICT) $(CXXFLAGS) -pthread -Iinclude

ifeq ($(REFERENCE),1)
CALLS := $(OUT)/reference_calls.o $(REFERENCES:%=$(OUT)/reference_%.o)
else
CALLS := $(ARCHIVE)
endif

.PHONY: bench archive segments attacks ctest example faults sanitize valgrind install clean-cpp FORCE

archive: $(ARCHIVE)

# The wrong programs that the gate has no time for: each must be refused by the prover. CRATES names some crates; all without it.
attacks:
	tools/attacks $(CRATES)

bench: $(ARCHIVE)
	CXX="$(CXX)" bench/run

# What a crate is made from, written anew only where it has changed: by what the files hold, not by their times.
target/made/%: FORCE
	@mkdir -p $(@D)
	@tools/made-from $* > $@.new
	@if cmp -s $@.new $@; then rm $@.new; else mv $@.new $@; fi

$(ARCHIVE): target/made/ffr
	cd crates/ffr && rt lib
	@touch $@

# The search among segments, an archive of its own.
segments: target/made/segments_c
	cd crates/segments_c && rt lib
	cp crates/segments_c/out/libsegments_c.a target/libsegments.a

# Proved, built, and run once on nothing.
$(LISTER): target/made/ffridwelan
	cd crates/ffridwelan && rt run < /dev/null > /dev/null
	@touch $@

$(OUT):
	mkdir -p $@

$(OUT)/%.o: cpp/%.cpp $(HEADERS) Makefile | $(OUT)
	$(COMPILE) -c $< -o $@

$(OUT)/test_calls: $(SOURCES:cpp/%.cpp=$(OUT)/%.o) $(CALLS)
	$(CXX) $(CXXFLAGS) -pthread $(sort $(filter %.o,$^)) $(filter %.a,$^) -o $@

$(OUT)/test_c.o: cpp/test_c.c include/ffridwelan.h Makefile | $(OUT)
	$(CC) -std=c99 $(STRICT) $(CFLAGS) -Iinclude -c $< -o $@

$(OUT)/test_c: $(OUT)/test_c.o $(CALLS)
	$(CXX) $(CXXFLAGS) $^ -o $@

$(OUT)/example: $(OUT)/example.o $(CALLS)
	$(CXX) $(CXXFLAGS) $^ -o $@

ctest: $(OUT)/test_calls $(OUT)/test_c
	CC="$(CC)" CXX="$(CXX)" CFLAGS="$(CFLAGS)" CXXFLAGS="$(CXXFLAGS)" tools/old-callers $(OUT) $(CALLS)
	$(RUN) $(OUT)/test_c > $(OUT)/test_c.out
	cmp $(OUT)/test_c.out cpp/test_c.expected
	$(RUN) $(OUT)/test_calls $(ROUNDS)

ifeq ($(REFERENCE),1)
example: $(OUT)/example
	$(RUN) $(OUT)/example > $(OUT)/example.seq
	$(RUN) $(OUT)/example panel > $(OUT)/example.panel
	sed -n '/^genotypes/,$$p' cpp/example.expected | cmp $(OUT)/example.panel
	@echo "the stored form is $(OUT)/example.seq; it is not listed, since rt builds the listing program"
else
example: $(OUT)/example $(LISTER)
	$(RUN) $(OUT)/example > $(OUT)/example.seq
	$(RUN) $(LISTER) < $(OUT)/example.seq > $(OUT)/example.out
	$(RUN) $(OUT)/example panel >> $(OUT)/example.out
	cat $(OUT)/example.out
	cmp $(OUT)/example.out cpp/example.expected
endif

# Each fault planted in the calls of the second implementation must be seen.
faults: $(SOURCES:cpp/%.cpp=$(OUT)/%.o)
	@for f in $(FAULTS); do \
	    $(COMPILE) -DFFR_FAULT=$$f $^ cpp/reference_calls.cpp -o $(OUT)/fault && \
	    if $(RUN) $(OUT)/fault 2000 > $(OUT)/fault.out; then echo "fault $$f not seen"; exit 1; \
	    else echo "fault $$f: $$(tail -n 1 $(OUT)/fault.out)"; fi; \
	done

SANITIZE := -g -O1 -fsanitize=address,undefined -fno-sanitize-recover=all -DFFR_SANITIZED
sanitize:
	$(MAKE) ctest OUT=$(OUT)-sanitize ROUNDS=3000 CFLAGS="$(SANITIZE)" CXXFLAGS="$(SANITIZE)"

valgrind: $(OUT)/test_calls
	valgrind --error-exitcode=2 --leak-check=full --quiet $(OUT)/test_calls 300

install: $(ARCHIVE)
	mkdir -p $(DESTDIR)$(PREFIX)/include $(DESTDIR)$(PREFIX)/lib/pkgconfig
	install -m 644 include/ffridwelan.h include/ffridwelan.hpp $(DESTDIR)$(PREFIX)/include
	install -m 644 $(ARCHIVE) $(DESTDIR)$(PREFIX)/lib
	sed 's|@PREFIX@|$(abspath $(PREFIX))|' ffridwelan.pc.in > $(DESTDIR)$(PREFIX)/lib/pkgconfig/ffridwelan.pc

clean-cpp:
	rm -rf target/cpp target/cpp-*
