# make run       builds the library, proved, and an example; plans a harbour with it, and keeps its file of
#                tables as target/example/tonight.tables
# make records   builds target/tools/records, which prints any file of tables in words; it needs no library
# make install   puts the header, both libraries and a pkg-config file under PREFIX (/usr/local), or
#                stages them under DESTDIR; make uninstall removes them
# make outside   holds the library, through its C header, to the second program and to lists of due
#                answers: SECONDS=n says how long fresh seeds are drawn, SEED=n repeats a run
# make bench     times the library beside a plain C search that gcc and, where there is one, clang
#                build (GCC=.. and CLANG=.. name others); `target/bench/bench each` then gives a line
#                for each problem too, `target/bench/bench files` the reading and writing of tables alone
# make dist      builds dist/ anew from proofs: what is used where there is no prover
# make vectors   writes the stored problems and replies of crates/vectors anew
# make gate      proves every crate, tries the must-fail edits, runs the programs; what rt keeps of earlier runs
#                on this machine it proves and tries again only where something has changed
# make clean     removes what was built, and keeps what was proved; make distclean removes both

SHELL := bash
.SHELLFLAGS := -o pipefail -c

CFLAGS = -std=c11 -D_POSIX_C_SOURCE=200809L -O2 -Wall -Wextra -Werror
CXXFLAGS = -std=c++17 -O2 -Wall -Wextra -Werror
SANITIZED = -O1 -g -fsanitize=address,undefined -fno-sanitize-recover=all

# Without the prover, rt, the library is the one in dist/, which a prover built; RT= asks for that where there is one.
RT := $(shell command -v rt)
PROVED = target/staticlib/libharbour.a
LIBRARY = $(if $(RT),$(PROVED),dist/libharbour.a)
VERSION := $(shell cat VERSION)
ORIGIN = $(if $(RT),proofs,dist)
SHARED = target/shared/$(ORIGIN)/libharbour.so.$(VERSION)
SECOND = target/second/release/second
EXAMPLE = target/example/$(ORIGIN)/harbour
RECORDS = target/tools/records
BENCHED = target/bench
BENCH = $(BENCHED)/bench
OUTSIDE = target/outside

SECONDS = 60
SEED := $(shell date +%s)

.PHONY: run records install uninstall outside bench dist vectors gate clean distclean given fit needs_rt always

run: $(EXAMPLE)
	@$(EXAMPLE) target/example/tonight.tables

records: $(RECORDS)

# What the proofs of the library are made of: of every crate that is no program all that rt reads.
PROGRAMS := $(patsubst %/src/main.rt,%,$(wildcard crates/*/src/main.rt))
CRATES := $(filter-out $(PROGRAMS),$(wildcard crates/*))
READ := $(wildcard $(CRATES:%=%/src) $(CRATES:%=%/specs) $(CRATES:%=%/proofs))

# For every x86-64; left to itself rt takes x86-64-v2, which some lack.
CPU = x86-64

# rt proves the crates under harbour too, and of all only what has changed. Its archive stands in out/, as what it keeps does.
$(PROVED): crates.txt $(shell find $(READ) -name '*.rt' -o -name '*.antt') | needs_rt
	@echo 'proving the library: some minutes the first time'
	@mkdir -p $(@D)
	@(cd crates/harbour && $(RT) lib --cpu $(CPU)) 2>&1 | tee target/harbour.log | sed --unbuffered --quiet '/^rt:/p' || { cat target/harbour.log; exit 1; }
	@install -m 644 crates/harbour/out/libharbour.a $@

# What is compared with dist/ is built now: rt knows what is proved already.
ifneq ($(filter outside,$(MAKECMDGOALS)),)
$(PROVED): always
endif

needs_rt:
	@$(if $(RT),:,echo 'this needs rt, the command of the Rattle toolchain' >&2; exit 1)

dist/libharbour.a: | given

given:
	@bash package/given.sh

# The linker would only say that the archive has a wrong format.
fit:
	@case "$$($(CC) -dumpmachine 2> /dev/null)" in \
	x86_64*linux* | '') ;; \
	*) echo "the library is built for x86-64 Linux, and $(CC) is not: CC=x86_64-linux-gnu-gcc names such a compiler" >&2; exit 1 ;; \
	esac

dist: needs_rt
	@bash package/dist.sh $(RT) $(CPU)

# Nothing runs when it is loaded, and only harbour_* can be seen.
$(SHARED): $(LIBRARY) package/harbour.map | fit
	@mkdir -p $(@D)
	@$(CC) -shared -nostartfiles $(LDFLAGS) -Wl,-soname,libharbour.so.$(firstword $(subst ., ,$(VERSION))) -Wl,-z,defs \
	    -Wl,--version-script=package/harbour.map -o $@ -Wl,--whole-archive $(LIBRARY) -Wl,--no-whole-archive

PREFIX = /usr/local
INCLUDEDIR = include
LIBDIR = lib
DESTDIR =
export PREFIX INCLUDEDIR LIBDIR DESTDIR

install: $(LIBRARY) $(SHARED)
	@bash package/install.sh $^

uninstall:
	@bash package/uninstall.sh

# One program of the C files among what it is made from, of what is compiled already, and the library.
define compiled
@mkdir -p $(@D)
@$(CC) $(CFLAGS) $(INCLUDED) -o $@ $(filter %.c %.o %.a,$^)
endef

define compiled_as_cpp
@mkdir -p $(@D)
@$(CXX) $(CXXFLAGS) $(INCLUDED) -o $@ -x c++ $(filter %.cpp %.c,$^) -x none $(filter %.a,$^)
endef

INCLUDED = -Iinclude -Ic
HEADERS := include/harbour.h $(wildcard c/*.h)

$(EXAMPLE): $(wildcard example/*.[ch] c/*.c) $(HEADERS) $(LIBRARY) | fit
	$(compiled)

$(RECORDS): tools/records.c
	$(compiled)

# The plain C is built by both compilers for one machine; each build ends its names in its compiler's.
GCC = $(if $(findstring gcc,$(CC)),$(CC),gcc)
CLANG = clang --target=$(shell $(GCC) -dumpmachine)
COMPILERS := gcc $(if $(shell command -v $(firstword $(CLANG))),clang)
PLAIN = plain examine call whole file
PLAIN_NAMES = plain_run plain_examine plain_call plain_version plain_read plain_write whole_run

# What is built by other compilers than are named now is built again.
BUILT_BY = $(GCC), $(CLANG), $(COMPILERS)
$(BENCHED)/compilers: always
	@mkdir -p $(@D)
	@echo '$(BUILT_BY)' | cmp --quiet - $@ || echo '$(BUILT_BY)' > $@

define built_by
@mkdir -p $(@D)
@$(2) $(CFLAGS) $(INCLUDED) $(foreach name,$(PLAIN_NAMES),-D$(name)=$(name)_$(1)) -c -o $@ $<
endef

$(BENCHED)/gcc/%.o: bench/%.c $(wildcard bench/*.h) $(HEADERS) $(BENCHED)/compilers
	$(call built_by,gcc,$(GCC))

$(BENCHED)/clang/%.o: bench/%.c $(wildcard bench/*.h) $(HEADERS) $(BENCHED)/compilers
	$(call built_by,clang,$(CLANG))

# Aligned functions: where the plain search falls in memory should not decide how fast it is.
$(BENCH): CFLAGS += -O3 -falign-functions=64 $(if $(filter clang,$(COMPILERS)),-DWITH_CLANG)
$(BENCH): $(filter-out $(PLAIN:%=bench/%.c),$(wildcard bench/*.[ch])) $(wildcard c/*.c) $(HEADERS) $(LIBRARY) \
    $(foreach by,$(COMPILERS),$(PLAIN:%=$(BENCHED)/$(by)/%.o)) | fit
	$(compiled)

$(SECOND): $(shell find outside/second -name '*.rs' -o -name 'Cargo.*')
	@cargo build --quiet --offline --release --manifest-path outside/second/Cargo.toml --target-dir target/second

# The guards' and the calls' files are compiled twice, as C and as C++; the guards have no library behind them.
LENT := $(wildcard outside/lent/*.[ch])
CALLS := $(wildcard outside/calls/*.[ch])
GUARDS := $(wildcard outside/guards/*.[ch] outside/lent/tally.[ch])
CHECKED = $(addprefix $(OUTSIDE)/,guards_c guards_cpp calls_c calls_cpp library)
BUILT = $(CHECKED) $(CHECKED:$(OUTSIDE)/%=$(OUTSIDE)/sanitized/%)

$(BUILT): INCLUDED += -Ioutside/lent
$(BUILT): | fit
$(OUTSIDE)/sanitized/%: CFLAGS += $(SANITIZED)
$(OUTSIDE)/sanitized/%: CXXFLAGS += $(SANITIZED)

$(filter %/guards_c,$(BUILT)): $(GUARDS) $(HEADERS)
	$(compiled)

$(filter %/calls_c,$(BUILT)): $(CALLS) $(LENT) $(HEADERS) $(LIBRARY)
	$(compiled)

$(filter %/guards_cpp,$(BUILT)): $(GUARDS) $(HEADERS)
	$(compiled_as_cpp)

$(filter %/calls_cpp,$(BUILT)): outside/calls/calls.cpp $(CALLS) $(LENT) $(HEADERS) $(LIBRARY)
	$(compiled_as_cpp)

$(filter %/library,$(BUILT)): $(wildcard outside/library/*.[ch]) $(LENT) $(HEADERS) $(LIBRARY)
	$(compiled)

outside: $(SECOND) $(BUILT) $(SHARED) $(RECORDS)
	@cargo test --quiet --offline --release --manifest-path outside/second/Cargo.toml --target-dir target/second > target/second.log 2>&1 || { cat target/second.log; exit 1; }
	@RT='$(RT)' bash outside/compare.sh $(SHARED) $(RECORDS) $(SEED) $(SECONDS)

bench: $(BENCH)
	@$(BENCH)

vectors: $(SECOND)
	$(SECOND) vectors problems > crates/vectors/stdin
	$(SECOND) vectors replies > crates/vectors/stdout

gate: needs_rt
	@bash .ci/run

clean:
	rm -rf target/example target/tools target/shared $(BENCHED) $(OUTSIDE) target/second target/second.log

distclean:
	rm -rf target crates/*/out
