# Builds, proves, checks, packs and installs iconvd. `make` alone lists the targets; their tools are in tools/.

# None of the built-in rules is for these sources, and each is tried for every one of them.
MAKEFLAGS += --no-builtin-rules --no-print-directory
PREFIX ?= /usr/local
PROVED = crates/iconvd/out/iconvd
# For processors with more instructions the program stands apart, and is proved as the other.
PROGRAM = $(if $(CPU),out/$(CPU)/iconvd,$(PROVED))
BENCH = crates/bench_convert/out/bench_convert
REFUSING = tools/refuse/out/refuse.so
# A source archive has what is asked of git in a checkout.
GIT = $(if $(wildcard .git),git)

SOURCES := crates.txt $(shell find crates -name out -prune -o \( -name '*.rt' -o -name '*.antt' \) -print)
CRATES := $(shell sed -n 's/^\([a-z][a-z0-9_]*\).*:.*/\1/p' crates.txt)
CLIENTS := $(patsubst %/Makefile,%,$(wildcard clients/*/Makefile))
# A compiler, and the headers of the C library.
C := cc /usr/include/stdio.h
ZLIB := /usr/include/zlib.h
CHARMAPS := /usr/share/i18n/charmaps
# What .ci/run runs after the gate. Each ends with a line `N passed, N failed`.
CHECKS := check-rules check-shape check-docs check-targets check-refuse check-instructions check-nonblocking check-stops check-log check-given check-admin check-budgets check-clients check-benchmark check-completions check-dist check-package check-units check-boot check-container check-prometheus check-cluster check-crowd check-soak

# `rt` itself works on several crates at a time, and locks them.
.NOTPARALLEL:
.PHONY: help run build check $(CHECKS) checks soak $(CRATES:%=check-%) clients dist deb install install-clients bench bench-tables clean

help:
	@sed -n 's/^\([a-z][a-zA-Z_%/-]*\):.*## \(.*\)/make \1\t\2/p' Makefile | sed 's/%/NAME/' | expand -t 24

run: ## converts the example script, by the proved program or else by one that is built without proofs, with a link to it in out/bin
	@tools/need 'make run' program
	@tools/run_example

build: $(PROGRAM) ## proves and builds the program, with a link to it in out/bin; CPU=x86-64-v3: for processors with AVX2
	@tools/link $(PROGRAM)
	@echo $(PROGRAM)

# The program gets the time at which its build began: it is older than a source that was edited meanwhile.
$(PROVED) crates/gate_refusals/out/gate_refusals crates/workloads/out/workloads $(BENCH): $(SOURCES)
	@tools/need 'make build' rt python3
	@tools/build $(@F) $@

ifdef CPU
out/$(CPU)/iconvd: $(SOURCES)
	@tools/need 'make build' rt python3
	@tools/build iconvd $@ $(CPU)
endif

out/unproved/%: $(SOURCES) ## a program without proofs, in two minutes: out/unproved/iconvd
	@tools/need 'make $@' rt python3
	@tools/unproved_program $* $@

# Compiled in a third of the time, for a first look.
out/quick/%: $(SOURCES)
	@tools/need 'make $@' rt python3
	@tools/unproved_program $* $@ -O0

# By itself rt counts on up to 12 GB for a check of a crate high up, and would try the edits of cv_tcp two at a time. The largest that was seen took 7.6 GB.
check: ## the gate: every proof, must-fail edit, test and program from nothing
	@tools/need 'make check' rt python3
	RT_JOBS=$${RT_JOBS:-$$(nproc)} rt ci

$(CRATES:%=check-%): check-%:
	@tools/need 'make $@' rt python3
	cd crates/$* && rt check

# SKIP names checks that are left out: SKIP='boot cluster'. No check leaves itself out.
SKIP ?=
SKIPPED := $(filter $(CHECKS),$(SKIP:%=check-%))
UNKNOWN := $(filter-out $(CHECKS:check-%=%),$(SKIP))

checks: ## all checks after the gate, one after the other; SKIP='boot cluster' leaves out these
	@$(if $(UNKNOWN),echo "make checks: SKIP names no check: $(UNKNOWN)" >&2; exit 1,:)
	@SKIPPED='$(SKIPPED)' tools/count --on-failure $(patsubst %,'make %',$(filter-out $(SKIPPED),$(CHECKS)))

check-rules: ## the house rules that a machine can check
	@tools/need 'make $@' git python3 shellcheck
	@tools/rules

check-shape: ## counts what makes the crates hard to read: no count may grow
	@tools/need 'make $@' python3
	@tools/shape

check-refuse: ## refuses each request for memory of each command in turn
	@tools/need 'make $@' $(C) python3 program
	@program=$$(tools/checked_program iconvd) && refusals=$$(tools/checked_program gate_refusals) && $(MAKE) $(REFUSING) && \
	    tools/refuse/sweep.py $(REFUSING) "$$program" "$$refusals"

$(REFUSING): tools/refuse/refuse.c
	@mkdir -p $(@D)
	cc -O2 -Wall -Wextra -shared -fPIC -o $@ $<

check-instructions: ## counts the instructions of the benchmark's jobs and of single requests, beside the lines of bench/instructions.tsv
	@tools/need 'make $@' python3 valgrind program
	@iconvd=$$(tools/checked_program iconvd) && workloads=$$(tools/checked_program workloads) && \
	    bench/instructions "$$iconvd" "$$workloads"

check-dist: ## unpacks the source archive where there is no git, and builds, installs and packs what takes no proof
	@tools/need 'make $@' git gzip $(C) python3 dpkg-deb dpkg-shlibdeps strip $(ZLIB) $(CHARMAPS) program
	@program=$$(tools/checked_program iconvd) && tests/dist/check "$$program"

check-package: ## installs the Debian packages in a root of their own, runs the manual's examples there, and removes them
	@tools/need 'make $@' root python3 dpkg-deb dpkg-shlibdeps strip $(GIT) lintian mmdebstrap $(C) $(ZLIB) $(CHARMAPS) program
	@program=$$(tools/checked_program iconvd) && packaging/check "$$program"

check-docs: ## tries the links, the names and the examples of the documents, and types what they say in a root of its own
	@tools/need 'make $@' root python3 git mmdebstrap unshare program
	@program=$$(tools/checked_program iconvd) && tools/count "tools/docs/check $$program" "tools/docs/follow $$program"

check-targets: ## runs each target in a root that lacks its packages, and compares the line that says so
	@tools/need 'make $@' root python3 git mmdebstrap unshare
	@tests/targets/check

check-nonblocking: ## serves a client whose socket does not block
	@tools/need 'make $@' python3 program
	@program=$$(tools/checked_program iconvd) && tools/nonblocking "$$program"

check-stops: ## stops and traces servers and calls while they wait: every stream goes on
	@tools/need 'make $@' python3 strace program
	@program=$$(tools/checked_program iconvd) && tests/stops/check "$$program"

check-log: ## many faults, and a log that nobody reads: every stream is served, and what was dropped is counted
	@tools/need 'make $@' python3 program
	@program=$$(tools/checked_program iconvd) && tests/log/check "$$program"

check-given: ## serves by a listener that outlives its servers, and refuses what is no listener
	@tools/need 'make $@' python3 program
	@program=$$(tools/checked_program iconvd) && tests/given/check "$$program"

check-admin: ## asks the admin pages, also as clients do that mean no good
	@tools/need 'make $@' python3 program
	@program=$$(tools/checked_program iconvd) && tests/admin/check "$$program"

check-budgets: ## one stream floods a server of little memory: the others are served, and it holds no more than it may
	@tools/need 'make $@' python3 program
	@program=$$(tools/checked_program iconvd) && tests/budgets/check "$$program"

check-units: ## the units as systemd reads them
	@tools/need 'make $@' systemd-analyze program
	@program=$$(tools/checked_program iconvd) && tests/units/check "$$program"

check-boot: ## the units in a systemd of its own, which systemd-nspawn boots
	@tools/need 'make $@' root python3 mmdebstrap systemd-nspawn program
	@program=$$(tools/checked_program iconvd) && tests/units/boot "$$program"

check-benchmark: ## iconvd-benchmark against servers that answer right and wrong, are full, and go away
	@tools/need 'make $@' $(C) python3 $(ZLIB) $(CHARMAPS) program
	@program=$$(tools/checked_program iconvd) && tests/benchmark/check "$$program"

check-completions: ## the table of options and the manual beside the program's flags and help, and what bash, zsh and fish complete by it
	@tools/need 'make $@' $(C) python3 zsh fish $(ZLIB) $(CHARMAPS) program
	@program=$$(tools/checked_program iconvd) && tools/count tools/options "tests/completions/check $$program"

check-container: ## what a container starts, as process 1 of its own, stopped under load: no request is lost
	@tools/need 'make $@' python3 tini unshare program
	@program=$$(tools/checked_program iconvd) && tests/container/check "$$program"

check-prometheus: ## the alerts and the dashboard as promtool reads them, and their metrics in the page of a server
	@tools/need 'make $@' python3 promtool program
	@program=$$(tools/checked_program iconvd) && tests/prometheus/check "$$program"

check-cluster: ## three servers behind HAProxy in networks of their own, killed, stopped, drained and cut off
	@tools/need 'make $@' $(C) python3 $(ZLIB) $(CHARMAPS) haproxy ip nft openssl unshare program
	@program=$$(tools/checked_program iconvd) && tests/cluster/check "$$program"

check-crowd: ## a thousand streams at once for a minute, one in twenty of a bad client
	@tools/need 'make $@' python3 program
	@program=$$(tools/checked_program iconvd) && tests/soak/crowd.py "$$program"

check-soak: ## two minutes of a mail gateway's day, with one drain; `make soak MINUTES=10` is longer and draws a chart
	@tools/need 'make $@' python3 program
	@program=$$(tools/checked_program iconvd) && tests/soak/soak.py "$$program" --minutes 2 --drains 1 --out out/soak

MINUTES ?= 10
soak: ## a mail gateway's day in MINUTES=10 minutes, with two drains, tables and a chart in out/soak
	@tools/need 'make $@' python3 python3-matplotlib program
	@program=$$(tools/checked_program iconvd) && tests/soak/soak.py "$$program" --minutes $(MINUTES) --out out/soak

clients: need-clients $(CLIENTS:%=make-%) ## builds the clients, with links to their programs in out/bin
	@tools/link clients/c/out/iconvd-convert clients/c/out/iconvd-benchmark

.PHONY: need-clients $(CLIENTS:%=make-%)
need-clients:
	@tools/need 'make $(or $(filter install-clients,$(MAKECMDGOALS)),clients)' $(C) python3 $(ZLIB) $(CHARMAPS)

$(CLIENTS:%=make-%): make-%:
	$(MAKE) -C $*

check-clients: ## runs the tests of the clients, and installs them in a root of their own
	@tools/need 'make $@' root for:clients program
	@program=$$(tools/checked_program iconvd) && \
	    tools/count $(CLIENTS:%="make -C % check ICONVD=$$PWD/$$program") "clients/install/check $$program"

dist: ## makes the source archive of the last commit, out/dist/iconvd-VERSION.tar.gz
	@tools/need 'make dist' git gzip
	@tools/dist

deb: ## makes the Debian packages, in out/deb
	@tools/need 'make deb' python3 dpkg-deb dpkg-shlibdeps strip $(GIT) $(C) $(ZLIB) $(CHARMAPS) program
	@$(MAKE) build
	@packaging/build $(PROGRAM) out/deb

install: $(PROGRAM) ## installs program, manual, completions and units below PREFIX (/usr/local); DESTDIR= is heeded, and CPU=
	@tools/need 'make install' python3
	@PREFIX='$(PREFIX)' DESTDIR='$(DESTDIR)' tools/install $(PROGRAM)

install-clients: need-clients ## installs the clients below PREFIX
	@for client in $(CLIENTS); do $(MAKE) -C $$client install PREFIX='$(PREFIX)' DESTDIR='$(DESTDIR)' || exit 1; done

# Draws docs/charts from the figures of one run. It asserts nothing.
bench: ## draws charts of speed beside other libraries and servers, in about ten minutes
	@tools/need 'make bench' rt python3 $(C) python3-matplotlib
	@$(MAKE) $(PROGRAM) $(BENCH)
	bench/charts $(PROGRAM) $(BENCH)

# Tables of every pair of encodings beside the system's iconv, what requests cost, batches by 1, 2 and 4 workers, one stream beside an echo in
# C, and many at once. They assert nothing.
bench-tables: ## prints tables of every pair of encodings, of requests, batches and streams, in a quarter of an hour
	@tools/need 'make bench-tables' rt python3 $(C)
	@$(MAKE) $(PROGRAM) $(BENCH)
	bench/pairs --calls-only --size 16384 --turns 5 $(PROGRAM)
	bench/requests $(PROGRAM)
	cd crates/bench_pool && rt run -- 9
	bench/network/run $(PROGRAM)
	bench/network/streams $(PROGRAM)

clean: ## removes all that was made
	rm -rf crates/*/out bench/out tools/refuse/out out
	@for client in $(CLIENTS); do $(MAKE) -C $$client clean || exit 1; done
