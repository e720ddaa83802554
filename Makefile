# `make` lists the targets that most need: a line `##@ ` begins a group, and a line `## ` says what the target below it
# does, and how long that takes on four cores. CONTRIBUTING.md has the others, and scripts/need the tools of each.

BUILD_TIME := about 14 minutes the first time
LONG_TIME := up to 25 minutes the first time

SCRIPT ?= examples/first-call.csv
LIMIT ?= 1000000
SEED ?= 1
SUBSCRIBERS ?= 10000
PREFIX ?= /usr/local
WHAT ?= program
TOOLS := camel_replay camel_explain camel_map_check

# The shell reads these, and not make, so that a name may have spaces. By CDPATH cd would print where it goes.
export SCRIPT LIMIT THREADS PROFILE PROGRAM CAPTURE CRATE PREFIX DESTDIR LIBDIR PARTS SANITIZE JOBS LIBRARY SUITE \
	MIRROR SIZES TURNS STORES
unexport CDPATH

OPTIONS = --limit "$$LIMIT" $(if $(THREADS),--threads "$$THREADS") $(if $(PROFILE),--profile "$$PROFILE")
# readable NAME FILE: fails if this variable names no file that can be read, and names one. As in the options of
# programs, `-` as SCRIPT is standard input.
readable = { [ -r "$$$(1)" ] && [ ! -d "$$$(1)" ] || \
	{ echo "$(1)=$$$(1) is no file that can be read, as $(1)=$(2) is" >&2; exit 2; }; }
CHECK_SCRIPT = { [ "$$SCRIPT" = - ] || $(call readable,SCRIPT,examples/first-call.csv); }
READ_SCRIPT = { [ "$$SCRIPT" = - ] || exec < "$$SCRIPT"; }
# build PROGRAM ..: each is proved and built, unless it is built of the sources that are there.
build = for program in $(1); do scripts/build "$$program" '$(2)' || exit; done
# pytest-3 is that of Debian's Python, which may not be the first one on the PATH. -n is of pytest-xdist.
PYTEST = $$(python3 -m pytest -n 0 --version > /dev/null 2>&1 && echo python3 -m pytest || echo pytest-3)

.PHONY: help try try-explain try-map replay explain conformance program library tools install deb test pages proofs \
	tests fuzz map-check soak deb-check osmo-check standard-check edits bench
.NOTPARALLEL:

help:
	@awk '/^##@ / { printf "%s%s\n", (groups++ ? "\n" : ""), substr($$0, 5) } \
		/^## / { use = substr($$0, 4); sub(/BUILD_TIME/, "$(BUILD_TIME)", use); \
			sub(/LONG_TIME/, "$(LONG_TIME)", use); next } \
		use && match($$0, /^[a-z-]+:/) { printf "  make %-13s %s\n", substr($$0, 1, RLENGTH - 1), use } \
		{ use = "" } \
		END { print "\nVariables: make try SCRIPT=examples/threads.csv THREADS=2 PROFILE=2 LIMIT=3" }' Makefile

##@ Use

# It ends with the program's status, or with 125 if it gave none; `make` names that, and ends with 2.
## Runs SCRIPT by the program, with nothing proved: at once, once it is compiled, in a minute or two
try:
	@$(CHECK_SCRIPT) && scripts/need programs && $(READ_SCRIPT) && scripts/replay scripts/try camel_replay $(OPTIONS)

## Explains SCRIPT, record by record, with nothing proved: at once, once it is compiled, in two minutes
try-explain:
	@$(CHECK_SCRIPT) && scripts/need programs && $(READ_SCRIPT) && \
		scripts/try camel_explain --limit "$$LIMIT" $(if $(PROFILE),--profile "$$PROFILE")

# FRAMES=1 and ASSUME_REGISTERED=1 are `--frames` and `--assume-registered` of tools/map2script.
## Makes the script of CAPTURE, with nothing proved: seconds, once its decoder is compiled, in a minute or two
try-map:
	@$(call readable,CAPTURE,tests/map/dialogues.pcap) && scripts/need $@ && \
		decoder=$$(scripts/try --path camel_map_check) && tools/map2script --check "$$decoder" \
			$(if $(FRAMES),--frames) $(if $(ASSUME_REGISTERED),--assume-registered) "$$CAPTURE"

## Runs SCRIPT by the proved program: at once, once it is built, which takes BUILD_TIME
replay:
	@$(CHECK_SCRIPT) && $(call build,camel_replay,$(BUILD_TIME)) && $(READ_SCRIPT) && \
		scripts/replay crates/camel_replay/out/camel_replay $(OPTIONS)

## Explains SCRIPT by the proved program: at once, once it is built, which takes LONG_TIME
explain:
	@$(CHECK_SCRIPT) && $(call build,camel_explain,$(LONG_TIME)) && \
		crates/camel_explain/out/camel_explain --limit "$$LIMIT" $(if $(PROFILE),--profile "$$PROFILE") "$$SCRIPT"

# It needs no Rattle if library and program are there, and with PROGRAM=.. neither of them. PROFILE=1 is only profile 1.
## Runs the vectors of conformance/ over library and program, or over any PROGRAM between two pipes: seconds
conformance:
	@scripts/need $@
	@$(if $(PROGRAM),conformance/run $(if $(PROFILE),--profile $(PROFILE)) "$$PROGRAM",$(PYTEST) tests/conformance)

##@ Build

## Proves and builds camel_replay, or the program CRATE: BUILD_TIME
program: export CRATE := $(or $(CRATE),camel_replay)
program:
	@$(call build,"$$CRATE",$(BUILD_TIME))
	@echo "crates/$$CRATE/out/$$CRATE is built of the sources that are there" >&2

## Proves and builds the library for C, C++ and Rust, into out/library: LONG_TIME
library:
	@scripts/need $@ && scripts/library

## Proves and builds the programs of the package wenqolo-tools, into out/tools: LONG_TIME
tools:
	@$(call build,$(TOOLS),$(LONG_TIME))
	@mkdir -p out/tools
	@scripts/notices 'camel_replay, camel_explain and camel_map_check' $(TOOLS) > out/tools/NOTICES
	@for program in $(TOOLS); do cp "crates/$$program/out/$$program" "crates/$$program/out/sums-$$program" out/tools || \
		exit; done

# Nothing is built: whoever may write to PREFIX needs no toolchain. DESTDIR and LIBDIR are those of scripts/install.
## Copies to PREFIX what is built of library, camel_replay and camel_explain, and says what is not: a second
install:
	@scripts/install "$$PREFIX"

## Makes Debian packages of what is built of library and tools, in out/deb: seconds
deb:
	@scripts/need $@ && scripts/deb

##@ Test

## Passes every proof and every test: about an hour. PARTS=any leaves out what runs by tools that are missing
test:
	@scripts/gate pages proofs tests

## Looks up what the pages name, compares numbers, crates and figures, and says which `edits` to try: seconds
pages:
	@scripts/need $@
	@tests/pages/names
	@scripts/edits --recorded
	@tests/pages/numbers
	@tests/pages/standard lines
	@scripts/ffi --check
	@bench/plot --check

proofs:
	@scripts/need $@ && scripts/proofs

# ONLY has words for pytest: ONLY=tests/scripts, or ONLY='tests -k words'. JOBS run side by side, else as many as have
# a processor and the memory of a check by rt.
## Builds what the tests run, and runs all, or those that ONLY names: some minutes, once all is built
tests:
	@scripts/need $@
	@$(call build,$(TOOLS) camel_refusals,$(LONG_TIME))
	@$(MAKE) --no-print-directory library tools
	@$(PYTEST) -n $(or $(JOBS),$$(scripts/lanes 2000000)) $(or $(ONLY),tests)

# COUNT scripts of bad octets that SEED makes, scripts that are far too long, and each beginning of each script.
fuzz: COUNT ?= 100000
fuzz:
	@scripts/need $@ && $(call build,camel_replay,$(BUILD_TIME))
	@COUNT=$(COUNT) SEED=$(SEED) $(PYTEST) -n $(or $(JOBS),auto) -rP tests/fuzz

# COUNT arguments that SEED makes, in five styles, COUNT of them with edits, and COUNT that the encoder makes of them.
map-check: COUNT ?= 100000
map-check:
	@scripts/need $@ && $(call build,camel_replay camel_map_check,$(BUILD_TIME))
	@COUNT=$(COUNT) SEED=$(SEED) $(PYTEST) -rP tests/map

# It makes so many DECISIONS, or goes on for so many SECONDS. Another SEED gives other calls and updates.
soak: DECISIONS ?= 30000000
soak:
	@scripts/need $@ && scripts/library
	@DECISIONS=$(DECISIONS) SECONDS=$(SECONDS) SUBSCRIBERS=$(SUBSCRIBERS) SEED=$(SEED) \
		$(PYTEST) -rP tests/library/test_soak.py

# As root, with the network. The fresh Debian is SUITE, trixie if it is not given, of the package sources of MIRROR.
deb-check:
	@scripts/need $@
	@packaging/check root
	@$(MAKE) --no-print-directory library tools
	@packaging/check run

# It says which packages are missing that osmo-msc is built with, and fetches the source once. LIBRARY=/usr takes the
# library that is installed there. SANITIZE=1 builds osmo-msc with its sanitizers, by so many JOBS.
osmo-check:
	@scripts/need $@
	@examples/osmo-msc/check source
	@$(if $(LIBRARY),,scripts/library)
	@examples/osmo-msc/check run

# It needs the network, and fetches the source packages once.
standard-check:
	@scripts/need $@
	@scripts/fetch-source wireshark out/standard
	@tests/pages/standard quotations
	@scripts/fetch-source libosmo-sccp out/sccp --tar-only
	@tests/pages/standard messages

##@ Develop

## Tries the wrong bodies of CRATE, or of all crates, and notes which are refused: up to an hour
edits:
	@scripts/need programs && scripts/edits $${CRATE:+"$$CRATE"}

# It builds what it measures, and says which tools it lacks. SIZES=1000,100000 and TURNS=1 narrow a run.
## Measures WHAT, which is program, peers, loop, map or counts: half a minute to a quarter of an hour
bench:
	@bench/run $(WHAT)
