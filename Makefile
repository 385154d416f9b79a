# `make run` shows the program at work, `make test` is the gate.
SHELL := bash
.SHELLFLAGS := -eu -o pipefail -c
.PHONY: run try unproved quick picture room test-room test-room-quick measure-room room-library \
        share soak kill hostile worlds cluster logs fuzz test cases prefixes refusals check definitions calls \
        bench growth format install library library-unproved bindings fuzz-library wasm \
        dist test-dist abi site

JOB ?= examples/two-clocks.job
ROOM ?= examples/rooms/door.job
PREFIX ?= /usr/local
THREE ?= /usr/share/javascript/three/three.min.js

# How many checks the gate runs side by side, a process each: as many as there are processors, four at
# most for their memory. (A check that is shared by four processes takes a seventh more of them.)
export RT_JOBS ?= $(shell nproc | awk '{ print ($$1 < 4 ? $$1 : 4) }')

# The kit's rt, by which a workspace of many crates needn't be walked again for each of them.
RT := "$(CURDIR)/scripts/rt"

# Whether a program or a library stands, and no source is newer.
fresh = { [ -e $(1) ] && [ -z "$$(find crates include/x3d.h bindings/c/version.c bindings/c/guard.h scripts/guards packaging/version -path '*/out' -prune -o \
  \( -name '*.rt' -o -name '*.antt' -o -path 'include/*' -o -path 'bindings/*' -o -path 'scripts/*' -o -path 'packaging/*' \) \
  -newer $(1) -print -quit)" ]; }

# Proves and builds the program, and runs a job: its trace, and then its scene.
run:
	@job=$$(realpath $(JOB)); cd crates/x3d_share && $(RT) run -- run < "$$job"

# The same by a program that is built without a proof, in some three minutes where a source is newer than it.
try: unproved
	@out/quick/x3d_share run < $(JOB)

unproved:
	@$(call fresh,out/quick/x3d_share) || scripts/unproved out/quick/x3d_share >&2

# Between an edit and the gate: cases and examples, by a program that is built without a proof and with checks at
# run time, in some four minutes.
quick: unproved
	@PROGRAM=$(CURDIR)/out/quick/x3d_share scripts/cases

# Proves and builds the program, and draws a job: out of examples/door.job comes door.svg, here.
picture:
	@cd crates/x3d_share && $(RT) run -- --version > /dev/null
	@scripts/picture $(JOB) $(basename $(notdir $(JOB))).svg

# The library that X3D_SO names, or the proved one, or one that was built without a proof, if it is no older than a source.
found_so = so="$(X3D_SO)"; [ -n "$$so" ] || \
  for so in out/libx3d.so out/quick/libx3d.so ""; do ! $(call fresh,"$$so") || break; done

# The library for windows, if it was built and is no older than a source: by it windows hold their viewers.
found_wasm = wasm=out/wasm; $(call fresh,"$$wasm/x3d.wasm") || wasm=

# What the room lacks of Debian's packages, if anything.
missing_of_room = [ -e $(THREE) ] && missing= || missing="no $(THREE) (Debian's package libjs-three)"; \
  /usr/bin/python3 -c "import aiohttp" 2> /dev/null || missing="no aiohttp (Debian's package python3-aiohttp)"

# Shows a shared world in browser windows: prints the links. It is kept in out/rooms, and goes on there at the next start.
# With ADDRESS=0.0.0.0 other machines reach it too, with PORT=8041 it is at that port.
room:
	@$(missing_of_room); [ -z "$$missing" ] || { echo "room: $$missing" >&2; exit 1; }
	@$(MAKE) --no-print-directory room-library
	@$(found_so); $(found_wasm); [ -n "$$wasm" ] || echo "room: viewers run in the server (make wasm: in windows)" >&2; \
	X3D_SO=$$(realpath "$$so") X3D_WASM="$$wasm" room/server.py --three $(THREE) --keep out/rooms \
	  $(if $(ADDRESS),--address $(ADDRESS)) $(if $(PORT),--port $(PORT)) $(ROOM)

# Tests that, in a real browser where chromium is installed. No part of `make test`.
test-room: room-library
	@$(found_so); $(found_wasm); echo "room: by $$so $$wasm"; X3D_SO=$$(realpath "$$so") X3D_WASM="$$wasm" room/test_room.py

# How long it takes from a click until a door moves in each of 2, 16 and 64 windows: some four minutes, on an idle machine.
measure-room: room-library
	@$(found_so); $(found_wasm); X3D_SO=$$(realpath "$$so") X3D_WASM="$$wasm" room/clicks.py

# Some of these, in less than a minute, for a gate: nothing is built for them, and what is missing is said.
test-room-quick:
	@$(found_so); $(found_wasm); $(missing_of_room); \
	if [ ! -e "$$so" ]; then echo "room: skipped: no library (make library, or make library-unproved)"; \
	elif [ -n "$$missing" ]; then echo "room: skipped: $$missing"; \
	else echo "room: by $$so $$wasm"; X3D_SO=$$(realpath "$$so") X3D_WASM="$$wasm" room/test_room.py --quick; fi

# What it stands on. Where there is none it is built without a proof, in some two minutes: what it answers is what the
# proved one answers, which `make library` proves and builds in an hour.
room-library:
	@$(found_so); [ -e "$$so" ] || { \
	  echo "room: builds the library without a proof, in some two minutes (make library proves it)" >&2; \
	  scripts/unproved_library out/quick >&2; }

# Proves and builds the program, and has a host and two viewers do a job over UDP, twice: the second
# time through a proxy that loses, repeats and reorders datagrams.
share:
	@cd crates/x3d_share && $(RT) run -- --version > /dev/null
	@scripts/share

# Proves and builds the program, and soaks shared worlds for MINUTES: lost datagrams, killed viewers, late
# ones and malicious datagrams. It prints a seed, by which it is done again.
MINUTES ?= 5
soak:
	@cd crates/x3d_share && $(RT) run -- --version > /dev/null
	@scripts/soak $(MINUTES)

# Proves and builds the program, and kills hosts and viewers of worlds that have a log, for MINUTES. It prints a
# seed, by which it is done again.
kill:
	@cd crates/x3d_share && $(RT) run -- --version > /dev/null
	@scripts/kill $(MINUTES)

# Proves and builds the program, and sets an attacker and strangers on worlds with keys and without, for MINUTES. It
# prints a seed, by which it is done again.
hostile:
	@cd crates/x3d_share && $(RT) run -- --version > /dev/null
	@scripts/hostile $$((60 * $(MINUTES)))

# Proves and builds the program, and serves folders of worlds, 1,000 of them at last, whose figures it prints; then one
# whose log gets bases, and some by two processes over etcd, where it is installed.
worlds:
	@cd crates/x3d_share && $(RT) run -- --version > /dev/null
	@scripts/worlds
	@scripts/bases
	@scripts/worlds_etcd
	@scripts/bases_etcd

# Proves and builds the program, and kills hosts that share a log in etcd, the etcd that leads, and viewers, for SECONDS;
# then two begin a world or append to it at once, 300 times. Wants etcd.
SECONDS ?= 60
cluster:
	@cd crates/x3d_share && $(RT) run -- --version > /dev/null
	@scripts/cluster $(SECONDS)
	@scripts/cluster --majority
	@scripts/cluster --races

# Proves and builds the program, and gives it FILES that are no whole log, and logs after CUTS of the power.
FILES ?= 10000
CUTS ?= 200
logs:
	@cd crates/x3d_share && $(RT) run -- --version > /dev/null
	@scripts/logs $(FILES) $(CUTS)

# Proves and builds the program, and gives each of its commands TEXTS changed scenes, jobs and schedules.
TEXTS ?= 10000
fuzz:
	@cd crates/x3d_share && $(RT) run -- --version > /dev/null
	@scripts/fuzz $(TEXTS)

# The gate: every proof from nothing, the must-fail edits, the tests; and then, by the program that
# was proved, the cases, the examples, prefixes of their scenes, each growth of memory refused in turn,
# a thousand changed texts, a shared world over UDP, how hosts and viewers end and what they tell, stacks
# that are too small, and a world
# with killed viewers and malicious datagrams;
# hosts over a log that are killed; logs that are damaged, and power cuts; an attacker on worlds with keys, and strangers;
# folders of worlds that one process serves, a thousand of them at last; where etcd is installed worlds that two
# processes serve, and hosts that share a log;
# and jobs from C, Rust and Python, by the library of `make library`, or where it isn't built or is older than a
# source by one that is built of the same sources without a proof.
test: definitions
	@mkdir -p out; log=out/gate.part; rm -f out/gate.log; \
	{ git describe --always --dirty --abbrev=40 --exclude='*' 2> /dev/null || echo unknown; } > "$$log"; \
	$(RT) ci 2>&1 | tee -a "$$log"; \
	scripts/cases; \
	scripts/prefixes; \
	scripts/refusals; \
	scripts/fuzz 1000 --seed 1; \
	scripts/share; \
	scripts/hosts; \
	scripts/stack; \
	scripts/soak 1 --seed 48; \
	scripts/kill 1; \
	scripts/logs --seed 67; \
	scripts/hostile 30 --seed 68; \
	scripts/worlds 5; \
	scripts/bases 5; \
	scripts/worlds_etcd; \
	scripts/bases_etcd; \
	scripts/cluster 60 --seed 69; \
	scripts/cluster --majority; \
	scripts/cluster --races 60; \
	if $(call fresh,out/libx3d.so); then scripts/abi out/libx3d.so; scripts/bindings --quick; scripts/log_calls; \
	elif ! command -v "$${CC:-cc}" > /dev/null; then echo "bindings: skipped: no C compiler"; \
	else $(call fresh,out/quick/libx3d.so) || scripts/unproved_library out/quick; \
	  echo "bindings: by a library that is built without a proof of the sources that the gate has proved"; \
	  scripts/abi out/quick/libx3d.so; scripts/bindings --quick out/quick; \
  scripts/log_calls out/quick; fi; \
	mv "$$log" out/gate.log; tail -n 1 out/gate.log

# Proves and builds the program, and runs it on the cases of cases/ and the examples.
cases:
	@cd crates/x3d_share && $(RT) run -- --version > /dev/null
	@scripts/cases

# Proves and builds the program, and runs it on every prefix of the scenes of cases/ and examples/.
prefixes:
	@cd crates/x3d_share && $(RT) run -- --version > /dev/null
	@scripts/prefixes

# Proves and builds the program, and refuses it memory at each place in turn. Wants a C compiler, as do
# the prefixes.
refusals:
	@cd crates/x3d_share && $(RT) run -- --version > /dev/null
	@scripts/refusals

# While you edit: every crate, over what earlier checks kept.
check: definitions
	@$(RT) all check

# Whether docs/DEFINITIONS.md lists every file that a definition to believe uses, imports name what is
# there, the test of the stored snapshots has their bytes, and scripts/rt has the sums of the kit's rt.
definitions:
	@scripts/definitions
	@scripts/tables --check
	@scripts/imports
	@scripts/groups
	@scripts/facts
	@scripts/pages
	@scripts/calls
	@scripts/snapshots
	@scripts/sums
	@scripts/abi
	@scripts/test_abi

# Which public functions no other crate, no test and not the program calls.
calls:
	@scripts/calls --all

format:
	@for crate in crates/*; do (cd $$crate && rt fmt) || exit 1; done

# Proves the library for programs that embed a world, and builds out/libx3d.a and out/libx3d.so. Wants a C
# compiler.
library:
	@cd crates/embed_c && $(RT) lib
	@PREFIX=$(PREFIX) scripts/library

# The same in out/quick/ without a proof, with checks at run time, in some two minutes.
library-unproved:
	@scripts/unproved_library out/quick

# Tests the proved library from C, Rust and Python, as far as their tools are there. `make test` does so with fewer jobs.
bindings: library
	@scripts/bindings

# Fuzzes that library: TRIES altered scenes, datagrams, snapshots and calls. Wants clang with
# libFuzzer.
fuzz-library: library
	@scripts/fuzz_library --tries $(or $(TRIES),10000)

# Builds the library for pages and for node in out/wasm/, without a proof, in some four minutes: docs/WASM.md. Wants
# Debian's package binaryen. `scripts/wasm --test` tests it, which wants node.
wasm:
	@scripts/wasm

# Puts the proved program on the path with its man page and completions, and the library with its header and the files of
# pkg-config and CMake.
install: library
	@cd crates/x3d_share && $(RT) run -- --version
	@packaging/install "$(DESTDIR)" "$(PREFIX)"

# The program and the folder of the library that a release has: the proved ones where they stand, else some that are
# built without a proof, in minutes.
released = program=crates/x3d_share/out/x3d_share; $(call fresh,"$$program") || { program=out/quick/x3d_share; \
  $(call fresh,"$$program") || scripts/unproved "$$program"; }; \
  library=out; $(call fresh,out/libx3d.so) || { library=out/quick; \
  $(call fresh,out/quick/libx3d.so) || scripts/unproved_library out/quick; }

# Makes the packages of a release in out/dist/. What holds unproved code is named so.
dist:
	@$(released); scripts/abi "$$library/libx3d.so"; scripts/dist "$$program" "$$library" out/dist

# Makes them twice and compares them; installs those of out/dist/ in a chroot of Debian 12 without the kit, and uses them
# there. Wants root, debootstrap, and Debian's archive.
test-dist: dist
	@$(released); scripts/test_dist --twice "$$program" "$$library"
	@scripts/test_dist out/dist

# Whether the library's binary interface is the last release's, or its number is another.
abi:
	@scripts/abi
	@scripts/test_abi

# The pages as a site in out/site/, its links checked. Wants pandoc.
site:
	@scripts/site out/site

# Measures the proved program beside C kernels of the same work, and beside Castle Game Engine where it is installed;
# wants a C compiler.
bench:
	@cd crates/x3d_share && $(RT) run -- --version > /dev/null
	@bench/run
	@bench/castle

# Whether its time grows with the input: doubles each job three times, and fails where time grows by more than 2.3 times.
growth:
	@cd crates/x3d_share && $(RT) run -- --version > /dev/null
	@bench/run --growth
