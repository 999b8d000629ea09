.PHONY: all run test faults bench gallery wrong-bodies
.DEFAULT_GOAL := all

SOURCES := $(shell git ls-files crates crates.txt examples 2> /dev/null || find crates examples -type f -not -path '*/out/*')
JOBS ?= $(shell nproc)

# Proves every crate, as many side by side as there are processors, and builds the program; each crate is told as it ends.
all: out/stencil

out/stencil: $(SOURCES)
	@mkdir -p out
	rt all check --jobs $(JOBS)
	cd crates/stencil && rt run -- --help > /dev/null
	cp crates/stencil/out/stencil $@
	@echo "the proved program is $@"

# A first picture: compiles a schedule of the shipped 3x3 blur to a plan, checks the plan and runs it. This builds the program
# without its proofs, with checks while it runs instead; `make` proves it. Where the proved program stands already, that one runs.
run: out/blur3.pgm
	@echo "the picture before is examples/shapes.pgm, after out/blur3.pgm; the plan is out/blur3.plan"

FIRST := compile $(CURDIR)/examples/blur3.alg $(CURDIR)/examples/blur3-tiles.sched $(CURDIR)/out/blur3.plan
SECOND := check $(CURDIR)/examples/blur3.alg $(CURDIR)/out/blur3.plan
THIRD := run $(CURDIR)/examples/blur3.alg $(CURDIR)/out/blur3.plan $(CURDIR)/examples/shapes.pgm $(CURDIR)/out/blur3.pgm

out/blur3.pgm: $(SOURCES)
	@mkdir -p out
	@if [ -x out/stencil ]; then \
	  out/stencil $(FIRST) && out/stencil $(SECOND) && out/stencil $(THIRD); \
	else \
	  echo "building without proofs: about two minutes"; \
	  rm -rf out/first $@; mkdir out/first; touch out/first/1-compile out/first/2-check out/first/3-run; \
	  printf '%s\n' $(FIRST) > out/first/1-compile.args; \
	  printf '%s\n' $(SECOND) > out/first/2-check.args; \
	  printf '%s\n' $(THIRD) > out/first/3-run.args; \
	  cd crates/stencil && rt try --cases $(CURDIR)/out/first && test -f $(CURDIR)/$@; \
	fi

# The gate: in a copy of the files that git knows, proves every crate from nothing, tries the wrong bodies that must-fail.txt
# names, runs every test, and then the cases of tests/ on the program that was built. As many checks run side by side as there
# are processors, or RT_JOBS: a check takes far less memory than `rt ci` plans for.
test:
	set -e; room=$$(mktemp -d); trap "rm -rf $$room" EXIT; \
	git ls-files -z | tar c --null -T - | tar x -C $$room; cd $$room; \
	for it in crates/*/must-fail/*.edit; do grep -qxF $$it must-fail.txt || mv $$it $${it%.edit}.md; done; \
	RT_JOBS=$${RT_JOBS:-$$(nproc)} rt ci; \
	python3 tests/run.py crates/stencil/out/stencil; \
	python3 tests/hostile.py crates/stencil/out/stencil; \
	python3 tests/faults.py crates/stencil/out/stencil; \
	python3 tests/schedules.py crates/stencil/out/stencil; \
	python3 tests/schedules.py crates/stencil/out/stencil 1400 2 --core; \
	python3 tests/schedules.py crates/stencil/out/stencil 500 --placing; \
	python3 tests/schedules.py crates/stencil/out/stencil 500 --placing-core; \
	python3 tests/tiles.py crates/stencil/out/stencil; \
	python3 tests/progress.py crates/stencil/out/stencil; \
	python3 tests/engines.py crates/stencil/out/stencil; \
	python3 tests/gallery.py crates/stencil/out/stencil; \
	python3 tests/pages.py crates/stencil/out/stencil

# Every altered plan, and every fault of memory, devices and threads, on the proved program; the gate tries a part of them.
faults: out/stencil
	python3 tests/hostile.py out/stencil --all
	python3 tests/faults.py out/stencil --all
	python3 tests/faults.py out/stencil late

# Writes the page docs/GALLERY.md and its pictures anew from what the program gives. Then the applications of examples/gallery at
# their main size: every schedule's picture by one worker and by three, and how long it takes to compile and to check.
gallery: out/stencil
	python3 bench/gallery.py out/stencil
	python3 tests/gallery.py out/stencil --all

# How long the proved program takes for `check` and `run` of plans with a piece a row, and for `plain`; and for `check` of plans
# that are long, or have many pieces or cells; and for `run` of one plan by 1, 2, 4 and 64 workers; and how long `compile` takes for
# the schedules of the gallery; and the six pipelines of bench/peers beside the same in C; and the gallery beside Halide 14, where
# Debian's python3-halide is installed.
bench: out/stencil
	python3 bench/rows.py out/stencil
	python3 bench/checks.py out/stencil
	python3 bench/workers.py out/stencil
	python3 bench/hostile.py out/stencil
	python3 bench/compiles.py out/stencil
	python3 bench/lines.py out/stencil
	python3 bench/peers.py out/stencil
	python3 bench/halide.py out/stencil

# Tries every wrong body. It takes some hours.
wrong-bodies:
	rt must-fail
