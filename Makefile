# `make` alone lists the targets. docs/dev/TESTS.md says what each of them tests.
.PHONY: help where demo morphd library check-library install uninstall dist check-dist quick test wrong-bodies documents memory soak races bench costs toolchain python3 compiler valgrind

MORPHD = crates/morphd/out/morphd

help:
	@echo "make demo       shows a picture and the sizes of its grains in one to two minutes; then proves and builds morphd"
	@echo "make morphd     proves and builds morphd alone, as crates/morphd/out/morphd"
	@echo "make library    proves and links out/libmorphd.so and out/libmorphd.a, which C calls by include/morphd.h"
	@echo "make check-library  holds them against the reference model, and runs the programs of docs/LIBRARY.md"
	@echo "make install    puts what is built into PREFIX, which is /usr/local if left out; make uninstall takes it away"
	@echo "make dist       packs what is built into out/dist: a tarball, a wheel, and Debian's packages; it needs no rt"
	@echo "make check-dist makes them twice, looks at them, and installs, tries and removes them in bare roots of Debian"
	@echo "make quick      what needs no proof, in minutes: documents, sessions on a trial build, the Python tests over stand-ins"
	@echo "make test       the gate: make quick; then proves every crate from nothing, tries the must-fail edits, runs programs and tests"
	@echo "make wrong-bodies  tries the wrong bodies of each crate that changed, or of CRATES"
	@echo "make where NAME=..  prints where a type, a function or a word of definitions stands"
	@echo "make documents  compares the documents with the repository, replays their examples, and compares header and proved functions"
	@echo "make memory     refuses each allocation and each start of a thread in turn, and measures memory"
	@echo "make soak       runs random sessions beside a reference model, and two servers with good and bad clients; FOR=seconds"
	@echo "make races      looks for what two threads do to one place unordered: servers, a batch and the library"
	@echo "make bench      takes the times of docs/dev/PERFORMANCE.md"
	@echo "make costs      counts instructions, and compares them with those that are kept"
	@echo "make python     makes the Python package with the library in it, as a wheel in out"
	@echo "make check-python  runs all tests of the Python package over the built library"

toolchain:
	@command -v rt >/dev/null || { \
	  echo "rt is missing: install the Rattle kit, which whoever gave you this repository has, and put the folder of rt on PATH" >&2; exit 1; }

python3:
	@command -v python3 >/dev/null || { \
	  echo "python3 is missing: install Debian's package python3" >&2; exit 1; }

compiler:
	@command -v cc >/dev/null || { \
	  echo "cc is missing: install Debian's package gcc" >&2; exit 1; }

valgrind:
	@command -v valgrind >/dev/null || { \
	  echo "valgrind is missing: install Debian's package valgrind" >&2; exit 1; }

# Where a type, a function or a word of definitions stands: make where NAME=Window
where: python3
	@python3 -B checks/where.py $(NAME)

# What can be known before anything is proved. `make test` begins with it, so that hours of proofs are not for nothing.
quick: toolchain python3 documents
	@python3 -B checks/no_leaks.py
	@python3 -B checks/laid_out.py
	@python3 -B checks/thin_rows.py --test
	@python3 -B checks/thin_rows.py
	@python3 -B checks/edits.py --test
	@python3 -B checks/edits.py
	@python3 -B checks/wrong_bodies.py --test
	@python3 -B checks/wrong_bodies.py --list
	@python3 -B checks/prove.py --test
	@python3 -B checks/passed.py --test
	@python3 -B checks/gate.py --test
	@python3 -B checks/replay_stored_run.py --test
	@python3 -B checks/python_package.py needs
	@python3 -B checks/replay.py --test
	@python3 -B checks/corpus.py --test
	@python3 -B checks/gate.py unproved

test: quick
	@python3 -B checks/gate.py proofs
	@python3 -B checks/gate.py built
	@python3 -B checks/replay_served.py --test $(MORPHD)
	@python3 -B checks/reached.py --test
	@python3 -B checks/reached.py $(MORPHD)
	@python3 -B checks/wrong_bodies.py --few
	@python3 -B checks/passed.py

# What runs nowhere by itself writes into checks/passed.txt on which commit it passed: on that which stood here when it began.
ALONE = check-dist check-library check-python memory soak races
ifneq ($(filter $(ALONE),$(MAKECMDGOALS)),)
BEGUN := $(shell python3 -B checks/passed.py --state)
endif

# What `rt ci` does not try in each run: of each crate that changed, or of CRATES.
CRATES =
wrong-bodies: toolchain python3
	@python3 -B checks/wrong_bodies.py $(CRATES)

documents: python3
	@python3 -B checks/floors.py
	@python3 -B checks/docs.py --test
	@python3 -B checks/docs.py
	@python3 -B checks/header.py --test
	@python3 -B checks/header.py
	@python3 -B checks/versions.py --test
	@python3 -B checks/versions.py

# Proves and builds the program, as wide as the machine allows, and runs it once on its stored session.
morphd: toolchain python3
	@python3 -B checks/prove.py morphd

# The library for C: the proved crate, built for two processors, and the functions of the kit by which it asks for memory. Both forms of it
# show the functions of the header alone, so a program may have any other name for its own. `make test` proves the crate, but links
# nothing: `rt ci` leaves no static library behind, so `make check-library` there would prove it a second time.
KIT = $(shell dirname "$$(rt doc)")
MEMORY = $(KIT)/c/liblibc_c.a
PROVED = crates/mw_c/out/libmw_c.a
PROVED_V3 = crates/mw_c/out/libmw_c.x86-64-v3.a

library: toolchain python3 compiler
	@python3 -B checks/prove.py mw_c
	@python3 -B library/link.py out $(PROVED) $(PROVED_V3) $(MEMORY)

check-library: library
	@python3 -B library/link.py --test
	@python3 -B checks/library.py out $(wildcard $(MORPHD))
	@python3 -B checks/passed.py $@ $(BEGUN)

# What is built goes where it is wanted: these prove and build nothing, and need no kit. DESTDIR may stand before PREFIX.
PREFIX = /usr/local
BUILT = $(MORPHD) out

install uninstall: export PREFIX := $(PREFIX)
install uninstall: export DESTDIR := $(DESTDIR)
install: python3
	@python3 -B packaging/install.py install $(BUILT)

uninstall: python3
	@python3 -B packaging/install.py uninstall $(BUILT)

dist: python3
	@python3 -B packaging/dist.py $(BUILT) out/dist

check-dist: dist compiler
	@python3 -B checks/dist.py --test out/dist $(BUILT)
	@python3 -B checks/dist.py out/dist $(BUILT)
	@python3 -B checks/passed.py $@ $(BEGUN)

# First a trial build, in a minute; then the proved one, which has to write the same.
demo: toolchain python3
	@python3 examples/demo.py trial
	@python3 -B checks/prove.py morphd
	@python3 examples/demo.py proved

memory: toolchain python3 compiler
	@python3 -B checks/prove.py morphd test_kernels test_c test_core test_pool
	@python3 -B checks/refused_memory.py $(MORPHD)
	@python3 -B checks/fetch_memory.py $(MORPHD)
	@python3 -B checks/set_memory.py $(MORPHD)
	@python3 -B checks/refused_tests.py crates/test_kernels/out/test_kernels_tests
	@python3 -B checks/refused_tests.py crates/test_c/out/test_c_tests
	@python3 -B checks/refused_tests.py crates/test_core/out/test_core_tests
	@python3 -B checks/refused_tests.py crates/test_pool/out/test_pool_tests
	@python3 -B checks/passed.py $@ $(BEGUN)

# Each of the three soaks for as long as is asked for, and by a seed if one is given: make soak FOR=600 SEED=one
FOR = 60

soak: toolchain python3
	@python3 -B checks/prove.py morphd
	@python3 -B checks/board_wakings.py $(MORPHD)
	@python3 -B checks/bad_peers.py $(MORPHD)
	@python3 -B checks/bad_peers_serve.py $(MORPHD)
	@python3 -B checks/kept_memory.py $(MORPHD)
	@python3 -B checks/session_memory.py $(MORPHD)
	@python3 -B checks/soak.py $(MORPHD) $(FOR) $(SEED)
	@python3 -B checks/soak_listen.py $(MORPHD) $(FOR) $(SEED)
	@python3 -B checks/soak_serve.py $(MORPHD) $(FOR) $(SEED)
	@python3 -B checks/passed.py $@ $(BEGUN)

races: toolchain python3 compiler valgrind library
	@python3 -B checks/races.py --test
	@python3 -B checks/prove.py morphd
	@python3 -B checks/races.py $(MORPHD) out/libmorphd.so
	@python3 -B checks/passed.py $@ $(BEGUN)

# Best on a machine that does nothing else: each line is the best of some runs. Where no library is linked, its calls are left out.
bench: toolchain python3
	@python3 -B checks/prove.py morphd
	python3 -B bench/parts.py $(MORPHD)
	@test -f out/libmorphd.so || echo "the library's calls were not timed (make library)" >&2
	test ! -f out/libmorphd.so || /usr/bin/python3 bench/library.py out/libmorphd.so
	python3 bench/command.py $(MORPHD)
	python3 -B bench/operations.py $(MORPHD)
	python3 bench/workers.py $(MORPHD)
	python3 -B bench/listen.py $(MORPHD)
	python3 -B bench/serve.py $(MORPHD)
	@/usr/bin/python3 bench/peers.py || echo "the peers were not measured" >&2

# A busy machine counts as a quiet one does.
costs: toolchain python3 valgrind
	@python3 -B checks/costs.py --test
	@python3 -B checks/prove.py bench_sessions morphd
	@python3 -B checks/costs.py

# The Python package. The tests of `make test` take what is built, and stand-ins for what is not.
.PHONY: python check-python
python: library
	@python3 -B checks/python_package.py wheel

check-python: library
	@python3 -B checks/python_package.py built
	@python3 -B checks/passed.py $@ $(BEGUN)
