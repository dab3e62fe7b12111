# `make run` proves, builds and runs the tool on an example; `make try` runs that example unproved; `make test` is the gate.
SHELL := /bin/bash
# What a target names is made in that order, also with -j: `install` refuses a bad PREFIX before anything is proved.
.NOTPARALLEL:
PREFIX ?= /usr/local
PROGRAM := crates/wqrun/out/wqrun
EXAMPLES := examples
LIBRARY := crates/wq_c/out

.PHONY: run try test build library install uninstall prefix bench examples recordings rows c-api definitions memory wrong-bodies controls

run: build
	$(PROGRAM) script $(EXAMPLES)/first.wq

# The example at once, with checks as it runs; one to two minutes.
try:
	cd crates/wqrun && rt try --data first.wq=../../$(EXAMPLES)/first.wq -- script first.wq
	@echo "This run proved nothing: \`make run\` proves the program before it runs it."

test:
	.ci/run

# What the program stands on, and nothing else: says how long that takes, and how many of the crates are done.
build:
	@checks/build.py

# The library for C, C++, Rust and Python: proves what it stands on, and builds crates/wq_c/out/libyeangvos.a and .so.
library:
	mkdir -p $(LIBRARY)
	checks/c_library.sh $(LIBRARY)

# Refused before anything is proved where PREFIX is no path from the root, as checks/c_install.sh refuses it.
install: prefix build library
	install -D -m 755 "$(PROGRAM)" "$(DESTDIR)$(PREFIX)/bin/wqrun"
	install -D -m 644 man/wqrun.1 "$(DESTDIR)$(PREFIX)/share/man/man1/wqrun.1"
	install -D -m 644 -t "$(DESTDIR)$(PREFIX)/share/doc/wqrun" docs/FORMATS.md docs/RECORDING.md
	install -D -m 755 -t "$(DESTDIR)$(PREFIX)/share/doc/wqrun" examples/recording/wq_trace.py
	checks/c_install.sh "$(LIBRARY)" "$(PREFIX)" "$(DESTDIR)"

# Removes just the files that `install` puts there, and of the folders those that are its own, where nothing else stands in them.
uninstall: prefix
	rm -f "$(DESTDIR)$(PREFIX)/bin/wqrun" "$(DESTDIR)$(PREFIX)/share/man/man1/wqrun.1"
	rm -f "$(DESTDIR)$(PREFIX)/share/doc/wqrun/"{FORMATS.md,RECORDING.md,wq_trace.py}
	[ ! -d "$(DESTDIR)$(PREFIX)/share/doc/wqrun" ] || rmdir --ignore-fail-on-non-empty "$(DESTDIR)$(PREFIX)/share/doc/wqrun"
	checks/c_install.sh --remove "$(PREFIX)" "$(DESTDIR)"

prefix:
	@case "$(PREFIX)" in /*) ;; *) echo "PREFIX is $(PREFIX), and no path from the root" >&2; exit 1 ;; esac

# Each example writes what is stored beside it, and ends with the status that is stored.
examples: build
	checks/examples.sh $(PROGRAM)

# Records the queue of examples/recording anew, without a bug and with each of its bugs; wants a C compiler.
recordings: build
	examples/recording/record.sh $(PROGRAM)

# Each worked row of a script, a schedule, a plan or a recording gives what stands beside it, and so does each command line; each read,
# write, allocation and thread of the program fails in turn, with a C compiler; random scripts of a delay table give what a sorted list
# does, random scripts, schedules and recordings what models of their tables and definitions say, as the worked rows do; random plans
# lose no item and end; what docs/RECORDING.md has one write records a right queue; the converter of kernel traces reads each spelling.
rows: build
	checks/rows.py $(PROGRAM)
	checks/model_rows.py
	checks/command_lines.py $(PROGRAM)
	checks/faults.py $(PROGRAM)
	checks/random_delays.py $(PROGRAM)
	checks/random_scripts.py $(PROGRAM)
	checks/random_recordings.py $(PROGRAM)
	checks/random_plans.py $(PROGRAM)
	checks/recording_page.py $(PROGRAM)
	checks/trace_lines.py $(PROGRAM)

# Each word that a public contract cites is defined in docs/DEFINITIONS.md, and the code that a README quotes stands in the files that it
# names, as the gate compares; two seconds.
definitions:
	checks/definitions.py

# The library for C, tested from C, C++, Rust and Python, as the gate does; three minutes once it is proved.
c-api: build
	checks/c_api.sh $(PROGRAM)

# The calls that take memory, with each allocation refused in turn, as the gate does; a second, and the proof of the program that makes
# them, which stands on nearly all crates. It wants a C compiler.
memory:
	checks/build.py test_memory
	checks/refused_memory.sh crates/test_memory/out/test_memory

# The wrong bodies that the gate leaves out: after a gate on the same machine half an hour on two processors, else an hour.
wrong-bodies:
	checks/wrong_bodies.sh

# The right answer in the place of each wrong body of the gate: what becomes of it is as in checks/goals. About as long.
controls:
	checks/wrong_bodies.sh --controls

# Times what bench/README.md lists: scripts, executed items, values, pools, calls from C, delay tables, large queues and recordings, most
# of them beside others.
bench: build library
	checks/build.py bench_queue
	crates/bench_queue/out/bench_queue
	bench/script.sh $(PROGRAM)
	bench/commands.py $(PROGRAM)
	bench/commands.py $(PROGRAM) 5 2 4096 65536
	bench/items.sh crates/bench_queue/out/bench_queue
	bench/threads.py crates/bench_queue/out/bench_queue 9
	bench/values.py crates/bench_queue/out/bench_queue 9
	bench/seats.py crates/bench_queue/out/bench_queue $(LIBRARY) 9
	bench/pool.py crates/bench_queue/out/bench_queue 9
	bench/delays.sh crates/bench_queue/out/bench_queue
	bench/large.py crates/bench_queue/out/bench_queue
	bench/recordings.py $(PROGRAM) crates/bench_queue/out/bench_queue
