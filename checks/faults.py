#!/usr/bin/env python3
"""Runs the program that is named with one call of libc failing, each in turn: faults.py PROGRAM.

A read fails, is interrupted, or each gives one byte; the same of writes to standard output, of which one may take nothing; an
allocation or a thread is refused (checks/c/faults.c). The program runs each subcommand, a script from standard input without words,
help, the version, and on words that it refuses. What has to come of it is what docs/FORMATS.md says, of the very program: want
of memory or of a thread is status 3, a reader or a writer that fails status 1, each with its line; else the output is the right one.
What a writer that failed has taken is a beginning of that. It wants a C compiler.
"""
import os
import shutil
import subprocess
import sys
import tempfile
from pathlib import Path

TOP = Path(__file__).resolve().parent.parent
SCRIPT = b"wq 2\nitems 5\nsenders 2\nfollow 0 1 2\nqueue 0 0\nqueue 1 3\narm 4 2\nrun 2\nadvance 2\ndrain 9\nflush 1 0\nreport\n"
STEPS = b"steps 1\nitems 4\nsenders 2\n0 hold 1\n0 look\n0 link 1\n0 push 1\no take\no walk\no begin\no end\n"
RIGHT_TRACE, WRONG_TRACE = b"trace 1\nitems 2\nqueue 0\nstart 0\nend 0\n", b"trace 1\nitems 2\nqueue 0\nstart 1\nqueue 1\n"
LONE_PLAN = b'{"queues":1,"workers":1,"senders":2,"own":3}'
POOL_PLAN = b'{"queues":2,"workers":2,"senders":2,"own":2}'
# without words a script is read from standard input
RUNS = {"": SCRIPT, "script": SCRIPT, "steps": STEPS, "steps --history": STEPS}
RUNS |= {"check": RIGHT_TRACE, "check --drained": WRONG_TRACE}
PLANS = {"a lone plan": LONE_PLAN, "a plan over a pool": POOL_PLAN}
# Which of its threads a plan wants for sure. A pool's further workers want none of their own, and are made while others still are.
WANTED_THREADS = {"a lone plan": range(1, 5000), "a plan over a pool": [1]}
# How many threads a plan makes: one for each sender, one for the workers, and one for each worker of a pool but the first.
THREADS = {"a lone plan": 3, "a plan over a pool": 4}

MEMORY, UNREADABLE, UNWRITABLE = (3, b"memory\n"), (1, b"file: Unreadable\n"), (1, b"output: Unwritable\n")
# what may come of a fault beside the right output, and whether it has to; of a thread that depends on which
FAULTS = {
    "read fails": (UNREADABLE, True),
    "read is interrupted": (None, False),
    "write fails": (UNWRITABLE, True),
    "write takes nothing": (UNWRITABLE, True),
    "write is interrupted": (None, False),
    "allocation fails": (MEMORY, False),
    "thread fails": (MEMORY, False),
}
EVERY_CALL = ["reads give a byte", "writes take a byte"]
# words that no text belongs to, and which faults can come of them: what is wrong with words is written on standard error
OUTPUT_FAULTS = ["write fails", "write takes nothing", "write is interrupted", "writes take a byte", "allocation fails"]
TEXTLESS = {"--help": OUTPUT_FAULTS, "--version": OUTPUT_FAULTS, "race": ["allocation fails"]}
MOST = 5000


class Runner:
    """Runs the program with a fault in it."""

    def __init__(self, program, folder):
        self.program, self.folder, self.told = program, Path(folder), Path(folder) / "told"
        if len(str(folder).split()) > 1:
            sys.exit("faults: LD_PRELOAD takes a path apart at a space: name a folder without one by TMPDIR")
        shim, compiler = self.folder / "faults.so", os.environ.get("CC", "cc")
        if not shutil.which(compiler):
            sys.exit(f"faults: no C compiler {compiler}, so nothing was tried: name one by CC")
        subprocess.run([compiler, "-O2", "-Wall", "-Wextra", "-shared", "-fPIC", "-o", shim, TOP / "checks/c/faults.c"], check=True)
        self.preload = {"LD_PRELOAD": str(shim), "FAULT_TOLD": str(self.told)}

    def run(self, words, text, fault="", place=0):
        """The status, what was written, and whether the fault came."""
        file = self.folder / "text"
        file.write_bytes(text)
        self.told.unlink(missing_ok=True)
        env = {**os.environ, **self.preload, "FAULT": fault, "FAULT_AT": str(place)}
        line = [self.program, *words.split(), *([file] if words and words not in TEXTLESS else [])]
        with file.open("rb") as given:
            ran = subprocess.run(line, env=env, stdin=given, capture_output=True, timeout=60)
        return (ran.returncode, ran.stdout, ran.stderr), self.told.exists()


def is_as_wanted(got, right, fault, must_come):
    status, output, said = got
    other = FAULTS[fault][0]
    if got == right:
        return not must_come
    if other is None or (status, said) != other:
        return False
    return right[1].startswith(output) if other == UNWRITABLE else output == b""


def can_come(fault, words):
    """Whether such a fault can come where the program is run on these words."""
    return fault in TEXTLESS[words] if words in TEXTLESS else fault != "thread fails" or words.startswith("live")


def faults_of(runner, name, words, text):
    """What does not come as it has to, and how often the program was run."""
    right, _ = runner.run(words, text)
    found, count = [], 0
    for fault in (it for it in EVERY_CALL if can_come(it, words)):
        got, has_come = runner.run(words, text, fault)
        found += [f"{name}, {fault}: {got} and not {right}"] if got != right else []
        found += [f"{name}: no {fault} ever comes"] if not has_come else []
        count += 1
    for fault in (it for it in FAULTS if can_come(it, words)):
        for place in range(1, MOST):
            got, has_come = runner.run(words, text, fault, place)
            count += 1
            if not has_come:
                found += [f"{name}, no {fault}: {got} and not {right}"] if got != right else []
                found += [f"{name}: no {fault} ever comes"] if place == 1 else []
                if fault == "thread fails" and place - 1 != THREADS[name]:
                    found += [f"{name}: it makes {place - 1} threads and not {THREADS[name]}"]
                break
            must_come = place in WANTED_THREADS[name] if fault == "thread fails" else FAULTS[fault][1]
            is_well = is_as_wanted(got, right, fault, must_come)
            found += [f"{name}, {fault} at call {place}: {got}, right is {right}"] if not is_well else []
        else:
            found += [f"{name}, {fault}: it comes at each of {MOST - 1} calls, so no run was whole"]
    return found, count


def main(program):
    program, found, count = Path(program).resolve(), [], 0
    with tempfile.TemporaryDirectory() as folder:
        runner = Runner(program, folder)
        runs = [(words or "no words", words, text) for words, text in RUNS.items()]
        runs += [(name, "live", text) for name, text in PLANS.items()]
        runs += [(words, words, b"") for words in TEXTLESS]
        for name, words, text in runs:
            more, runs_of_it = faults_of(runner, name, words, text)
            found, count = found + more, count + runs_of_it
    print("\n".join([*found, f"faults: {count} runs, {len(found)} not as wanted"]))
    return 1 if found else 0


if __name__ == "__main__":
    sys.exit(main(sys.argv[1]) if len(sys.argv) == 2 else "usage: checks/faults.py PROGRAM")
