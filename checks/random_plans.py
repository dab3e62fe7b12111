#!/usr/bin/env python3
"""Runs random plans with the program that is named, on all processors and on one alone: random_plans.py PROGRAM.

Whatever its threads do, a plan's line says that all of its items were accepted and ran, and it comes: a run that has not ended within a
minute is a fault. On one processor a thread goes on only where another one waits, gives way or is stopped, so what counts on a second
processor shows there. A plan that fails is made again from its number.
"""
import json
import os
import random
import subprocess
import sys
import tempfile
from pathlib import Path

PLANS = 200
MOST = {"queues": 8, "workers": 8, "senders": 32}
# the items of a plan in all, so that hundreds of plans take some seconds
MOST_ITEMS = 4096
MINUTE = 60


def random_plan(number):
    """A plan within its limits: about half of its values are the least, the most or near the least."""
    draws = random.Random(number)
    plan = {key: draws.choice([1, 2, most, draws.randint(1, most), draws.randint(1, most)]) for key, most in MOST.items()}
    own = MOST_ITEMS // (plan["queues"] * plan["senders"])
    return plan | {"own": draws.choice([1, own, draws.randint(1, own)])}


def line_of(plan):
    """The line of a plan, of which no item is lost."""
    count = plan["queues"] * plan["senders"] * plan["own"]
    return f"accepted {count} ran {count} balanced yes\n"


def fault_of(program, file, plan, processors):
    """What is wrong with a run of the plan on these processors, or nothing."""
    file.write_text(json.dumps(plan))
    pin = lambda: os.sched_setaffinity(0, processors)
    try:
        ran = subprocess.run([program, "live", file], capture_output=True, text=True, timeout=MINUTE, preexec_fn=pin)
    except subprocess.TimeoutExpired:
        return "it has not ended within a minute"
    said = (ran.returncode, ran.stdout, ran.stderr)
    return "" if said == (0, line_of(plan), "") else f"status {ran.returncode} {ran.stderr!r}: {ran.stdout!r} and not {line_of(plan)!r}"


def main(program):
    every = os.sched_getaffinity(0)
    runs = [(number, processors) for number in range(PLANS) for processors in (every, {min(every)})]
    faults = []
    with tempfile.TemporaryDirectory() as folder:
        for number, processors in runs:
            plan = random_plan(number)
            fault = fault_of(Path(program).resolve(), Path(folder) / "plan", plan, processors)
            if fault:
                faults.append(f"plan {number} {plan} on {len(processors)} processors: {fault}")
    print("\n".join([*faults, f"random plans: {len(runs)} runs, {len(faults)} not as wanted"]))
    return 1 if faults else 0


if __name__ == "__main__":
    sys.exit(main(sys.argv[1]) if len(sys.argv) == 2 else "usage: checks/random_plans.py PROGRAM")
