#!/usr/bin/env python3
"""A kernel trace as a recording of one ordered workqueue: wq_trace.py [--check [--drained]] NAME [FILE].

Reads the text of ftrace, `trace-cmd report` or `perf script`, and writes two header lines and then a line for each line of it: a mark
of the queue NAME, or `#`. So line N of what it writes is line N - 2 of the trace. Where there can be no verdict it says why, and its
last line is `lost`, which no recording has. With --check it hands that to `wqrun`, prints the verdict and the lines of the trace that
it names, and ends with its status. docs/RECORDING.md says how to record.
"""
import argparse
import re
import signal
import subprocess
import sys
import tempfile
from collections import OrderedDict, deque
from contextlib import suppress
from decimal import Decimal
from itertools import chain

ITEMS, KEPT, NAMED = 65536, 1 << 17, 8
EVENTS = {"queue": "queue_work", "start": "execute_start", "end": "execute_end"}
# behind a mark of the first a right queue looks wrong where the second is not recorded
NEEDS = {"queue": {"start"}, "start": {"end"}}
EVENT = re.compile(
    r"workqueue_(?:execute_)?(queue|start|end)(?:_work)?: work struct[= ](?:0x)?([0-9a-f]+|\(\w+\))(?!\w)"
    r"(?=(?:.*?function[= ](.*?)(?: workqueue=|$))?)(?:.* workqueue=(.*) req_cpu=)?"
)
# the name of one of these events where a line has that: in front, behind a time, or behind the group that perf prints
EVENT_NAME = re.compile(r"(?:^|[^a-zA-Z_]:\s+|\)\s+|(?<!\S)workqueue:)workqueue_(?:queue_work|execute_start|execute_end):(?!\S)")
# a line's task and its processor, and its time where it has one
HEAD = re.compile(r"(\d+)\s+(?:\([-\s\d]*\)\s+)?\[(\d+)\](?:(?:\s+[^\s:]+)?\s+(\d+(?:\.\d+)?):)?")
# a line's task and its processor as ftrace's latency-format has them
LATENCY = re.compile(r"-\d+\s+\d+[^\s\d]\S{3,}\s")
LOST = re.compile(
    r"(?:CPU:(\d+) )?(?:\[LOST (?:\d+ )?EVENTS\]|\[(?:\d+ )?EVENTS DROPPED\])|PERF_RECORD_LOST|entries-written: (?!(\d+)/\2\b)"
)
DECIDES = re.compile(r"^line (\d+)\nmark \d+\ncause (\w+)", re.M)


class Lost(Exception):
    """Why nothing can be said from a line on."""


def head_of(line):
    """The task of a line, its processor and its time, each where it is told."""
    head = HEAD.search(line)
    return (head[1], int(head[2]), head[3] and Decimal(head[3])) if head else (None, None, None)


class Work:
    """A work struct: its queueings whose start is not shown yet, by function and queue, and its executions, by task and queue."""

    def __init__(self):
        self.waits, self.runs, self.last = [], [], ""

    def queue(self, function, name, _):
        """It may be queued again before its start is shown, here or elsewhere. A third one on a queue says that one was cancelled."""
        if self.waits.count((function, name)) == 2:
            self.waits.remove((function, name))
        self.waits.append((function, name))
        self.last = name
        return name

    def start(self, function, _, task):
        """Of the oldest queueing, where some have its function of the oldest of these; without any it runs twice."""
        queueing = ([it for it in self.waits if it[0] == function] or self.waits or [(function, self.last)])[0]
        with suppress(ValueError):
            self.waits.remove(queueing)
        self.runs.append((task, queueing[1]))
        return queueing[1]

    def end(self, _, __, task):
        """Of what this task started."""
        run = next((it for it in self.runs if it[0] == task), (task, ""))
        with suppress(ValueError):
            self.runs.remove(run)
        return run[1]


class Queue:
    """The works by their addresses, and the numbers of those of the queue NAME. Free are the numbers that no work had yet, and behind
    them those of idle works, each with its address: the one that is idle longest comes first."""

    def __init__(self, name):
        self.name, self.names, self.words, self.works, self.numbers, self.time = name, set(), set(), {}, {}, 0
        self.free = OrderedDict.fromkeys(range(ITEMS))

    def number(self, address):
        """The number of a work, which is idle no more."""
        if address not in self.numbers and not self.free:
            raise Lost(f"more than {ITEMS} works at once")
        if address not in self.numbers:
            self.numbers[address], idle = self.free.popitem(last=False)
            self.numbers.pop(idle, None)
        self.free.pop(self.numbers[address], None)
        return self.numbers[address]

    def mark(self, line):
        event, (task, _, time) = EVENT.search(line.strip()), head_of(line)
        if line.startswith("# latency: ") or event and not task and LATENCY.search(line):
            raise Lost("a trace in ftrace's latency-format, which is not read")
        if LOST.search(line):
            raise Lost("events were lost")
        if not line.endswith("\n"):
            raise Lost("a line that is cut off")
        has_no_queue = event and event[1] == "queue" and event[4] is None
        # the first test is quick, and most lines of a long trace may be of other events
        if has_no_queue or not event and "workqueue_" in line and EVENT_NAME.search(line.strip()):
            raise Lost("a line that is not understood")
        if not event:
            return "#"
        if time is not None and time < self.time:
            raise Lost("its time is before that of a line in front of it")
        self.time = self.time if time is None else time
        word, address, function, name = event.groups(default="")
        self.words.add(word)
        self.names.update([name] * (word == "queue"))
        if function.startswith("wq_barrier_func"):
            return "#"
        if address.startswith("("):
            raise Lost(f"the addresses of the works are hidden: {address}")
        work = self.works.setdefault(address, Work())
        is_here = getattr(work, word)(function, name, task) == self.name
        if not (work.waits or work.runs or work.last == self.name):
            del self.works[address]
        if not is_here:
            return "#"
        number = self.number(address)
        if all(queue != self.name for _, queue in work.waits + work.runs):
            self.free[number] = address
        return f"{word} {number}"

    def unseen(self):
        """Why nothing can be said of a trace that has no line of this queue, or none of one of the events; or nothing."""
        unseen = [f"this trace has no line of workqueue_{event}" for word, event in EVENTS.items() if word not in self.words]
        if self.name in self.names:
            return unseen[0] if unseen else None
        names = ", ".join([*sorted(self.names)[:20], *["..."] * (len(self.names) > 20)])
        return f"nothing was queued on {self.name}: " + (f"the queues of this trace are {names}" if self.names else unseen[0])


class Lines:
    """The lines of a trace, each with its number, as long as they can be read; and the number of the last one."""

    def __init__(self, lines):
        self.lines, self.at = iter(lines), 0

    def __iter__(self):
        return self

    def __next__(self):
        try:
            line = next(self.lines)
        except OSError as error:
            raise Lost(f"what is behind it cannot be read: {error}") from error
        self.at += 1
        return self.at, line


def write_marks(lines, name, to, kept):
    """Writes a line for each line, and keeps the last of them, until nobody reads on; answers why there can be no verdict, if so. What
    a right queue may look wrong by, were an event not recorded, is held back until that event was seen, of any work."""
    queue, held, needs = Queue(name), [], set()
    print(f"trace 1\nitems {ITEMS}", file=to)
    try:
        for at, line in lines:
            kept.append([at, "", line.strip()])
            kept[-1][1] = mark = queue.mark(line)
            held.append(mark)
            if needs <= queue.words:
                for it in held:
                    print(it, file=to, flush=it != "#")
                held.clear()
            needs |= NEEDS.get(mark.split()[0], set())
        why = queue.unseen()
    except Lost as lost:
        why = f"line {lines.at}: {lost}, and nothing can be said from there on"
    if why:
        print("lost", file=to, flush=True)
    return why


def named(verdict, kept):
    """The lines of the trace that a verdict names: that of the mark, and that of the item of its cause, or those of what is left."""
    decides = DECIDES.search(verdict)
    upto, cause = (int(decides[1]) - 2, decides[2]) if decides else (sys.maxsize, "left")
    yield from (f"line {at}: {line}" for at, _, line in kept if at == upto)
    # what runs or is next is the first that is left; of an item that is left twice the last two queueings are
    left = "".join(re.findall(r"^left (.*)", verdict, re.M)).split()
    for place, number in enumerate(left[: {"left": NAMED, "runs": 1, "next": 1}.get(cause, 0)]):
        wanted, last = (f"start {number}", 1) if cause == "runs" else (f"queue {number}", left[place:].count(number))
        found = [f"{wanted}, line {at}: {line}" for at, mark, line in kept if mark == wanted and at < upto]
        yield from found[-last:][:1] if len(found) >= last else []


def withdrawn(upto, kept, lines):
    """Why nothing can be said of the line that a verdict names, where one behind it says so. A notice stands in front of the next event
    of the processor that lost some: they were lost behind line `upto` where that processor has a line there or since."""
    decided, since = None, set()
    try:
        for at, line in chain(((at, line) for at, _, line in kept if at >= upto), lines):
            lost, (_, processor, time) = LOST.search(line), head_of(line)
            processor = int(lost[1]) if lost and lost[1] else processor
            if lost and (processor is None or processor not in since):
                return f"line {at}: events were lost, and nothing can be said of line {upto} then"
            if None not in (decided, time) and time < decided and EVENT.search(line):
                return f"line {at}: its time is before that of line {upto}, and nothing can be said of line {upto} then"
            decided = time if at == upto else decided
            since.add(processor)
    except Lost as lost:
        return f"line {lines.at}: {lost}, and nothing can be said of line {upto} then"


def check(lines, asked, kept):
    """Prints the verdict and the lines that it names. Answers the status of the program that gave it, or why there is none."""
    command, why = ["wqrun", "check", *["--drained"] * asked.drained, "/dev/stdin"], None
    # a long verdict may stand before the trace has ended: a pipe would not hold it, and nobody reads it yet
    with tempfile.TemporaryFile("w+") as said:
        with subprocess.Popen(command, stdin=subprocess.PIPE, stdout=said, stderr=subprocess.PIPE, text=True) as wqrun:
            with suppress(BrokenPipeError):  # it said its verdict before the trace had ended
                why = write_marks(lines, asked.name, wqrun.stdin, kept)
            faults = wqrun.communicate()[1]
        said.seek(0)
        verdict = said.read()
    decides = DECIDES.search(verdict)
    why = withdrawn(int(decides[1]) - 2, kept, lines) if decides else why if wqrun.returncode != 4 else None
    if why:
        return why
    print(faults, file=sys.stderr, end="")
    print(verdict, *(f"{it}\n" for it in named(verdict, kept)), sep="", end="")
    return wqrun.returncode


def main():
    words = argparse.ArgumentParser(description=__doc__, formatter_class=argparse.RawDescriptionHelpFormatter)
    words.add_argument("name", help="the queue, as it stands behind workqueue=")
    words.add_argument("file", nargs="?", default="/dev/stdin", help="the trace; without it standard input")
    words.add_argument("--check", action="store_true", help="hand it to the wqrun of the PATH")
    words.add_argument("--drained", action="store_true", help="with --check: nothing may be left at the end")
    asked, kept = words.parse_args(), deque(maxlen=KEPT)
    if asked.drained and not asked.check:
        words.error("--drained is for --check")
    if sys.stdout is None:
        return "output: Unwritable"
    # the name of a task may have any bytes, which the output may have no letters for
    sys.stdout.reconfigure(errors="backslashreplace")
    with open(asked.file, errors="surrogateescape", newline="\n") as lines:
        if asked.check:
            return check(Lines(lines), asked, kept)
        signal.signal(signal.SIGPIPE, signal.SIG_DFL)
        return write_marks(Lines(lines), asked.name, sys.stdout, kept)


if __name__ == "__main__":
    try:
        status = main()
        print(end="", flush=True)
    except OSError as error:
        # what could not be written is not tried again at the end
        sys.stdout, status = None, str(error)
    sys.exit(status)
