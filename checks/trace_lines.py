#!/usr/bin/env python3
"""Gives lines of kernel traces to examples/recording/wq_trace.py, and compares what it makes of them: trace_lines.py [PROGRAM].

A row of ROWS is what the lines before it show: of each line a mark of the queue `mine`, `#`, or `lost`. The lines are spelled as
ftrace, `trace-cmd report` and `perf script` print them, of kernels with and without the queue's name and the function of an end. A row
of VERDICTS is what `--check` prints, and one of WORDS what a whole command does. The `wqrun` that these run is PROGRAM; where none is
named the model of random_recordings.py answers, so that no program need be built.
"""
import importlib.util
import io
import os
import random
import signal
import subprocess
import sys
import tempfile
import time
from collections import deque
from contextlib import redirect_stderr, redirect_stdout
from pathlib import Path
from types import SimpleNamespace

from random_recordings import judged

CONVERTER = Path(__file__).resolve().parent.parent / "examples/recording/wq_trace.py"


def ftrace(event, work, more="", task=57, processor=1):
    return f"     kworker/u8:1-{task}      [{processor:03}] d..2.   104.367288: workqueue_{event}: work struct{work}{more}"


def queued(work, queue="mine", function="f [m]"):
    return ftrace("queue_work", f"={work}", f" function={function} workqueue={queue} req_cpu=256 cpu=-1")


def started(work, function="f [m]", task=57):
    return ftrace("execute_start", f" {work}", f": function {function}", task)


def ended(work, function="f [m]", task=57):
    return ftrace("execute_end", f" {work}", f": function {function}", task)


def whole(work, number):
    return [(queued(work), f"queue {number}"), (started(work), f"start {number}"), (ended(work), f"end {number}")]


def runs(work, number):
    return whole(work, number)[1:]


def runs_elsewhere(work):
    return [(started(work), "#"), (ended(work), "#")]


def on(processor, line):
    return line.replace("[001]", f"[{processor:03}]")


def when(time, line):
    return line.replace("104.367288", time)


TRACE_CMD = "      kworker/u8:1-57    [001]   104.367288: "
PERF = "kworker/u8:1-ev      57 [001]   104.367288: workqueue:"
# what stands in front of an event of another task: in ftrace, there with the group of the task too, in trace-cmd, and in perf
OTHERS = [
    ("     kworker/u8:1-57      [001] d..2.   104.367288: ", "     kworker/u8:2-570     [001] d..2.   104.367288: "),
    ("          <...>-57      (     57) [001] d..2.   104.367288: ", "          <...>-58      (-------) [001] d..2.   104.367288: "),
    (TRACE_CMD, "      kworker/u8:2-58    [001]   104.367288: "),
    (PERF, "kworker/u8:2      58 [001]   104.367288: workqueue:"),
]
# behind the last line
END = None

NOT_UNDERSTOOD = [
    TRACE_CMD + "workqueue_queue_work:  work=0xffff88810a function=0xffffffff81 workqueue=mine req_cpu=64 cpu=1",
    TRACE_CMD + "workqueue_queue_work: [FAILED TO PARSE] work=0xffff88810a function=0xffffffff81 workqueue=mine",
    TRACE_CMD + "workqueue_execute_start: [FAILED TO PARSE] work=0xffff88810a function=0xffffffff81",
    TRACE_CMD + "(+12) workqueue_execute_end: [FAILED TO PARSE] work=0xffff88810a",
    "  kworker-57      1d..2.  104us+: workqueue_execute_end: work=0xffff88810a",
    PERF + "workqueue_execute_end: [FAILED TO PARSE] work=0xffff88810a",
    PERF.replace("workqueue:", "   1 workqueue:") + "workqueue_execute_end:",
    "workqueue_execute_start: work=0xffff88810a",
    started("0xFF01"),
    ended("00aag"),
    queued("0xFF01", "other"),
    queued("aa").partition(" req_cpu=")[0],
    queued("aa", "other").partition(" workqueue=")[0],
]

ROWS = [
    (
        "ftrace",
        [
            ("# tracer: nop", "#"),
            ("# entries-in-buffer/entries-written: 4108/4108   #P:4", "#"),
            (queued("00000000e1246962"), "queue 0"),
            (ftrace("activate_work", " 00000000e1246962", " function=f [m] "), "#"),
            (started("00000000e1246962"), "start 0"),
            (queued("00000000e1246962"), "queue 0"),
            (ended("00000000e1246962"), "end 0"),
            (queued("00000000e1246963"), "queue 1"),
            ("", "#"),
        ],
    ),
    (
        "an end without its function",
        [(queued("00aa"), "queue 0"), (started("00aa"), "start 0"), (ftrace("execute_end", " 00aa"), "end 0")],
    ),
    (
        "no line has a task or a function",
        [
            ("workqueue_queue_work: work struct=aa workqueue=mine req_cpu=8", "queue 0"),
            ("workqueue_execute_start: work struct aa", "start 0"),
            ("workqueue_execute_end: work struct aa", "end 0"),
        ],
    ),
    (
        "trace-cmd",
        [
            (TRACE_CMD + "workqueue_queue_work: work struct=0xffff88810a function=f workqueue=mine req_cpu=64 cpu=-1", "queue 0"),
            (TRACE_CMD + "workqueue_queue_work: work struct=0xffff88810b function=f workqueue=mine req_cpu=64 cpu=-1", "queue 1"),
            (TRACE_CMD + "workqueue_execute_start: work struct 0xffff88810a: function f", "start 0"),
            (TRACE_CMD + "workqueue_execute_end: work struct 0xffff88810a", "end 0"),
        ],
    ),
    (
        "perf script",
        [
            (PERF + "workqueue_queue_work: work struct=0xffff88810a function=f workqueue=mine req_cpu=8192 cpu=1", "queue 0"),
            (PERF + "workqueue_queue_work: work struct=0xffff88810b function=f workqueue=mine req_cpu=8192 cpu=1", "queue 1"),
            (PERF + "workqueue_execute_start: work struct 0xffff88810a: function f", "start 0"),
            (PERF + "workqueue_execute_end: work struct 0xffff88810a: function f", "end 0"),
        ],
    ),
    (
        "another queue, and one whose name begins or goes on like this one's",
        [(queued("aa", "other"), "#"), (queued("ab", "mine 2"), "#"), (queued("ac", "mi"), "#"), *runs_elsewhere("aa"), (END, "lost")],
    ),
    ("an empty trace", [(END, "lost")]),
    ("what is no trace", [("\x7fELF\x02\x01\x01", "#"), ("", "#"), (END, "lost")]),
    (
        "a work that was queued before the first line",
        [(started("aa"), "#"), (queued("aa"), "queue 0"), (ended("aa"), "#"), *runs("aa", 0)],
    ),
    ("nothing but such works", [*runs_elsewhere("aa"), (END, "lost")]),
    (
        "a barrier of flush_work, also at the address of a work",
        [(queued("aa"), "queue 0"), (started("aa", "wq_barrier_func"), "#"), (ended("aa", "wq_barrier_func"), "#"), *runs("aa", 0)],
    ),
    (
        "what looks like a barrier and is none",
        [
            (queued("aa", function="my_wq_barrier_func"), "queue 0"),
            (started("aa", "my_wq_barrier_func").replace("kworker/u8:1", "wq_barrier_func"), "start 0"),
        ],
    ),
    (
        "functions whose names begin as that of a barrier",
        [
            (queued("aa", function="wq_bar"), "queue 0"),
            (started("aa", "wq_bar"), "start 0"),
            (ended("aa", "wq_bar"), "end 0"),
            (queued("bb", function="wq_barrier_fun"), "queue 1"),
            (started("bb", "wq_barrier_fun"), "start 1"),
        ],
    ),
    ("a work that runs twice, and twice at once", [*whole("aa", 0), (started("aa"), "start 0"), (started("aa"), "start 0")]),
    (
        "a work that goes to another queue, and comes back",
        [*whole("aa", 0), (queued("aa", "other"), "#"), *runs_elsewhere("aa"), (queued("aa"), "queue 0")],
    ),
    (
        "a work that goes to another queue while it runs",
        [
            (queued("aa"), "queue 0"),
            (started("aa"), "start 0"),
            (queued("aa", "other"), "#"),
            (started("aa"), "#"),
            (ended("aa"), "end 0"),
            (ended("aa"), "#"),
            (queued("aa"), "queue 0"),
        ],
    ),
    # its start is shown after it has begun, and after it has been queued again
    (
        "a work that comes from another queue before its start there",
        [(queued("aa", "other"), "#"), (queued("aa"), "queue 0"), *runs_elsewhere("aa"), *runs("aa", 0)],
    ),
    (
        "a work that goes to another queue before its start",
        [(queued("aa"), "queue 0"), (queued("aa", "other"), "#"), *runs("aa", 0), *runs_elsewhere("aa")],
    ),
    (
        "a work of three queues before its start on the first",
        [
            (queued("aa", "other"), "#"),
            (queued("aa"), "queue 0"),
            (queued("aa", "third"), "#"),
            *runs_elsewhere("aa"),
            *runs("aa", 0),
            *runs_elsewhere("aa"),
        ],
    ),
    (
        "a work that is there and back before its first start",
        [
            (queued("aa"), "queue 0"),
            (queued("aa", "other"), "#"),
            (queued("aa"), "queue 0"),
            *runs("aa", 0),
            *runs_elsewhere("aa"),
            *runs("aa", 0),
        ],
    ),
    (
        "a work that is queued again before its start",
        [(queued("aa"), "queue 0"), (queued("aa"), "queue 0"), *runs("aa", 0), *runs("aa", 0)],
    ),
    (
        "one that runs twice, though not here",
        [*whole("aa", 0), (queued("aa", "other"), "#"), *runs_elsewhere("aa"), *runs_elsewhere("aa")],
    ),
    (
        "a work that was cancelled on another queue, and another one at its address",
        [(queued("aa", "other", "g"), "#"), *whole("aa", 0), (started("aa", "g"), "#"), (ended("aa", "g"), "#")],
    ),
    (
        "a work whose function was changed while it waited",
        [(queued("aa", "mine", "g"), "queue 0"), (queued("aa", "other", "g"), "#"), *runs("aa", 0)],
    ),
    (
        "of the queueings on another queue that were cancelled two may have begun",
        [*[(queued("aa", "other"), "#")] * 5, (queued("aa"), "queue 0"), *runs_elsewhere("aa") * 2, *runs("aa", 0)],
    ),
    (
        "two tasks that run a work: one of them from before the first line",
        [
            (started("aa", task=58), "#"),
            (queued("aa"), "queue 0"),
            (started("aa"), "start 0"),
            (ended("aa", task=58), "#"),
            (ended("aa"), "end 0"),
        ],
    ),
    (
        "a task that goes to another processor in its work",
        [(queued("aa"), "queue 0"), (started("aa"), "start 0"), (ftrace("execute_end", " aa", ": function f", processor=2), "end 0")],
    ),
    ("events lost, in ftrace", [(queued("aa"), "queue 0"), ("CPU:2 [LOST 120 EVENTS]", "lost")]),
    ("events lost, nobody knows how many", [("CPU:2 [LOST EVENTS]", "lost")]),
    ("events lost, in trace-cmd", [("CPU:2 [120 EVENTS DROPPED]", "lost")]),
    ("events lost, in perf", [("kworker/u8:1-ev    57 [001]   104.367288: PERF_RECORD_LOST lost 120", "lost")]),
    (
        "the buffer was full, and its first lines were written over",
        [("# entries-in-buffer/entries-written: 4108/41080   #P:4", "lost")],
    ),
    (
        "the latency-format of ftrace, whose lines name their task otherwise and whose head has what was written over",
        [
            ("# tracer: nop", "#"),
            ("#", "#"),
            ("# nop latency trace v1.1.5 on 6.1.0", "#"),
            ("# latency: 0 us, #4108/4108, CPU#0 | (M:desktop VP:0, KP:0, SP:0 HP:0 #P:4)", "lost"),
        ],
    ),
    ("that format, where the first lines were written over", [("# latency: 0 us, #4/41080, CPU#0 | (M:desktop VP:0, #P:4)", "lost")]),
    ("one of that format without its head", [("  kworker-57      1d..2.  104us+: workqueue_execute_end: work struct aa", "lost")]),
    ("what looks like one of that format and is no event", [("# kworker-57      1d..2.  104us+: a comment", "#"), *whole("aa", 0)]),
    (
        "a time that goes back behind a line without one",
        [*whole("aa", 0), (f"workqueue_{queued('bb').partition('workqueue_')[2]}", "queue 1"), (when("9", started("bb")), "lost")],
    ),
    (
        "a time that goes back",
        [*whole("aa", 0), (when("104.367289", queued("bb")), "queue 1"), (started("bb"), "lost")],
    ),
    (
        "times of other widths, and one of a line of another queue that goes back",
        [
            (when("104.5", queued("aa")), "queue 0"),
            (when("1000.25", started("aa")), "start 0"),
            (when("1000.250", ended("aa")), "end 0"),
            (when("1000.0250001", queued("aa", "other")), "lost"),
        ],
    ),
    (
        "a counter",
        [
            (when("999", queued("aa")), "queue 0"),
            (when("1004", started("aa")), "start 0"),
            (when("1043", TRACE_CMD + "sched_switch: a:1 [120] R ==> b:2 [120]"), "#"),
            (when("1005", ended("aa")), "end 0"),
            (when("1004", queued("aa")), "lost"),
        ],
    ),
    ("addresses that are hidden", [("# tracer: nop", "#"), (queued("(____ptrval____)"), "lost")]),
    ("a hidden address of a start", [(queued("aa"), "queue 0"), (started("(____ptrval____)"), "lost")]),
    ("a hidden address of an end", [*whole("aa", 0)[:2], (ended("(____ptrval____)"), "lost")]),
    (
        "lines of other events that have the name of one of these",
        [
            ("# cmdline : perf record -e workqueue:workqueue_queue_work -e workqueue:workqueue_execute_end", "#"),
            ("# event : name = workqueue:workqueue_execute_start, , id = { 1, 2 }", "#"),
            (TRACE_CMD + "sched_switch:         workqueue_queue_work:57 [120] R ==> workqueue_execute_end:58 [120]", "#"),
            ("workqueue_queue_work-57      [001] d..2.   104.367288: sched_waking: comm=workqueue_queue_work pid=58", "#"),
            (ftrace("activate_work", " aa", " function=workqueue_queue_work "), "#"),
            (PERF.replace("workqueue:", "timer:") + "timer_init: timer=0xaa function=workqueue_execute_start", "#"),
            (TRACE_CMD + "tracing_mark_write: workqueue_queue_work: from here on", "#"),
            (TRACE_CMD + "function: trace_event_raw_event_workqueue_queue_work: <-- __queue_work", "#"),
            (queued("aa", "mine", "workqueue_execute_end"), "queue 0"),
        ],
    ),
    *[(f"no line that is understood: {line}", [(queued("aa"), "queue 0"), (line, "lost")]) for line in NOT_UNDERSTOOD],
]
# a work is freed in its function, and its address is used again on another queue: the end there is not the one here
ROWS += [
    (
        f"a work that is freed, and two tasks at its address, as in{other}",
        [
            (f"{one}workqueue_queue_work: work struct=aa function=f workqueue=mine req_cpu=8", "queue 0"),
            (f"{one}workqueue_execute_start: work struct aa: function f", "start 0"),
            (f"{one}workqueue_queue_work: work struct=aa function=g workqueue=other req_cpu=8", "#"),
            (f"{other}workqueue_execute_start: work struct aa: function g", "#"),
            (f"{other}workqueue_execute_end: work struct aa: function g", "#"),
            (f"{one}workqueue_execute_end: work struct aa: function f", "end 0"),
        ],
    )
    for one, other in OTHERS
]

# with four numbers: behind the last comes that of the work that is idle longest, which is not the one that was queued first
ITEMS = 4
MANY = [*whole("a", 0), (queued("a", "other"), "#")]
MANY += [(queued("b"), "queue 1"), *whole("c", 2), *whole("d", 3), *runs("b", 1)]
MANY += [*whole("e", 0), *whole("f", 2), *whole("c", 3), *whole("b", 1), *whole("d", 0)]

# one that runs and one that waits keep their numbers, also where none is free, and a fifth has none
BUSY = [(queued("a"), "queue 0"), (started("a"), "start 0"), (queued("b"), "queue 1"), *whole("c", 2), *whole("d", 3)]
BUSY += [(queued("e"), "queue 2"), (queued("f"), "queue 3"), (queued("b"), "queue 1"), (queued("10"), "lost")]

# each event, of another queue
ELSEWHERE = [queued("ee", "elsewhere"), started("ee"), ended("ee")]
OVERTAKES = [queued("aa"), queued("bb"), queued("aa"), started("bb")]
OVERLAPS = [*OVERTAKES[:3], started("aa"), started("bb"), *ELSEWHERE]
TWICE = [queued("aa"), started("aa"), ended("aa"), queued("aa"), queued("bb"), queued("aa"), "# the end"]
AT_ONCE = [*TWICE[:3], queued("bb"), started("bb"), ended("bb"), queued("aa"), queued("bb"), started("aa"), started("aa")]
THRICE = [*TWICE[:3], *[queued("bb")] * 3]
LOST = "CPU:2 [LOST 120 EVENTS]"
QUEUES = [f"q{number:02}" for number in range(21)]
OF_QUEUES = [queued("aa", queue) for queue in QUEUES]


def at(number, lines, what=""):
    return f"{what}line {number}: {lines[number - 1].strip()}\n"


# an event that was not recorded, and lines that a right queue leaves then
UNRECORDED = [
    ("execute_end", [queued("aa"), started("aa"), queued("bb"), started("bb")]),
    ("execute_end", [queued("aa"), started("aa"), queued("bb"), queued("bb"), started("bb")]),
    ("execute_end", [*ELSEWHERE[:2], queued("aa"), started("aa")]),
    ("execute_start", [queued("aa"), ended("aa"), queued("aa"), ended("aa"), queued("aa"), ended("aa")]),
    ("execute_start", [queued("aa"), queued("bb")]),
]
# how many lines are written when the next one is read, and how many of these are handed on: what would look wrong without an event
# waits until that was seen, and a mark waits for nothing else
WRITTEN = [
    ("# a comment", 1, 0),
    (queued("aa"), 2, 2),
    (queued("aa"), 2, 2),
    ("# a comment", 2, 2),
    (started("aa"), 5, 5),
    (queued("aa"), 5, 5),
    (ended("ee"), 7, 6),
    (queued("bb"), 8, 8),
    ("# a comment", 9, 8),
]

ASKED = SimpleNamespace(name="mine", drained=True)
OVERTAKEN = (4, "not legal", at(4, OVERTAKES) + at(1, OVERTAKES, "queue 0, "))
# what may stand behind a fault on the first processor, whose verdict it leaves: what a processor loses it loses behind its line before
LATER = [
    ("more of it", [queued("aa"), queued("aa")]),
    ("a loss on its processor", ["CPU:1 [LOST 12 EVENTS]"]),
    ("a loss on its processor, in trace-cmd", ["CPU:1 [12 EVENTS DROPPED]"]),
    ("a loss on its processor, in perf", ["kworker/u8:1-ev    57 [001]   104.367288: PERF_RECORD_LOST lost 12"]),
    ("a loss on another one, behind a line of that", [on(2, queued("cc", "other")), LOST, LOST]),
    ("a loss behind a line of another event", [on(2, TRACE_CMD + "sched_switch: a:1 [120] R ==> b:2 [120]"), LOST]),
    ("a line that is not understood", [NOT_UNDERSTOOD[2]]),
    ("a time before one behind it", [when("104.367290", queued("cc")), when("104.367289", queued("dd"))]),
    ("a time before it, of another event", [when("9", TRACE_CMD + "sched_switch: a:1 [120] R ==> b:2 [120]")]),
]
# and what withdraws it
GONE, EARLIER = "events were lost", "its time is before that of line 4"
WITHDRAWN = [
    ("a loss of a processor without a line", [LOST], 5, GONE),
    ("a loss of one whose line comes later", [queued("cc"), LOST, on(2, queued("cc"))], 6, GONE),
    ("a loss in perf", ["ev   58 [002]   104.367288: PERF_RECORD_LOST lost 12"], 5, GONE),
    ("a loss, nobody knows where", ["[LOST EVENTS]"], 5, GONE),
    ("a head", ["# entries-in-buffer/entries-written: 4/40   #P:4"], 5, GONE),
    ("two losses", ["CPU:1 [LOST EVENTS]", LOST], 6, GONE),
    ("a line that is not understood, and a loss", [NOT_UNDERSTOOD[2], LOST], 6, GONE),
    ("a time before it", [when("104.367287", queued("cc"))], 5, EARLIER),
    ("times that go back twice", [when("105.1", queued("cc")), when("105.0", queued("dd")), when("103", ended("aa"))], 7, EARLIER),
]

# the lines, the status or what is said in place of a verdict, the first line of that, and the lines of the trace that are printed
VERDICTS = [
    ("the one that is next was queued twice", OVERTAKES, 4, "not legal", at(4, OVERTAKES) + at(1, OVERTAKES, "queue 0, ")),
    ("the one that runs was queued twice", OVERLAPS, 4, "not legal", at(5, OVERLAPS) + at(4, OVERLAPS, "start 0, ")),
    ("the one that runs ran before, and is started again", AT_ONCE, 4, "not legal", at(10, AT_ONCE) + at(9, AT_ONCE, "start 0, ")),
    ("one that is queued three times", THRICE, 4, "not legal", at(6, THRICE)),
    (
        "what is left was queued before it last ran, and since",
        TWICE,
        4,
        "legal",
        at(4, TWICE, "queue 0, ") + at(5, TWICE, "queue 1, ") + at(6, TWICE, "queue 0, "),
    ),
    ("a start without a queueing", TWICE[:3] + TWICE[1:2], 4, "not legal", at(4, TWICE[:3] + TWICE[1:2])),
    *[(f"a fault, and behind it {shows}", [*OVERTAKES, *lines], *OVERTAKEN) for shows, lines in LATER],
    *[
        (f"a fault, and behind it {shows}", [*OVERTAKES, *lines], f"line {line}: {why}, and nothing can be said of line 4 then", "", "")
        for shows, lines, line, why in WITHDRAWN
    ],
    *[(f"{event} was not recorded", lines, f"this trace has no line of workqueue_{event}", "", "") for event, lines in UNRECORDED],
    (
        "what looks like an overlap, no end before it, and a loss",
        [*OVERLAPS[:5], LOST],
        "line 6: events were lost, and nothing can be said from there on",
        "",
        "",
    ),
    ("a loss", [*TWICE[:3], LOST], "line 4: events were lost, and nothing can be said from there on", "", ""),
    (
        "a start that is not understood",
        [queued("aa"), NOT_UNDERSTOOD[2], ended("aa")],
        "line 2: a line that is not understood, and nothing can be said from there on",
        "",
        "",
    ),
    (
        "no queueing that is understood",
        NOT_UNDERSTOOD[:1],
        "line 1: a line that is not understood, and nothing can be said from there on",
        "",
        "",
    ),
    ("too many", [queued(it) for it in "abcdef"], "line 5: more than 4 works at once, and nothing can be said from there on", "", ""),
    (
        "a name that no queue has",
        [queued("aa", "that"), queued("aa", "this"), queued("aa", "that")],
        "nothing was queued on mine: the queues of this trace are that, this",
        "",
        "",
    ),
    ("twenty other queues", OF_QUEUES[:20], f"nothing was queued on mine: the queues of this trace are {', '.join(QUEUES[:20])}", "", ""),
    ("one more", OF_QUEUES, f"nothing was queued on mine: the queues of this trace are {', '.join(QUEUES[:20])}, ...", "", ""),
    (
        "the latency-format of ftrace",
        ["# tracer: nop", "# latency: 0 us, #4/41080, CPU#0 | (M:desktop VP:0, #P:4)", *TWICE],
        "line 2: a trace in ftrace's latency-format, which is not read, and nothing can be said from there on",
        "",
        "",
    ),
    ("no trace", ["\x7fELF", ""], "nothing was queued on mine: this trace has no line of workqueue_queue_work", "", ""),
    (
        "hidden addresses",
        [queued("(____ptrval____)")],
        "line 1: the addresses of the works are hidden: (____ptrval____), and nothing can be said from there on",
        "",
        "",
    ),
]

# the line of the item of a cause is looked for among the last 131,072, the one that decides among them
FAR = [*OVERTAKES[:3], *["# a comment"] * (131072 - 4), OVERTAKES[3]]
NINE = [*(queued(f"{work:x}") for work in range(9)), *ELSEWHERE]
# the same, with room for many works
WIDE = [
    ("the one that is next was queued 131,071 lines before", FAR, 4, "not legal", at(len(FAR), FAR) + at(1, FAR, "queue 0, ")),
    ("of nine that are left eight are named", NINE, 4, "legal", "".join(at(it + 1, NINE, f"queue {it}, ") for it in range(8))),
]

LEGAL = "".join(f"{line}\n" for line in TWICE[:3]).encode()
NO_END = "".join(f"{line}\n" for line in UNRECORDED[0][1]).encode()
CUT = queued("bb").partition("ne req_cpu=")[0].encode()
STRANGE = b"".join(line.encode().replace(b"kworker", b"\xff\r\xe2\x82\xac") + b"\n" for line in OVERTAKES)
# words, what is read, how the shell begins, the status, and what stands in the output
WORDS = [
    ("--check --drained mine", LEGAL, "", 0, "legal\n"),
    ("--check --drained mine", LEGAL + CUT, "", 1, "line 4: a line that is cut off, and nothing can be said from there on\n"),
    ("mine", LEGAL + CUT, "", 1, "end 0\nlost\nline 4: a line that is cut off"),
    ("mine", LEGAL[:-1], "", 1, "start 0\nlost\nline 3: a line that is cut off"),
    ("mine", NO_END, "", 1, "items 65536\nqueue 0\nstart 0\nlost\nthis trace has no line of workqueue_execute_end\n"),
    ("--check mine", LEGAL, ">/dev/full", 1, "No space left on device"),
    ("--check mine", LEGAL, ">&-", 1, "output: Unwritable"),
    ("mine", LEGAL, ">/dev/full", 1, "No space left on device"),
    ("mine", LEGAL, ">&-", 1, "output: Unwritable"),
    ("--drained mine", LEGAL, "", 2, "--drained is for --check"),
    ("other", LEGAL, "", 1, "nothing was queued on other: the queues of this trace are mine"),
    ("--check mine", STRANGE, "PYTHONIOENCODING=latin-1", 4, "line 4: \\udcff\r\\u20ac"),
    ("--check mine none", b"", "", 1, "No such file or directory"),
    ("mine /proc/self/mem", b"", "", 1, "items 65536\nlost\nline 0: what is behind it cannot be read: "),
    ("--check mine /proc/self/mem", b"", "", 1, "line 0: what is behind it cannot be read: "),
]

# a `wqrun` that is the model of the recordings, and one that says much before anything is read
MODEL = """#!/usr/bin/env python3
import sys
sys.path.insert(0, {checks!r})
from random_recordings import judged
status, verdict, faults = judged(sys.stdin.buffer.read(), "--drained" in sys.argv)
sys.stdout.write(verdict), sys.stderr.write(faults)
sys.exit(status)
"""
LONG = """#!/bin/sh
echo legal
head -c 1000000 /dev/zero | tr '\\0' x
exit 4
"""


class Converter:
    """The converter, and how many of the traces that it was given came out otherwise than wanted."""

    def __init__(self):
        found = importlib.util.spec_from_file_location("wq_trace", CONVERTER)
        self.module, self.count, self.faults = importlib.util.module_from_spec(found), 0, 0
        found.loader.exec_module(self.module)

    def hold(self, shows, got, wanted):
        self.count += 1
        if got != wanted:
            self.faults += 1
            print(f"{shows}: {got}\n    and not {wanted}")

    def marks(self, lines):
        """What is written, and why there can be no verdict."""
        to = io.StringIO()
        why = self.module.write_marks(self.module.Lines(f"{line}\n" for line in lines), "mine", to, deque(maxlen=self.module.KEPT))
        return to.getvalue().splitlines(), why

    def checks(self, lines):
        """The status or what is said in its place, and what is printed."""
        to = io.StringIO()
        with redirect_stdout(to), redirect_stderr(to):
            status = self.module.check(self.module.Lines(f"{line}\n" for line in lines), ASKED, deque(maxlen=self.module.KEPT))
        return status, to.getvalue()


def hold_marks(converter):
    converter.module.ITEMS = ITEMS
    for shows, lines in [*ROWS, ("more works than numbers", MANY), ("works that are not idle", BUSY)]:
        lines = [*((line, "#") for line in ELSEWHERE), *lines]
        written, why = converter.marks(line for line, _ in lines if line is not END)
        wanted = ["trace 1", f"items {ITEMS}", *(mark for _, mark in lines)]
        converter.hold(shows, (written, bool(why)), (wanted, wanted[-1] == "lost"))


class Output(io.StringIO):
    """What was written, and how much of it was handed on."""

    handed = 0

    def flush(self):
        self.handed = self.count()

    def count(self):
        """How many lines were written behind the two of the header."""
        return self.getvalue().count("\n") - 2


def hold_written(converter):
    to, written = Output(), []

    def lines():
        for line, *_ in WRITTEN:
            yield f"{line}\n"
            written.append((to.count(), to.handed))

    converter.module.write_marks(converter.module.Lines(lines()), "mine", to, deque())
    converter.hold("what is written while the lines come", written, [(count, handed) for _, count, handed in WRITTEN])


WORKERS = {"mine": 57, "other": 58, "third": 59}


class Kernel:
    """Right queues that share works. A worker is idle, has begun its work, which is shown later, or has shown its start."""

    def __init__(self, seed):
        self.draws, self.lines, self.pending, self.unshown = random.Random(seed), [], set(), []
        self.works = ["aa", "bb", "cc"][: self.draws.randrange(1, 4)]
        self.waiting, self.begun, self.shown = {queue: [] for queue in WORKERS}, {}, {}

    def moves(self):
        """What may come next, what goes on more often than a queueing. Starts of one work are shown in the order in which it began."""
        for queue, waiting in self.waiting.items():
            yield from ((self.queue, queue, work) for work in self.works if work not in self.pending)
            if queue in self.shown:
                yield from [(self.end, queue, self.shown[queue])] * 3
            elif queue in self.begun:
                work = self.begun[queue]
                yield from [(self.start, queue, work)] * 2 * (next(it for it in self.unshown if it[1] == work)[0] == queue)
            elif waiting:
                yield from [(self.begin, queue, waiting[0])] * 3

    def queue(self, queue, work):
        self.pending.add(work), self.waiting[queue].append(work), self.lines.append(queued(work, queue))

    def begin(self, queue, work):
        self.begun[queue] = self.waiting[queue].pop(0)
        self.pending.discard(work), self.unshown.append((queue, work))

    def start(self, queue, work):
        self.shown[queue] = self.begun.pop(queue)
        self.unshown.remove((queue, work)), self.lines.append(started(work, task=WORKERS[queue]))

    def end(self, queue, work):
        self.shown.pop(queue), self.lines.append(ended(work, task=WORKERS[queue]))

    def trace(self, moves):
        for _ in range(moves):
            move, *of = self.draws.choice(list(self.moves()))
            move(*of)
        return self.lines


def hold_kernels(converter):
    """Each trace of right queues that share works is legal."""
    converter.module.ITEMS, wrong = ITEMS, []
    for seed in range(400):
        written, why = converter.marks(Kernel(seed).trace(60))
        if not why and judged("".join(f"{line}\n" for line in written).encode())[0] != 0:
            wrong.append(seed)
    converter.hold("traces of right queues that share works, by their seeds", wrong, [])


def hold_burst(converter):
    """Many works that wait at once take no longer each than a few: 60,000 some half a second."""
    converter.module.ITEMS, began = 65536, time.process_time()
    written, why = converter.marks([*ELSEWHERE, *(queued(f"{work:x}") for work in range(60000))])
    converter.hold("a burst", (written[-1], why, time.process_time() - began < 10), ("queue 59999", None, True))


def hold_verdicts(converter, rows, items):
    converter.module.ITEMS = items
    for shows, lines, status, verdict, named in rows:
        ended, printed = converter.checks(lines)
        line, trace = printed.partition("\n")[0], "".join(it for it in printed.splitlines(True) if "line" in it and "work struct" in it)
        converter.hold(shows, (ended, line, trace), (status, verdict, named))


def hold_words(converter, folder, rows):
    for words, lines, shell, status, part in rows:
        redirects, settings = (shell, "") if shell.startswith(">") else ("", shell)
        line = ["sh", "-c", f"{settings} exec '{sys.executable}' '{CONVERTER}' {words} {redirects}"]
        try:
            ran = subprocess.run(line, cwd=folder, input=lines, stdout=subprocess.PIPE, stderr=subprocess.STDOUT, timeout=120)
            converter.hold(f"wq_trace.py {words} {shell}", (ran.returncode, part.encode() in ran.stdout or ran.stdout), (status, True))
        except subprocess.TimeoutExpired:
            converter.hold(f"wq_trace.py {words} {shell}", "no end", status)


class Unreadable:
    """Lines behind which nothing can be read."""

    def __init__(self, lines):
        self.lines = iter(lines)

    def __iter__(self):
        return self

    def __next__(self):
        line = next(self.lines, None)
        if line is None:
            raise OSError("broken")
        return line


def hold_unreadable(converter):
    """What is behind a fault and cannot be read may have a notice that withdraws it."""
    why = "what is behind it cannot be read: broken, and nothing can be said"
    for lines, wanted in [(OVERTAKES, f"line 4: {why} of line 4 then"), (TWICE, f"line 7: {why} from there on")]:
        with redirect_stdout(io.StringIO()):
            got = converter.module.check(converter.module.Lines(Unreadable(f"{line}\n" for line in lines)), ASKED, deque())
        converter.hold("a trace that cannot be read to its end", got, wanted)


def hold_unread(converter):
    """Where nobody reads on it ends by the signal, and says nothing."""
    unread, output = os.pipe()
    os.close(unread)
    ran = subprocess.run([sys.executable, CONVERTER, "mine"], input=LEGAL, stdout=output, stderr=subprocess.PIPE, timeout=120)
    os.close(output)
    converter.hold("an output that nobody reads", (ran.returncode, ran.stderr), (-signal.SIGPIPE, b""))


def main(program=None):
    converter, path = Converter(), os.environ["PATH"]
    # an output that cannot be written is found as late as it is by default
    os.environ.pop("PYTHONUNBUFFERED", None)
    hold_marks(converter)
    hold_written(converter)
    hold_kernels(converter)
    hold_burst(converter)
    with tempfile.TemporaryDirectory() as folder:
        wqrun = Path(folder, "wqrun")
        wqrun.write_text(MODEL.format(checks=str(CONVERTER.parents[2] / "checks")))
        wqrun.chmod(0o755)
        os.environ["PATH"] = f"{Path(program).resolve().parent if program else folder}:{path}"
        hold_verdicts(converter, VERDICTS, ITEMS)
        hold_verdicts(converter, WIDE, 65536)
        hold_words(converter, folder, WORDS)
        hold_unreadable(converter)
        hold_unread(converter)
        wqrun.write_text(LONG)
        os.environ["PATH"] = f"{folder}:{path}"
        hold_words(converter, folder, [("--check mine", LEGAL * 10000, "", 4, "legal\n")])
    print(f"trace lines: {converter.count} traces, {converter.faults} not as wanted")
    return 1 if converter.faults else 0


if __name__ == "__main__":
    if len(sys.argv) > 2:
        sys.exit("usage: checks/trace_lines.py [PROGRAM]")
    sys.exit(main(*sys.argv[1:]))
