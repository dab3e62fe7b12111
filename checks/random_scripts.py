#!/usr/bin/env python3
"""Runs random scripts and schedules with the program that is named, beside what docs/FORMATS.md says of them: random_scripts.py PROGRAM.

Both languages in both versions; each second text is spoiled in one place. The models are written from the tables of that page: a
queue and its delay table as plain lists, whose commands are taken whole, and the words of the machine of single steps. What is
compared is all that is written and the status, so a refusal's line and its kind too. Each kind of refusal but Size comes, and of
each command and each step each line of output that it may have. A text that fails is made again from its number.
"""
import random
import re
import subprocess
import sys
import tempfile
from collections import Counter
from pathlib import Path

from texts import LAST, Language, Refused, below, lines_of, need, number, spoil_byte, words_of

TEXTS = 12000
LINES = 24
LONGEST_TEXT = 1048576
LONGEST_DELAY = 2**32 - 1


# Scripts: what the queue and its delay table are, and what each command does to them.


class Queue:
    """What stands on the list, what was taken, what is pending, and the counts of a report."""

    def __init__(self, size):
        self.items, self.barriers = size["items"], size["barriers"]
        self.listed, self.batch, self.pending, self.phase = [], [], set(), "open"
        self.follows, self.table, self.tick, self.armings = {}, [], 0, 0
        self.counts = Counter()

    @property
    def stop(self):
        return self.items + self.barriers

    def refuse(self):
        self.counts["refused"] += 1
        return self.phase

    def push(self, k):
        """Queues what its caller holds, on an open queue."""
        said = "true" if self.listed else "true first"
        self.listed.append(k)
        self.pending.add(k)
        self.counts["accepted"] += 1
        return said

    def queue(self, k):
        if k in self.pending:
            self.counts["busy"] += 1
            return "false pending"
        return self.push(k) if self.phase == "open" else f"false {self.refuse()}"

    def chain(self, k):
        if k in self.pending:
            self.counts["busy"] += 1
            return
        self.batch.append(k)
        self.pending.add(k)
        self.counts += Counter(accepted=1, chained=1)

    def take(self):
        self.batch, self.listed = [*self.batch, *self.listed], []

    def execute(self, most, ends_after_stop):
        """What was executed, at most so many."""
        ran = []
        while len(ran) < most and not (ends_after_stop and ran[-1:] == [self.stop]):
            if not self.batch and self.phase == "open":
                self.take()
            if not self.batch:
                break
            k = self.batch.pop(0)
            self.pending.discard(k)
            for item in self.follows.get(k, []):
                self.queue(item) if self.phase == "open" else self.chain(item)
            self.counts["executed"] += 1
            ran.append(k)
        return ran

    def left(self):
        return self.counts["accepted"] - self.counts["executed"]

    def close(self):
        if self.phase == "closed":
            return "already closed"
        taken = len(self.listed)
        self.take()
        self.phase = "closed"
        return f"closed {taken}"

    def drain(self, most):
        """What was executed, and how it ended."""
        ran = self.execute(most, False)
        return ran, f"too long left {self.left()}" if self.left() else "empty"

    # the delay table, as (due, arming, item)

    def is_on(self, item):
        return any(entry[2] == item for entry in self.table)

    def take_off(self, item):
        self.table = [entry for entry in self.table if entry[2] != item]
        self.pending.discard(item)

    def put(self, item, delay):
        self.take_off(item)
        self.table.append((self.tick + delay, self.armings, item))
        self.armings += 1
        self.pending.add(item)

    def is_too_far(self, delay):
        return delay > LONGEST_DELAY or self.tick + delay > LAST

    def arm(self, item, delay):
        if self.is_too_far(delay):
            return "false too far"
        if delay == 0 or item in self.pending:
            return self.queue(item)
        self.put(item, delay)
        return "on table"

    def modify(self, item, delay):
        if self.is_too_far(delay):
            return "too far"
        was_on = self.is_on(item)
        if not was_on and item in self.pending:
            self.counts["busy"] += 1
            return "pending"
        said = "moved" if was_on else "was idle"
        if delay > 0:
            self.put(item, delay)
            return said
        if was_on and self.phase == "draining":
            return "draining"
        self.take_off(item)
        if self.phase != "open":
            return self.refuse()
        self.push(item)
        return said

    def cancel(self, item):
        if not self.is_on(item):
            return "not on table"
        self.take_off(item)
        return "cancelled"

    def advance(self, tick):
        """The word of the answer and the items behind it, or None where the tick is earlier."""
        if tick < self.tick:
            return None
        self.tick = tick
        due = [entry[2] for entry in sorted(self.table) if entry[0] <= tick and self.phase != "draining"]
        for item in due:
            self.take_off(item)
            self.push(item) if self.phase == "open" else self.refuse()
        return "refused" if due and self.phase == "closed" else "pushed", due

    def report(self):
        words = ("accepted", "chained", "executed", "busy", "refused")
        counts = [f"{word} {self.counts[word]}" for word in words]
        return [*counts, f"delayed {len(self.table)}", f"waiting {self.left()}"]


class Script(Language):
    HEADER = ("items", "senders", "barriers")
    # how many words a command has, and what they are
    COMMANDS = {
        "queue": ("sender", "item"),
        "run": ("limit",),
        "close": (),
        "report": (),
        "flush": ("sender", "barrier"),
        "done": ("sender", "barrier"),
        "stop": ("sender",),
        "drain": ("limit",),
        "check": ("item",),
        "arm": ("item", "number"),
        "cancel": ("item",),
        "modify": ("item", "number"),
        "advance": ("number",),
    }

    def __init__(self):
        super().__init__()
        self.state = None

    def counts(self, words):
        if words[0] == "follow":
            return range(2, 7)
        return (len(self.COMMANDS[words[0]]) + 1,) if words[0] in self.COMMANDS else ()

    def value(self, what, word):
        if what == "limit":
            value = number(word)
            need("Limit", 1 <= value <= 65536)
            return value
        return number(word) if what == "number" else below(what.title(), word, self.size[f"{what}s"])

    def says(self, words):
        wanted = self.COMMANDS.get(words[0], ["item"] * (len(words) - 1))
        return [(words[0], [self.value(what, word) for what, word in zip(wanted, words[1:])])]

    def does(self, said):
        """The lines of output of a command."""
        word, values = said
        queue = self.state = self.state or Queue(self.size)
        if word == "follow":
            queue.follows[values[0]] = values[1:]
            return []
        if word in ("queue", "flush", "stop"):
            return [queue.queue({"queue": 0, "flush": queue.items, "stop": queue.stop}[word] + sum(values[1:]))]
        if word == "done":
            return ["false" if queue.items + values[1] in queue.pending else "true"]
        if word == "check":
            return ["pending" if values[0] in queue.pending else "idle"]
        if word == "run":
            return [f"ran{self.names(queue.execute(values[0], True))}"]
        if word == "drain":
            return self.drains(queue, values[0])
        if word == "advance":
            went = queue.advance(values[0])
            return [f"{went[0]}{self.names(went[1])}" if went else "false backwards"]
        answer = getattr(queue, word)(*values)
        return answer if word == "report" else [answer]

    def ends(self):
        return []


class Script1(Script):
    VERSION, MOST = b"wq 1", {"items": 4096, "senders": 62, "barriers": 16}

    def drains(self, queue, most):
        if queue.phase != "closed":
            return ["not closed"]
        ran, end = queue.drain(most)
        return [f"ran{self.names(ran)}", end]


class Script2(Script):
    VERSION, MOST = b"wq 2", {"items": 65536, "senders": 62, "barriers": 16}

    def drains(self, queue, most):
        if queue.phase == "open":
            queue.take()
            queue.phase = "draining"
        ran, end = queue.drain(most)
        if end == "empty" and queue.phase == "draining":
            queue.phase = "open"
        return [f"ran{self.names(ran)}", end]


# Schedules: the words of a queue, what each seat keeps in private, and each step.

IDLE, BUSY, CLOSED, DRAINING = "idle", "busy", "closed", "draining"
EMPTY = (IDLE, BUSY)


class Sender:
    """What a sender keeps beside the numbers that it holds."""

    def __init__(self):
        self.held, self.seen, self.linked = set(), None, None


class Machine:
    """Each step gives its reply, or None where it is not enabled, and then changes nothing."""

    def __init__(self, size, name):
        self.head, self.links, self.bits, self.name = IDLE, {}, set(), name
        self.senders = [Sender() for _ in range(size["senders"])]
        self.phase, self.cursor, self.walked, self.batch, self.running = "open", None, [], [], None
        self.accepted, self.begun = [], []

    def said(self, head):
        return head if head in (CLOSED, DRAINING) else "empty" if head in EMPTY else f"item {self.name(head)}"

    # a sender's steps

    def hold(self, s, k):
        if k in self.bits:
            return "busy"
        self.bits.add(k)
        self.senders[s].held.add(k)
        return "held"

    def look(self, s):
        self.senders[s].seen, self.senders[s].linked = self.head, None
        return self.said(self.head)

    def link(self, s, k):
        sender = self.senders[s]
        if k not in sender.held or sender.seen in (None, CLOSED, DRAINING):
            return None
        self.links[k] = None if sender.seen in EMPTY else sender.seen
        sender.linked = k
        return "linked"

    def push(self, s, k):
        sender = self.senders[s]
        if sender.linked != k:
            return None
        seen, sender.seen, sender.linked = sender.seen, None, None
        if self.head != seen:
            return "lost"
        self.head = k
        sender.held.remove(k)
        self.accepted.append(k)
        return "pushed first" if seen in EMPTY else "pushed"

    def back(self, s, k, why):
        sender = self.senders[s]
        if k not in sender.held or why in (CLOSED, DRAINING) and sender.seen != why:
            return None
        sender.held.remove(k)
        self.bits.remove(k)
        sender.linked = None if sender.linked == k else sender.linked
        return f"back {why}"

    def check(self, s, k):
        return "pending" if k in self.bits else "idle"

    # the owner's steps

    def swap(self, word, head):
        old, self.head = self.head, head
        self.cursor = None if old in (*EMPTY, CLOSED, DRAINING) else old
        return f"{word} {self.said(old)}"

    def take(self):
        is_enabled = self.phase == "open" and self.cursor is None and not self.batch
        return self.swap("took", BUSY) if is_enabled else None

    def close(self):
        if self.phase == "closed" or self.cursor is not None:
            return None
        self.phase = "closed"
        return self.swap("closed", CLOSED)

    def drain(self):
        if self.phase != "open" or self.cursor is not None:
            return None
        self.phase = "draining"
        return self.swap("drained", DRAINING)

    def rests(self):
        return self.cursor is None and not self.batch and self.running is None

    def resume(self):
        if self.phase != "draining" or not self.rests():
            return None
        self.phase = "open"
        self.swap("resumed", BUSY)
        return "resumed"

    def leads_to(self, link):
        return "end" if link is None else f"next {self.name(link)}"

    def walk(self):
        if self.cursor is None:
            return self.leads_to(self.links[self.batch[0]]) if self.batch else None
        link = self.links[self.cursor]
        self.walked.append(self.cursor)
        self.cursor = link
        if link is None:
            self.batch, self.walked = [*self.batch, *reversed(self.walked)], []
        return self.leads_to(link)

    def turn(self, k, link):
        if k not in self.walked and k not in self.batch:
            return None
        self.links[k] = link
        return "turned"

    def begin(self):
        if self.cursor is not None or not self.batch or self.running is not None:
            return None
        self.running = self.batch.pop(0)
        self.bits.remove(self.running)
        self.begun.append(self.running)
        return f"began {self.name(self.running)}"

    def end(self):
        if self.running is None:
            return None
        ended, self.running = self.running, None
        return f"ended {self.name(ended)}"

    def chain(self, k):
        if self.phase == "open" or self.cursor is not None or self.running is None:
            return None
        if k in self.bits:
            return "busy"
        self.bits.add(k)
        self.batch.append(k)
        self.links.setdefault(k, None)
        self.accepted.append(k)
        return f"chained {self.name(k)}"

    def rest(self):
        if self.phase != "open" or not self.rests():
            return None
        if self.head != BUSY:
            return "lost"
        self.head = IDLE
        return "rested"


class Schedule(Language):
    HEADER = ("items", "senders", "barriers")
    # what follows the word of a step
    SENDERS = {"hold": ("number",), "look": (), "link": ("number",), "push": ("number",), "back": ("number", "why"), "check": ("number",)}
    OWNERS = {"take": (), "close": (), "walk": (), "turn": ("number", "link"), "begin": (), "end": (), "chain": ("item",), "rest": ()}
    WHYS = ("closed", "contended", "cancelled")

    def __init__(self):
        super().__init__()
        self.state = None

    def counts(self, words):
        steps = self.OWNERS if words[0] == "o" else self.SENDERS
        if len(words) < 2 or words[1] not in steps or words[1] == "back" and words[-1] not in self.WHYS:
            return ()
        return (2 + len(steps[words[1]]),)

    def value(self, what, word):
        if what == "why" or what == "link" and word == "end":
            return None if what == "link" else word
        return below("Item", word, self.size["items"]) if what == "item" else self.number_of(word)

    def says(self, words):
        is_owner = words[0] == "o"
        seat = [] if is_owner else [below("Sender", words[0], self.size["senders"])]
        wanted = (self.OWNERS if is_owner else self.SENDERS)[words[1]]
        return [(words[1], seat + [self.value(what, word) for what, word in zip(wanted, words[2:])])]

    def does(self, said):
        word, values = said
        self.state = self.state or Machine(self.size, self.name)
        return [getattr(self.state, word)(*values) or "not enabled"]

    def ends(self):
        state = self.state or Machine(self.size, self.name)
        return [f"accepted{self.names(state.accepted)}", f"begun{self.names(state.begun)}"]


class Schedule1(Schedule):
    VERSION, MOST = b"steps 1", {"items": 4096, "senders": 64, "barriers": 16}


class Schedule2(Schedule):
    VERSION, MOST = b"steps 2", {"items": 65536, "senders": 64, "barriers": 16}
    OWNERS = {**Schedule.OWNERS, "drain": (), "resume": ()}
    WHYS = (*Schedule.WHYS, "draining")


# A whole text.


def language_of(line, kinds):
    kind = next((kind for kind in kinds if kind.VERSION == line), None)
    need("Version", kind)
    return kind()


def read(text, kinds):
    """The language, and what its lines say."""
    if len(text) > LONGEST_TEXT:
        raise Refused("line 1: Size")
    language, said = None, []
    for line in lines_of(text):
        try:
            need("Cut", line.is_ended or not text)
            words = [] if language is None else words_of(line.text)
            language = language or language_of(line.text, kinds)
            said += language.line(words) if words else []
        except Refused as refused:
            raise Refused(f"line {line.place}: {refused}")
    if language.is_short():
        raise Refused(f"line {line.place + 1}: Header")
    return language, said


def outcome(text, kinds):
    """The status, and what is written on standard output and standard error; and each line of a command or a step, with its word."""
    try:
        language, said = read(text, kinds)
    except Refused as refused:
        return (1, "", f"{refused}\n"), []
    told = [(it[0], line) for it in said for line in language.does(it)]
    lines = [*(line for _, line in told), *language.ends()]
    return (0, "".join(f"{line}\n" for line in lines), ""), told


# Random texts.

SCRIPTS, SCHEDULES = (Script1, Script2), (Schedule1, Schedule2)
TICKS = [0, 1, 1, 2, 3, 255, 256, 257, 600, LONGEST_DELAY, LONGEST_DELAY + 1]
FEW = [1, 1, 2, 3, 9]


def random_command(draws, size):
    item, other = (draws.randrange(min(size["items"], 4)) for _ in range(2))
    sender, barrier = draws.randrange(size["senders"]), draws.randrange(size["barriers"])
    follows = " ".join(str(draws.randrange(min(size["items"], 4))) for _ in range(draws.randrange(5)))
    queueing = [f"queue {sender} {item}"] * 5 + [f"flush {sender} {barrier}", f"stop {sender}", f"arm {item} 0"]
    running = [f"run {draws.choice(FEW)}"] * 3 + [f"drain {draws.choice(FEW)}"] * 2 + ["report", f"check {other}", f"done {sender} {barrier}"]
    delays = [f"{draws.choice(['arm', 'arm', 'modify'])} {item} {draws.choice(TICKS)}" for _ in range(2)] + [f"modify {item} 0", f"cancel {item}"]
    later = [f"advance {draws.choice([*range(9), 256, 300, 700, LAST - 1, LAST])}"]
    seldom = [draws.choice(["close", f"follow {item} {follows}".rstrip(" "), f"follow {item} {other}"])]
    return draws.choice([*queueing, *running, *delays, *later, *seldom])


def any_step(draws, language, state):
    """A step of whichever seat, mostly not enabled."""
    numbers = [*map(str, range(min(language.size["items"], 3))), "b0", "stop"]
    seats = [str(seat) for seat in range(len(state.senders))]
    forms = {"number": numbers, "link": [*numbers, "end"], "item": numbers[:-2], "why": language.WHYS}
    seat, steps = draws.choice([("o", language.OWNERS), (draws.choice(seats), language.SENDERS)])
    word = draws.choice(list(steps))
    return " ".join([seat, word, *(draws.choice(forms[it]) for it in steps[word])])


def senders_next(draws, language, state):
    """What leads a sender on to its next push, or a number back."""
    holders = [seat for seat, sender in enumerate(state.senders) if sender.held]
    if not holders or draws.randrange(3) == 0:
        k = draws.randrange(min(language.size["items"], 4))
        return f"{draws.randrange(len(state.senders))} hold {draws.choice([k, k, k, 'b0', 'stop'])}"
    seat = draws.choice(holders)
    sender, own = state.senders[seat], language.name(draws.choice(sorted(state.senders[seat].held)))
    if sender.seen in (CLOSED, DRAINING):
        return draws.choice([f"{seat} back {own} {sender.seen}", f"{seat} look"])
    if draws.randrange(12) == 0:
        return f"{seat} back {own} {draws.choice(language.WHYS)}"
    linked = f"{seat} push {own}" if sender.linked is None else f"{seat} push {language.name(sender.linked)}"
    return f"{seat} look" if sender.seen is None else f"{seat} link {own}" if sender.linked is None else linked


def owners_next(draws, language, state):
    """What leads the owner on to its next execution, or its queue to another phase."""
    turn = draws.randrange(24)
    if turn < 2:
        return "o drain" if "drain" in language.OWNERS and draws.randrange(4) else "o close"
    if turn < 4 and (state.walked or state.batch):
        ends = [*map(language.name, sorted(state.links)), "end"]
        return f"o turn {language.name(draws.choice([*state.walked, *state.batch]))} {draws.choice(ends)}"
    if state.cursor is not None:
        return "o walk"
    if state.running is not None:
        return draws.choice(["o end", "o end", f"o chain {draws.randrange(min(language.size['items'], 4))}"])
    if state.batch:
        return draws.choice(["o begin", "o begin", "o walk"])
    return draws.choice(["o take", "o take", "o rest"]) if state.phase == "open" else "o resume" if state.phase == "draining" else "o end"


def random_step(draws, language):
    """A step that leads its seat on, or whichever."""
    state = language.state or Machine(language.size, language.name)
    leads = [senders_next, senders_next, senders_next, owners_next, owners_next]
    return draws.choice(leads if draws.randrange(8) else [any_step])(draws, language, state)


def random_header(draws, kind):
    """A language that awaits what is behind its header, and the lines up to there."""
    language = kind()
    lines = [f"items {draws.choice([1, 2, 3, 4, language.MOST['items']])}", f"senders {draws.choice([1, 2, 3, language.MOST['senders']])}"]
    lines += draws.choice([[], [], [f"barriers {draws.choice([1, 2, 16])}"]])
    for line in lines:
        language.line(line.split(" "))
    return language, [kind.VERSION.decode(), *lines]


def random_whole(draws, kind):
    """The lines of a text without a fault."""
    language, lines = random_header(draws, kind)
    for _ in range(draws.randrange(1, LINES if kind in SCRIPTS else 2 * LINES)):
        line = random_command(draws, language.size) if kind in SCRIPTS else random_step(draws, language)
        for said in language.line(line.split(" ")):
            language.does(said)
        lines.append(line)
    for _ in range(draws.randrange(3)):
        lines.insert(draws.randrange(1, len(lines) + 1), draws.choice(["", "#", "# x  y\t", "#" * 80]))
    return language, lines


STRANGE = ["", "x", "01", "+1", "0", "4", "5", "16", "17", "62", "63", "65", "65536", "65537", "4096", "4097", "b0", "b01", "b16", "stop"]
STRANGE += ["end", "o", "items", "senders", "barriers", "queue", "drain", "resume", "back", "draining", "wq", str(LAST), str(LAST + 1), "0 0"]
EDGES = [(1, "items 0"), (1, "items 4097"), (1, "items 65537"), (2, "senders 0"), (2, "senders 63"), (2, "senders 65")]
EDGES += [(3, "barriers 0"), (3, "barriers 17"), (0, "wq 2"), (0, "steps 2"), (0, "wq 3"), (4, "run 0"), (4, "run 65537"), (4, "o drain")]


def spoil_line(draws, language, lines):
    """Another line at one place: none, a copy, two that change places, one at a limit, one with another word or one word more."""
    at, other, way = draws.randrange(len(lines)), draws.randrange(len(lines)), draws.randrange(16)
    if way < 2:
        del lines[at]
    elif way < 4:
        lines.insert(at, lines[other])
    elif way < 5:
        lines[at], lines[other] = lines[other], lines[at]
    elif way < 8:
        place, edge = draws.choice(EDGES)
        lines[place : place + 1] = [edge]
    elif way < 14:
        words = lines[at].split(" ")
        place = draws.randrange(len(words) + 1)
        words[place : place + draws.randrange(2)] = [draws.choice(STRANGE)] * (draws.randrange(8) > 0)
        lines[at] = " ".join(words)
    else:
        wide = type(language)()
        wide.size = {word: value + 2 for word, value in language.size.items()}
        is_script = isinstance(wide, Script)
        line = random_command(draws, wide.size) if is_script else any_step(draws, wide, Machine(wide.size, wide.name))
        lines.insert(draws.randrange(1, len(lines) + 1), line)


def random_text(number):
    """The subcommand of a random text, and the text."""
    draws = random.Random(number)
    kind = (*SCRIPTS, *SCHEDULES)[number // 2 % 4]
    language, lines = random_whole(draws, kind)
    by_line = number % 2 and draws.randrange(4)
    if by_line:
        spoil_line(draws, language, lines)
    text = "".join(f"{line}\n" for line in lines).encode()
    return "script" if kind in SCRIPTS else "steps", spoil_byte(draws, text) if number % 2 and not by_line and text else text


# The program beside them.

KINDS = "Version Cut Bytes Space Word Header Count Number Items Senders Barriers Sender Item Barrier".split()
QUEUEINGS = ["true", "true first", "false pending", "false closed", "false draining"]
# what each command of a script and each step of a schedule may be answered, without the numbers
ANSWERS = {
    "script": {
        **dict.fromkeys(["queue", "flush", "stop"], QUEUEINGS),
        "run": ["ran"],
        "close": ["closed", "already closed"],
        "drain": ["ran", "empty", "too long left", "not closed"],
        "report": ["accepted", "chained", "executed", "busy", "refused", "delayed", "waiting"],
        "done": ["true", "false"],
        "check": ["pending", "idle"],
        "arm": [*QUEUEINGS, "on table", "false too far"],
        "modify": ["was idle", "moved", "pending", "closed", "draining", "too far"],
        "cancel": ["cancelled", "not on table"],
        "advance": ["pushed", "refused", "false backwards"],
    },
    "steps": {
        "hold": ["held", "busy"],
        "look": ["empty", "item", "closed", "draining"],
        "link": ["linked", "not enabled"],
        "push": ["pushed first", "pushed", "lost", "not enabled"],
        "back": ["back closed", "back contended", "back cancelled", "back draining", "not enabled"],
        "check": ["pending", "idle"],
        "take": ["took empty", "took item", "not enabled"],
        "close": ["closed empty", "closed item", "closed draining", "not enabled"],
        "drain": ["drained empty", "drained item", "not enabled"],
        "resume": ["resumed", "not enabled"],
        "walk": ["next", "end", "not enabled"],
        "begin": ["began", "not enabled"],
        "end": ["ended", "not enabled"],
        "chain": ["chained", "busy", "not enabled"],
        "turn": ["turned", "not enabled"],
        "rest": ["rested", "lost", "not enabled"],
    },
}


def wanting(lines, refusals):
    """The lines of each command and step, and the refusals, that came of no text; and lines that ANSWERS has not."""
    kinds = {"script": [*KINDS, "Limit"], "steps": KINDS}
    wanted = {(language, word, line) for language, words in ANSWERS.items() for word, told in words.items() for line in told}
    refused = {(language, kind) for language, of_it in kinds.items() for kind in of_it}
    missed = [f"no line {line} of {word} in {language}" for language, word, line in sorted(wanted - lines)]
    unknown = [f"a line {line} of {word} in {language}" for language, word, line in sorted(lines - wanted)]
    return missed + unknown + [f"no {language} of {kind}" for language, kind in sorted(refused - refusals)]


def without_numbers(line):
    """A line without the numbers of items, and the counts, that it ends with."""
    return re.sub(r"( (b?\d+|stop|nothing))+$", "", line)


def fault_of(program, file, command, text, want):
    """What is wrong with what becomes of a text, or nothing."""
    file.write_bytes(text)
    ran = subprocess.run([program, command, file], capture_output=True, timeout=60)
    got = ran.returncode, ran.stdout.decode(errors="replace"), ran.stderr.decode(errors="replace")
    return "" if got == want else f"{text!r}: {got} and not {want}"


def main(program):
    program, lines, refusals, faults = Path(program).resolve(), set(), set(), []
    with tempfile.TemporaryDirectory() as folder:
        for number in range(TEXTS):
            command, text = random_text(number)
            want, told = outcome(text, SCRIPTS if command == "script" else SCHEDULES)
            lines.update((command, word, without_numbers(line)) for word, line in told)
            refusals.update([(command, want[2].strip().rpartition(" ")[2])] if want[0] else [])
            fault = fault_of(program, Path(folder) / "text", command, text, want)
            faults += [f"text {number}: {fault}"] if fault else []
    faults += wanting(lines, refusals)
    print("\n".join([*faults, f"random scripts: {TEXTS} texts run, {len(faults)} not as wanted"]))
    return 1 if faults else 0


if __name__ == "__main__":
    sys.exit(main(sys.argv[1]) if len(sys.argv) == 2 else "usage: checks/random_scripts.py PROGRAM")
