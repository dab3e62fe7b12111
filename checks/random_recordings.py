#!/usr/bin/env python3
"""Runs random recordings with the program that is named, beside what docs/DEFINITIONS.md and docs/FORMATS.md say of them:
random_recordings.py PROGRAM.

Half of them are histories and half are traces, and each second one is spoiled in one place. What an event or a mark may follow is
read off the lists of all that came before it, as the definitions do; no state is kept. Each refusal comes, and of each event and
each mark each cause. A text that fails is made again from its number. Further texts go on behind the line that decides them: it is
not waited for.
"""
import random
import subprocess
import sys
import tempfile
from pathlib import Path
from typing import NamedTuple

from texts import LAST, Language, Refused, below, lines_of, need, spoil_byte, words_of

TEXTS = 3000
LINES = 40
LONGEST = 4096
# texts that stay open behind what decides them: an event that may not come, a faulty line, or a line of a byte too many
GO_ON = [b"trace 1\nitems 2\nqueue 0\nstart 1\n", b"trace 1\nitems 2\nqueue 0\nx\n"]
GO_ON += [b"history 1\nitems 2\nsenders 1\n0 queue 0\no begin 2\n", b"history 1\n" + b"#" * (LONGEST + 1)]
WHYS = ["closed", "draining", "contended", "cancelled"]


# What a history says: lists and counts of its events.


class Event(NamedTuple):
    kind: str
    number: int = None
    sender: int = None
    why: str = None


def accepted(h):
    return [e.number for e in h if e.kind in ("Push", "Chain")]


def begun(h):
    return [e.number for e in h if e.kind == "Begin"]


def ended(h):
    return [e.number for e in h if e.kind == "End"]


def unbegun(h):
    return accepted(h)[len(begun(h)) :]


def running(h):
    """The number that runs, in a list, or none."""
    return begun(h)[len(ended(h)) :][:1]


def left(h):
    return accepted(h)[len(ended(h)) :]


def count(h, kinds, *wanted):
    return sum(e.kind in kinds and wanted == (e.number, e.sender)[: len(wanted)] for e in h)


def is_pending(h, k):
    return count(h, ("Back", "Begin"), k) < count(h, ("Hold", "Chain"), k)


def holds(h, s, k):
    return count(h, ("Push", "Back"), k, s) < count(h, ("Hold",), k, s)


def is_closed(h):
    return count(h, ("Close",)) > 0


def has_drained(h):
    return count(h, ("Drain",)) > 0


def is_shut(h):
    """Closed, or drained after the last resume."""
    resumes = [place for place, e in enumerate(h) if e.kind == "Resume"]
    return is_closed(h) or has_drained(h[resumes[-1] + 1 :] if resumes else h)


def is_draining(h):
    return is_shut(h) and not is_closed(h)


# which parts the rule of each kind of event has, in order; each is named by the cause that it is where it fails
EVENT_RULES = {
    "Hold": ["pending"],
    "Busy": ["idle"],
    "Push": ["not held", "closed", "draining"],
    "Back": ["not held", "open", "never drained"],
    "Take": ["closed", "draining"],
    "Close": ["closed"],
    "Drain": ["closed", "draining"],
    "Resume": ["not draining", "not ended"],
    "Begin": ["runs", "not waiting", "next"],
    "End": ["nothing runs", "runs"],
    "Chain": ["open", "nothing runs", "pending"],
    "ChainBusy": ["open", "nothing runs", "idle"],
    "Rest": ["closed", "draining", "not ended"],
}

# whether a part fails for the event e after the events h
EVENT_FAILS = {
    "pending": lambda h, e: is_pending(h, e.number),
    "idle": lambda h, e: not is_pending(h, e.number),
    "not held": lambda h, e: not holds(h, e.sender, e.number),
    "closed": lambda h, e: is_closed(h),
    "draining": lambda h, e: is_draining(h),
    "not draining": lambda h, e: not is_draining(h),
    "never drained": lambda h, e: e.why == "draining" and not has_drained(h),
    "open": lambda h, e: e.why == "closed" and not is_closed(h) if e.kind == "Back" else not is_shut(h),
    "runs": lambda h, e: running(h) not in ([], [e.number] if e.kind == "End" else []),
    "nothing runs": lambda h, e: not running(h),
    "not waiting": lambda h, e: e.number not in unbegun(h),
    "next": lambda h, e: e.number != unbegun(h)[0],
    "not ended": lambda h, e: len(ended(h)) != len(accepted(h)),
}


def of_history(h):
    """The lines that are said of a legal history, all but what is left."""
    yes = lambda it: "yes" if it else "no"
    return [
        f"events {len(h)}",
        f"accepted {len(accepted(h))}",
        f"chained {count(h, ('Chain',))}",
        f"executed {len(ended(h))}",
        f"busy {count(h, ('Busy', 'ChainBusy'))}",
        f"refused {sum(e.why in ('closed', 'draining') for e in h)}",
        f"waiting {len(accepted(h)) - len(ended(h))}",
        f"most waiting {max(len(unbegun(h[:moment])) for moment in range(len(h) + 1))}",
        f"closed {yes(is_closed(h))}",
        f"complete {yes(is_closed(h) and len(ended(h)) == len(accepted(h)))}",
    ]


# What a trace says: three lists of its marks.


def shown(t, kind):
    return [m.number for m in t if m.kind == kind]


def executing(t):
    """The item whose function runs, in a list, or none."""
    return shown(t, "start")[len(shown(t, "end")) :][:1]


def unstarted(t):
    return shown(t, "queue")[len(shown(t, "start")) :]


def surely_unbegun(t):
    """What waits for its start and has not begun, but for the one that may have begun unseen where no function runs."""
    return unstarted(t)[0 if executing(t) else 1 :]


MARK_RULES = {"queue": ["pending"], "start": ["runs", "not waiting", "next"], "end": ["nothing runs", "runs"]}

MARK_FAILS = {
    "pending": lambda t, m: m.number in surely_unbegun(t),
    "runs": lambda t, m: executing(t) not in ([], [m.number] if m.kind == "end" else []),
    "nothing runs": lambda t, m: not executing(t),
    "not waiting": lambda t, m: m.number not in unstarted(t),
    "next": lambda t, m: m.number != unstarted(t)[0],
}


def unreturned(t):
    return shown(t, "queue")[len(shown(t, "end")) :]


def of_trace(t):
    """The lines that are said of a legal trace, all but what is left."""
    counts = {kind: len(shown(t, kind)) for kind in ("queue", "start", "end")}
    moments = [t[:moment] for moment in range(len(t) + 1)]
    return [
        f"marks {len(t)}",
        f"queued {counts['queue']}",
        f"started {counts['start']}",
        f"ended {counts['end']}",
        f"waiting {counts['queue'] - counts['end']}",
        f"most waiting {max(len(shown(it, 'queue')) - len(shown(it, 'start')) for it in moments)}",
    ]


# What the lines of a text say, or the first thing that is wrong with one of them.


class Recording(Language):
    """One kind of recording: what its lines may follow, and what is said of them."""

    MOST = {"items": 65536, "senders": 64, "barriers": 16}

    def __init__(self):
        super().__init__()
        # what was told, and which part of a rule was last seen to fail
        self.told, self.broken = [], None

    def tell(self, it):
        """The cause why it may not come, or nothing and it is told."""
        cause = next((part for part in self.RULES[it.kind] if self.FAILS[part](self.told, it)), None)
        if cause is None:
            self.told.append(it)
        else:
            self.broken = f"{it.kind} {cause}"
        named = {"runs": self.runs, "next": self.waits}.get(cause, lambda _: [])(self.told)
        return " ".join([cause, *map(self.name, named[:1])]) if cause else None

    def report(self, verdict):
        return "".join(f"{line}\n" for line in [*verdict, *self.lines(self.told), f"left{self.names(self.left(self.told))}"])


class History(Recording):
    VERSION, HEADER, WHAT = b"history 1", ("items", "senders", "barriers"), "event"
    OWNERS = {"take": "Take", "close": "Close", "drain": "Drain", "resume": "Resume", "begin": "Begin", "end": "End"}
    OWNERS |= {"chain": "Chain", "busy": "ChainBusy", "rest": "Rest"}
    SENDERS = {"hold": ["Hold"], "busy": ["Busy"], "push": ["Push"], "back": ["Back"]}
    SENDERS |= {"queue": ["Hold", "Push"], "refused": ["Hold", "Back"]}
    RULES, FAILS, runs, waits = EVENT_RULES, EVENT_FAILS, staticmethod(running), staticmethod(unbegun)
    left, lines = staticmethod(left), staticmethod(of_history)

    def counts(self, words):
        if len(words) < 2:
            return ()
        if words[0] == "o":
            alone = ("take", "close", "drain", "resume", "rest")
            return ((2,) if words[1] in alone else (3,)) if words[1] in self.OWNERS else ()
        if words[1] == "back":
            return (4,) if words[-1] in WHYS else ()
        return (3,) if words[1] in self.SENDERS else ()

    def says(self, words):
        if words[0] != "o":
            sender, k = below("Sender", words[0], self.size["senders"]), self.number_of(words[2])
            why = words[3] if words[1] == "back" else "closed"
            return [Event(kind, k, sender, why if kind == "Back" else None) for kind in self.SENDERS[words[1]]]
        if words[1] in ("chain", "busy"):
            return [Event(self.OWNERS[words[1]], below("Item", words[2], self.size["items"]))]
        return [Event(self.OWNERS[words[1]], *map(self.number_of, words[2:]))]


class Trace(Recording):
    VERSION, HEADER, WHAT = b"trace 1", ("items",), "mark"
    RULES, FAILS, runs, waits = MARK_RULES, MARK_FAILS, staticmethod(executing), staticmethod(unstarted)
    left, lines = staticmethod(unreturned), staticmethod(of_trace)

    def counts(self, words):
        return (2,) if words[0] in ("queue", "start", "end") else ()

    def says(self, words):
        return [Event(words[0], below("Item", words[1], self.size["items"]))]


def language_of(line):
    need("Version", line in (History.VERSION, Trace.VERSION))
    return History() if line == History.VERSION else Trace()


def read(text):
    """The language after the line that decides, with the lines of its verdict."""
    language = None
    for line in lines_of(text):
        try:
            need("Size", len(line.text) <= LONGEST)
            need("Cut", line.is_ended or not line.text)
            words = [] if language is None else words_of(line.text)
            language = language or language_of(line.text)
            said = language.line(words) if words else []
        except Refused as refused:
            raise Refused(f"line {line.place}: {refused}")
        for it in said:
            cause = language.tell(it)
            if cause:
                place = len(language.told) + 1
                return language, ["not legal", f"line {line.place}", f"{language.WHAT} {place}", f"cause {cause}"]
    if language.is_short():
        raise Refused(f"line {line.place + 1}: Header")
    return language, ["legal"]


def outcome(text, drained=False):
    """The status, and what is written on standard output and standard error; and which part of a rule failed, if one did."""
    try:
        language, verdict = read(text)
    except Refused as refused:
        return (1, "", f"{refused}\n"), None
    is_bad = verdict != ["legal"] or drained and language.left(language.told)
    return (4 if is_bad else 0, language.report(verdict), ""), language.broken


def judged(text, drained=False):
    """The status, and what is written on standard output and standard error."""
    return outcome(text, drained)[0]


# Random texts.


def random_number(draws, size):
    barriers = [f"b{barrier}" for barrier in range(min(size["barriers"], 2))]
    return draws.choice([*map(str, range(min(size["items"], 3))), *barriers, "stop"])


def random_line(draws, kind, size):
    """A line of the language for a queue of this size, allowed or not."""
    item = str(draws.randrange(min(size["items"], 3)))
    if kind is Trace:
        return f"{draws.choice(['queue', 'start', 'end'])} {item}"
    any_number, seat = random_number(draws, size), draws.randrange(size["senders"])
    owners = [f"o {word} {any_number}" for word in ("begin", "begin", "end")] * 4
    owners += [f"o chain {item}", f"o busy {item}", "o take", "o rest", draws.choice(["o close", "o take"])]
    owners += ["o drain", "o resume", "o resume"]
    senders = [f"{seat} {word} {any_number}" for word in ("hold", "busy", "push", "push", "queue", "queue", "refused")]
    return draws.choice(owners + senders + [f"{seat} back {any_number} {draws.choice(WHYS)}"])


def held_line(draws, language):
    """What a sender does with a number that it holds, or nothing where none holds any."""
    h = language.told
    held = sorted({(e.sender, e.number) for e in h if e.kind == "Hold" and holds(h, e.sender, e.number)})
    if not held:
        return None
    (seat, k), why = draws.choice(held), draws.choice(WHYS)
    return draws.choice([f"{seat} push {language.name(k)}", f"{seat} back {language.name(k)} {why}"])


def random_header(draws, kind):
    """A language that awaits what is behind its header, and the lines of that."""
    language = kind()
    lines = [f"items {draws.choice([1, 2, 3, 4, 65536])}"]
    if kind is History:
        lines.append(f"senders {draws.choice([1, 2, 3, 64])}")
        lines += draws.choice([[], [], [f"barriers {draws.choice([1, 2, 16])}"]])
    for line in lines:
        language.line(line.split(" "))
    return language, [kind.VERSION.decode(), *lines]


def random_legal(draws, kind):
    """The lines of a text whose verdict is `legal`; and lines that may not come, each with its place, by the part of a rule that fails."""
    language, lines = random_header(draws, kind)
    wanted, refused = len(lines) + draws.randrange(4, LINES), {}
    for _ in range(3 * LINES):
        line = (draws.randrange(6) == 0 and held_line(draws, language)) or random_line(draws, kind, language.size)
        before = list(language.told)
        if any(language.tell(it) for it in language.line(line.split(" "))):
            refused.setdefault(language.broken, []).append((len(lines), line))
            language.told = before
        else:
            lines.append(line)
        if len(lines) >= wanted:
            break
    return language.size, lines, refused


def pass_over(draws, lines):
    """Puts in lines that are passed over."""
    for _ in range(draws.randrange(4)):
        passed_over = draws.choice(["", "#", "# x  y\t", "#" * 80, "#" * (LONGEST - 1), "#" * LONGEST])
        lines.insert(draws.randrange(1, len(lines) + 1), passed_over)


STRANGE = ["", "x", "01", "+1", "4", "65536", "b0", "b01", "b16", "stop", "end", "o", "items", "senders", "barriers", "queue"]
STRANGE += [str(LAST), str(LAST + 1), "0 0", "0 1", "1 1", " "]
EDGES = [(1, "items 0"), (1, "items 65537"), (2, "senders 0"), (2, "senders 65"), (3, "barriers 0"), (3, "barriers 17")]


def spoil_line(draws, kind, size, lines, refused):
    """Another line at one place: none, a copy, two that change places, one too long, one with another word, a random one, or one that
    may not come there."""
    at, other, way = draws.randrange(len(lines)), draws.randrange(len(lines)), draws.randrange(24)
    if way < 2:
        del lines[at]
    elif way < 4:
        lines.insert(at, lines[other])
    elif way < 6:
        lines[at], lines[other] = lines[other], lines[at]
    elif way == 6:
        lines[at] = draws.choice(["#", "x"]) * (LONGEST + draws.randrange(2))
    elif way == 7:
        place, edge = draws.choice(EDGES)
        lines[place : place + 1] = [edge]
    elif way < 12:
        words = lines[at].split(" ")
        place = draws.randrange(len(words))
        words[place] = draws.choice(STRANGE) if way < 10 else random_number(draws, size)
        lines[at] = " ".join(words)
    elif way < 16 or not refused:
        larger = {word: value + draws.randrange(2) for word, value in size.items()}
        lines.insert(draws.randrange(1, len(lines) + 1), random_line(draws, kind, larger))
    else:
        lines.insert(*draws.choice(refused[draws.choice(list(refused))]))


def random_text(number):
    draws = random.Random(number)
    kind = (History, Trace)[number // 2 % 2]
    size, lines, refused = random_legal(draws, kind)
    by_line = number % 2 and draws.randrange(4)
    if by_line:
        spoil_line(draws, kind, size, lines, refused)
    pass_over(draws, lines)
    text = "".join(f"{line}\n" for line in lines).encode()
    return spoil_byte(draws, text) if number % 2 and not by_line else text


# The program beside them.

KINDS = {
    "history": "Size Version Cut Bytes Space Word Header Count Number Items Senders Barriers Sender Item Barrier".split(),
    "trace": "Size Version Cut Bytes Space Word Header Count Number Items Item".split(),
}
# each part of each rule that may fail
PARTS = {
    kind: [f"{it} {part}" for it, parts in rules.items() for part in parts]
    for kind, rules in (("history", EVENT_RULES), ("trace", MARK_RULES))
}


def wanting(seen):
    """The verdicts that came of no text."""
    wanted = [(kind, it) for kind in KINDS for it in ["0", "4", *KINDS[kind], *PARTS[kind]]]
    return [f"no {kind} of {it}" for kind, it in wanted if (kind, it) not in seen]


def verdicts(kind, want, broken):
    """What is said of a text, in a word: its status, its kind of refusal, the part of a rule that fails."""
    status, _, said = want
    return [(kind, it) for it in (str(status), said.strip().rpartition(" ")[2], broken)]


def run(program, file, text, drained):
    file.write_bytes(text)
    ran = subprocess.run([program, "check", *["--drained"] * drained, file], capture_output=True, timeout=60)
    return ran.returncode, ran.stdout.decode(errors="replace"), ran.stderr.decode(errors="replace")


def fault_at_once(program, text):
    """What is wrong where this text goes on behind what decides it, or nothing."""
    pipes = {"stdin": subprocess.PIPE, "stdout": subprocess.PIPE, "stderr": subprocess.PIPE}
    ran = subprocess.Popen([program, "check", "/dev/stdin"], **pipes)
    ran.stdin.write(text)
    ran.stdin.flush()
    try:
        got = ran.wait(timeout=20), ran.stdout.read().decode(), ran.stderr.read().decode()
        return "" if got == judged(text) else f"a text that goes on behind {text[-20:]}: {got} and not {judged(text)}"
    except subprocess.TimeoutExpired:
        ran.kill()
        return f"what stands behind {text[-20:]}, which decides, is waited for"


def main(program):
    program, seen, faults = Path(program).resolve(), set(), []
    with tempfile.TemporaryDirectory() as folder:
        for number in range(TEXTS):
            text, drained = random_text(number), number // 4 % 2
            want, broken = outcome(text, drained)
            got = run(program, Path(folder) / "text", text, drained)
            seen.update(verdicts(("history", "trace")[number // 2 % 2], want, broken))
            faults += [f"text {number}: {got} and not {want}"] if got != want else []
    faults += wanting(seen) + [it for it in [fault_at_once(program, text) for text in GO_ON] if it]
    print("\n".join([*faults, f"random recordings: {TEXTS + len(GO_ON)} texts run, {len(faults)} not as wanted"]))
    return 1 if faults else 0


if __name__ == "__main__":
    sys.exit(main(sys.argv[1]) if len(sys.argv) == 2 else "usage: checks/random_recordings.py PROGRAM")
