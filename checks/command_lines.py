#!/usr/bin/env python3
"""Runs command lines with the program that is named: which file it opens, what it writes where, and its status.

Each runs in a folder with a script, a schedule and a plan, and with a script on standard input, a pipe but for some rows. A row is the
words, the status, and what standard output and standard error hold: the very bytes, or `Some` texts that stand in it in any order.
"""
import os
import resource
import signal
import socket
import subprocess
import sys
import tempfile
from pathlib import Path

SCRIPT = b"wq 1\nitems 4\nsenders 2\nqueue 0 1\n"
SCHEDULE = b"steps 1\nitems 4\nsenders 2\n0 look\n"
PLAN = b'{"queues":1,"workers":1,"senders":2,"own":2}'
TRACE = b"trace 1\nitems 2\nqueue 0\n"
HEADER, CLOSE = b"wq 1\nitems 4\nsenders 2\n", b"close\n"
INPUT = HEADER + CLOSE
# what was read of a file before the program is given it
BEFORE = b"read\n"
FILES = {"a.wq": SCRIPT, "a.steps": SCHEDULE, "a.json": PLAN, "steps": SCRIPT, "--help": SCHEDULE, "-": PLAN}
FILES |= {"a.trace": TRACE, "bad.trace": TRACE + b"start 1\n"}
FILES |= {"b.steps": SCHEDULE + b"0 hold 1\no take\no begin\n"}
FILES |= {" a.wq": INPUT, "a.wq ": INPUT, "read": BEFORE + INPUT}

QUEUED, CLOSED = b"true first\n", b"closed 0\n"
EMPTY = b"empty\naccepted nothing\nbegun nothing\n"
HELD = b"history 1\nitems 4\nsenders 2\nbarriers 1\n0 hold 1\no take\n"
BALANCED = b"accepted 4 ran 4 balanced yes\n"
COUNTS = b"marks 1\nqueued 1\nstarted 0\nended 0\nwaiting 1\nmost waiting 1\nleft 0\n"
LEGAL, NOT_LEGAL = b"legal\n" + COUNTS, b"not legal\nline 4\nmark 2\ncause not waiting\n" + COUNTS


class Some(tuple):
    """Texts that have to stand in what was written."""


HELP = Some([b"Usage: wqrun [COMMAND]\n", b"  check ", b"Exit status:\n", b"  4  the recording is not legal", b"/dev/stdin"])

ROWS = [
    # which text is read
    ("", 0, CLOSED, b""),
    ("script a.wq", 0, QUEUED, b""),
    ("steps a.steps", 0, EMPTY, b""),
    ("live a.json", 0, BALANCED, b""),
    ("script /dev/stdin", 0, CLOSED, b""),
    # the history of a schedule in place of its replies
    ("steps --history b.steps", 0, HELD, b""),
    ("steps b.steps --history", 0, HELD, b""),
    ("steps --history a.wq", 1, b"", b"line 1: Version\n"),
    ("steps --history none", 1, b"", b"file: Unreadable\n"),
    # a recording, and its status 4
    ("check a.trace", 0, LEGAL, b""),
    ("check --drained a.trace", 4, LEGAL, b""),
    ("check a.trace --drained", 4, LEGAL, b""),
    ("check bad.trace", 4, NOT_LEGAL, b""),
    ("check --drained bad.trace", 4, NOT_LEGAL, b""),
    # a file may have the name of a subcommand or of an option, and '-' is no more than a name
    ("script steps", 0, QUEUED, b""),
    ("steps -- --help", 0, EMPTY, b""),
    ("live -", 0, BALANCED, b""),
    # a name is taken with the spaces that it begins or ends with
    (["script", " a.wq"], 0, CLOSED, b""),
    (["script", "a.wq "], 0, CLOSED, b""),
    (["steps", " a.steps"], 1, b"", b"file: Unreadable\n"),
    (["script", ""], 1, b"", b"file: Unreadable\n"),
    ("script a.wq/", 1, b"", b"file: Unreadable\n"),
    # a text that is another's, and no file
    ("script a.steps", 1, b"", b"line 1: Version\n"),
    ("steps a.wq", 1, b"", b"line 1: Version\n"),
    ("live a.wq", 1, b"", b"plan: Json\n"),
    ("check a.wq", 1, b"", b"line 1: Version\n"),
    ("check none", 1, b"", b"file: Unreadable\n"),
    ("check .", 1, b"", b"file: Unreadable\n"),
    ("script none", 1, b"", b"file: Unreadable\n"),
    ("steps .", 1, b"", b"file: Unreadable\n"),
    # words that are no text are unreadable, and never want of memory
    (["script", b"\xff"], 1, b"", b"file: Unreadable\n"),
    ([b"a\xc3"], 1, b"", b"file: Unreadable\n"),
    ([b"\xed\xa0\x80", "a"], 1, b"", b"file: Unreadable\n"),
    (["--version", b"\xff"], 1, b"", b"file: Unreadable\n"),
    # help and the version
    ("--help", 0, HELP, b""),
    ("help", 0, HELP, b""),
    ("script --help", 0, Some([b"arm K D", b"modify K D", b"begins with 'wq 2'", b"drain N drains an open\n", b"Example:\n"]), b""),
    ("steps --help", 0, Some([b"o turn K L", b"o rest", b"begins with 'steps 2'", b"o drain, o resume", b"--history", b"Example:\n"]), b""),
    ("help live", 0, Some([b"workers, 1 to 8", b"Example:\n"]), b""),
    ("help check", 0, Some([b"--drained", b"trace 1", b"Example:\n"]), b""),
    ("--version", 0, b"wqrun 0.1.0\n", b""),
    ("-h", 0, HELP, b""),
    ("-V", 0, b"wqrun 0.1.0\n", b""),
    ("--version a.wq", 0, b"wqrun 0.1.0\n", b""),
    ("--help a.wq", 0, HELP, b""),
    # refused words
    ("race a", 2, b"", Some([b"error: unrecognized subcommand 'race'"])),
    ("script", 2, b"", Some([b"error: the following required arguments were not provided"])),
    ("check", 2, b"", Some([b"error: the following required arguments were not provided"])),
    ("steps --history", 2, b"", Some([b"error: the following required arguments were not provided"])),
    ("script --history a.wq", 2, b"", Some([b"error: unexpected argument '--history' found"])),
    ("check --history a.trace", 2, b"", Some([b"error: unexpected argument '--history' found"])),
    ("steps --drained a.steps", 2, b"", Some([b"error: unexpected argument '--drained' found"])),
    ("script --drained a.wq", 2, b"", Some([b"error: unexpected argument '--drained' found"])),
    ("check --drained --drained a.trace", 2, b"", Some([b"error: the argument '--drained' cannot be used multiple times"])),
    ("check --drained=true a.trace", 2, b"", Some([b"error: unexpected value 'true' for '--drained' found"])),
    ("check --drain a.trace", 2, b"", Some([b"error: unexpected argument '--drain' found"])),
    ("steps --history --history a.steps", 2, b"", Some([b"error: the argument '--history' cannot be used multiple times"])),
    ("script --version", 2, b"", Some([b"error: unexpected argument '--version' found"])),
    ("-- script a.wq", 2, b"", Some([b"error: unexpected argument 'script' found"])),
    ("script a b", 2, b"", Some([b"error: unexpected argument 'b' found"])),
    ("live --fast a", 2, b"", Some([b"error: unexpected argument '--fast' found"])),
    # behind help stand names of commands alone
    ("help --help", 2, b"", Some([b"error: unrecognized subcommand '--help'"])),
    ("help script --help", 2, b"", Some([b"error: unrecognized subcommand '--help'"])),
]

# how many bytes a script may have; one more is read, and no further
MOST_BYTES = 1048576
SIZES = [(MOST_BYTES, (0, CLOSED, b"")), (MOST_BYTES + 1, (1, b"", b"line 1: Size\n"))]

# Standard input that is no pipe: a file of which something was read before, a socket, a folder, and none at all; and a pipe that
# has nothing yet and does not wait. `/dev/stdin` is opened anew, so a file is read from its beginning, and a socket cannot be
# opened.
UNREADABLE = (1, b"", b"file: Unreadable\n")
INPUTS = [
    ("file", "", (0, CLOSED, b"")),
    ("file", "script /dev/stdin", (1, b"", b"line 1: Version\n")),
    ("socket", "", (0, CLOSED, b"")),
    ("socket", "script /dev/stdin", UNREADABLE),
    ("folder", "", UNREADABLE),
    ("nothing", "", UNREADABLE),
    ("pipe that does not wait", "", UNREADABLE),
]

# on a device that takes nothing: standard output alone, and standard error too
FULL_OUTPUT = [(words, 1, b"output: Unwritable\n") for words in ("--help", "--version", "script a.wq", "live a.json", "check bad.trace", "steps --history b.steps")]
FULL = [("race", 2), ("script none", 1), ("script a.wq", 1)]
# to a pipe that nobody reads: an output that cannot be written, whatever the parent does with SIGPIPE; of standard error the status alone
UNREAD_OUTPUT = [(words, 1, b"output: Unwritable\n") for words in ("script a.wq", "--help", "check bad.trace")]
UNREAD_FAULTS = [("script none", 1), ("race", 2)]
# to a file that may have this many bytes
MOST_WRITTEN = 4


def script_of(size):
    """A script of so many bytes: behind its header comments, and last its one command."""
    comments = (b"#" * 63 + b"\n") * (size // 64)
    return HEADER + comments[-(size - len(INPUT)) :] + CLOSE


def stands(want, text):
    return all(part in text for part in want) if isinstance(want, Some) else want == text


class Runner:
    def __init__(self, program, folder):
        self.program, self.folder, self.failed, self.count = Path(program).resolve(), folder, 0, 0

    def run(self, words, own_name=b"other", **streams):
        words = words.split() if isinstance(words, str) else words
        line = [own_name, *(os.fsencode(word) for word in words)]
        given = {} if "stdin" in streams else {"input": INPUT}
        streams = {"stdout": subprocess.PIPE, "stderr": subprocess.PIPE, **given, **streams}
        ran = subprocess.run(line, executable=self.program, cwd=self.folder, timeout=60, **streams)
        return ran.returncode, ran.stdout, ran.stderr

    def run_on(self, kind, words):
        """What becomes of the words with standard input of a kind."""
        if kind == "nothing":
            return self.run(words, stdin=subprocess.DEVNULL, preexec_fn=lambda: os.close(0))
        if kind == "pipe that does not wait":
            return self.run_on_empty_pipe(words)
        if kind == "socket":
            given, taken = socket.socketpair()
            with given, taken:
                given.sendall(INPUT)
                given.shutdown(socket.SHUT_WR)
                return self.run(words, stdin=taken)
        file = os.open(self.folder if kind == "folder" else Path(self.folder, "read"), os.O_RDONLY)
        try:
            if kind == "file":
                os.lseek(file, len(BEFORE), os.SEEK_SET)
            return self.run(words, stdin=file)
        finally:
            os.close(file)

    def run_on_empty_pipe(self, words):
        reader, writer = os.pipe()
        os.set_blocking(reader, False)
        try:
            return self.run(words, stdin=reader)
        finally:
            os.close(reader)
            os.close(writer)

    def hold(self, words, got, want):
        self.count += 1
        if got[0] != want[0] or not all(stands(*pair) for pair in zip(want[1:], got[1:])):
            self.failed += 1
            print(f"wqrun {words}: {got} and not {want}")


def unread_pipe():
    """The end to write to of a pipe whose other end is closed."""
    reader, writer = os.pipe()
    os.close(reader)
    return writer


def full_pipe():
    """Both ends of a pipe that has no room and does not wait."""
    reader, writer = os.pipe()
    os.set_blocking(writer, False)
    try:
        while True:
            os.write(writer, b"full" * 1024)
    except BlockingIOError:
        return reader, writer


def hold_outputs_that_end(runner):
    """What becomes of an output that has no room and does not wait, and of one that is a file with a limit."""
    reader, writer = full_pipe()
    runner.hold("script a.wq to a full pipe", runner.run("script a.wq", stdout=writer), (1, None, b"output: Unwritable\n"))
    os.close(reader)
    os.close(writer)
    limit = lambda: resource.setrlimit(resource.RLIMIT_FSIZE, (MOST_WRITTEN, MOST_WRITTEN))
    with tempfile.TemporaryFile() as file:
        got = runner.run("script a.wq", stdout=file, preexec_fn=limit)
        file.seek(0)
        runner.hold("script a.wq to a file with a limit", (*got, file.read()), (-signal.SIGXFSZ, None, b"", QUEUED[:MOST_WRITTEN]))


def main(program):
    with tempfile.TemporaryDirectory() as folder, open("/dev/full", "wb") as full:
        for name, text in FILES.items():
            Path(folder, name).write_bytes(text)
        runner = Runner(program, folder)
        for words, *want in ROWS:
            runner.hold(words, runner.run(words), want)
        runner.hold("by a name that is no text", runner.run("", own_name=b"\xff"), UNREADABLE)
        for kind, words, want in INPUTS:
            runner.hold(f"{words} on a {kind}", runner.run_on(kind, words), want)
        for size, want in SIZES:
            runner.hold(f"on a script of {size} bytes", runner.run("", input=script_of(size)), want)
        for words, status, faults in FULL_OUTPUT:
            runner.hold(words, runner.run(words, stdout=full), (status, None, faults))
        for words, status in FULL:
            runner.hold(words, runner.run(words, stdout=full, stderr=full), (status, None, None))
        pipe = unread_pipe()
        for words, status, faults in UNREAD_OUTPUT:
            for is_default in (True, False):
                runner.hold(words, runner.run(words, stdout=pipe, restore_signals=is_default), (status, None, faults))
        for words, status in UNREAD_FAULTS:
            runner.hold(words, runner.run(words, stderr=pipe), (status, b"", None))
        os.close(pipe)
        hold_outputs_that_end(runner)
    print(f"{runner.count} command lines, {runner.failed} failed")
    return 1 if runner.failed else 0


if __name__ == "__main__":
    if len(sys.argv) != 2:
        sys.exit("usage: checks/command_lines.py PROGRAM")
    sys.exit(main(sys.argv[1]))
