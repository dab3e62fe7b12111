#!/usr/bin/env python3
"""Runs each row of checks/rows/*.rows with the program that is named: a text, and what becomes of it.

A row is `TEXT => WANT`. In TEXT a `;` ends a line, one space after it is left out, `\\t` is a tab, `\\r` a carriage return,
`\\s` a space and `\\xHH` the byte of these two hexadecimal digits; `{comments to N}` fills the text up to N bytes with comment
lines, and `{spaces to N}` with spaces; `{M to N:PART}` is PART once for each number from M to N, which stands in the place of
a `#`. WANT is what standard output has to hold, with status 0 and nothing on standard error, or, behind `4: `, with status 4;
where it ends with ` ..`, it is what standard output begins with. Or it is `read`, where the output may be any; or `! REFUSAL`,
the one line of standard error, with status 1 and nothing on standard output.

Lines before the rows say of all that follow: `command WORDS` the subcommand and its options, `before TEXT` what each text begins
with, `times N` how often each is run. After `after STEPS` a row is `STEP => REPLY`: the step is tried right after these, which
are all enabled, and where it is not enabled the numbers that were accepted and begun stay as they were. After `beginnings TEXT`
a row is `FROM to UPTO => WANT`, of the texts of so many bytes that TEXT begins with; together they are all of them. A line that
begins with `--` says what the rows after it show. A file without a row is a fault, and so is a text that stands twice under one
command.
"""
import re
import subprocess
import sys
import tempfile
from pathlib import Path


def text_of(row):
    """The bytes that a row spells."""
    each = lambda it: "".join(it[3].replace("#", str(number)) for number in range(int(it[1]), int(it[2]) + 1))
    row = re.sub(r"\{(\d+) to (\d+):([^}]*)\}", each, row)
    made = b""
    for part in re.split(r"(\{(?:comments|spaces) to \d+\})", row):
        fill = re.fullmatch(r"\{(comments|spaces) to (\d+)\}", part)
        if fill and fill[1] == "spaces":
            made += b" " * (int(fill[2]) - len(made))
        elif fill:
            made += b"".join(b"\n" if place % 64 == 63 else b"#" for place in range(len(made), int(fill[2])))
        else:
            plain = re.sub(r"; ?", "\n", part if part == row else part.strip(" "))
            plain = plain.replace(r"\t", "\t").replace(r"\r", "\r").replace(r"\s", " ").encode()
            made += re.sub(rb"\\x([0-9a-f]{2})", lambda it: bytes([int(it[1], 16)]), plain)
    return made


class Runner:
    """Runs texts with a program, and counts them."""

    def __init__(self, program, folder):
        self.program, self.file, self.count = Path(program).resolve(), Path(folder) / "text", 0
        # where each text stands, with its command
        self.places = {}

    def run(self, command, text):
        self.file.write_bytes(text)
        self.count += 1
        ran = subprocess.run([self.program, *command.split(), self.file], capture_output=True, timeout=60)
        return ran.returncode, ran.stdout, ran.stderr

    def fault(self, command, text, want):
        """What is wrong with what becomes of the text, or nothing."""
        try:
            got = self.run(command, text)
        except subprocess.TimeoutExpired as fault:
            return f"it did not end within {fault.timeout} seconds"
        if want == "read":
            return "" if (got[0], got[2]) == (0, b"") else f"it was not read: {got[0]} {got[2]!r}"
        if want.startswith("! "):
            wanted = (1, b"", want[2:].encode() + b"\n")
        else:
            status, output, more = re.fullmatch(r"(?:(\d): )?(.*?)( \.\.)?", want).groups()
            wanted = (int(status or 0), text_of(output), b"")
            got = (got[0], got[1][: len(wanted[1])] if more else got[1], got[2])
        return "" if got == wanted else f"{got} and not {wanted}"

    def fault_after(self, command, before, step, want):
        """What is wrong with the reply to a step that is tried after others, or nothing."""
        status, output, said = self.run(command, before + step)
        *replies, reply, accepted, begun = [b""] * 3 + output.splitlines()
        if (status, said) != (0, b"") or b"not enabled" in replies:
            return f"the steps before it are not all enabled: {replies} {said!r}"
        if reply + b"\n" != text_of(want):
            return f"{reply!r} and not {text_of(want)!r}"
        changed = reply == b"not enabled" and self.run(command, before)[1].splitlines()[-2:] != [accepted, begun]
        return "a step that is not enabled changed what was accepted or begun" if changed else ""


def faults_of(runner, state, left, want):
    """What is wrong with each text of a row."""
    command, before = state["command"], text_of(state["before"])
    if "beginnings" in state:
        whole, (first, _, last) = text_of(state["beginnings"]), left.partition(" to ")
        lengths = range(int(first), int(last or first) + 1)
        state["lengths"] += lengths
        return [runner.fault(command, whole[:length], want) for length in lengths]
    if "after" in state:
        return [runner.fault_after(command, before + text_of(state["after"]), text_of(left), want)]
    return [runner.fault(command, before + text_of(left), want) for _ in range(int(state["times"]))]


def fault_of_place(runner, state, left, place):
    """Whether the text of a row stands at another place too."""
    if "beginnings" in state or "after" in state:
        return []
    text = state["command"], text_of(state["before"]) + text_of(left)
    first = runner.places.setdefault(text, place)
    return [f"{place}: its text stands at {first} too"] if first != place else []


def faults_in(runner, rows):
    """Runs the rows of a file. Answers what is wrong, by line."""
    state, faults, count = {"before": "", "times": "1", "lengths": []}, [], runner.count
    for number, line in enumerate(rows.read_text().splitlines(), 1):
        named = re.match(r"(command|before|times|after|beginnings)\b ?(.*)", line)
        row = re.fullmatch(r"(.*?) ?=> ?(.*)", line)
        if named and row:
            faults.append(f"{rows}:{number}: a setting, and no row")
        elif named:
            state[named[1]] = named[2]
        elif row and not line.startswith("--"):
            faults += fault_of_place(runner, state, row[1], f"{rows}:{number}")
            faults += [f"{rows}:{number}: {it}" for it in faults_of(runner, state, row[1], row[2]) if it]
        elif line and not line.startswith("--"):
            faults.append(f"{rows}:{number}: no row")
    if "beginnings" in state and state["lengths"] != list(range(len(text_of(state["beginnings"])) + 1)):
        faults.append(f"{rows}: the rows of the beginnings leave out some, or have one twice")
    return faults if runner.count > count else [*faults, f"{rows}: no row was run"]


def main(program):
    with tempfile.TemporaryDirectory() as folder:
        runner = Runner(program, folder)
        files = sorted((Path(__file__).parent / "rows").glob("*.rows"))
        faults = [fault for rows in files for fault in faults_in(runner, rows)]
    for fault in faults:
        print(fault)
    print(f"rows: {runner.count} texts run, {len(faults)} not as wanted")
    return 1 if faults or not files else 0


if __name__ == "__main__":
    sys.exit(main(sys.argv[1]) if len(sys.argv) == 2 else "usage: checks/rows.py PROGRAM")
