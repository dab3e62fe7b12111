#!/usr/bin/env python3
"""Compares docs/DEFINITIONS.md with the contracts, and with the definitions that they cite.

A word of a public contract is one that a file of crates/*/src imports from the specs of a crate of the repository, by itself or with
its file, and that stands in a `requires` or an `ensures` of a `pub fn`, of a function of a `pub trait`, or of one of a trait's
`impl`. Each is to be defined in docs/DEFINITIONS.md: to stand there, in backquotes, in the first column of a table or at the
beginning of a line, under a heading that names its crate, or in a row whose `File` does. And each word that is defined there is to
be one of that crate's specs, in a file that the row names where its table has a column `File`.

Programs and tests are left out, since they promise nothing to a caller. The examples of users count: README.md says what
their contracts say.

Besides, each file of a crate that a document names by its whole path is there; and where a README or docs/CLAUSES.md quotes code,
each line of a block but its imports stands in the files that the block, or the paragraph in front of it, names, in that order.
"""
import re
import sys
from pathlib import Path

TOP = Path(__file__).resolve().parent.parent
PROMISE_NOTHING = {"wqrun", "bench_queue", "test_memory", "test_queues", "test_programs"}
CRATES = set(re.findall(r"^(\w+)[^#\n]*:", (TOP / "crates.txt").read_text(), re.M))


def offered_again():
    """Where a crate's specs pass on a file of another crate, or words of one: that crate, by their own crate, file and word."""
    homes = {}
    for file in TOP.glob("crates/*/specs/*.antt"):
        crate = file.parent.parent.name
        for home, name, words in re.findall(r"^pub use Rattle\.(\w+)\.specs\.(\w+)(?:\.\{([^}]*)\})?$", file.read_text(), re.M):
            homes.update({(crate, file.stem, word.strip()): home for word in words.split(",")} if words else {(crate, name, ""): home})
    return homes


OFFERED_AGAIN = offered_again()


def home_of(crate, file, word):
    """The crate that declares the word which a file of this crate's specs has, or passes on."""
    home = OFFERED_AGAIN.get((crate, file, "")) or OFFERED_AGAIN.get((crate, file, word))
    return home_of(home, file, word) if home else crate


def imported(text):
    """Crate and word of what a file of code imports from definitions, and what it calls it, the types of the code itself left out."""
    uses = re.findall(r"^\s*ghost use Rattle\.(\w+)\.specs\.(?!declared\b|contracts\b)([\w.]+)\.\{([^}]*)\};", text, re.M)
    split = [(crate, file, word.strip().partition(" as ")) for crate, file, words in uses if crate in CRATES for word in words.split(",")]
    return {(home_of(crate, file, word), word, name or word) for crate, file, (word, _, name) in split}


def named(text):
    """Crate, file and name of each file of definitions that a file of code imports whole, as `name.word`."""
    uses = re.findall(r"^\s*ghost use Rattle\.(\w+)\.specs\.(?!declared\b|contracts\b)([\w.]+) as (\w+);", text, re.M)
    return [it for it in uses if it[0] in CRATES]


def clauses_of(lines, indent):
    """The clauses of the function whose text begins with these lines."""
    clauses = []
    for line in lines:
        if line == indent + "{":
            break
        if clauses or re.match(r"\s*(requires|ensures)\b", line):
            clauses.append(line)
        # what a caller hands in for the proof alone stands before the clauses
        is_ghost = re.match(r"\s*ghost\b", line)
        if not is_ghost and (line.endswith(";") or (not clauses and line.endswith(("{", "}")))):
            break
    return clauses


def public_clauses(text):
    """The text of all clauses that a file of code has for its callers."""
    lines, item, clauses = text.splitlines(), "", []
    for number, line in enumerate(lines):
        item = line if re.match(r"\S", line) else item
        function = re.match(r'(\s*)(pub )?((const|unsafe|extern "C") )*fn ', line)
        if function and (function[2] or re.match(r"pub trait |impl\b.* for ", item)):
            clauses += clauses_of(lines[number:], function[1])
    return "\n".join(clauses)


def contract_words():
    """Each word of a public contract, by its crate and itself, with a file where it stands."""
    words = {}
    for file in sorted(TOP.glob("crates/*/src/**/*.rt")):
        place = file.relative_to(TOP)
        if place.parts[1] not in PROMISE_NOTHING:
            text = file.read_text()
            clauses = public_clauses(text)
            for crate, word, name in imported(text):
                if re.search(rf"(?<![\w.]){re.escape(name)}(?![\w?'])", clauses):
                    words[crate, word] = place
            for crate, file, name in named(text):
                for word in re.findall(rf"(?<![\w.]){name}\.(\w+)", clauses):
                    words[home_of(crate, file, word), word] = place
    return words


def spec_words():
    """The words that the files of specs/ declare, each as crate, file and word."""
    declared = r"^\s*(?:(?:abbrev|unfoldable) pub|pub (?:record|data|abbrev)) (\w+)"
    files = TOP.glob("crates/*/specs/*.antt")
    return {(it.parent.parent.name, it.stem, word) for it in files for word in re.findall(declared, it.read_text(), re.M)}


def defined_words():
    """Each word that docs/DEFINITIONS.md defines: its line, the crates and the files that may have it (no file: any), and itself."""
    crates, in_file = set(), False
    for number, line in enumerate((TOP / "docs/DEFINITIONS.md").read_text().splitlines(), 1):
        cells = [cell.strip() for cell in line.split("|")[1:-1]] or [re.match(r"(`\w+`)?", line)[0]]
        if line.startswith("## "):
            crates = CRATES & set(re.findall(r"\w+", line))
        elif cells[0] == "Name":
            in_file = cells[1] == "File"
        named = set(re.findall(r"`(\w+)`", cells[1])) if in_file and len(cells) > 1 else set()
        for word in re.findall(r"`(\w+)`", cells[0]):
            yield number, crates | (CRATES & named), named - CRATES, word


def quoting_faults():
    """What is wrong with the paths and with the blocks of code of the documents, and how many of these were compared."""
    faults, count = [], 0
    for page in sorted([*TOP.glob("*.md"), *TOP.glob("docs/*.md"), *TOP.glob("*/README.md"), *TOP.glob("crates/*/README.md")]):
        text, place = page.read_text(), page.relative_to(TOP)
        paths = re.findall(r"\bcrates/[\w/]+\.\w+", text)
        faults += [f"{place}: there is no {path}" for path in paths if "NAME" not in path and not (TOP / path).is_file()]
        blocks = r"^((?: {0,3}\S.*\n)+)\n((?: {4}.*\n|\n(?= {4}))+)"
        for before, block in re.findall(blocks, text, re.M) if page.name in ("README.md", "CLAUSES.md") else []:
            named = re.findall(r"[\w/]+\.(?:rt|antt)\b", before + block)
            files = [file for name in named for file in (TOP / name, page.parent / name) if file.is_file()]
            source, at, count = " ".join(" ".join(file.read_text() for file in files).split()), 0, count + bool(files)
            lines = [" ".join(line.split()) for line in block.splitlines() if files]
            for line in [line for line in lines if not re.match(r"(ghost )?use |(//|--) crates/", line)]:
                found = source.find(line, at)
                if found < 0:
                    faults.append(f"{place}: `{line}` does not stand in {' and '.join(named)} behind the lines before it")
                    break
                at = found + len(line)
    return faults, count


def main():
    contracts, specs, defined = contract_words(), spec_words(), list(defined_words())
    known = {(crate, word) for _, crates, _, word in defined for crate in crates}
    faults = [f"{place}: {word} of {crate} is not defined" for (crate, word), place in contracts.items() if (crate, word) not in known]
    for number, crates, files, word in defined:
        if not any(it[2] == word and it[0] in crates and (not files or it[1] in files) for it in specs):
            faults.append(f"docs/DEFINITIONS.md:{number}: {word} is no word of {' and '.join(sorted(files or crates))}")
    quoted, blocks = quoting_faults()
    faults += quoted
    for fault in sorted(faults):
        print(fault)
    print(f"definitions: {len(contracts)} words of contracts, {len(defined)} defined, {blocks} blocks of code, {len(faults)} not as wanted")
    return 1 if faults or not contracts or not blocks else 0


if __name__ == "__main__":
    sys.exit(main())
