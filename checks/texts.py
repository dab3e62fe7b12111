"""How the languages of docs/FORMATS.md are read, a line at a time, for the models of checks/random_*.py."""
import re
from typing import NamedTuple

LAST = 2**64 - 1
HEADER_WORDS = ("items", "senders", "barriers")


class Refused(Exception):
    """The kind of a refusal."""


def need(kind, holds):
    if not holds:
        raise Refused(kind)


def number(word):
    need("Number", re.fullmatch(r"0|[1-9][0-9]*", word) and int(word) <= LAST)
    return int(word)


def below(kind, word, limit):
    value = number(word)
    need(kind, value < limit)
    return value


def words_of(line):
    """The words of a line, or none where it is passed over."""
    if line == b"" or line.startswith(b"#"):
        return []
    need("Bytes", all(32 <= byte <= 126 for byte in line))
    words = line.decode().split(" ")
    need("Space", all(words))
    return words


class Line(NamedTuple):
    place: int
    text: bytes
    is_ended: bool


def lines_of(text):
    """The lines of a text from 1 on; one of no bytes that nothing ends is none, but where it is the whole text."""
    *lines, last = text.split(b"\n")
    ended = [Line(place, line, True) for place, line in enumerate(lines, 1)]
    return [*ended, Line(len(lines) + 1, last, False)] if last or not lines else ended


class Language:
    """One kind of text: its header, and what its lines say. VERSION is its first line, HEADER the words of the lines behind that, MOST
    the limits of their numbers; `counts` how many words a line may have that begins as this one does, none where it names nothing;
    `says` what the words of a line say."""

    def __init__(self):
        self.awaited, self.size = list(self.HEADER), {"items": 1, "senders": 1, "barriers": 1}

    def is_short(self):
        return any(word in ("items", "senders") for word in self.awaited)

    def header(self, words):
        need("Header", self.awaited[:1] == words[:1])
        need("Count", len(words) == 2)
        value = number(words[1])
        need(words[0].title(), 1 <= value <= self.MOST[words[0]])
        self.size[self.awaited.pop(0)] = value

    def line(self, words):
        """What the words of a line say, in order."""
        if words[0] in HEADER_WORDS:
            self.header(words)
            return []
        counts = self.counts(words)
        need("Word", counts)
        need("Header", not self.is_short())
        need("Count", len(words) in counts)
        said = self.says(words)
        self.awaited = []
        return said

    def number_of(self, word):
        """A number of the queue by its name."""
        if word == "stop":
            return self.size["items"] + self.size["barriers"]
        if word.startswith("b"):
            return self.size["items"] + below("Barrier", word[1:], self.size["barriers"])
        return below("Item", word, self.size["items"])

    def name(self, k):
        items, barriers = self.size["items"], self.size["barriers"]
        return str(k) if k < items else f"b{k - items}" if k < items + barriers else "stop"

    def names(self, numbers):
        """A list behind its word."""
        return "".join(f" {self.name(k)}" for k in numbers) or " nothing"


def spoil_byte(draws, text):
    """Another byte at one place, none, one more, or nothing behind it."""
    at = draws.randrange(len(text))
    byte = draws.choice([b"\n", b"\r", b"\t", b" ", b"0", b"b", b"\x7f", b"\xc3", b"\0"])
    return text[:at] + draws.choice([b"", byte + text[at:], byte + text[at + 1 :], text[at + 1 :]])
