"""The text of scripts of calls, read by the tables of docs/CALLS.md: lines, and where a bad one goes wrong."""

import functools
import re

NUMBER = re.compile(rb"0|[1-9][0-9]{0,8}")
VALUE = re.compile(rb"0|[1-9][0-9]{0,18}")
KINDS = {**dict.fromkeys("CINDFB", NUMBER), **dict.fromkeys(["W", "K", "V", "CODE"], VALUE)}
VERBS = {
    "r": "register, unregister, lock, try_lock, unlock, online, quiescent, offline, first cC, next, read, word I, "
    "get lN K, get tN K, walk lN, walk tN",
    "u": "chain cC, free cC, alloc W W W W, discard, push cC, replace cC I, cut cC I, retire CODE, "
    "cut_retire cC I CODE, replace_retire cC I CODE, len cC, get cC I, index cC W, note cC, set_note cC W, hear cC, "
    "synchronize, start, poll, barrier, mark, done, inform uN",
    "w": "run, work",
    "l": "new cC, drop, insert K V, replace K V CODE, remove K CODE, value K",
    "t": "new cD F B, drop, insert K V, replace K V CODE, remove K CODE, grow F B, tidy N CODE",
    "d": "counts, stalled, close, again",
}
LIMITS = (256, 8, 4096, 65_536)


class Form:
    """The form of a line: what stands in it, in order, and how the model calls it."""

    def __init__(self, actor, text):
        self.actor = actor
        self.verb, *words = text.split(" ")
        pieces = [actor.encode(), *([] if actor == "d" else [NUMBER]), b" " + self.verb.encode()]
        for word in words:
            letter, kind = re.fullmatch("([a-z]?)([A-Z]+)", word).groups()
            pieces += [b" " + letter.encode(), KINDS[kind]]
        if words and words[0][0] in "lt":
            self.verb += " " + words[0][0]
        self.has_chain = words[:1] == ["cC"]
        self.pieces = [*pieces, b"\n"]


FORMS = [Form(actor, text) for actor, texts in VERBS.items() for text in texts.split(", ")]
HEADERS = [
    [b"calls 1 " + flavour + b" ", NUMBER, b" ", NUMBER, b" ", NUMBER, b" ", NUMBER, end]
    for flavour in (b"memb", b"qsbr")
    for end in (b"\n", b" maps\n")
]


class BadText(Exception):
    """The first byte, counted from 1, that no good line has there."""

    def __init__(self, column):
        self.column = column


class Call:
    """One line: who calls, what, and with which numbers."""

    def __init__(self, form, numbers):
        self.form, self.letter, self.verb = form, form.actor, form.verb
        self.actor = None if form.actor == "d" else numbers[0]
        self.numbers = numbers if form.actor == "d" else numbers[1:]


def along(pieces, line):
    """How many bytes of a line go along with these pieces, and the numbers that were read."""
    at, numbers = 0, []
    for piece in pieces:
        if isinstance(piece, bytes):
            common = next((i for i, byte in enumerate(piece) if line[at + i : at + i + 1] != bytes([byte])), len(piece))
            at += common
            if common < len(piece):
                return at, numbers
        else:
            digits = piece.match(line, at)
            if digits is None:
                return at, numbers
            at = digits.end()
            numbers.append(int(digits.group()))
    return at, numbers


@functools.lru_cache(maxsize=100_000)
def call_of(line):
    """The call that a line is, which ends with its line feed."""
    best = 0
    for form in FORMS:
        at, numbers = along(form.pieces, line)
        if at == len(line) and line.endswith(b"\n"):
            return Call(form, numbers)
        best = max(best, at)
    raise BadText(best + 1)


def header_of(line):
    """The flavour, the four sizes, and whether there are maps."""
    best = 0
    for pieces in HEADERS:
        at, numbers = along(pieces, line)
        if at == len(line) and line.endswith(b"\n"):
            return pieces[0][-5:-1].decode(), numbers, pieces[-1] == b" maps\n"
        best = max(best, at)
    raise BadText(best + 1)


def is_supported(sizes):
    return all(1 <= size <= most for size, most in zip(sizes, LIMITS))


def lines_of(text):
    """The lines of a text with their line feeds; one that is not ended comes last without. No text has one, empty."""
    return re.findall(rb"[^\n]*\n|[^\n]+", text) or [b""]
