"""A second model of the text of answers: which lines there are, and where a text stops to be such lines."""

import re

LONG, SHORT = 19, 9

SECTION = ["r", SHORT, ".", LONG]
FOUND = [["o", LONG], ["none"]]
EVENTS = [
    ["open ", *SECTION],
    ["close ", *SECTION],
    *(["first ", *SECTION, " c", SHORT, " ", *found] for found in FOUND),
    *(["next ", *SECTION, " o", LONG, " ", *found] for found in FOUND),
    ["touch ", *SECTION, " o", LONG],
    ["push c", SHORT, " o", LONG],
    ["replace c", SHORT, " o", LONG, " o", LONG],
    ["cut c", SHORT, " o", LONG],
    ["retire o", LONG],
    ["queue o", LONG, " q", SHORT],
    ["run o", LONG],
    ["ask a", LONG],
    ["answer a", LONG],
    ["bar b", LONG],
    ["clear b", LONG],
]
LINES = [
    *([*first, "\n"] for first in EVENTS),
    *([*first, "; ", *second, "\n"] for first in EVENTS for second in EVENTS),
    *([word, "\n"] for word in (".", "wait", "blocked", "idle")),
    ["refused E", LONG, "\n"],
    ["end open=", LONG, " waiting=", LONG, " run=", LONG, "\n"],
]


def moves(line, place, byte):
    """Where a reading of this line may stand after one byte more. A place is an item and how far it is read."""
    item, read = place
    if item == len(line):
        return
    wanted = line[item]
    if isinstance(wanted, str):
        if wanted[len(read)] == byte:
            read += byte
            yield (item + 1, "") if read == wanted else (item, read)
        return
    if byte.isascii() and byte.isdigit() and len(read) < wanted and read != "0":
        yield (item, read + byte)
    if read:
        yield from moves(line, (item + 1, ""), byte)


def bad_column(text):
    """One more than the number of characters with which some line goes on; None for a whole line."""
    places = [(line, (0, "")) for line in LINES]
    for column, byte in enumerate(text, 1):
        places = [(line, after) for line, place in places for after in moves(line, place, byte)]
        if not places:
            return column
    return None if any(place[0] == len(line) for line, place in places) else len(text) + 1


def log_of(text):
    """The events that the text tells, and None; or None, and the line and column at which it is bad."""
    events = []
    for number, line in enumerate(re.findall(r"[^\n]*\n|[^\n]+", text), 1):
        column = bad_column(line)
        if column:
            return None, (number, column)
        if line.split()[0] not in (".", "wait", "blocked", "idle", "refused", "end"):
            events += line.strip().split("; ")
    return events, None
