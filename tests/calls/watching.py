#!/usr/bin/env python3
"""After each line of a script, calls that only look: what the line must not have changed shows at once.
`watching.py < script` writes the script with these calls.

They take each free chain and each free slot and give them back, and ask for what is refused while something is held. No
look allocates: the `records` of `d counts` tell of a record that is lost. But after the last line the rest of the pool
is taken too.
"""

import sys

sys.dont_write_bytecode = True
from grammar import call_of
from model import begun
from script import MOST_OTHERS, MOST_READERS

# After one line no more chains, objects of a chain, readers, free slots and free records are looked at than this.
MOST = 14
# A key that no list is given often.
OTHER_KEY = 11
# An updater that looks, and has then what it had before.
LOOKER = f"u{MOST_OTHERS - 1}"
# Rows with more lines or more records than these are not watched.
MOST_LINES, MOST_RECORDS = 100, 10_000


class Watched:
    """A text with what looks after each line: its lines, the model's answers, and where the text's own lines stand."""

    def __init__(self, header):
        self.header, self.lines, self.answers, self.own = header, [], [], []

    def add(self, script, line, call=None):
        self.lines.append(line)
        self.answers.append(script.answer(call or call_of(f"{line}\n".encode())))

    def text(self):
        return "".join(f"{line}\n" for line in [self.header, *self.lines]).encode()

    def printed(self):
        return "".join(f"{answer}\n" for answer in self.answers)

    def of_own(self):
        """The answers to the text's own lines."""
        return [self.answers[at] for at in self.own]

    def before(self, printed):
        """The text's own line whose answer, or a look after it, is the first to be answered otherwise."""
        got = printed.splitlines()
        at = next((at for at, (ours, other) in enumerate(zip(got, self.answers)) if ours != other), len(got))
        number = sum(it <= at for it in self.own)
        return f"line {number + 1}, {self.lines[self.own[number - 1]]!r}"


def watched(text):
    """A text up to its first bad line, with what looks after each line; none where no line is good."""
    script, calls, _ = begun(text)
    if not calls:
        return None
    header, *lines = text.decode(errors="replace").splitlines()
    made = Watched(header)
    for line, call in zip(lines, calls):
        made.own.append(len(made.lines))
        made.add(script, line, call)
        for look in list(looks(script)):
            made.add(script, look)
    for look in list(takes_records(script)):
        made.add(script, look)
    return made


def watched_row(text):
    """The same of a row; none where it is long, or its domain large."""
    script, calls, _ = begun(text)
    if len(calls) > MOST_LINES or script is not None and script.domain.pool > MOST_RECORDS:
        return None
    return watched(text)


def looks(script):
    """Lines that leave all as it is, by what the script keeps."""
    yield "d counts"
    yield "d stalled"
    for number, reader in list(script.readers.items())[:MOST]:
        yield from of_reader(script.domain.qsbr, number, reader)
    for number, updater in enumerate(script.updaters):
        if updater.cookie is not None:
            yield f"u{number} poll"
        if updater.mark is not None:
            yield f"u{number} done"
    yield from of_queues(script)
    for chain in script.domain.chains[:MOST]:
        yield from of_chain_with_maps(script, chain) if script.has_maps else of_chain(script, chain)
    for letter, number in script.maps:
        yield from of_list(script, number) if letter == "l" else of_table(script, number)
    yield from of_slots(script)


def of_reader(is_qsbr, number, reader):
    """What a reader found, and what it is refused by its locks and by its last announcement."""
    if reader.found is not None:
        yield f"r{number} read"
    yield f"r{number} " + ("unregister" if reader.depth else "unlock")
    if is_qsbr:
        yield f"r{number} " + ("online" if reader.is_online else "offline")


def of_queues(script):
    """Runs of queues that have nothing or would wait, and a barrier that waits for nothing."""
    is_inside, queues = script.is_inside(), script.domain.queues
    for number, queue in enumerate(queues):
        if is_inside or not queue.waiting():
            yield f"w{number} run"
    if not any(queue.waiting() for queue in queues):
        yield f"{LOOKER} barrier"


def of_chain(script, chain):
    """The length, the note and the objects of a chain. Where nobody writes it, an updater takes it and frees it."""
    name = f"c{chain.number}"
    holder = next((number for number, it in enumerate(script.updaters) if chain.number in it.chains), None)
    writer = LOOKER if holder is None else f"u{holder}"
    yield f"{LOOKER} chain {name}"
    yield f"{writer} len {name}"
    yield f"{writer} note {name}"
    yield from (f"{writer} get {name} {index}" for index in range(min(len(chain.objects), MOST) + 1))
    if holder is None:
        yield f"{LOOKER} free {name}"


def of_chain_with_maps(script, chain):
    """A list begins over a chain, and is dropped; it is refused where the chain has a writer, an object or a note."""
    number = next((it for it in reversed(range(MOST_OTHERS)) if ("l", it) not in script.maps), None)
    if number is None:
        return
    yield f"l{number} new c{chain.number}"
    if not (chain.is_held or chain.objects or chain.note):
        yield f"l{number} drop"


def of_list(script, number):
    """The values of its keys, and none of another key."""
    keys = [key for key, _ in script.maps["l", number].entries()]
    yield from (f"l{number} value {key}" for key in [*keys[:MOST], OTHER_KEY])


def of_table(script, number):
    """A growth by nothing, which is refused otherwise while an earlier directory left something, and a tidying of
    nothing, where that has nothing to do or would wait."""
    yield f"t{number} grow 0 0"
    if script.is_inside() or not script.maps["t", number].left_chains:
        yield f"t{number} tidy 0 0"


def of_slots(script):
    """Readers take each free slot, one more is refused, the first one reads, and all leave. Without a free slot one who
    is there and found nothing reads."""
    free = script.domain.slots - script.domain.claimed
    spare = [number for number in reversed(range(MOST_READERS)) if number not in script.readers]
    taken = spare[: min(free, MOST)]
    yield from (f"r{number} register" for number in (taken if free > MOST else spare[: free + 1]))
    others = [(number, it.depth, it.is_online) for number, it in script.readers.items() if it.found is None]
    for number, depth, is_online in [*((number, 0, False) for number in taken), *others][:1]:
        yield from reads(script, number, depth, is_online)
    yield from (f"r{number} unregister" for number in taken)


def reads(script, number, depth, is_online):
    """What a reader meets in the lists and tables. One without a lock opens one, and finds the first objects too."""
    walks = [f"r{number} walk {letter}{it}" for letter, it in script.maps]
    if depth:
        yield from walks
        return
    goes_online = script.domain.qsbr and not is_online
    yield from [f"r{number} online"] * goes_online
    yield f"r{number} lock"
    yield from walks
    for chain in script.domain.chains[:MOST]:
        yield f"r{number} first c{chain.number}"
        if chain.objects:
            yield f"r{number} read"
    yield f"r{number} unlock"
    yield from [f"r{number} offline"] * goes_online


def takes_records(script):
    """The rest of the pool is taken, where that is not too much, and one more record is refused."""
    free = script.domain.pool - script.domain.used
    if free <= MOST:
        yield from [f"{LOOKER} alloc 0 0 0 0"] * (free + 1)
        yield "d counts"
        yield from [f"{LOOKER} discard"] * free
        yield "d counts"


if __name__ == "__main__":
    made = watched(sys.stdin.buffer.read())
    sys.stdout.write(made.text().decode() if made else "")
