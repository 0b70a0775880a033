"""Inputs of the benchmark: schedules that churn, and logs that are hard to judge. Each is good to its end.

A schedule has about as many lines as are asked for, a log as many events.
"""

import random

HEADER = {"memb": "schedule 1 memb 4 2 2 4", "qsbr": "schedule 1 qsbr 4 2 2 4"}


# ---- schedules


def churn(flavour, lines):
    """Two updaters replace and retire without end, each for the worker of its queue, while readers come and go."""
    yield HEADER[flavour]
    begin, end = ("lock", "unlock") if flavour == "memb" else ("online", "offline")
    grace_period = 2 * 4 + 8 if flavour == "memb" else 4 + 7
    live = []
    for u in range(2):
        yield f"u{u} push c{u}"
        yield f"u{u} ."
        live.append(u + 1)
    count = 4
    given = 2
    while count < lines:
        for u in range(2):
            r = (given + u) % 4
            given += 1
            round_ = [f"r{r} {begin}", f"r{r} .", f"r{r} first c{u}", f"r{r} touch"]
            round_ += [f"u{u} replace o{live[u]}", f"u{u} .", f"r{r} touch", f"u{u} retire o{live[u]}"]
            round_ += [f"u{u} ."] * 4
            round_ += [f"r{r} {end}", f"w{u} take"]
            round_ += [f"w{u} ."] * (grace_period + 2)
            live[u] = given
            count += len(round_)
            yield from round_


def sections_alone(lines):
    """Sections that open, nest and close, and nothing else: the log is as long as it can be."""
    yield HEADER["memb"]
    for i in range(lines // 5):
        r = i % 4
        yield from (f"r{r} lock", f"r{r} .", f"r{r} lock", f"r{r} unlock", f"r{r} unlock")


# ---- logs


def closed(events, order):
    half = events // 2
    yield from (f"open r{i % 1000}.{i}" for i in range(half))
    yield from (f"close r{i % 1000}.{i}" for i in order(half))


def from_the_front(events):
    """Half of the events open sections; the other half close them, the first one first."""
    return closed(events, range)


def from_the_back(events):
    """The same, the last one first."""
    return closed(events, lambda half: range(half - 1, -1, -1))


def in_any_order(events):
    """The same, in any order."""

    def shuffled(half):
        places = list(range(half))
        random.Random(1).shuffle(places)
        return places

    return closed(events, shuffled)


def one_stays_open(events):
    """One section is open all along, while others open, read and close, and grace periods are asked for."""
    yield "push c0 o1"
    yield "open r0.1"
    for i in range(events // 5):
        yield f"open r1.{i}"
        yield f"first r1.{i} c0 o1"
        yield f"touch r1.{i} o1"
        yield f"ask a{i}"
        yield f"close r1.{i}"


def retired_under_many(events):
    """Objects are retired while many sections are open, and run once those have ended."""
    part = events // 7
    yield from (f"push c{i % 100} o{i}" for i in range(part))
    yield from (f"open r1.{i}" for i in range(part))
    for i in range(part):
        yield f"cut c{i % 100} o{i}"
        yield f"retire o{i}"
    yield from (f"close r1.{i}" for i in range(part))
    for i in range(part):
        yield f"queue o{i} q0"
        yield f"run o{i}"


def cut_in_the_middle(events):
    """A long chain, whose objects are replaced and cut in any order."""
    part = events // 3
    order = list(range(part))
    random.Random(2).shuffle(order)
    yield from (f"push c0 o{i}" for i in range(part))
    yield from (f"replace c0 o{i} o{part + i}" for i in order)
    random.Random(3).shuffle(order)
    yield from (f"cut c0 o{part + i}" for i in order)


def succession(events):
    """One object takes the place of another, over and over, in the middle of a chain, under a section that goes on."""
    yield from ("push c0 o1", "push c0 o2", "push c0 o3", "open r0.1", "first r0.1 c0 o3", "next r0.1 o3 o2")
    last = 2
    for i in range(events // 2):
        yield f"replace c0 o{last} o{i + 4}"
        yield f"touch r0.1 o2"
        last = i + 4


def far_apart(events):
    """Numbers that lie far apart."""
    step = 4_611_686_018_427
    for i in range(events // 8):
        n = (i * step) % 9_999_999_999_999_999_999
        yield f"push c{(i * 7919) % 999_999_999} o{n}"
        yield f"open r{(i * 104_729) % 999_999_999}.{n}"
        yield f"cut c{(i * 7919) % 999_999_999} o{n}"
        yield f"retire o{n}"
        yield f"close r{(i * 104_729) % 999_999_999}.{n}"
        yield f"queue o{n} q0"
        yield f"ask a{n}"
        yield f"run o{n}"


def barriers(events):
    """Barriers that await more and more queued objects, and are over once these have run."""
    part = events // 7
    for i in range(part):
        yield f"push c0 o{i}"
        yield f"cut c0 o{i}"
        yield f"retire o{i}"
        yield f"queue o{i} q0"
        yield f"bar b{i}"
    order = list(range(part))
    random.Random(4).shuffle(order)
    yield from (f"run o{i}" for i in order)
    yield from (f"clear b{i}" for i in range(part))


SCHEDULES = {
    "churn, memb": lambda lines: churn("memb", lines),
    "churn, qsbr": lambda lines: churn("qsbr", lines),
    "sections alone": sections_alone,
}

LOGS = {
    "closed from the front": from_the_front,
    "closed from the back": from_the_back,
    "closed in any order": in_any_order,
    "one stays open": one_stays_open,
    "retired under many": retired_under_many,
    "cut in the middle": cut_in_the_middle,
    "a long succession": succession,
    "numbers far apart": far_apart,
    "barriers": barriers,
}
