"""Short runs of lines that belong together: what one line does, another one shows. Each yields its lines."""


def held(drawn):
    """The updaters and the chains that they write."""
    return [(number, chain) for number in (0, 1) for chain in drawn.script.updaters[number].chains]


def standing(drawn):
    """A reader stands on an object while that leaves its chain, and goes on from it."""
    if not held(drawn):
        return
    reader, (updater, chain) = drawn.some(drawn.readers), drawn.some(held(drawn))
    while len(drawn.script.domain.chains[chain].objects) < 3 and not drawn.is_full():
        yield f"u{updater} alloc {drawn.word()} 1 2 3"
        yield f"u{updater} push c{chain}"
    if drawn.qsbr:
        yield f"r{reader} online"
    yield f"r{reader} lock"
    yield f"r{reader} first c{chain}"
    steps = drawn.random.randint(0, 1)
    yield from [f"r{reader} next"] * steps
    yield f"u{updater} alloc {drawn.word()} 1 2 3"
    for _ in range(drawn.random.randint(1, 2)):
        leaves = [f"cut c{chain} {steps}", f"cut_retire c{chain} {steps} 5", f"replace c{chain} {steps}"]
        yield f"u{updater} {drawn.some(leaves)}"
    for _ in range(3):
        yield f"r{reader} read"
        yield f"r{reader} next"
    yield f"r{reader} unlock"


def barring(drawn):
    """A barrier while several queues have something, and run one after the other."""
    queues = drawn.sizes[1]
    for updater, chain in held(drawn):
        yield f"u{updater} alloc {drawn.word()} 0 0 0"
        yield f"u{updater} push c{chain}"
        yield f"u{updater} cut_retire c{chain} 0 {drawn.random.randint(0, 99)}"
    yield "u2 mark"
    yield "u2 done"
    for queue in drawn.random.sample(range(queues), queues):
        yield f"w{queue} run"
        yield "u2 done"


def growing(drawn):
    """A table grows, is read, is tidied in parts, and is read again."""
    tables = [number for letter, number in drawn.script.maps if letter == "t"]
    if not tables:
        return
    table, reader = drawn.some(tables), drawn.some(drawn.readers)
    for key in drawn.random.sample(range(12), 4):
        yield f"t{table} insert {key} {drawn.word()}"
    yield f"t{table} grow {drawn.range_of_chains()}"
    yield f"r{reader} lock"
    yield f"r{reader} walk t{table}"
    yield f"r{reader} unlock"
    left = drawn.script.maps["t", table].left()
    yield f"t{table} tidy {drawn.random.randint(0, left)} {drawn.random.randint(0, 99)}"
    yield f"t{table} tidy {left} {drawn.random.randint(0, 99)}"
    yield from [f"w{queue} run" for queue in range(drawn.sizes[1])]
    yield "d counts"


def filling(drawn):
    """The pool is filled, and what needs a record is refused; then all is as it was."""
    domain = drawn.script.domain
    many = domain.pool - domain.used
    yield from [f"u3 alloc {number} 0 0 0" for number in range(many)]
    for letter, number in list(drawn.script.maps):
        key = drawn.some([key for key, _ in drawn.script.maps[letter, number].entries()] or [1])
        yield f"{letter}{number} insert {drawn.random.randint(20, 30)} 1"
        yield f"{letter}{number} replace {key} 7 8"
        if letter == "t":
            yield f"t{number} grow {drawn.range_of_chains()}"
    if drawn.has_maps:
        yield f"t{drawn.some([3, 4])} new c{drawn.random.randrange(drawn.sizes[2])} {drawn.range_of_chains()}"
    yield "d counts"
    yield from ["u3 discard"] * many
    yield "d counts"


OF_CHAINS = [standing, standing, standing, barring, barring, filling]
OF_MAPS = [growing, growing, filling]
