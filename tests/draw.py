"""A second model of the draw of `torture walk`, over the second model of its world.

The generator is PCG32 (O'Neill, 2014: XSH RR 64/32), whose seed of 16 bytes rand_core draws from a number by four
steps of the same generator, each giving four bytes.
"""

from model import World

MASK_64, MASK_32 = 2**64 - 1, 2**32 - 1
MULTIPLIER = 6364136223846793005
SEED_INCREMENT = 11634580027462260723
READER_VERBS = {
    "memb": ["lock", "unlock", "first c#", "next", "touch"],
    "qsbr": ["online", "quiescent", "offline", "first c#", "next", "touch"],
}
UPDATER_VERBS = ["push c#", "replace o#", "cut o#", "retire o#", "sync", "start", "poll", "barrier"]
DEFAULTS = {
    "flavour": "memb", "readers": "2", "updaters": "1", "workers": "1", "chains": "1", "lines": "1000", "seed": "1",
    "format": "1", "stop": None, "from": "1",
}


def output(state):
    """Xorshift high, and then a rotation by the topmost bits."""
    shifted = (((state >> 18) ^ state) >> 27) & MASK_32
    turn = state >> 59
    return ((shifted >> turn) | (shifted << (32 - turn))) & MASK_32


def seed_words(number):
    """The four words of the seed: the state is stepped before each one."""
    for _ in range(4):
        number = (number * MULTIPLIER + SEED_INCREMENT) & MASK_64
        yield output(number)


class Words:
    def __init__(self, seed):
        low, high, stream_low, stream_high = seed_words(seed)
        self.increment = (stream_low | stream_high << 32) | 1
        self.state = ((low | high << 32) + self.increment) * MULTIPLIER + self.increment & MASK_64

    def below(self, bound):
        drawn = output(self.state)
        self.state = (self.state * MULTIPLIER + self.increment) & MASK_64
        return drawn % bound


class Walk:
    def __init__(self, words):
        given = DEFAULTS | {it[2:]: words[at + 1] for at, it in enumerate(words) if it.startswith("--")}
        self.flavour = given["flavour"]
        sizes = [int(given[it]) for it in ("readers", "updaters", "workers", "chains")]
        self.readers, self.updaters, self.workers, self.chains = sizes
        self.lines, self.version, self.start = int(given["lines"]), int(given["format"]), int(given["from"])
        self.stop = None if given["stop"] is None else int(given["stop"])
        self.draw = Words(int(given["seed"]))
        self.world = World(self.version, self.flavour, *sizes)

    def header(self):
        sizes = f"{self.readers} {self.updaters} {self.workers} {self.chains}"
        return f"schedule {self.version} {self.flavour} {sizes}\n"

    def actor(self, number):
        count = self.readers + self.updaters + self.workers
        at = self.draw.below(count)
        if at == self.stop and number >= self.start:
            at = (at + 1) % count
        for kind, size in (("r", self.readers), ("u", self.updaters), ("w", self.workers)):
            if at < size:
                return kind, at
            at -= size

    def is_busy(self, kind, at):
        if kind == "r":
            return self.world.readers[at]["copy"] is not None
        return (self.world.updaters if kind == "u" else self.world.workers)[at]["op"] is not None

    def argument(self, verb):
        if not verb.endswith("#"):
            return None
        return self.draw.below(self.chains if verb[-2] == "c" else len(self.world.objects) + 1)

    def line(self, number):
        kind, at = self.actor(number)
        if self.is_busy(kind, at):
            return kind, at, ".", None
        if kind == "w":
            return kind, at, "take", None
        verbs = READER_VERBS[self.flavour] if kind == "r" else UPDATER_VERBS
        verb = verbs[self.draw.below(len(verbs))]
        return kind, at, verb, self.argument(verb)


def schedule(words):
    """The text that `walk --schedule` prints with these words more."""
    walk = Walk(words)
    text = [walk.header()]
    for number in range(1, walk.lines + 1):
        kind, at, verb, argument = walk.line(number)
        walk.world.answer((kind, at, verb.rstrip("#"), argument))
        text.append(f"{kind}{at} {verb.replace('#', '')}{'' if argument is None else argument}\n")
    return "".join(text)
