"""Draws scripts of calls that show much: most lines are ones that the model does not refuse, many only look, and the
end leaves nothing, so that a lost slot, record, chain or key shows."""

import random

from grammar import BadText, call_of
from script import Script
from scenes import OF_CHAINS, OF_MAPS

KEYS = [0, 1, 2, 3, 4, 5, 6, 7, 10, 12, 9_999_999_999_999_999_999]
FEW_READERS = 3


class Drawn:
    """A script as it is drawn, beside a model that has answered its lines."""

    def __init__(self, seed, flavour, has_maps, short=False):
        self.random, self.has_maps, self.qsbr = random.Random(seed), has_maps, flavour == "qsbr"
        pick = self.random.randint
        chains, pool = (pick(5, 14), pick(6, 30)) if has_maps else (pick(1, 4), pick(1, 12))
        self.sizes = [pick(1, 3), pick(1, 3), chains, pool]
        self.script = Script(flavour, self.sizes, has_maps)
        self.lines = [f"calls 1 {flavour} " + " ".join(map(str, self.sizes)) + (" maps" if has_maps else "")]
        self.length = pick(10, 30) if short else pick(20, 150)
        self.closes_at = pick(10, 4 * self.length)
        self.readers = list(range(min(self.sizes[0], FEW_READERS)))

    def some(self, choices):
        return self.random.choice(choices)

    def chance(self, part):
        return self.random.random() < part

    def answer(self, line):
        try:
            return self.script.answer(call_of(line.encode() + b"\n"))
        except BadText as bad:
            raise ValueError(f"{line}: column {bad.column}") from None

    def say(self, line):
        """One line more, whatever it is answered."""
        self.lines.append(line)
        return self.answer(line)

    def offer(self, line):
        """One line more, if it is not refused, or now and then all the same."""
        answer = self.answer(line)
        dull = answer.startswith(("refused", "would"))
        if not dull or self.chance(0.12):
            self.lines.append(line)
        return answer

    # What looks and changes nothing

    def look(self):
        if self.chance(0.4):
            return "d counts"
        if self.has_maps:
            return self.look_at_maps()
        updater = self.some([0, 0, 1])
        held = list(self.script.updaters[updater].chains)
        if not held or self.chance(0.1):
            return self.some(["d stalled", "d again", "u0 done", "u0 poll"])
        chain = self.some(held)
        word = self.some([it.words[0] for it in self.script.domain.chains[chain].objects] or [7])
        looks = [f"len c{chain}", f"get c{chain} {self.some([0, 0, 1, 2])}", f"note c{chain}", f"index c{chain} {word}"]
        return f"u{updater} {self.some(looks)}"

    def look_at_maps(self):
        if not self.script.maps:
            return "d counts"
        letter, number = self.some(list(self.script.maps))
        inside = [it for it in self.readers if it in self.script.readers and self.script.readers[it].depth]
        if inside:
            return f"r{self.some(inside)} " + self.reads_map()
        return f"l{number} value {self.some(KEYS)}" if letter == "l" else "d counts"

    def reads_map(self):
        letter, number = self.some(list(self.script.maps))
        return self.some([f"walk {letter}{number}", f"get {letter}{number} {self.some(KEYS)}"])

    # Readers

    def reader_line(self):
        number = self.sizes[0] if self.chance(0.05) else self.some(self.readers)
        return f"r{number} " + self.reader_verb(self.script.readers.get(number))

    def reader_verb(self, reader):
        if reader is None:
            return "register"
        if not reader.depth:
            if self.qsbr and not reader.is_online and self.chance(0.8):
                return "online"
            outside = ["quiescent", "offline", "offline"] if self.qsbr else ["try_lock"]
            return self.some(["lock"] * 6 + ["try_lock", "unregister", "unlock", "first c0", *outside])
        if self.has_maps and self.script.maps and self.chance(0.4):
            return self.reads_map() if self.chance(0.9) else "next"
        if reader.found:
            return self.some(["read"] * 4 + ["next"] * 5 + [f"word {self.random.randint(0, 4)}", "lock", "unlock"])
        chain = self.random.randrange(self.sizes[2] + self.chance(0.03))
        return self.some([f"first c{chain}"] * 7 + ["lock", "unlock", "unlock", "unregister", "next", "quiescent"])

    # Updaters that write chains

    def updater_line(self):
        number = self.some([0, 0, 0, 0, 1])
        return f"u{number} " + self.updater_verb(number, self.script.updaters[number])

    def updater_verb(self, number, updater):
        chain = self.some(list(updater.chains) or [0])
        objects = self.script.domain.chains[chain].objects
        index = self.random.randrange(len(objects) + self.chance(0.1)) if objects else 0
        code = self.random.randint(0, 99)
        if not updater.chains or self.chance(0.04):
            return self.some(["chain", "chain", "chain", "free"]) + f" c{self.random.randint(0, self.sizes[2] - 1)}"
        if updater.unlinked and self.chance(0.3):
            return f"retire {code}"
        if updater.owned and self.chance(0.6):
            verbs = ["push"] * 5 + [f"replace c{chain} {index}"] * 2 + [f"replace_retire c{chain} {index} {code}"] * 3
            verb = self.some(verbs + ["discard"])
            return f"push c{chain}" if verb == "push" else verb
        if objects and self.chance(0.75 if self.is_full() else 0.35):
            return self.some([f"cut c{chain} {index}"] + [f"cut_retire c{chain} {index} {code}"] * 3)
        if self.chance(0.7 if self.is_full() else 0.1):
            return self.some([f"set_note c{chain} {code}", f"hear c{chain}", f"free c{chain}"])
        return "alloc " + " ".join(str(self.word()) for _ in range(4))

    def is_full(self):
        return self.script.domain.used == self.script.domain.pool

    def word(self):
        return self.some([self.random.randint(0, 9), self.random.randint(0, 9), self.random.randrange(10**19)])

    # Lists and tables

    def map_line(self):
        if not self.script.maps or self.chance(0.05):
            return self.new_map()
        letter, number = self.some(list(self.script.maps))
        it, key, code = self.script.maps[letter, number], self.some(KEYS), self.random.randint(0, 99)
        present = [key for key, _ in it.entries()]
        old = self.some(present) if present and self.chance(0.9) else key
        verbs = [f"insert {key} {self.word()}"] * (1 if self.is_full() else 6)
        verbs += [f"replace {old} {self.word()} {code}"] * (1 if self.is_full() else 3)
        verbs += [f"remove {old} {code}"] * 3 + ["drop"] * self.chance(0.1)
        if letter == "t":
            left = it.left()
            many = self.random.randint(0, left + 1) if self.chance(0.7) else left + 2
            verbs += [f"tidy {many} {code}"] * (4 if left else 1)
            verbs += ["grow " + self.range_of_chains()] * (1 if left else 3)
        return f"{letter}{number} {self.some(verbs)}"

    def range_of_chains(self):
        """Chains that follow one another, mostly ones that are free."""
        chains = self.script.domain.chains
        for _ in range(10):
            first, many = self.random.randrange(len(chains)), self.some([1, 1, 2, 2, 3, 4, 5])
            if all(not it.is_held and not it.objects and not it.note for it in chains[first : first + many]):
                break
        return f"{first} {many}"

    def new_map(self):
        number, chain = self.some([0, 0, 1, 2]), self.random.randrange(self.sizes[2])
        if self.chance(0.3):
            return f"l{number} new c{chain}"
        return f"t{number} new c{chain} " + self.range_of_chains()

    # Others

    def other_line(self):
        if self.chance(0.9 if self.is_full() else 0.5):
            return f"w{self.random.randrange(self.sizes[1] + self.chance(0.05))} " + self.some(["run", "run", "work"])
        updater = self.some([0, 0, 1])
        verbs = "synchronize synchronize start start poll poll poll barrier mark mark done done"
        return f"u{updater} {self.some([*verbs.split(), 'inform u1', 'inform u16'])}"

    def begin(self):
        for number in self.readers:
            if self.chance(0.9):
                self.say(f"r{number} register")
                if self.qsbr and self.chance(0.6):
                    self.say(f"r{number} online")
        for number in range(self.sizes[2]):
            if not self.has_maps and self.chance(0.9):
                self.say(f"u{self.some([0, 0, 0, 1])} chain c{number}")

    def go_on(self):
        kind = self.random.random()
        if kind < 0.38:
            return self.reader_line()
        if kind < (0.7 if self.is_full() else 0.82):
            if self.has_maps and self.chance(0.95):
                return self.map_line()
            return self.updater_line() if not self.has_maps else "u0 " + self.some(["alloc 1 2 3 4", "discard"])
        return self.other_line()

    def end(self):
        """At last nobody reads, all has run, and each slot, record and chain is taken once more."""
        for letter, number in list(self.script.maps):
            self.end_map(letter, number)
        for number in list(self.script.readers):
            for _ in range(self.script.readers[number].depth):
                self.say(f"r{number} unlock")
            self.say(f"r{number} unregister")
        if self.chance(0.3):
            self.say("d close")
        for letter, number in list(self.script.maps):
            self.empty_map(letter, number)
        for queue in range(self.sizes[1]):
            self.say(f"w{queue} run")
        self.say("d close")
        for queue in range(self.sizes[1]):
            self.say(f"w{queue} work")
        for line in ["d counts", "u0 done", "u0 barrier", "u1 poll", "u0 synchronize"]:
            self.say(line)
        self.take_all()

    def end_map(self, letter, number):
        """What a map has, as a reader sees it."""
        if not self.script.readers:
            self.say("r0 register")
        reader = next(iter(self.script.readers))
        if self.qsbr and not self.script.readers[reader].is_online:
            self.say(f"r{reader} online")
        self.say(f"r{reader} lock")
        self.say(f"r{reader} walk {letter}{number}")
        for key in self.random.sample(KEYS, 4):
            self.say(f"r{reader} get {letter}{number} {key}")
        self.say(f"r{reader} unlock")

    def empty_map(self, letter, number):
        it = self.script.maps[letter, number]
        if letter == "t":
            self.say(f"t{number} tidy {it.left() + 1} 500")
        keys = [key for key, _ in it.entries()]
        self.say(f"{letter}{number} replace {self.some(keys or [1])} 8 9")
        for key in keys:
            self.say(f"{letter}{number} remove {key} {self.random.randint(0, 99)}")
        self.say("d counts")
        self.say(f"{letter}{number} drop")

    def take_all(self):
        slots, _, chains, pool = self.sizes
        for updater in (0, 1):
            for number in list(self.script.updaters[updater].chains):
                self.say(f"u{updater} note c{number}")
                self.say(f"u{updater} free c{number}")
        for number in range(chains):
            self.say(f"l{number} new c{number}" if self.has_maps else f"u2 chain c{number}")
            if not self.has_maps:
                self.say(f"u2 len c{number}")
                self.say(f"u2 note c{number}")
        for number in range(pool - self.script.domain.used + 1):
            self.say(f"u0 alloc {number} 0 0 0")
        self.say("d counts")
        for number in range(slots + 1):
            self.say(f"r{number} register")

    def text(self):
        self.begin()
        while len(self.lines) < self.length:
            if len(self.lines) >= self.closes_at and not self.script.domain.is_closed:
                self.say("d close")
            if self.chance(0.05):
                for line in self.some(OF_MAPS if self.has_maps else OF_CHAINS)(self):
                    self.offer(line)
            answer = self.offer(self.go_on())
            if self.chance(0.5 if answer.startswith("refused") else 0.2):
                self.say(self.look())
        self.end()
        return "".join(f"{line}\n" for line in self.lines)


PIECES = "retire | cC|c0|o1|l0|t0|r0|u0|w0|d | |\n|0|1|9|x|\r|get |grow|tid|calls|maps|memb".split("|")


def changed(text, seed):
    """The first lines of a text with one or two small changes: most are bad texts."""
    draw = random.Random(seed)
    text = "\n".join(text.split("\n")[: draw.randint(1, 12)]) + "\n"
    for _ in range(draw.randint(1, 2)):
        at = draw.randrange(len(text) + 1)
        if draw.random() < 0.4:
            text = text[:at] + text[at + draw.randint(1, 3) :]
        else:
            text = text[:at] + draw.choice(PIECES) + text[at:]
    return text


def again_after_each(text):
    """The text with the call of each line made again, where that was refused memory."""
    header, *lines = text.splitlines()
    return "".join(f"{line}\n" for line in [header, *(it for line in lines for it in (line, "d again"))])
