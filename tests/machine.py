"""A second model of the abstract machine: which logs are its runs."""


class Machine:
    def __init__(self):
        self.seen, self.open = set(), {}  # of each open section, the objects it holds
        self.chains, self.kept = {}, {}  # of each chain its objects, of each cut object its successor
        self.used, self.retired, self.queued, self.run = set(), {}, set(), set()
        self.asked, self.answered, self.bars, self.cleared = {}, set(), {}, set()

    def breaks(self, text):
        """The rule that an event breaks; None when it is done."""
        kind, *words = text.split()
        rule, step = {
            "open": ("D3", self.opens),
            "close": ("D3", self.closes),
            "first": ("D4", self.first),
            "next": ("D4", self.next),
            "touch": ("D4", self.touch),
            "push": ("D5", self.push),
            "replace": ("D5", self.replace),
            "cut": ("D5", self.cut),
            "retire": ("D6", self.retire),
            "queue": ("D7", self.queue),
            "run": ("D7", self.runs),
            "ask": ("D8", self.ask),
            "answer": ("D8", self.answer),
            "bar": ("D8", self.bar),
            "clear": ("D8", self.clear),
        }[kind]
        return None if step(*words) else rule

    def opens(self, section):
        if section in self.seen:
            return False
        self.seen.add(section)
        self.open[section] = set()
        return True

    def closes(self, section):
        if section not in self.open:
            return False
        del self.open[section]
        for awaited in [*self.retired.values(), *self.asked.values()]:
            awaited.discard(section)
        return True

    def holds(self, section, found):
        if found != "none":
            self.open[section].add(found)
        return True

    def first(self, section, chain, found):
        objects = self.chains.get(chain, [])
        is_right = section in self.open and found == (objects[0] if objects else "none")
        return is_right and self.holds(section, found)

    def next(self, section, held, found):
        is_right = held in self.open.get(section, ()) and found == self.successor(held)
        return is_right and self.holds(section, found)

    def touch(self, section, held):
        return held in self.open.get(section, ())

    def successor(self, it):
        for objects in self.chains.values():
            if it in objects:
                at = objects.index(it) + 1
                return objects[at] if at < len(objects) else "none"
        return self.kept[it]

    def uses(self, new):
        is_new = new not in self.used
        self.used.add(new)
        return is_new

    def push(self, chain, new):
        if not self.uses(new):
            return False
        self.chains.setdefault(chain, []).insert(0, new)
        return True

    def replace(self, chain, old, new):
        objects = self.chains.get(chain, [])
        if old not in objects or not self.uses(new):
            return False
        self.kept[old] = self.successor(old)
        objects[objects.index(old)] = new
        return True

    def cut(self, chain, old):
        objects = self.chains.get(chain, [])
        if old not in objects:
            return False
        self.kept[old] = self.successor(old)
        objects.remove(old)
        return True

    def retire(self, it):
        if it not in self.kept or it in self.retired:
            return False
        self.retired[it] = set(self.open)
        return True

    def queue(self, it, _):
        if it not in self.retired or it in self.queued:
            return False
        self.queued.add(it)
        return True

    def runs(self, it):
        if it not in self.queued or it in self.run or self.retired[it]:
            return False
        self.run.add(it)
        for awaited in self.bars.values():
            awaited.discard(it)
        return True

    def ask(self, it):
        if it in self.asked:
            return False
        self.asked[it] = set(self.open)
        return True

    def answer(self, it):
        if it not in self.asked or it in self.answered or self.asked[it]:
            return False
        self.answered.add(it)
        return True

    def bar(self, it):
        if it in self.bars:
            return False
        self.bars[it] = self.queued - self.run
        return True

    def clear(self, it):
        if it not in self.bars or it in self.cleared or self.bars[it]:
            return False
        self.cleared.add(it)
        return True


def verdict(events):
    """The place and the rule of the first event that is not done; None for a run, where nothing held is reclaimed."""
    machine = Machine()
    for number, event in enumerate(events, 1):
        rule = machine.breaks(event)
        if rule:
            return number, rule
        assert not any(held & machine.run for held in machine.open.values()), (number, event)
    return None
