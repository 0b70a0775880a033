"""What the live library keeps, for one thread: slots, chains, records, queues and grace periods.

Each function is the public call of that name, by its documentation. A refusal is raised, and has changed nothing. Objects
are numbered in the order in which they are allocated; a script tells them by names of its own.
"""


class Refused(Exception):
    """A refusal of this number."""

    def __init__(self, number):
        self.number = number


class Object:
    """An object with its four words. Its link stays when it is cut."""

    def __init__(self, number, words):
        self.number, self.words, self.link = number, list(words), None


class Chain:
    """The objects that a chain links, from the first one on, its note, and whether it has a writer."""

    def __init__(self, number):
        self.number, self.objects, self.note, self.is_held = number, [], 0, False

    def first(self):
        return self.objects[0] if self.objects else None

    def link_before(self, index, item):
        if index:
            self.objects[index - 1].link = item

    def push(self, item):
        item.link = self.first()
        self.objects.insert(0, item)

    def cut(self, index):
        old = self.objects.pop(index)
        self.link_before(index, old.link)
        return old

    def replace(self, index, item):
        old, self.objects[index] = self.objects[index], item
        item.link = old.link
        self.link_before(index, item)
        return old

    def index_of(self, word):
        return next((index for index, it in enumerate(self.objects) if it.words[0] == word), None)


class Queue:
    """All that was ever queued, in the order of the tickets, and how much of it has run."""

    def __init__(self):
        self.items, self.ran = [], 0

    def waiting(self):
        return len(self.items) - self.ran


class Domain:
    def __init__(self, flavour, slots, queues, chains, pool):
        self.qsbr, self.slots, self.pool = flavour == "qsbr", slots, pool
        self.chains = [Chain(number) for number in range(chains)]
        self.queues = [Queue() for _ in range(queues)]
        self.claimed, self.number, self.used, self.seq, self.is_closed = 0, 0, 0, 0, False
        # How many more retirements find memory in the call that is made; None where all do.
        self.room = None

    # Readers

    def register(self):
        if self.claimed == self.slots:
            raise Refused(1)
        self.claimed += 1

    # Records and chains

    def alloc(self, words):
        if self.used == self.pool:
            raise Refused(3)
        self.used += 1
        self.number += 1
        return Object(self.number, words)

    def discard(self):
        self.used -= 1

    def hold(self, number):
        """The writer of a chain."""
        if number >= len(self.chains):
            raise Refused(8)
        chain = self.chains[number]
        if chain.is_held:
            raise Refused(7)
        chain.is_held = True
        return chain

    # Retiring

    def queue_of(self, chain):
        return self.queues[chain.number % len(self.queues)]

    def retire(self, chain, item, code):
        """The ticket of an object that was cut from a chain."""
        self.ask_to_retire()
        return self.queued(chain, item, code)

    def ask_to_retire(self):
        if self.is_closed:
            raise Refused(4)
        if self.room == 0:
            raise Refused(15)
        if self.room is not None:
            self.room -= 1

    def queued(self, chain, item, code):
        items = self.queue_of(chain).items
        items.append((item, code))
        return len(items)

    def cut_retire(self, chain, index, code):
        if index >= len(chain.objects):
            raise Refused(8)
        self.ask_to_retire()
        return self.queued(chain, chain.cut(index), code)

    def replace_retire(self, chain, index, item, code):
        if index >= len(chain.objects):
            raise Refused(8)
        self.ask_to_retire()
        return self.queued(chain, chain.replace(index, item), code)

    # Waiting and working

    def synchronize(self):
        """A whole grace period: the sequence number is odd in between."""
        self.seq += 2

    def run(self, queue):
        """What is queued runs, each in its turn: a list of tickets, objects and codes.

        One grace period serves all of it, and none is waited for where nothing is queued."""
        if queue.waiting():
            self.synchronize()
        finished = []
        for item, code in queue.items[queue.ran :]:
            queue.ran += 1
            self.used -= 1
            finished.append((queue.ran, item.number, (code + item.words[0]) % 2**64))
        return finished
