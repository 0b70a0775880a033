"""Keyed lists and hash tables over the chains of a domain, by the documentation of `RcuList` and `RcuHash`."""

from library import Refused

MOST_BUCKETS = 4096

# The first note of chains that are reserved for a directory.
RESERVED = 2**63


def taken_empty(domain, number):
    """The writer of a chain that has none, is empty and has no note; else bad config, and it is given back."""
    try:
        chain = domain.hold(number)
    except Refused:
        raise Refused(14) from None
    if chain.objects or chain.note:
        chain.is_held = False
        raise Refused(14)
    return chain


def all_taken(domain, numbers):
    """The writers of these chains, or none of them."""
    taken = []
    try:
        for number in numbers:
            taken.append(taken_empty(domain, number))
    except Refused:
        give_back(taken)
        raise
    return taken


def give_back(chains):
    for chain in chains:
        chain.is_held = False


def insert(domain, chain, key, value):
    """A push at the front, with a rank one above that of the first object, or 0."""
    if chain.index_of(key) is not None:
        raise Refused(10)
    rank = chain.objects[0].words[2] + 1 if chain.objects else 0
    chain.push(domain.alloc([key, value, rank, 0]))


def replace(domain, chain, key, value, code):
    """The new record is allocated first, and freed again where the retirement is refused."""
    index = chain.index_of(key)
    if index is None:
        raise Refused(11)
    item = domain.alloc([key, value, chain.objects[index].words[2], 0])
    try:
        return domain.replace_retire(chain, index, item, code)
    except Refused:
        domain.discard()
        raise


def remove(domain, chain, key, code):
    index = chain.index_of(key)
    if index is None:
        raise Refused(11)
    return domain.cut_retire(chain, index, code)


def value(chain, key):
    index = chain.index_of(key)
    return None if index is None else chain.objects[index].words[1]


def entries(chain):
    return [tuple(it.words[:2]) for it in chain.objects]


class KeyedList:
    def __init__(self, domain, number):
        chain = domain.hold(number)
        if chain.objects or chain.note:
            chain.is_held = False
            raise Refused(14)
        self.chain = chain

    def of_key(self, key):
        return self.chain

    def entries(self):
        return entries(self.chain)

    def drop(self):
        self.chain.is_held = False


class Table:
    def __init__(self, domain, directory, first, buckets):
        if not self.fits(domain, directory, first, buckets):
            raise Refused(14)
        self.domain = domain
        taken = all_taken(domain, [directory, *range(first, first + buckets)])
        self.directory, self.buckets = taken[0], taken[1:]
        try:
            record = domain.alloc([first, buckets, 0, 1])
        except Refused:
            give_back(taken)
            raise
        self.note_all(RESERVED + record.number)
        self.directory.push(record)
        # What an earlier directory left: its record, and the chains that it named.
        self.left_record, self.left_chains = None, []

    @staticmethod
    def fits(domain, directory, first, buckets):
        chains = len(domain.chains)
        if not 1 <= buckets <= MOST_BUCKETS or directory >= chains or first + buckets > chains:
            return False
        return not first <= directory < first + buckets

    def note_all(self, note):
        for chain in self.buckets:
            chain.note = note

    def of_key(self, key):
        return self.buckets[key % len(self.buckets)]

    def entries(self):
        """As a walk meets them: the buckets in the order of their chains."""
        return [entry for chain in self.buckets for entry in entries(chain)]

    def drop(self):
        """The chains are given back with their keys and notes, also those that an earlier directory left. Its record
        stays in use for good."""
        give_back([self.directory, *self.buckets, *self.left_chains])

    def left(self):
        return (self.left_record is not None) + sum(len(chain.objects) for chain in self.left_chains)

    def grow(self, first, buckets):
        if self.left_chains:
            raise Refused(7)
        own = {chain.number for chain in self.buckets}
        if not self.fits(self.domain, self.directory.number, first, buckets):
            raise Refused(14)
        if not own.isdisjoint(range(first, first + buckets)):
            raise Refused(14)
        news = all_taken(self.domain, range(first, first + buckets))
        try:
            copies, record = self.copied(first, buckets)
        except Refused:
            give_back(news)
            raise
        for item in copies:
            news[item.words[0] % buckets].push(item)
        self.note_all(self.directory.number + 1)
        self.left_chains, self.buckets = self.buckets, news
        self.note_all(RESERVED + record.number)
        self.left_record = self.directory.replace(0, record)
        return self.left()

    def copied(self, first, buckets):
        """A record for each key, and then one for the directory; where one is refused they all are discarded.

        The copies are allocated in the order of a walk, and their ranks count from 0 in it. `grow` pushes them in that
        order, so the later one comes first.
        """
        made = []
        try:
            for rank, (key, it) in enumerate(self.entries()):
                made.append(self.domain.alloc([key, it, rank, 0]))
            made.append(self.domain.alloc([first, buckets, 0, 1]))
        except Refused:
            for _ in made:
                self.domain.discard()
            raise
        return made[:-1], made[-1]

    def tidy(self, codes):
        """How many were retired, and why it stopped. The callbacks are taken from the back of their list.

        The record of the directory is retired first, then the objects of the chains that it named, from the last chain
        to the first one, each from its first object on. A chain that is empty then is given back at once, without its
        note, also where the tidying stops later."""
        many = len(codes)
        if not self.left_chains:
            return 0, None
        self.domain.synchronize()
        try:
            self.retire_left(codes)
        except Refused as refusal:
            return many - len(codes), refusal.number
        return many - len(codes), None

    def retire_left(self, codes):
        if self.left_record is not None:
            self.retire_one(codes, lambda code: self.domain.retire(self.directory, self.left_record, code))
            self.left_record = None
        while self.left_chains:
            chain = self.left_chains[-1]
            while chain.objects:
                self.retire_one(codes, lambda code: self.domain.cut_retire(chain, 0, code))
            chain.note, chain.is_held = 0, False
            self.left_chains.pop()

    @staticmethod
    def retire_one(codes, retire):
        if not codes:
            raise Refused(16)
        retire(codes[-1])
        codes.pop()
