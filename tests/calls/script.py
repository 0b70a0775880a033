"""A second model of scripts of calls: what is kept between two lines, and what each line is answered.

Each function below `made` is the call of a reader, an updater, a worker, a list or a table, or the domain, in the order
of the tests of docs/CALLS.md.
"""

from library import Domain, Refused
from maps import KeyedList, Table, insert, remove, replace, value

MOST_READERS, MOST_OTHERS, MOST_JOBS = 256, 16, 65_536
WHOLLY = "wholly"


class WouldWait(Exception):
    """The call would wait for ever, and has changed nothing."""


class Reader:
    def __init__(self):
        self.depth, self.is_online, self.found = 0, False, None


class Updater:
    def __init__(self):
        self.chains, self.owned, self.unlinked, self.cookie, self.mark = {}, [], [], None, None


def word_of(answer):
    return "none" if answer is None else str(answer)


def words_of(answer):
    return "none" if answer is None else " ".join(map(str, answer))


class Script:
    """What a script keeps between two lines."""

    def __init__(self, flavour, sizes, has_maps):
        self.domain = Domain(flavour, *sizes)
        self.has_maps = has_maps
        self.readers, self.maps = {}, {}
        # The names of the objects that were told, by their numbers.
        self.names = {}
        self.updaters = [Updater() for _ in range(MOST_OTHERS)]
        self.refused_memory = None

    def answer(self, call, memory=None):
        """What a call is answered. With `memory` it is refused memory: wholly, or after this many retirements."""
        if (call.letter, call.verb) == ("d", "again"):
            call, self.refused_memory = self.refused_memory, None
            if call is None:
                return "."
        # A run or a tidying that stops early was made, and is not made again.
        self.refused_memory = call if memory == WHOLLY else None
        try:
            self.test(call)
            return self.made(call, memory)
        except Refused as refusal:
            return f"refused E{refusal.number}"
        except WouldWait:
            return "would wait"

    def test(self, call):
        """What is tested of each line: who may call it, who is there, and who is not there yet."""
        of_maps = call.letter in "lt" or call.verb.split(" ")[0] == "walk" or call.verb in ("get l", "get t")
        of_chains = call.letter == "u" and (call.form.has_chain or call.verb == "retire")
        if of_chains if self.has_maps else of_maps:
            raise Refused(9)
        begins = call.verb in ("register", "new")
        is_there = self.has(call.letter, call.actor)
        if not is_there and not (begins and self.may_be(call.letter, call.actor)):
            raise Refused(12)
        if call.verb[-2:] in (" l", " t") and not self.has(call.verb[-1], call.numbers[0]):
            raise Refused(12)
        if call.verb == "inform" and not self.has("u", call.numbers[0]):
            raise Refused(12)
        if begins and is_there:
            raise Refused(7)

    def may_be(self, letter, number):
        return number < (MOST_READERS if letter == "r" else MOST_OTHERS)

    def has(self, letter, number):
        if letter == "r":
            return number in self.readers
        if letter in "lt":
            return (letter, number) in self.maps
        return letter == "d" or number < (len(self.domain.queues) if letter == "w" else MOST_OTHERS)

    def made(self, call, memory):
        name = call.verb.split(" ")[0]
        if memory == WHOLLY:
            raise Refused(15)
        if call.letter in "lt":
            return getattr(self, "map_" + name)(call, memory)
        if memory is not None:
            self.tested_work(call)
            return "finished stopped E15"
        owner = {"r": self.readers.get, "u": self.updaters.__getitem__}.get(call.letter, lambda number: None)
        return getattr(self, f"{call.letter}_{name}")(owner(call.actor), call)

    def is_inside(self):
        """Whether a grace period would have to wait for a reader."""
        return any(it.is_online if self.domain.qsbr else it.depth for it in self.readers.values())

    # Readers

    def r_register(self, reader, call):
        self.domain.register()
        self.readers[call.actor] = Reader()
        return "ok"

    def r_unregister(self, reader, call):
        if reader.depth:
            raise Refused(7)
        del self.readers[call.actor]
        self.domain.claimed -= 1
        return "ok"

    def r_lock(self, reader, call):
        if self.domain.qsbr and not reader.is_online:
            raise Refused(6)
        reader.depth += 1
        return "ok"

    def r_try_lock(self, reader, call):
        try:
            self.r_lock(reader, call)
            return "yes"
        except Refused:
            return "no"

    def r_unlock(self, reader, call):
        if not reader.depth:
            raise Refused(6)
        reader.depth -= 1
        if not reader.depth:
            reader.found = None
        return "ok"

    def r_online(self, reader, call):
        if not self.domain.qsbr:
            raise Refused(9)
        if reader.is_online:
            raise Refused(7)
        reader.is_online, reader.found = True, None
        return "ok"

    def announced(self, reader, is_online):
        if not self.domain.qsbr:
            raise Refused(9)
        if not reader.is_online:
            raise Refused(6)
        if reader.depth:
            raise Refused(7)
        reader.is_online, reader.found = is_online, None
        return "ok"

    def r_quiescent(self, reader, call):
        return self.announced(reader, True)

    def r_offline(self, reader, call):
        return self.announced(reader, False)

    def r_first(self, reader, call):
        if not reader.depth:
            raise Refused(6)
        if call.numbers[0] >= len(self.domain.chains):
            raise Refused(8)
        reader.found = self.domain.chains[call.numbers[0]].first()
        return "ok" if reader.found else "none"

    def found(self, reader):
        if reader.found is None:
            raise Refused(8)
        return reader.found

    def r_next(self, reader, call):
        reader.found = self.found(reader).link
        return "ok" if reader.found else "none"

    def r_read(self, reader, call):
        return words_of(self.found(reader).words)

    def r_word(self, reader, call):
        if call.numbers[0] > 3:
            raise Refused(8)
        return str(self.found(reader).words[call.numbers[0]])

    def looked_up(self, reader, call):
        """The list or the table that a reader with a lock looks at, which leaves nothing found."""
        if not reader.depth:
            raise Refused(6)
        reader.found = None
        return self.maps[call.verb[-1], call.numbers[0]]

    def r_get(self, reader, call):
        return word_of(value(self.looked_up(reader, call).of_key(call.numbers[1]), call.numbers[1]))

    def r_walk(self, reader, call):
        return "met" + "".join(f" {key}:{it}" for key, it in self.looked_up(reader, call).entries())

    # Updaters

    def u_chain(self, updater, call):
        updater.chains[call.numbers[0]] = self.domain.hold(call.numbers[0])
        return "ok"

    def written(self, updater, call):
        if call.numbers[0] not in updater.chains:
            raise Refused(6)
        return updater.chains[call.numbers[0]]

    def u_free(self, updater, call):
        self.written(updater, call).is_held = False
        del updater.chains[call.numbers[0]]
        return "ok"

    def u_alloc(self, updater, call):
        updater.owned.append(self.domain.alloc(call.numbers))
        return self.name(updater.owned[-1].number)

    def owned(self, updater):
        if not updater.owned:
            raise Refused(8)
        return updater.owned[-1]

    def u_discard(self, updater, call):
        self.owned(updater)
        updater.owned.pop()
        self.domain.discard()
        return "ok"

    def u_push(self, updater, call):
        self.written(updater, call).push(self.owned(updater))
        updater.owned.pop()
        return "ok"

    def below_length(self, updater, call):
        """The chain, whose index has to be there."""
        chain = self.written(updater, call)
        if call.numbers[1] >= len(chain.objects):
            raise Refused(8)
        return chain

    def name(self, number):
        return f"o{self.names.setdefault(number, len(self.names) + 1)}"

    def was_cut(self, updater, chain, item):
        updater.unlinked.append((chain, item))
        return self.name(item.number)

    def u_replace(self, updater, call):
        self.written(updater, call)
        item, chain = self.owned(updater), self.below_length(updater, call)
        updater.owned.pop()
        return self.was_cut(updater, chain, chain.replace(call.numbers[1], item))

    def u_cut(self, updater, call):
        chain = self.below_length(updater, call)
        return self.was_cut(updater, chain, chain.cut(call.numbers[1]))

    def u_retire(self, updater, call):
        if not updater.unlinked:
            raise Refused(8)
        ticket = self.domain.retire(*updater.unlinked[-1], call.numbers[0])
        updater.unlinked.pop()
        return f"ticket {ticket}"

    def u_cut_retire(self, updater, call):
        _, index, code = call.numbers
        return f"ticket {self.domain.cut_retire(self.written(updater, call), index, code)}"

    def u_replace_retire(self, updater, call):
        _, index, code = call.numbers
        chain = self.written(updater, call)
        ticket = self.domain.replace_retire(chain, index, self.owned(updater), code)
        updater.owned.pop()
        return f"ticket {ticket}"

    def u_len(self, updater, call):
        return str(len(self.written(updater, call).objects))

    def u_get(self, updater, call):
        objects = self.written(updater, call).objects
        return words_of(objects[call.numbers[1]].words if call.numbers[1] < len(objects) else None)

    def u_index(self, updater, call):
        return word_of(self.written(updater, call).index_of(call.numbers[1]))

    def u_note(self, updater, call):
        return str(self.written(updater, call).note)

    def u_set_note(self, updater, call):
        self.written(updater, call).note = call.numbers[1]
        return "ok"

    def u_hear(self, updater, call):
        self.written(updater, call)
        return "ok"

    def u_synchronize(self, updater, call):
        if self.is_inside():
            raise WouldWait
        self.domain.synchronize()
        return "ok"

    def u_start(self, updater, call):
        updater.cookie = self.domain.seq + 2
        return "ok"

    def u_poll(self, updater, call):
        if updater.cookie is None:
            raise Refused(6)
        return "yes" if self.domain.seq >= updater.cookie else "no"

    def u_barrier(self, updater, call):
        if any(queue.waiting() for queue in self.domain.queues):
            raise WouldWait
        return "ok"

    def u_mark(self, updater, call):
        updater.mark = [len(queue.items) for queue in self.domain.queues]
        return "ok"

    def u_done(self, updater, call):
        if updater.mark is None:
            raise Refused(6)
        return "yes" if all(it.ran >= noted for it, noted in zip(self.domain.queues, updater.mark)) else "no"

    def u_inform(self, updater, call):
        return "ok"

    # Workers

    def tested_work(self, call):
        queue = self.domain.queues[call.actor]
        if call.verb == "work" and not self.domain.is_closed or queue.waiting() and self.is_inside():
            raise WouldWait
        return queue

    def w_run(self, worker, call):
        finished = self.domain.run(self.tested_work(call))
        return "finished" + "".join(f" {ticket} {self.name(item)} {code}" for ticket, item, code in finished)

    w_work = w_run

    # Lists and tables

    def map_new(self, call, memory):
        kind = KeyedList if call.letter == "l" else Table
        self.maps[call.letter, call.actor] = kind(self.domain, *call.numbers)
        return "ok"

    def map_drop(self, call, memory):
        self.maps.pop((call.letter, call.actor)).drop()
        return "ok"

    def bucket(self, call):
        return self.maps[call.letter, call.actor].of_key(call.numbers[0])

    def map_insert(self, call, memory):
        insert(self.domain, self.bucket(call), *call.numbers)
        return "ok"

    def map_replace(self, call, memory):
        return f"ticket {replace(self.domain, self.bucket(call), *call.numbers)}"

    def map_remove(self, call, memory):
        return f"ticket {remove(self.domain, self.bucket(call), *call.numbers)}"

    def map_value(self, call, memory):
        return word_of(value(self.bucket(call), call.numbers[0]))

    def map_grow(self, call, memory):
        return f"left {self.maps['t', call.actor].grow(*call.numbers)}"

    def map_tidy(self, call, memory):
        many, code = call.numbers
        if many > MOST_JOBS:
            raise Refused(14)
        table = self.maps["t", call.actor]
        if table.left() and self.is_inside():
            raise WouldWait
        codes = [code + number for number in range(many)]
        self.domain.room = memory
        retired, stop = table.tidy(codes)
        self.domain.room = None
        back = " back " + " ".join(map(str, codes)) if codes else ""
        return f"retired {retired} left {table.left()}{back}" + (f" stopped E{stop}" if stop else "")

    # The domain

    def d_counts(self, nobody, call):
        waiting = "".join(f" {queue.waiting()}" for queue in self.domain.queues)
        return f"seq {self.domain.seq} records {self.domain.used} waiting{waiting}"

    def d_stalled(self, nobody, call):
        return "slots"

    def d_close(self, nobody, call):
        self.domain.is_closed = True
        return "ok"
