"""A second model of schedules, of their worlds and of what `torture replay` prints. It shares nothing with the program.

It is here to differ: `run-random` draws schedules with it, and sets the program's answers against its own.
"""

LIMIT = 2**62
NUMBER = None
MOST = (64, 16, 8, 64)
WORDS = {
    "r": ["lock", "unlock", "online", "quiescent", "offline", "first c#", "next", "touch", "."],
    "u": ["push c#", "replace o#", "cut o#", "retire o#", "sync", "start", "poll", "barrier", "."],
    "w": ["take", "."],
}
HEADERS = [
    [f"schedule {version} {flavour} ", NUMBER, " ", NUMBER, " ", NUMBER, " ", NUMBER, "\n"]
    for version in "12"
    for flavour in ("memb", "qsbr")
]
LINES = [
    [actor, NUMBER, " " + word[:-1], NUMBER, "\n"] if word.endswith("#") else [actor, NUMBER, " " + word + "\n"]
    for actor, words in WORDS.items()
    for word in words
]


class Refused(Exception):
    """A refusal of this number: all is as it was."""

    def __init__(self, number):
        self.number = number


class Stay(Exception):
    """`wait`, `blocked` or `idle`: all is as it was."""

    def __init__(self, text):
        self.text = text


class World:
    def __init__(self, version, flavour, readers, updaters, workers, chains):
        self.qsbr = flavour == "qsbr"
        self.greatest = 65_535 if version == 1 else 2_147_483_647
        self.unit = 65_536 if version == 1 else 2**32
        self.modulus = 65_536 if version == 1 else 2**31
        self.sequence, self.phase, self.number = 0, 0, 0
        self.grace_lock = None
        self.readers = [dict(word=0, ordinal=0, cursor=None, copy=None) for _ in range(readers)]
        self.updaters = [dict(op=None, cookie=None) for _ in range(updaters)]
        self.workers = [dict(op=None) for _ in range(workers)]
        self.heads = [None] * chains
        self.objects = []  # of o1 and on
        self.queues = [dict(lock=None, items=[], queued=0, finished=0) for _ in range(workers)]
        self.asks, self.bars = 0, 0
        self.log = []

    def answer(self, line):
        """What one line prints; its events go to the end of the log."""
        try:
            events = self.step(*line)
        except Refused as refused:
            return f"refused E{refused.number}"
        except Stay as stay:
            return stay.text
        if not events:
            return "."
        self.log += events
        return "; ".join(events)

    def step(self, actor, index, verb, argument):
        people, is_busy, of_verb = {
            "r": (self.readers, self.reader_is_busy, self.reader_verb),
            "u": (self.updaters, self.is_busy, self.updater_verb),
            "w": (self.workers, self.is_busy, self.worker_verb),
        }[actor]
        if index >= len(people):
            raise Refused(12)
        it = people[index]
        if verb == ".":
            if not is_busy(it):
                raise Refused(6)
            return {"r": self.reader_stores, "u": self.updater_goes_on, "w": self.worker_goes_on}[actor](index, it)
        if is_busy(it):
            raise Refused(7)
        return of_verb(index, it, verb, argument)

    def is_busy(self, it):
        return it["op"] is not None

    def end_line(self):
        kinds = [event.split()[0] for event in self.log]
        count = kinds.count
        return f"end open={count('open') - count('close')} waiting={count('retire') - count('run')} run={count('run')}"

    # ---- readers

    def count(self, word):
        return word % self.modulus

    def in_the_way(self, word):
        if self.qsbr:
            return word not in (0, self.number + 1)
        return self.count(word) != 0 and word // self.unit % 2 != self.phase

    def is_open(self, reader):
        return reader["word"] != 0 if self.qsbr else self.count(reader["word"]) != 0

    def reader_is_busy(self, reader):
        return reader["copy"] is not None

    def section(self, r):
        return f"r{r}.{self.readers[r]['ordinal']}"

    def opens(self, r, word):
        reader = self.readers[r]
        reader["word"], reader["copy"], reader["cursor"] = word, None, None
        reader["ordinal"] += 1
        return f"open {self.section(r)}"

    def closes(self, r):
        self.readers[r]["cursor"] = None
        return f"close {self.section(r)}"

    def reader_stores(self, r, reader):
        copy = reader["copy"]
        if not self.qsbr:
            return [self.opens(r, self.unit * copy + 1)]
        closed = [self.closes(r)] if reader["word"] else []
        return [*closed, self.opens(r, copy + 1)]

    def reader_verb(self, r, reader, verb, argument):
        if verb in ("lock", "unlock"):
            return self.nested(r, reader, verb)
        if verb in ("online", "quiescent", "offline"):
            return self.reported(r, reader, verb)
        return self.walked(r, reader, verb, argument)

    def nested(self, r, reader, verb):
        if self.qsbr:
            raise Refused(9)
        nesting = self.count(reader["word"])
        if verb == "lock":
            if nesting == 0:
                reader["copy"] = self.phase
                return None
            if nesting >= self.greatest:
                raise Refused(2)
            reader["word"] += 1
            return None
        if nesting == 0:
            raise Refused(6)
        reader["word"] -= 1
        return [self.closes(r)] if nesting == 1 else None

    def reported(self, r, reader, verb):
        if not self.qsbr:
            raise Refused(9)
        if verb == "online" and reader["word"] != 0:
            raise Refused(7)
        if verb != "online" and reader["word"] == 0:
            raise Refused(6)
        if verb == "offline":
            reader["word"] = 0
            return [self.closes(r)]
        reader["copy"] = self.number
        return None

    def walked(self, r, reader, verb, argument):
        if not self.is_open(reader):
            raise Refused(6)
        section, cursor = self.section(r), reader["cursor"]
        if verb == "first c":
            if argument >= len(self.heads):
                raise Refused(8)
            found, event = self.heads[argument], f"first {section} c{argument}"
        else:
            if cursor is None:
                raise Refused(8)
            if verb == "touch":
                return [f"touch {section} o{cursor}"]
            found, event = self.object(cursor)["link"], f"next {section} o{cursor}"
        if found is not None:
            reader["cursor"] = found
        return [f"{event} {'none' if found is None else f'o{found}'}"]

    # ---- grace periods

    def begin_sync(self):
        if self.sequence >= LIMIT:
            raise Refused(5)
        self.asks += 1
        cookie = (self.sequence + 3) // 2 * 2
        return dict(place="lock", cookie=cookie, ask=self.asks, slot=0), [f"ask a{self.asks}"]

    def sync_step(self, me, sync):
        place = sync["place"]
        if place in ("scan", "second"):
            return self.scan_step(sync)
        if place == "lock":
            if self.grace_lock is not None:
                raise Stay("blocked")
            self.grace_lock, sync["place"] = me, "check"
        elif place == "check":
            sync["place"] = "unlock" if self.sequence >= sync["cookie"] else "odd"
            return [f"answer a{sync['ask']}"] if sync["place"] == "unlock" else None
        elif place in ("odd", "even"):
            self.sequence += 1
            sync["place"] = "flip" if place == "odd" else "unlock"
            return [f"answer a{sync['ask']}"] if place == "even" else None
        elif place in ("flip", "back"):
            if self.qsbr:
                self.number += 1
            self.phase = 1 - self.phase
            sync["place"] = "scan" if place == "flip" else "second"
        else:
            self.grace_lock, sync["place"] = None, "over"
        return None

    def scan_step(self, sync):
        if self.in_the_way(self.readers[sync["slot"]]["word"]):
            raise Stay("wait")
        sync["slot"] += 1
        if sync["slot"] == len(self.readers):
            sync["slot"] = 0
            sync["place"] = "back" if sync["place"] == "scan" and not self.qsbr else "even"

    # ---- updaters

    def object(self, k):
        return self.objects[k - 1] if 1 <= k <= len(self.objects) else None

    def writes(self, u, chain):
        return chain % len(self.updaters) == u

    def fresh(self, chain, link):
        self.objects.append(dict(chain=chain, link=link, state="fresh", retired=False))
        return len(self.objects)

    def put(self, chain, old, new):
        """Puts another link in the place of the one that leads to an object."""
        at, before = self.heads[chain], None
        while at != old:
            at, before = self.object(at)["link"], at
        if before is None:
            self.heads[chain] = new
        else:
            self.object(before)["link"] = new

    def linked(self, u, k):
        it = self.object(k)
        if it is None or it["state"] != "linked" or not self.writes(u, it["chain"]):
            raise Refused(8)
        return it

    def updater_verb(self, u, updater, verb, argument):
        if verb in ("push c", "replace o", "cut o"):
            return self.published(u, updater, verb, argument)
        if verb == "retire o":
            return self.retired(u, updater, argument)
        if verb == "barrier":
            self.bars += 1
            updater["op"] = dict(kind="barrier", number=self.bars, counts=[self.queues[0]["queued"]], done=0)
            return [f"bar b{self.bars}"]
        if verb == "poll":
            return self.polled(updater)
        sync, events = self.begin_sync()
        if verb == "sync":
            updater["op"] = dict(kind="sync", sync=sync)
        else:
            updater["cookie"] = (sync["cookie"], sync["ask"])
        return events

    def published(self, u, updater, verb, argument):
        if verb == "push c":
            if argument >= len(self.heads) or not self.writes(u, argument):
                raise Refused(8)
            updater["op"] = dict(kind="push", chain=argument, new=self.fresh(argument, self.heads[argument]))
            return None
        it = self.linked(u, argument)
        if verb == "replace o":
            updater["op"] = dict(kind="replace", old=argument, new=self.fresh(it["chain"], it["link"]))
            return None
        self.put(it["chain"], argument, it["link"])
        it["state"] = "cut"
        return [f"cut c{it['chain']} o{argument}"]

    def retired(self, u, updater, k):
        it = self.object(k)
        if it is None or not self.writes(u, it["chain"]) or it["state"] != "cut" or it["retired"]:
            raise Refused(8)
        q = u % len(self.workers)
        if self.queues[q]["lock"] is not None:
            raise Stay("blocked")
        self.queues[q]["lock"] = u
        updater["op"] = dict(kind="retire", object=k, queue=q, step=2)

    def polled(self, updater):
        if updater["cookie"] is None:
            raise Refused(6)
        cookie, ask = updater["cookie"]
        if self.sequence < cookie:
            raise Stay("wait")
        updater["cookie"] = None
        return [f"answer a{ask}"]

    def updater_goes_on(self, u, updater):
        op = updater["op"]
        if op["kind"] == "sync":
            events = self.sync_step(("u", u), op["sync"])
            is_over = op["sync"]["place"] == "over"
        else:
            events, is_over = {
                "push": self.push_stores,
                "replace": self.replace_stores,
                "retire": self.retire_step,
                "barrier": self.barrier_step,
            }[op["kind"]](op)
        if is_over:
            updater["op"] = None
        return events

    def push_stores(self, op):
        self.heads[op["chain"]] = op["new"]
        self.object(op["new"])["state"] = "linked"
        return [f"push c{op['chain']} o{op['new']}"], True

    def replace_stores(self, op):
        old, new = op["old"], op["new"]
        chain = self.object(old)["chain"]
        self.put(chain, old, new)
        self.object(old)["state"], self.object(new)["state"] = "cut", "linked"
        return [f"replace c{chain} o{old} o{new}"], True

    def retire_step(self, op):
        queue, step = self.queues[op["queue"]], op["step"]
        op["step"] += 1
        if step == 2:
            self.object(op["object"])["retired"] = True
            return [f"retire o{op['object']}"], False
        if step == 3:
            queue["queued"] += 1
            return None, False
        if step == 4:
            queue["items"].append(op["object"])
            return [f"queue o{op['object']} q{op['queue']}"], False
        queue["lock"] = None
        return None, True

    def barrier_step(self, op):
        """Loads each queue's count of queued items, then waits for as many finished ones, queue after queue."""
        counts, done = op["counts"], op["done"]
        if len(counts) < len(self.queues):
            counts.append(self.queues[len(counts)]["queued"])
            return None, False
        if self.queues[done]["finished"] < counts[done]:
            raise Stay("wait")
        op["done"] += 1
        is_over = op["done"] == len(self.queues)
        return [f"clear b{op['number']}"] if is_over else None, is_over

    # ---- workers

    def worker_verb(self, w, worker, verb, argument):
        queue = self.queues[w]
        if queue["lock"] is not None:
            raise Stay("blocked")
        if not queue["items"]:
            raise Stay("idle")
        worker["op"] = dict(batch=queue["items"], sync=None, is_run=False)
        queue["items"] = []

    def worker_goes_on(self, w, worker):
        op = worker["op"]
        if op["sync"] is None:
            op["sync"], events = self.begin_sync()
            return events
        if op["sync"]["place"] != "over":
            return self.sync_step(("w", w), op["sync"])
        if not op["is_run"]:
            op["is_run"] = True
            return [f"run o{op['batch'][0]}"]
        self.queues[w]["finished"] += 1
        op["is_run"] = False
        op["batch"].pop(0)
        if not op["batch"]:
            worker["op"] = None
        return None


# ---- text


def agreement(text, parts):
    """How many bytes agree with a line of these parts, and whether the text is such a line."""
    best, ends = 0, [0]
    for part in parts:
        following = []
        for at in ends:
            if part is NUMBER:
                good = digits(text, at)
                following += range(at + 1, good + 1)
            else:
                good = at
                while good < min(len(text), at + len(part)) and text[good] == part[good - at]:
                    good += 1
                if good == at + len(part):
                    following.append(good)
            best = max(best, good)
        ends = following
    return best, len(text) in ends


def digits(text, at):
    """The place after the longest number from a place on: up to nine digits, and no 0 before another."""
    end = at
    while end < min(len(text), at + 9) and text[end] in "0123456789" and text[at:end] != "0":
        end += 1
    return end


def parsed(line):
    actor, _, verb = line[:-1].partition(" ")
    head = verb.rstrip("0123456789")
    argument = int(verb[len(head) :]) if len(head) < len(verb) else None
    return actor[0], int(actor[1:]), head, argument


def world_of(header):
    _, version, flavour, *words = header.split()
    numbers = [int(it) for it in words]
    if not all(1 <= it <= most for it, most in zip(numbers, MOST)):
        return None
    return World(int(version), flavour, *numbers)


def replay(text):
    """What is printed, what is told on standard error, the status, and the log."""
    lines = text.split("\n")
    lines = [line + "\n" for line in lines[:-1]] + ([lines[-1]] if lines[-1] else [])
    printed, world = "", None
    for number, line in enumerate(lines or [""], 1):
        alternatives = [agreement(line, parts) for parts in (LINES if world else HEADERS)]
        if not any(is_whole for _, is_whole in alternatives):
            column = max(good for good, _ in alternatives) + 1
            return printed, f"line {number} column {column}: bad text\n", 2, []
        if world:
            printed += world.answer(parsed(line)) + "\n"
        else:
            world = world_of(line)
            if world is None:
                return "", "line 1: bad config\n", 2, []
    return printed + world.end_line() + "\n", "", 0, world.log
