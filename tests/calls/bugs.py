#!/usr/bin/env python3
"""Bugs to plant in the live library, each of which a row or a drawn script has to show.

bugs.py                   whether the text of each stands once in its file; the last line is 'bugs: N passed, M failed'
bugs.py plant NAME TOP    plants one in the repository TOP, which is a copy
bugs.py catch PROGRAM..   how many rows and drawn scripts each program answers wrongly, and how many as they are watched
"""

import pathlib
import sys

sys.dont_write_bytecode = True
from comparing import ROWS, answered, made, row_of, scripts
from watching import watched, watched_row

CRATES = pathlib.Path(__file__).resolve().parents[2] / "crates"
SCRIPTS, SECONDS, HANGS = 300, 10, 5

# A name, the file of a crate, what stands there, and what is put in its place.
BUGS = [
    # Readers
    (
        "an unregister loses the slot",
        "live_read/src/registering.rt",
        "        release(&table, &mut seat, slot);\n",
        "        let _lost = slot;\n",
    ),
    (
        "an unregister does not look for open locks",
        "live_read/src/registering.rt",
        "        if self.core.depth != 0 {\n            return Err((Refusal::Busy, self));\n        }\n",
        "",
    ),
    (
        "a reader that leaves stays online",
        "live_read/src/registering.rt",
        "        core.end();\n",
        "",
    ),
    (
        "an inner unlock ends the section of an online reader",
        "live_read/src/reader_core.rt",
        "if depth == 1 { 0 } else { inner_one_less(depth) }",
        "0",
    ),
    (
        "a lock that is tried says the contrary",
        "live_read/src/reader.rt",
        "self.lock().is_ok()",
        "self.lock().is_err()",
    ),
    (
        "a reader goes along the first chain whatever it is asked",
        "live_read/src/reading.rt",
        "load_head(&self.table, &mut self.seat, chain)",
        "load_head(&self.table, &mut self.seat, chain - chain)",
    ),
    (
        "a read has one word twice",
        "live_read/src/reading.rt",
        "let two = self.read_word(held, 1);",
        "let two = self.read_word(held, 2);",
    ),
    # Records and chains
    (
        "an allocation takes two records",
        "domain/src/writing.rt",
        "        live_write::alloc(rt, &self.table, caller, words)",
        "        let _more: Result<Owned<B>, Refusal> = live_write::alloc(rt, &self.table, caller, words);\n"
        "        live_write::alloc(rt, &self.table, caller, words)",
    ),
    (
        "a discard loses the record",
        "domain/src/writing.rt",
        "        live_write::discard(&self.table, caller, owned);",
        "        let _lost = owned;",
    ),
    (
        "a search does not come round",
        "live_write/src/search.rt",
        "None => take_from(rt, table, seat, 0, from),",
        "None => None,",
    ),
    (
        "a push is not made",
        "live_write/src/publish.rt",
        "    push(table, seat, chain, cell, head);\n",
        "",
    ),
    (
        "a push loses what was linked",
        "live_write/src/publish.rt",
        "push(table, seat, chain, cell, head);",
        "push(table, seat, chain, cell, head - head);",
    ),
    (
        "a replacement loses what follows",
        "live_write/src/publish.rt",
        "replace(table, seat, chain, before, cell, next);",
        "replace(table, seat, chain, before, cell, next - next);",
    ),
    (
        "a cut is not made",
        "live_write/src/publish.rt",
        "    cut(table, seat, chain, before, cell);\n",
        "",
    ),
    (
        "a cut counts on",
        "live_write/src/chain.rt",
        "        let (seat, cell) = cut_record(self.table, &mut self.seat, self.number, caller, index);\n"
        "        self.linked -= 1;",
        "        let (seat, cell) = cut_record(self.table, &mut self.seat, self.number, caller, index);",
    ),
    (
        "a chain that is taken again has no objects",
        "live_write/src/chain.rt",
        "let linked = count(table, &mut seat, chain);",
        "let linked = count(table, &mut seat, chain) * 0;",
    ),
    (
        "a writer that is dropped keeps its chain",
        "live_write/src/chain.rt",
        "        free_chain(table, &mut seat, number);\n",
        "",
    ),
    (
        "an index is found by the second word",
        "live_write/src/walk.rt",
        "let found = load_word(table, seat, cell, 0);",
        "let found = load_word(table, seat, cell, 1);",
    ),
    # Retiring, running and waiting
    (
        "all is queued in one queue",
        "domain/src/retiring.rt",
        "        chain % self.queues.len()",
        "        chain % self.queues.len() * 0",
    ),
    (
        "a close closes one queue",
        "domain/src/retiring.rt",
        "for number in 0..self.queues.len()",
        "for number in 0..1usize",
    ),
    (
        "a batch is run backwards",
        "live_callbacks/src/items.rt",
        "        self.queue.take_waiting(batch);\n",
        "        self.queue.take_waiting(batch);\n        batch.reverse();\n",
    ),
    (
        "two callbacks of a batch are swapped",
        "live_callbacks/src/items.rt",
        "        self.queue.take_waiting(batch);\n",
        "        self.queue.take_waiting(batch);\n        let one = batch.pop();\n        let two = batch.pop();\n"
        "        if let Some(mut one) = one {\n            if let Some(mut two) = two {\n"
        "                std::mem::swap(&mut one.job.callback, &mut two.job.callback);\n"
        "                batch.push_reserved(two);\n            }\n            batch.push_reserved(one);\n"
        "        }\n",
    ),
    (
        "a worker drops every second item of a batch",
        "domain/src/working.rt",
        "            let done = run_next(",
        "            if count % 2 == 1 {\n                continue;\n            }\n            let done = run_next(",
    ),
    (
        "a worker loses the record of what it runs",
        "live_callbacks/src/running.rt",
        "        store_run(table, &mut seat, cell, object.0);\n",
        "",
    ),
    (
        "a callback gets another word",
        "live_callbacks/src/running.rt",
        "let first = load_payload(table, seat, cell, 0);",
        "let first = load_payload(table, seat, cell, 1);",
    ),
    (
        "what has run is not counted",
        "live_callbacks/src/run.rt",
        "    store_finished(table, seat, queue, finished + 1);\n",
        "",
    ),
    (
        "tickets are told from 0",
        "live_callbacks/src/run.rt",
        "        ticket: Ticket(finished + 1),",
        "        ticket: Ticket(finished),",
    ),
    (
        "a poll is early by one grace period",
        "live_waits/src/cookie.rt",
        "    let seq = load_seq(table, seat);\n    is_past(",
        "    let seq = load_seq(table, seat) + 2;\n    is_past(",
    ),
    (
        "a barrier looks at one queue",
        "live_waits/src/barring.rt",
        "for queue in 0..table.queues {",
        "for queue in 0..1usize {",
    ),
    (
        "a barrier notes one queue",
        "live_waits/src/barring.rt",
        "for queue in 1..table.queues {",
        "for queue in 1..1usize {",
    ),
    (
        "counts leave out a record",
        "live_waits/src/counting.rt",
        "for cell in 0..table.pool {",
        "for cell in 1..table.pool {",
    ),
    # Lists
    (
        "a list that replaces a value keeps the old one",
        "rcu_list/src/preparing.rt",
        "alloc(rt, caller, [key, value, words[2], 0])",
        "alloc(rt, caller, [key, value - value + words[1], words[2], 0])",
    ),
    (
        "a list removes its last key in place of another",
        "rcu_list/src/list.rt",
        "        match domain.cut_retire(rt, caller, &mut self.chain, index, callback) {\n",
        "        let last = self.chain.len() - 1 + index - index;\n"
        "        match domain.cut_retire(rt, caller, &mut self.chain, last, callback) {\n",
    ),
    (
        "keys have the rank of the one before",
        "rcu_list/src/preparing.rt",
        "    Some(first[2] + 1)",
        "    Some(first[2])",
    ),
    (
        "a refused replacement loses its record",
        "rcu_list/src/list.rt",
        "                domain.discard(caller, owned);\n",
        "                let _lost = owned;\n",
    ),
    (
        "a list begins over a chain with objects",
        "rcu_list/src/list.rt",
        "        if note != 0 || chain.len() != 0 {",
        "        if note != 0 {",
    ),
    # Tables
    (
        "writers look for a key in another bucket",
        "rcu_hash/src/bucket_array.rt",
        "(key % self.naming.buckets as u64) as usize",
        "(key / 2 % self.naming.buckets as u64) as usize",
    ),
    (
        "a walk through a table leaves out its first bucket",
        "rcu_hash/src/view.rt",
        "for number in 0..buckets {",
        "for number in 1..buckets {",
    ),
    (
        "a refused table leaves notes",
        "rcu_hash/src/table.rt",
        "        let (owned, lents) = reserve_record(rt, alloc, domain, caller, first, buckets)?;\n",
        "        let (owned, lents) = match reserve_record(rt, alloc, domain, caller, first, buckets) {\n"
        "            Ok(reserved) => reserved,\n"
        "            Err(refusal) => {\n"
        "                let mut own = own;\n"
        "                own.set_note(caller, 7);\n"
        "                return Err(refusal);\n"
        "            }\n"
        "        };\n",
    ),
    (
        "a growth answers one too few",
        "rcu_hash/src/grow.rt",
        "let many = growth.copied.len() + 1;",
        "let many = growth.copied.len();",
    ),
    (
        "a growth loses keys",
        "rcu_hash/src/copying.rt",
        "        chains[(key % buckets) as usize].push(caller, owned);",
        "        if key % 3 == 1 {\n            let _lost = owned;\n        } else {\n"
        "            chains[(key % buckets) as usize].push(caller, owned);\n        }",
    ),
    (
        "a growth puts all keys into one bucket",
        "rcu_hash/src/copying.rt",
        "        chains[(key % buckets) as usize].push(caller, owned);",
        "        chains[(key % buckets * 0) as usize].push(caller, owned);",
    ),
    (
        "a refused growth loses its copies",
        "rcu_hash/src/copying.rt",
        "        domain.discard(caller, owned);\n",
        "        let _lost = owned;\n",
    ),
    (
        "a tidying forgets the record of the directory",
        "rcu_hash/src/tidying.rt",
        "        retire_record(rt, self.domain, caller, replaced, jobs)?;",
        "        let _forgotten = replaced.take();",
    ),
    (
        "a tidying leaves the notes",
        "rcu_hash/src/tidying.rt",
        "        chain.set_note(caller, 0);\n",
        "",
    ),
    (
        "a tidying does not wait",
        "rcu_hash/src/tidying.rt",
        "            if let Err(refusal) = self.domain.synchronize(rt, caller) {",
        "            let waited: Result<(), Refusal> = Ok(());\n            if let Err(refusal) = waited {",
    ),
    # Calls that do more than they say
    (
        "a push sets the note too",
        "live_write/src/chain.rt",
        "        push_record(self.table, &mut self.seat, self.number, caller, seat, cell);\n",
        "        push_record(self.table, &mut self.seat, self.number, caller, seat, cell);\n"
        "        write_note(self.table, &mut self.seat, self.number, caller, 7);\n",
    ),
    (
        "an ask for a poll keeps a record",
        "live_waits/src/cookie.rt",
        "    let cookie = cookie_of(seq)?;\n",
        "    let _kept = live_words::take_cell(table, seat, 0, 1);\n    let cookie = cookie_of(seq)?;\n",
    ),
    (
        "who takes a chain takes the next one too",
        "live_write/src/chain.rt",
        "        let mut seat = table.cut_chains(&mut told);\n",
        "        if chain + 1 < table.chains {\n"
        "            let _next = hold_chain(table, &mut told, chain + 1);\n"
        "        }\n"
        "        let mut seat = table.cut_chains(&mut told);\n",
    ),
    (
        "a poll notes the first chain",
        "live_waits/src/cookie.rt",
        "    is_past(cookie.cookie, seq)\n",
        "    live_words::store_note(table, seat, 0, 9);\n    is_past(cookie.cookie, seq)\n",
    ),
    (
        "a look at the note gives the chain back",
        "live_write/src/chain.rt",
        "        load_note(self.table, &mut self.seat, self.number)\n",
        "        free_chain(self.table, &mut self.seat, self.number);\n"
        "        load_note(self.table, &mut self.seat, self.number)\n",
    ),
    (
        "an unregister gives the first slot back too",
        "live_read/src/registering.rt",
        "        release(&table, &mut seat, slot);\n",
        "        release(&table, &mut seat, slot);\n        release(&table, &mut seat, 0);\n",
    ),
]


def misplaced():
    """The names of those whose text does not stand once in its file."""
    for name, path, old, _ in BUGS:
        count = (CRATES / path).read_text().count(old)
        if count != 1:
            yield f"{name}: {count} times in {path}"


def plant(name, top):
    """Plants a bug in a copy of the repository."""
    path, old, new = next(it[1:] for it in BUGS if it[0] == name)
    file = pathlib.Path(top) / "crates" / path
    text = file.read_text()
    if text.count(old) != 1:
        sys.exit(f"{name}: not once in {file}")
    file.write_text(text.replace(old, new))


def tests():
    """Each kind of tests, and of each test its name, its text, and what it has to print, tell and end with."""
    rows = [(it.name, *row_of(it)) for it in sorted(ROWS.iterdir())]
    drawn = [(name, text.encode(), is_watched) for name, text, _, is_watched in scripts(SCRIPTS, "catch")]
    yield "rows", rows
    yield "rows watched", as_watched((name, watched_row(text)) for name, text, _ in rows)
    yield "scripts", [(name, text, answered(text)) for name, text, _ in drawn]
    yield "scripts watched", as_watched((name, watched(text)) for name, text, is_watched in drawn if is_watched)


def as_watched(watches):
    return [(name, watch.text(), (watch.printed(), "", 0)) for name, watch in watches if watch is not None]


def shown_by(program, kind):
    """The names of those that a program answers wrongly, and how many were tried: one that hangs often is given up."""
    wrong, tried, hangs = [], 0, 0
    for name, text, wanted in kind:
        got = made(program, text, SECONDS)
        tried += 1
        if got != wanted:
            wrong.append(name)
        hangs += got[2] is None
        if hangs == HANGS:
            break
    return wrong, tried


def catch(program, kinds):
    """Tells how many of each kind a program answers wrongly, and the first of these."""
    shown = {name: shown_by(program, kind) for name, kind in kinds.items()}
    told = [f"{len(it)} of {tried} {name} ({it[0] if it else 'none'})" for name, (it, tried) in shown.items()]
    names = {name for name, _, _ in kinds["scripts watched"]}
    unwatched = len(names.intersection(shown["scripts"][0]))
    print(f"{program}: {', '.join(told)}, and {unwatched} of these as they are", flush=True)


def main(words):
    match words:
        case []:
            found = list(misplaced())
            print("\n".join([*found, f"bugs: {len(BUGS) - len(found)} passed, {len(found)} failed"]))
            return 1 if found else 0
        case ["plant", name, top]:
            plant(name, top)
        case ["catch", *programs]:
            kinds = dict(tests())
            for program in programs:
                catch(program, kinds)
        case _:
            sys.exit(__doc__)
    return 0


if __name__ == "__main__":
    sys.exit(main(sys.argv[1:]))
