//! `replay` as a plain program with no proofs, the peer of the proved one. Built by `rustc -O replay.rs`. It takes good
//! schedules alone.

use std::collections::VecDeque;
use std::io::{self, BufRead, Write};

/// At this sequence number or above nothing is asked.
const LAST: u64 = 1 << 62;

/// What a step tells.
enum Event {
    Open(usize, u64),
    Close(usize, u64),
    First(usize, u64, usize, Option<usize>),
    Next(usize, u64, usize, Option<usize>),
    Touch(usize, u64, usize),
    Push(usize, usize),
    Replace(usize, usize, usize),
    Cut(usize, usize),
    Retire(usize),
    Queue(usize, usize),
    Run(usize),
    Ask(u64),
    Answer(u64),
    Bar(u64),
    Clear(u64),
}

/// Words and the number behind them.
fn put(out: &mut Vec<u8>, words: &str, mut number: u64) {
    out.extend_from_slice(words.as_bytes());
    let from = out.len();
    loop {
        out.push(b'0' + (number % 10) as u8);
        number /= 10;
        if number == 0 {
            break;
        }
    }
    out[from..].reverse();
}

/// What was found.
fn put_found(out: &mut Vec<u8>, found: Option<usize>) {
    match found {
        Some(object) => put(out, " o", object as u64),
        None => out.extend_from_slice(b" none"),
    }
}

impl Event {
    fn tell(&self, out: &mut Vec<u8>) {
        let mut words = |words, number| put(out, words, number);
        match *self {
            Event::Open(r, n) => {
                words("open r", r as u64);
                words(".", n);
            }
            Event::Close(r, n) => {
                words("close r", r as u64);
                words(".", n);
            }
            Event::First(r, n, c, found) => {
                words("first r", r as u64);
                words(".", n);
                words(" c", c as u64);
                put_found(out, found);
            }
            Event::Next(r, n, o, found) => {
                words("next r", r as u64);
                words(".", n);
                words(" o", o as u64);
                put_found(out, found);
            }
            Event::Touch(r, n, o) => {
                words("touch r", r as u64);
                words(".", n);
                words(" o", o as u64);
            }
            Event::Push(c, o) => {
                words("push c", c as u64);
                words(" o", o as u64);
            }
            Event::Replace(c, o, new) => {
                words("replace c", c as u64);
                words(" o", o as u64);
                words(" o", new as u64);
            }
            Event::Cut(c, o) => {
                words("cut c", c as u64);
                words(" o", o as u64);
            }
            Event::Queue(o, q) => {
                words("queue o", o as u64);
                words(" q", q as u64);
            }
            Event::Retire(o) => words("retire o", o as u64),
            Event::Run(o) => words("run o", o as u64),
            Event::Ask(a) => words("ask a", a),
            Event::Answer(a) => words("answer a", a),
            Event::Bar(b) => words("bar b", b),
            Event::Clear(b) => words("clear b", b),
        }
    }
}

/// Why a line does nothing.
enum Stop {
    Wait,
    Blocked,
    Idle,
    Refused(u8),
}

/// What a line tells: no event, one or two.
enum Told {
    Quiet,
    One(Event),
    Two(Event, Event),
}

type Step = Result<Told, Stop>;

/// The line that answers a step.
fn tell(out: &mut Vec<u8>, step: &Step) {
    match step {
        Ok(Told::Quiet) => out.push(b'.'),
        Ok(Told::One(event)) => event.tell(out),
        Ok(Told::Two(first, second)) => {
            first.tell(out);
            out.extend_from_slice(b"; ");
            second.tell(out);
        }
        Err(Stop::Wait) => out.extend_from_slice(b"wait"),
        Err(Stop::Blocked) => out.extend_from_slice(b"blocked"),
        Err(Stop::Idle) => out.extend_from_slice(b"idle"),
        Err(Stop::Refused(number)) => put(out, "refused E", (*number).into()),
    }
    out.push(b'\n');
}

/// The words of a line.
enum Verb {
    Lock,
    Unlock,
    Online,
    Quiescent,
    Offline,
    First(usize),
    Next,
    Touch,
    Push(usize),
    Replace(usize),
    Cut(usize),
    Retire(usize),
    Sync,
    Start,
    Poll,
    Barrier,
    Take,
    GoOn,
}

fn number(text: &[u8]) -> usize {
    text.iter().fold(0, |number, byte| number * 10 + usize::from(byte - b'0'))
}

fn verb_of(verb: &[u8], argument: Option<&[u8]>) -> Verb {
    let number = || number(&argument.expect("a number")[1..]);
    match verb {
        b"." => Verb::GoOn,
        b"lock" => Verb::Lock,
        b"unlock" => Verb::Unlock,
        b"online" => Verb::Online,
        b"quiescent" => Verb::Quiescent,
        b"offline" => Verb::Offline,
        b"first" => Verb::First(number()),
        b"next" => Verb::Next,
        b"touch" => Verb::Touch,
        b"push" => Verb::Push(number()),
        b"replace" => Verb::Replace(number()),
        b"cut" => Verb::Cut(number()),
        b"retire" => Verb::Retire(number()),
        b"sync" => Verb::Sync,
        b"start" => Verb::Start,
        b"poll" => Verb::Poll,
        b"barrier" => Verb::Barrier,
        b"take" => Verb::Take,
        _ => panic!("no verb"),
    }
}

#[derive(Default)]
struct Reader {
    word: u64,
    ordinal: u64,
    cursor: Option<usize>,
    copy: Option<u64>,
}

#[derive(Clone, Copy, PartialEq)]
enum Stage {
    Fresh,
    Linked,
    Cut,
    Retired,
}

struct Object {
    chain: usize,
    before: Option<usize>,
    after: Option<usize>,
    stage: Stage,
}

#[derive(Default)]
struct Queue {
    lock: bool,
    items: VecDeque<usize>,
    queued: u64,
    finished: u64,
}

#[derive(Clone, Copy, PartialEq)]
enum Place {
    Lock,
    Check,
    Odd,
    Flip,
    First(usize),
    Back,
    Second(usize),
    Even,
    Unlock,
    Over,
}

struct Sync {
    place: Place,
    cookie: u64,
    ask: u64,
}

enum Doing {
    Push { chain: usize, new: usize },
    Replace { old: usize, new: usize },
    Retire { object: usize, queue: usize, step: u8 },
    Sync(Sync),
    Barrier { number: u64, counts: Vec<u64>, done: usize },
}

#[derive(Default)]
struct Updater {
    doing: Option<Doing>,
    cookie: Option<(u64, u64)>,
}

struct Batch {
    items: VecDeque<usize>,
    sync: Option<Sync>,
    is_run: bool,
}

/// What grace periods share.
#[derive(Default)]
struct Grace {
    qsbr: bool,
    sequence: u64,
    phase: u64,
    number: u64,
    is_locked: bool,
    asks: u64,
    unit: u64,
    modulus: u64,
}

impl Grace {
    fn nesting(&self, word: u64) -> u64 {
        word % self.modulus
    }

    fn is_open(&self, word: u64) -> bool {
        if self.qsbr { word != 0 } else { self.nesting(word) != 0 }
    }

    fn is_in_the_way(&self, word: u64) -> bool {
        if self.qsbr {
            return word != 0 && word != self.number + 1;
        }
        self.nesting(word) != 0 && word / self.unit % 2 != self.phase
    }

    fn ask(&mut self) -> Result<Sync, Stop> {
        if self.sequence >= LAST {
            return Err(Stop::Refused(5));
        }
        self.asks += 1;
        Ok(Sync { place: Place::Lock, cookie: (self.sequence + 3) / 2 * 2, ask: self.asks })
    }

    fn scan(&self, slot: usize, readers: &[Reader]) -> Result<Option<usize>, Stop> {
        if self.is_in_the_way(readers[slot].word) {
            return Err(Stop::Wait);
        }
        Ok(Some(slot + 1).filter(|next| *next < readers.len()))
    }

    fn step(&mut self, sync: &mut Sync, readers: &[Reader]) -> Step {
        let mut told = Told::Quiet;
        sync.place = match sync.place {
            Place::Lock if self.is_locked => return Err(Stop::Blocked),
            Place::Lock => {
                self.is_locked = true;
                Place::Check
            }
            Place::Check if self.sequence >= sync.cookie => {
                told = Told::One(Event::Answer(sync.ask));
                Place::Unlock
            }
            Place::Check => Place::Odd,
            Place::Odd => {
                self.sequence += 1;
                Place::Flip
            }
            Place::Flip => {
                self.flip();
                Place::First(0)
            }
            Place::First(slot) => match self.scan(slot, readers)? {
                Some(next) => Place::First(next),
                None if self.qsbr => Place::Even,
                None => Place::Back,
            },
            Place::Back => {
                self.flip();
                Place::Second(0)
            }
            Place::Second(slot) => self.scan(slot, readers)?.map_or(Place::Even, Place::Second),
            Place::Even => {
                self.sequence += 1;
                told = Told::One(Event::Answer(sync.ask));
                Place::Unlock
            }
            Place::Unlock | Place::Over => {
                self.is_locked = false;
                Place::Over
            }
        };
        Ok(told)
    }

    fn flip(&mut self) {
        self.number += u64::from(self.qsbr);
        self.phase = 1 - self.phase;
    }
}

struct World {
    grace: Grace,
    greatest: u64,
    readers: Vec<Reader>,
    updaters: Vec<Updater>,
    workers: Vec<Option<Batch>>,
    queues: Vec<Queue>,
    heads: Vec<Option<usize>>,
    objects: Vec<Object>,
    bars: u64,
    open: u64,
    waiting: u64,
    run: u64,
}

impl World {
    fn new(header: &[u8]) -> World {
        let words: Vec<&[u8]> = header.split(|byte| *byte == b' ').collect();
        let numbers: Vec<usize> = words[3..].iter().map(|it| number(it)).collect();
        let narrow = words[1] == b"1";
        World {
            grace: Grace {
                qsbr: words[2] == b"qsbr",
                unit: if narrow { 1 << 16 } else { 1 << 32 },
                modulus: if narrow { 1 << 16 } else { 1 << 31 },
                ..Grace::default()
            },
            greatest: if narrow { 65_535 } else { 2_147_483_647 },
            readers: (0..numbers[0]).map(|_| Reader::default()).collect(),
            updaters: (0..numbers[1]).map(|_| Updater::default()).collect(),
            workers: (0..numbers[2]).map(|_| None).collect(),
            queues: (0..numbers[2]).map(|_| Queue::default()).collect(),
            heads: vec![None; numbers[3]],
            objects: Vec::new(),
            bars: 0,
            open: 0,
            waiting: 0,
            run: 0,
        }
    }

    fn answer(&mut self, line: &[u8]) -> Step {
        let mut words = line.split(|byte| *byte == b' ');
        let actor = words.next().expect("an actor");
        let verb = verb_of(words.next().expect("a verb"), words.next());
        let index = number(&actor[1..]);
        match actor[0] {
            b'r' => self.read(index, verb),
            b'u' => self.update(index, verb),
            _ => self.work(index, verb),
        }
    }

    // ---- readers

    fn read(&mut self, r: usize, verb: Verb) -> Step {
        let Some(reader) = self.readers.get_mut(r) else { return Err(Stop::Refused(12)) };
        match (reader.copy, verb) {
            (None, Verb::GoOn) => Err(Stop::Refused(6)),
            (Some(copy), Verb::GoOn) => self.store(r, copy),
            (Some(_), _) => Err(Stop::Refused(7)),
            (None, Verb::Lock) => self.lock(r),
            (None, Verb::Unlock) => self.unlock(r),
            (None, verb @ (Verb::Online | Verb::Quiescent | Verb::Offline)) => self.report(r, verb),
            (None, verb) => self.walk(r, verb),
        }
    }

    fn store(&mut self, r: usize, copy: u64) -> Step {
        if !self.grace.qsbr {
            let unit = self.grace.unit;
            return Ok(Told::One(self.opens(r, unit * copy + 1)));
        }
        if self.readers[r].word == 0 {
            return Ok(Told::One(self.opens(r, copy + 1)));
        }
        let closed = self.closes(r);
        Ok(Told::Two(closed, self.opens(r, copy + 1)))
    }

    fn opens(&mut self, r: usize, word: u64) -> Event {
        let ordinal = self.readers[r].ordinal + 1;
        self.readers[r] = Reader { word, ordinal, cursor: None, copy: None };
        self.open += 1;
        Event::Open(r, ordinal)
    }

    fn closes(&mut self, r: usize) -> Event {
        self.readers[r].cursor = None;
        self.open -= 1;
        Event::Close(r, self.readers[r].ordinal)
    }

    fn lock(&mut self, r: usize) -> Step {
        if self.grace.qsbr {
            return Err(Stop::Refused(9));
        }
        let reader = &mut self.readers[r];
        match self.grace.nesting(reader.word) {
            0 => reader.copy = Some(self.grace.phase),
            nesting if nesting >= self.greatest => return Err(Stop::Refused(2)),
            _ => reader.word += 1,
        }
        Ok(Told::Quiet)
    }

    fn unlock(&mut self, r: usize) -> Step {
        if self.grace.qsbr {
            return Err(Stop::Refused(9));
        }
        let nesting = self.grace.nesting(self.readers[r].word);
        if nesting == 0 {
            return Err(Stop::Refused(6));
        }
        self.readers[r].word -= 1;
        Ok(if nesting == 1 { Told::One(self.closes(r)) } else { Told::Quiet })
    }

    fn report(&mut self, r: usize, verb: Verb) -> Step {
        if !self.grace.qsbr {
            return Err(Stop::Refused(9));
        }
        let is_online = self.readers[r].word != 0;
        match verb {
            Verb::Online if is_online => Err(Stop::Refused(7)),
            Verb::Quiescent | Verb::Offline if !is_online => Err(Stop::Refused(6)),
            Verb::Offline => {
                self.readers[r].word = 0;
                Ok(Told::One(self.closes(r)))
            }
            _ => {
                self.readers[r].copy = Some(self.grace.number);
                Ok(Told::Quiet)
            }
        }
    }

    fn walk(&mut self, r: usize, verb: Verb) -> Step {
        let reader = &mut self.readers[r];
        if !self.grace.is_open(reader.word) {
            return Err(Stop::Refused(6));
        }
        let section = reader.ordinal;
        let (found, event) = match (verb, reader.cursor) {
            (Verb::First(chain), _) => {
                let found = *self.heads.get(chain).ok_or(Stop::Refused(8))?;
                (found, Event::First(r, section, chain, found))
            }
            (_, None) => return Err(Stop::Refused(8)),
            (Verb::Touch, Some(object)) => (None, Event::Touch(r, section, object)),
            (_, Some(object)) => {
                let found = self.objects[object - 1].after;
                (found, Event::Next(r, section, object, found))
            }
        };
        reader.cursor = found.or(reader.cursor);
        Ok(Told::One(event))
    }

    // ---- updaters

    fn update(&mut self, u: usize, verb: Verb) -> Step {
        let Some(updater) = self.updaters.get_mut(u) else { return Err(Stop::Refused(12)) };
        match (updater.doing.take(), verb) {
            (None, Verb::GoOn) => Err(Stop::Refused(6)),
            (Some(mut doing), Verb::GoOn) => {
                let step = self.go_on(&mut doing);
                self.updaters[u].doing = match step {
                    Ok((_, true)) => None,
                    _ => Some(doing),
                };
                step.map(|(told, _)| told)
            }
            (Some(doing), _) => {
                updater.doing = Some(doing);
                Err(Stop::Refused(7))
            }
            (None, verb) => self.begin(u, verb),
        }
    }

    fn begin(&mut self, u: usize, verb: Verb) -> Step {
        match verb {
            Verb::Push(chain) => self.push(u, chain),
            Verb::Replace(object) => self.replace(u, object),
            Verb::Cut(object) => self.cut(u, object),
            Verb::Retire(object) => self.retire(u, object),
            Verb::Poll => self.poll(u),
            Verb::Barrier => {
                self.bars += 1;
                let counts = vec![self.queues[0].queued];
                self.updaters[u].doing = Some(Doing::Barrier { number: self.bars, counts, done: 0 });
                Ok(Told::One(Event::Bar(self.bars)))
            }
            verb => {
                let sync = self.grace.ask()?;
                let ask = sync.ask;
                if matches!(verb, Verb::Sync) {
                    self.updaters[u].doing = Some(Doing::Sync(sync));
                } else {
                    self.updaters[u].cookie = Some((sync.cookie, ask));
                }
                Ok(Told::One(Event::Ask(ask)))
            }
        }
    }

    fn writes(&self, u: usize, chain: usize) -> bool {
        chain % self.updaters.len() == u
    }

    /// The object, where the updater may write its chain and it is at this stage.
    fn at_stage(&self, u: usize, object: usize, stage: Stage) -> Result<&Object, Stop> {
        let found = object.checked_sub(1).and_then(|place| self.objects.get(place));
        found.filter(|it| it.stage == stage && self.writes(u, it.chain)).ok_or(Stop::Refused(8))
    }

    fn fresh(&mut self, chain: usize, before: Option<usize>, after: Option<usize>) -> usize {
        self.objects.push(Object { chain, before, after, stage: Stage::Fresh });
        self.objects.len()
    }

    fn push(&mut self, u: usize, chain: usize) -> Step {
        if chain >= self.heads.len() || !self.writes(u, chain) {
            return Err(Stop::Refused(8));
        }
        let new = self.fresh(chain, None, self.heads[chain]);
        self.updaters[u].doing = Some(Doing::Push { chain, new });
        Ok(Told::Quiet)
    }

    fn replace(&mut self, u: usize, old: usize) -> Step {
        let &Object { chain, before, after, .. } = self.at_stage(u, old, Stage::Linked)?;
        let new = self.fresh(chain, before, after);
        self.updaters[u].doing = Some(Doing::Replace { old, new });
        Ok(Told::Quiet)
    }

    /// What stood before and behind is joined to what comes between.
    fn join(&mut self, chain: usize, before: Option<usize>, after: Option<usize>, new: Option<usize>) {
        match before {
            Some(before) => self.objects[before - 1].after = new.or(after),
            None => self.heads[chain] = new.or(after),
        }
        if let Some(after) = after {
            self.objects[after - 1].before = new.or(before);
        }
    }

    fn cut(&mut self, u: usize, object: usize) -> Step {
        let &Object { chain, before, after, .. } = self.at_stage(u, object, Stage::Linked)?;
        self.join(chain, before, after, None);
        self.objects[object - 1].stage = Stage::Cut;
        Ok(Told::One(Event::Cut(chain, object)))
    }

    fn retire(&mut self, u: usize, object: usize) -> Step {
        self.at_stage(u, object, Stage::Cut)?;
        let queue = u % self.queues.len();
        if self.queues[queue].lock {
            return Err(Stop::Blocked);
        }
        self.queues[queue].lock = true;
        self.updaters[u].doing = Some(Doing::Retire { object, queue, step: 2 });
        Ok(Told::Quiet)
    }

    fn poll(&mut self, u: usize) -> Step {
        let (cookie, ask) = self.updaters[u].cookie.ok_or(Stop::Refused(6))?;
        if self.grace.sequence < cookie {
            return Err(Stop::Wait);
        }
        self.updaters[u].cookie = None;
        Ok(Told::One(Event::Answer(ask)))
    }

    /// What an operation's next step tells, and whether it was the last one.
    fn go_on(&mut self, doing: &mut Doing) -> Result<(Told, bool), Stop> {
        match doing {
            Doing::Push { chain, new } => {
                self.join(*chain, None, self.objects[*new - 1].after, Some(*new));
                self.objects[*new - 1].stage = Stage::Linked;
                Ok((Told::One(Event::Push(*chain, *new)), true))
            }
            Doing::Replace { old, new } => {
                let Object { chain, before, after, .. } = self.objects[*new - 1];
                self.join(chain, before, after, Some(*new));
                self.objects[*old - 1].stage = Stage::Cut;
                self.objects[*new - 1].stage = Stage::Linked;
                Ok((Told::One(Event::Replace(chain, *old, *new)), true))
            }
            Doing::Retire { object, queue, step } => {
                *step += 1;
                Ok(self.hand_over(*object, *queue, *step - 1))
            }
            Doing::Sync(sync) => {
                let told = self.grace.step(sync, &self.readers)?;
                Ok((told, sync.place == Place::Over))
            }
            Doing::Barrier { number, counts, done } => self.bar(*number, counts, done),
        }
    }

    fn hand_over(&mut self, object: usize, number: usize, step: u8) -> (Told, bool) {
        let queue = &mut self.queues[number];
        match step {
            2 => {
                self.objects[object - 1].stage = Stage::Retired;
                self.waiting += 1;
                (Told::One(Event::Retire(object)), false)
            }
            3 => {
                queue.queued += 1;
                (Told::Quiet, false)
            }
            4 => {
                queue.items.push_back(object);
                (Told::One(Event::Queue(object, number)), false)
            }
            _ => {
                queue.lock = false;
                (Told::Quiet, true)
            }
        }
    }

    fn bar(&self, number: u64, counts: &mut Vec<u64>, done: &mut usize) -> Result<(Told, bool), Stop> {
        if counts.len() < self.queues.len() {
            counts.push(self.queues[counts.len()].queued);
            return Ok((Told::Quiet, false));
        }
        if self.queues[*done].finished < counts[*done] {
            return Err(Stop::Wait);
        }
        *done += 1;
        if *done < self.queues.len() {
            return Ok((Told::Quiet, false));
        }
        Ok((Told::One(Event::Clear(number)), true))
    }

    // ---- workers

    fn work(&mut self, w: usize, verb: Verb) -> Step {
        let Some(batch) = self.workers.get_mut(w) else { return Err(Stop::Refused(12)) };
        match (batch.take(), verb) {
            (None, Verb::GoOn) => Err(Stop::Refused(6)),
            (Some(mut batch), Verb::GoOn) => {
                let step = self.run_on(w, &mut batch);
                self.workers[w] = Some(batch).filter(|it| !it.items.is_empty());
                step
            }
            (Some(busy), _) => {
                *batch = Some(busy);
                Err(Stop::Refused(7))
            }
            (None, _) => self.take(w),
        }
    }

    fn take(&mut self, w: usize) -> Step {
        let queue = &mut self.queues[w];
        if queue.lock {
            return Err(Stop::Blocked);
        }
        if queue.items.is_empty() {
            return Err(Stop::Idle);
        }
        self.workers[w] = Some(Batch { items: std::mem::take(&mut queue.items), sync: None, is_run: false });
        Ok(Told::Quiet)
    }

    fn run_on(&mut self, w: usize, batch: &mut Batch) -> Step {
        match &mut batch.sync {
            None => {
                let sync = self.grace.ask()?;
                let ask = sync.ask;
                batch.sync = Some(sync);
                Ok(Told::One(Event::Ask(ask)))
            }
            Some(sync) if sync.place != Place::Over => self.grace.step(sync, &self.readers),
            Some(_) if !batch.is_run => {
                batch.is_run = true;
                self.waiting -= 1;
                self.run += 1;
                Ok(Told::One(Event::Run(batch.items[0])))
            }
            Some(_) => {
                batch.is_run = false;
                batch.items.pop_front();
                self.queues[w].finished += 1;
                Ok(Told::Quiet)
            }
        }
    }
}

fn main() -> io::Result<()> {
    let mut input = io::stdin().lock();
    let mut output = io::stdout().lock();
    let (mut line, mut out) = (Vec::new(), Vec::new());
    input.read_until(b'\n', &mut line)?;
    let mut world = World::new(line.trim_ascii_end());
    loop {
        line.clear();
        if input.read_until(b'\n', &mut line)? == 0 {
            break;
        }
        tell(&mut out, &world.answer(line.trim_ascii_end()));
        if out.len() > 4_096 {
            output.write_all(&out)?;
            out.clear();
        }
    }
    for (words, number) in [("end open=", world.open), (" waiting=", world.waiting), (" run=", world.run)] {
        put(&mut out, words, number);
    }
    out.push(b'\n');
    output.write_all(&out)
}
