//! `check` as a plain program that keeps what has a number in tables by that number, since in most logs numbers count up:
//! the right peer of such logs, where hash tables cost what they need not. Built by `rustc -O tables.rs`. It takes good
//! logs alone, of numbers that count up.

mod events;

use events::{Event, Object, Roster, Stage, judge};

/// A table by numbers that count up.
struct Table<V>(Vec<Option<V>>);

impl<V> Default for Table<V> {
    fn default() -> Self {
        Table(Vec::new())
    }
}

impl<V> Table<V> {
    fn get(&self, number: u64) -> Option<&V> {
        self.0.get(number as usize)?.as_ref()
    }

    fn get_mut(&mut self, number: u64) -> Option<&mut V> {
        self.0.get_mut(number as usize)?.as_mut()
    }

    fn place(&mut self, number: u64) -> &mut Option<V> {
        let number = number as usize;
        if number >= self.0.len() {
            self.0.resize_with(number + 1, || None);
        }
        &mut self.0[number]
    }

    fn insert(&mut self, number: u64, value: V) -> Option<V> {
        self.place(number).replace(value)
    }
}

/// A section that was opened: its number, its place, and what it got while it is open.
struct Section {
    number: u64,
    place: usize,
    held: Vec<u64>,
}

/// The sections of a reader, whose numbers count up: mostly by one.
#[derive(Default)]
struct Sections(Vec<Section>);

impl Sections {
    fn get_mut(&mut self, number: u64) -> Option<&mut Section> {
        let first = self.0.first()?.number;
        let guess = number.checked_sub(first)? as usize;
        let place = match self.0.get(guess) {
            Some(section) if section.number == number => guess,
            _ => self.0.binary_search_by_key(&number, |section| section.number).ok()?,
        };
        self.0.get_mut(place)
    }

    /// Whether it is new.
    fn push(&mut self, section: Section) -> bool {
        if self.0.last().is_some_and(|last| last.number >= section.number) {
            return false;
        }
        self.0.push(section);
        true
    }
}

#[derive(Default)]
struct Checker {
    readers: Table<Sections>,
    sections: Roster,
    objects: Table<Object>,
    heads: Table<u64>,
    queued: Roster,
    asks: Table<(usize, bool)>,
    barriers: Table<(usize, bool)>,
}

impl Checker {
    /// The section, where it is open.
    fn open(&mut self, reader: u32, number: u64) -> Option<&mut Section> {
        let section = self.readers.get_mut(reader.into())?.get_mut(number)?;
        self.sections.present[section.place].then_some(section)
    }

    fn link(&mut self, chain: u32, before: Option<u64>, to: Option<u64>) {
        match before {
            Some(before) => self.objects.get_mut(before).unwrap().after = to,
            None => *self.heads.place(chain.into()) = to,
        }
    }

    fn leave(&mut self, chain: u32, old: u64, new: Option<u64>) -> bool {
        let Some(object) = self.objects.get_mut(old) else { return false };
        if object.chain != chain || !matches!(object.stage, Stage::Linked) {
            return false;
        }
        object.stage = Stage::Cut;
        let (before, after) = (object.before, object.after);
        self.link(chain, before, new.or(after));
        if let Some(after) = after {
            self.objects.get_mut(after).unwrap().before = new.or(before);
        }
        if let Some(new) = new {
            self.objects.insert(new, Object { chain, before, after, stage: Stage::Linked });
        }
        true
    }

    fn follow(&mut self, event: Event) -> bool {
        match event {
            Event::Open(r, n) => {
                let section = Section { number: n, place: self.sections.arrive(), held: Vec::new() };
                self.readers.place(r.into()).get_or_insert_default().push(section)
            }
            Event::Close(r, n) => match self.open(r, n) {
                Some(section) => {
                    section.held = Vec::new();
                    let place = section.place;
                    self.sections.leave(place)
                }
                None => false,
            },
            Event::First(r, n, c, found) => {
                if self.heads.get(c.into()).copied() != found {
                    return false;
                }
                match self.open(r, n) {
                    Some(section) => section.held.extend(found),
                    None => return false,
                }
                true
            }
            Event::Next(r, n, from, found) => {
                if self.objects.get(from).is_none_or(|object| object.after != found) {
                    return false;
                }
                match self.open(r, n) {
                    Some(section) if section.held.contains(&from) => section.held.extend(found),
                    _ => return false,
                }
                true
            }
            Event::Touch(r, n, o) => self.open(r, n).is_some_and(|section| section.held.contains(&o)),
            Event::Push(chain, o) => {
                if self.objects.get(o).is_some() {
                    return false;
                }
                let after = self.heads.insert(chain.into(), o);
                if let Some(after) = after {
                    self.objects.get_mut(after).unwrap().before = Some(o);
                }
                self.objects.insert(o, Object { chain, before: None, after, stage: Stage::Linked });
                true
            }
            Event::Replace(chain, old, new) => self.objects.get(new).is_none() && self.leave(chain, old, Some(new)),
            Event::Cut(chain, o) => self.leave(chain, o, None),
            Event::Retire(o) => {
                let moment = self.sections.present.len();
                match self.objects.get_mut(o) {
                    Some(object) if matches!(object.stage, Stage::Cut) => object.stage = Stage::Retired(moment),
                    _ => return false,
                }
                true
            }
            Event::Queue(o) => match self.objects.get_mut(o) {
                Some(object) => match object.stage {
                    Stage::Retired(moment) => {
                        object.stage = Stage::Queued(moment, self.queued.arrive());
                        true
                    }
                    _ => false,
                },
                None => false,
            },
            Event::Run(o) => match self.objects.get_mut(o) {
                Some(object) => match object.stage {
                    Stage::Queued(moment, ticket) if self.sections.oldest >= moment => {
                        object.stage = Stage::Reclaimed;
                        self.queued.leave(ticket)
                    }
                    _ => false,
                },
                None => false,
            },
            Event::Ask(a) => self.asks.insert(a, (self.sections.present.len(), false)).is_none(),
            Event::Answer(a) => match self.asks.get_mut(a) {
                Some((moment, over)) if !*over && self.sections.oldest >= *moment => {
                    *over = true;
                    true
                }
                _ => false,
            },
            Event::Bar(b) => self.barriers.insert(b, (self.queued.present.len(), false)).is_none(),
            Event::Clear(b) => match self.barriers.get_mut(b) {
                Some((moment, over)) if !*over && self.queued.oldest >= *moment => {
                    *over = true;
                    true
                }
                _ => false,
            },
        }
    }
}

fn main() {
    let mut checker = Checker::default();
    judge(|event| checker.follow(event));
}
