//! `check` as a plain program with the same structures, and with no proofs: what the benchmark holds `torture` against.
//! Built by `rustc -O plain.rs`. It takes good logs alone.

mod events;

use events::{Event, Object, Roster, Stage, judge};
use std::collections::{HashMap, HashSet};

#[derive(Default)]
struct Checker {
    places: HashMap<(u32, u64), usize>,
    sections: Roster,
    held: HashSet<((u32, u64), u64)>,
    objects: HashMap<u64, Object>,
    heads: HashMap<u32, u64>,
    queued: Roster,
    asks: HashMap<u64, (usize, bool)>,
    barriers: HashMap<u64, (usize, bool)>,
}

impl Checker {
    fn is_open(&self, section: (u32, u64)) -> bool {
        self.places.get(&section).is_some_and(|&place| self.sections.present[place])
    }

    fn link(&mut self, chain: u32, before: Option<u64>, to: Option<u64>) {
        match before {
            Some(before) => self.objects.get_mut(&before).unwrap().after = to,
            None => match to {
                Some(to) => {
                    self.heads.insert(chain, to);
                }
                None => {
                    self.heads.remove(&chain);
                }
            },
        }
    }

    fn leave(&mut self, chain: u32, old: u64, new: Option<u64>) -> bool {
        let Some(object) = self.objects.get_mut(&old) else { return false };
        if object.chain != chain || !matches!(object.stage, Stage::Linked) {
            return false;
        }
        object.stage = Stage::Cut;
        let (before, after) = (object.before, object.after);
        self.link(chain, before, new.or(after));
        if let Some(after) = after {
            self.objects.get_mut(&after).unwrap().before = new.or(before);
        }
        if let Some(new) = new {
            self.objects.insert(new, Object { chain, before, after, stage: Stage::Linked });
        }
        true
    }

    fn follow(&mut self, event: Event) -> bool {
        match event {
            Event::Open(r, n) => {
                let place = self.sections.arrive();
                self.places.insert((r, n), place).is_none()
            }
            Event::Close(r, n) => match self.places.get(&(r, n)) {
                Some(&place) => self.sections.leave(place),
                None => false,
            },
            Event::First(r, n, c, found) => {
                if !self.is_open((r, n)) || self.heads.get(&c).copied() != found {
                    return false;
                }
                self.held.extend(found.map(|o| ((r, n), o)));
                true
            }
            Event::Next(r, n, from, found) => {
                if !self.is_open((r, n)) || !self.held.contains(&((r, n), from)) || self.objects[&from].after != found {
                    return false;
                }
                self.held.extend(found.map(|o| ((r, n), o)));
                true
            }
            Event::Touch(r, n, o) => self.is_open((r, n)) && self.held.contains(&((r, n), o)),
            Event::Push(chain, o) => {
                if self.objects.contains_key(&o) {
                    return false;
                }
                let after = self.heads.insert(chain, o);
                if let Some(after) = after {
                    self.objects.get_mut(&after).unwrap().before = Some(o);
                }
                self.objects.insert(o, Object { chain, before: None, after, stage: Stage::Linked });
                true
            }
            Event::Replace(chain, old, new) => !self.objects.contains_key(&new) && self.leave(chain, old, Some(new)),
            Event::Cut(chain, o) => self.leave(chain, o, None),
            Event::Retire(o) => {
                let moment = self.sections.present.len();
                match self.objects.get_mut(&o) {
                    Some(object) if matches!(object.stage, Stage::Cut) => object.stage = Stage::Retired(moment),
                    _ => return false,
                }
                true
            }
            Event::Queue(o) => match self.objects.get_mut(&o) {
                Some(object) => match object.stage {
                    Stage::Retired(moment) => {
                        object.stage = Stage::Queued(moment, self.queued.arrive());
                        true
                    }
                    _ => false,
                },
                None => false,
            },
            Event::Run(o) => match self.objects.get_mut(&o) {
                Some(object) => match object.stage {
                    Stage::Queued(moment, ticket) if self.sections.oldest >= moment => {
                        object.stage = Stage::Reclaimed;
                        self.queued.leave(ticket)
                    }
                    _ => false,
                },
                None => false,
            },
            Event::Ask(a) => self.asks.insert(a, (self.sections.present.len(), false)).is_none(),
            Event::Answer(a) => match self.asks.get_mut(&a) {
                Some((moment, over)) if !*over && self.sections.oldest >= *moment => {
                    *over = true;
                    true
                }
                _ => false,
            },
            Event::Bar(b) => self.barriers.insert(b, (self.queued.present.len(), false)).is_none(),
            Event::Clear(b) => match self.barriers.get_mut(&b) {
                Some((moment, over)) if !*over && self.queued.oldest >= *moment => {
                    *over = true;
                    true
                }
                _ => false,
            },
        }
    }
}

fn main() {
    let mut checker = Checker::default();
    judge(|event| checker.follow(event));
}
