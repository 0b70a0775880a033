//! What the plain checkers share: how answers are read, who came and has left, and how a verdict is told.

use std::io::{Read, Write};

#[derive(Clone, Copy)]
pub enum Event {
    Open(u32, u64),
    Close(u32, u64),
    First(u32, u64, u32, Option<u64>),
    Next(u32, u64, u64, Option<u64>),
    Touch(u32, u64, u64),
    Push(u32, u64),
    Replace(u32, u64, u64),
    Cut(u32, u64),
    Retire(u64),
    Queue(u64),
    Run(u64),
    Ask(u64),
    Answer(u64),
    Bar(u64),
    Clear(u64),
}

fn number(text: &[u8]) -> u64 {
    text.iter().fold(0, |n, byte| n * 10 + u64::from(byte - b'0'))
}

fn section(word: &[u8]) -> (u32, u64) {
    let point = word.iter().position(|&byte| byte == b'.').unwrap();
    (number(&word[1..point]) as u32, number(&word[point + 1..]))
}

fn found(word: &[u8]) -> Option<u64> {
    if word == b"none" { None } else { Some(number(&word[1..])) }
}

fn event(text: &[u8]) -> Option<Event> {
    let mut words = text.split(|&byte| byte == b' ');
    let verb = words.next()?;
    let mut word = || words.next().unwrap();
    Some(match verb {
        b"open" => {
            let (r, n) = section(word());
            Event::Open(r, n)
        }
        b"close" => {
            let (r, n) = section(word());
            Event::Close(r, n)
        }
        b"first" => {
            let (r, n) = section(word());
            Event::First(r, n, number(&word()[1..]) as u32, found(word()))
        }
        b"next" => {
            let (r, n) = section(word());
            Event::Next(r, n, number(&word()[1..]), found(word()))
        }
        b"touch" => {
            let (r, n) = section(word());
            Event::Touch(r, n, number(&word()[1..]))
        }
        b"push" => Event::Push(number(&word()[1..]) as u32, number(&word()[1..])),
        b"replace" => Event::Replace(number(&word()[1..]) as u32, number(&word()[1..]), number(&word()[1..])),
        b"cut" => Event::Cut(number(&word()[1..]) as u32, number(&word()[1..])),
        b"retire" => Event::Retire(number(&word()[1..])),
        b"queue" => Event::Queue(number(&word()[1..])),
        b"run" => Event::Run(number(&word()[1..])),
        b"ask" => Event::Ask(number(&word()[1..])),
        b"answer" => Event::Answer(number(&word()[1..])),
        b"bar" => Event::Bar(number(&word()[1..])),
        b"clear" => Event::Clear(number(&word()[1..])),
        _ => return None,
    })
}

pub fn events(text: &[u8]) -> Vec<Event> {
    let mut events = Vec::new();
    for line in text.split(|&byte| byte == b'\n') {
        match line.iter().position(|&byte| byte == b';') {
            None => events.extend(event(line)),
            Some(at) => {
                events.extend(event(&line[..at]));
                events.extend(event(&line[at + 2..]));
            }
        }
    }
    events
}

/// Who came, in order, and who has left.
#[derive(Default)]
pub struct Roster {
    pub present: Vec<bool>,
    pub oldest: usize,
}

impl Roster {
    pub fn arrive(&mut self) -> usize {
        self.present.push(true);
        self.present.len() - 1
    }

    pub fn leave(&mut self, place: usize) -> bool {
        let was = std::mem::replace(&mut self.present[place], false);
        while self.oldest < self.present.len() && !self.present[self.oldest] {
            self.oldest += 1;
        }
        was
    }
}

#[derive(Clone, Copy)]
pub enum Stage {
    Linked,
    Cut,
    Retired(usize),
    Queued(usize, usize),
    Reclaimed,
}

pub struct Object {
    pub chain: u32,
    pub before: Option<u64>,
    pub after: Option<u64>,
    pub stage: Stage,
}

/// Reads the answers of standard input, and tells the verdict on them: whether each event may follow by `follow`.
pub fn judge(mut follow: impl FnMut(Event) -> bool) {
    let mut text = Vec::new();
    std::io::stdin().read_to_end(&mut text).unwrap();
    let events = events(&text);
    let bad = events.iter().position(|&event| !follow(event));
    let mut out = std::io::stdout();
    match bad {
        None => writeln!(out, "yes events={}", events.len()).unwrap(),
        Some(at) => {
            writeln!(out, "no event={}", at + 1).unwrap();
            std::process::exit(1);
        }
    }
}
