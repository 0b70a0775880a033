//! Writes a steady log of this many events: steady EVENTS. Built by `rustc -O steady.rs`.
//!
//! Four readers take turns. Each finds the first record of a list, which an updater then replaces, retires and queues; two
//! turns later the reader leaves, and three turns later the record is run. In each eighth turn a grace period and a barrier
//! are asked for, and three turns later they are over. What is present stays the same, however long the log is, and all
//! numbers count up by 1.

use std::io::{BufWriter, Result, Write};

const READERS: u64 = 4;
const EACH: u64 = 8;

fn section(turn: u64) -> (u64, u64) {
    (turn % READERS, turn / READERS + 1)
}

fn turn(out: &mut impl Write, turn: u64) -> Result<u64> {
    let (reader, ordinal) = section(turn);
    let next = turn + 1;
    write!(out, "open r{reader}.{ordinal}\nfirst r{reader}.{ordinal} c0 o{turn}\nreplace c0 o{turn} o{next}\n")?;
    write!(out, "touch r{reader}.{ordinal} o{turn}\nretire o{turn}\nqueue o{turn} q0\n")?;
    let mut events = 6;
    if turn > 2 {
        let (reader, ordinal) = section(turn - 2);
        writeln!(out, "close r{reader}.{ordinal}")?;
        events += 1;
    }
    if turn > 3 {
        writeln!(out, "run o{}", turn - 3)?;
        events += 1;
    }
    if turn % EACH == 0 {
        write!(out, "ask a{}\nbar b{}\n", turn / EACH, turn / EACH)?;
        events += 2;
    }
    if turn % EACH == 3 && turn > EACH {
        write!(out, "answer a{}\nclear b{}\n", turn / EACH, turn / EACH)?;
        events += 2;
    }
    Ok(events)
}

fn main() -> Result<()> {
    let wanted: u64 = std::env::args().nth(1).and_then(|it| it.parse().ok()).expect("steady EVENTS");
    let mut out = BufWriter::with_capacity(1 << 16, std::io::stdout().lock());
    writeln!(out, "push c0 o1")?;
    let mut events = 1;
    for number in 1.. {
        if events >= wanted {
            break;
        }
        events += turn(&mut out, number)?;
    }
    out.flush()
}
