//! What the benchmark holds the live library against in Rust: crossbeam-epoch, arc-swap, and std's lock. Built by
//! bench/live. It takes the words of `../peers.c`: peers PEER KIND COUNT THREADS.

use arc_swap::ArcSwap;
use crossbeam_epoch::{pin, Atomic, Owned};
use std::collections::HashMap;
use std::hint::black_box;
use std::process::ExitCode;
use std::sync::atomic::{AtomicBool, Ordering};
use std::sync::{Arc, PoisonError, RwLock};
use std::{env, mem, thread};

const KINDS: [&str; 4] = ["section", "read", "retire", "mix"];

/// One operation of this many is an update.
const UPDATE_EVERY: u64 = 100;

/// A record of four words.
struct Words([u64; 4]);

impl Words {
    fn look_into(&self) -> u64 {
        let [key, value, rank, last] = self.0;
        key ^ value ^ rank ^ last
    }
}

/// A place with a record, which threads read while another record is put there.
trait Place: Sync {
    /// With a record of zeros.
    fn new() -> Self;

    /// A section with nothing in it.
    fn section(&self);

    /// What a section finds in the record.
    fn read(&self) -> u64;

    /// A record of four times this word takes the place of the other, which is freed once nobody reads it.
    fn replace(&self, word: u64);

    /// Waits until all that this thread replaced is freed.
    fn settle() {}
}

/// Of crossbeam-epoch.
struct Epoch(Atomic<Words>);

impl Place for Epoch {
    fn new() -> Self {
        Epoch(Atomic::new(Words([0; 4])))
    }

    fn section(&self) {
        black_box(&pin());
    }

    fn read(&self) -> u64 {
        let guard = pin();
        // What a place has is there until it is replaced, and then until this guard is dropped.
        unsafe { self.0.load(Ordering::Acquire, &guard).deref() }.look_into()
    }

    fn replace(&self, word: u64) {
        let guard = pin();
        let old = self.0.swap(Owned::new(Words([word; 4])), Ordering::AcqRel, &guard);
        // It is in no place any more.
        unsafe { guard.defer_destroy(old) };
    }

    fn settle() {
        let done = Arc::new(AtomicBool::new(false));
        let told = done.clone();
        // Called after all that this thread deferred before.
        pin().defer(move || told.store(true, Ordering::Release));
        while !done.load(Ordering::Acquire) {
            pin().flush();
            thread::yield_now();
        }
    }
}

/// Of arc-swap, where a section is a load of what the place has.
struct Swapped(ArcSwap<Words>);

impl Place for Swapped {
    fn new() -> Self {
        Swapped(ArcSwap::from_pointee(Words([0; 4])))
    }

    fn section(&self) {
        black_box(&self.0.load());
    }

    fn read(&self) -> u64 {
        self.0.load().look_into()
    }

    fn replace(&self, word: u64) {
        self.0.store(Arc::new(Words([word; 4])));
    }
}

/// Of std's lock.
struct Locked(RwLock<Box<Words>>);

impl Place for Locked {
    fn new() -> Self {
        Locked(RwLock::new(Box::new(Words([0; 4]))))
    }

    fn section(&self) {
        black_box(&self.0.read());
    }

    fn read(&self) -> u64 {
        self.0.read().unwrap_or_else(PoisonError::into_inner).look_into()
    }

    fn replace(&self, word: u64) {
        let new = Box::new(Words([word; 4]));
        let old = mem::replace(&mut *self.0.write().unwrap_or_else(PoisonError::into_inner), new);
        // With the lock free again.
        drop(old);
    }
}

/// A place in cache lines of its own.
#[repr(align(128))]
struct Apart<P>(P);

fn repeat(count: u64, operation: impl FnMut(u64)) {
    (0..count).for_each(operation);
}

/// Reads the places in turn, and updates its own once in 100 times.
fn mix<P: Place>(places: &[Apart<P>], own: &P, count: u64) {
    repeat(count, |number| {
        if number % UPDATE_EVERY == 0 {
            own.replace(number);
        } else {
            black_box(places[number as usize % places.len()].0.read());
        }
    });
}

/// What one thread does.
fn part<P: Place>(kind: &str, places: &[Apart<P>], own: &P, count: u64) {
    let first = &places[0].0;
    match kind {
        "section" => repeat(count, |_| first.section()),
        "read" => repeat(count, |_| {
            black_box(first.read());
        }),
        "retire" => repeat(count, |number| own.replace(number)),
        _ => mix(places, own, count),
    }
    P::settle();
}

/// This many threads, with a place each.
fn run<P: Place>(kind: &str, count: u64, threads: usize) {
    let places: Vec<Apart<P>> = (0..threads).map(|_| Apart(P::new())).collect();
    thread::scope(|scope| {
        for own in &places {
            scope.spawn(|| part(kind, &places, &own.0, count));
        }
    });
}

const TABLE_KINDS: [&str; 6] = ["hit", "miss", "hit-large", "miss-large", "insert", "remove"];

/// Keys up to these are in the tables that are looked up; what is looked up is below the next power of two.
const FEW: u64 = 1_024;
const MANY: u64 = 65_535;

/// From here on no key is there.
const OTHERS: u64 = 1 << 20;

/// Odd, so that it leads from key to key through all of a power of two.
const STRIDE: u64 = 40_503;

type Table = RwLock<HashMap<u64, u64>>;

fn look_up(table: &Table, mask: u64, from: u64, count: u64) {
    repeat(count, |number| {
        let key = (number.wrapping_mul(STRIDE) & mask) ^ from;
        black_box(table.read().unwrap_or_else(PoisonError::into_inner).get(&key).copied());
    });
}

fn insert(table: &Table, key: u64) {
    table.write().unwrap_or_else(PoisonError::into_inner).insert(key, key);
}

/// What one of the threads does with a table.
fn part_of_table(kind: &str, table: &Table, count: u64, hand: u64) {
    match kind {
        "hit" => look_up(table, FEW - 1, 0, count),
        "miss" => look_up(table, FEW - 1, OTHERS, count),
        "hit-large" => look_up(table, MANY, 0, count),
        "miss-large" => look_up(table, MANY, OTHERS, count),
        "insert" => repeat(count, |number| insert(table, hand * count + number)),
        _ => repeat(count, |number| {
            insert(table, number ^ OTHERS);
            table.write().unwrap_or_else(PoisonError::into_inner).remove(&(number ^ OTHERS));
        }),
    }
}

/// This many threads with one table, which has its keys; it hashes as std does.
fn run_table(kind: &str, count: u64, threads: usize) {
    let keys = match kind {
        "insert" => 0,
        "hit-large" | "miss-large" => MANY,
        _ => FEW,
    };
    let table = RwLock::new((0..keys).map(|key| (key, key)).collect());
    thread::scope(|scope| {
        (0..threads as u64).for_each(|hand| {
            let table = &table;
            scope.spawn(move || part_of_table(kind, table, count, hand));
        });
    });
}

type Run = fn(&str, u64, usize);

/// Whose table is std's map behind std's lock.
const TABLE_PEER: &str = "std-rwlock";

const PEERS: [(&str, Run); 3] = [
    ("crossbeam-epoch", run::<Epoch>),
    ("arc-swap", run::<Swapped>),
    (TABLE_PEER, run::<Locked>),
];

/// Runs what the words name.
fn run_words(words: &[String]) -> Option<()> {
    let [peer, kind, count, threads] = words else {
        return None;
    };
    let (count, threads) = (count.parse().ok()?, threads.parse().ok()?);
    if peer == TABLE_PEER && TABLE_KINDS.contains(&kind.as_str()) {
        run_table(kind, count, threads);
        return Some(());
    }
    let (_, run) = PEERS.iter().find(|it| it.0 == peer)?;
    let kind = KINDS.iter().find(|it| *it == kind)?;
    run(kind, count, threads);
    Some(())
}

fn main() -> ExitCode {
    let words: Vec<String> = env::args().skip(1).collect();
    if words.len() != 4 {
        for (peer, _) in PEERS {
            KINDS.iter().for_each(|kind| println!("{peer} {kind}"));
        }
        TABLE_KINDS.iter().for_each(|kind| println!("{TABLE_PEER} {kind}"));
        return ExitCode::SUCCESS;
    }
    match run_words(&words) {
        Some(()) => ExitCode::SUCCESS,
        None => ExitCode::from(2),
    }
}
