#!/bin/sh
# Measures would_cycle and scan of fib_union on 60,000 objects: a chain, a star, the shape of a routing table, and many copies.
#
#     bench/union.sh            (in the repository, with the kit's rt on the path; some minutes, for the program is proved first)
#
# The program is made in a temporary folder, beside copies of the crates that it stands on. It stands outside the gate.
set -e
. "$(dirname "$0")/beside.sh"
beside fib_union
cat > "$work/crates/measure/src/full.rt" <<'FULL'
// A union for 8 workers, whose calls do nothing where they may not be made.
ghost use Rattle.std.specs.Prelude.{◌≡◌, ◌*◌, ◌<◌, length};

use fib_union::Union;
use std::alloc::{AllocError, Global};

#[derive(Drop)]
pub struct Full {
    union: Union,
    objects: u32,
    ghost size: { length union.union.edges ≡ 16 * objects },
    ghost words: { union.workers ≡ 8 },
}

impl Full {
    pub fn new(alloc: Global, objects: u32) -> Result<Full, AllocError>
        requires { 0 < objects }
    {
        let mut union = Union::new(alloc, objects, 8)?;
        union.reserve(120000)?;
        Ok(Full { union, objects })
    }

    pub fn set(&mut self, from: u32, slot: u32, to: Option<u32>) {
        if from >= self.objects || slot >= 16 || self.union.spare() == 0 {
            return;
        }
        if to.unwrap_or(0) >= self.objects {
            return;
        }
        let _ = self.union.set(from, slot, to);
    }

    pub fn would_cycle(&mut self, from: u32, to: u32) -> bool {
        from < self.objects && to < self.objects && self.union.would_cycle(from, to)
    }

    pub fn scan(&mut self, words: &[u64]) -> u32 {
        if words.len() != 8 {
            return 0;
        }
        self.union.scan(words)
    }

    pub fn left(&mut self) -> bool {
        self.union.left().is_some()
    }

    pub fn retired(&self) -> u32 {
        self.union.retired()
    }
}
FULL
cat > "$work/crates/measure/src/main.rt" <<'MAIN'
//! Times of calls of a union.
#![tactic(auto)]

mod full;

use full::Full;
use std::io;
use std::io::Print;
use std::time::{Clock, Instant};

const OBJECTS: u32 = 60000;
const PLIES: u32 = 4000;
const ADJACENCIES: u32 = 100;

/// 0 leads to 1, 1 to 2, and so on.
fn chain(union: &mut Full) {
    for object in 1..OBJECTS {
        union.set(object - 1, 0, Some(object));
    }
}

/// 0 leads to object 2, and each object but 0 and 1 to object 1.
fn star(union: &mut Full) {
    union.set(0, 0, Some(2));
    for object in 2..OBJECTS {
        union.set(object, 0, Some(1));
    }
}

/// A tree of plies, a balance in each cell of its leaves, and sixteen buckets of each balance into a hundred adjacencies.
fn table(union: &mut Full) {
    for ply in 1..PLIES {
        union.set((ply - 1) / 16, (ply - 1) % 16, Some(ply));
    }
    for place in 0..(OBJECTS - PLIES - ADJACENCIES) {
        let balance = PLIES + ADJACENCIES + place;
        if PLIES / 16 + 1 + place / 16 < PLIES {
            union.set(PLIES / 16 + 1 + place / 16, place % 16, Some(balance));
        }
        for slot in 0..16 {
            union.set(balance, slot, Some(PLIES + (place + slot) % ADJACENCIES));
        }
    }
}

/// Object 0's edge is replaced again and again.
fn copies(union: &mut Full) {
    for object in 2..OBJECTS {
        union.set(0, 0, Some(object));
    }
}

fn told(
    rt: &(impl Print + Clock),
    what: &str,
    start: Instant,
    calls: u32,
    answer: u32,
) -> io::Result<()> {
    let nanos = start.elapsed(rt)?.as_nanos();
    println!(rt; "{what}: {} ns a call, answer {answer}", nanos / u128::from(calls.max(1)))
}

/// The test of an edge, many times over.
fn tests(
    rt: &(impl Print + Clock),
    union: &mut Full,
    from: u32,
    to: u32,
    calls: u32,
) -> io::Result<()> {
    let start = Instant::now(rt)?;
    let mut closing = false;
    for _call in 0..calls {
        closing = union.would_cycle(from, to);
    }
    println!(rt; "would_cycle from {from} to {to}")?;
    told(rt, "  would_cycle", start, calls, u32::from(closing))
}

/// Each object's first edge is replaced; then looks while passes run, and once they are over.
fn scans(rt: &(impl Print + Clock), union: &mut Full) -> io::Result<()> {
    let start = Instant::now(rt)?;
    for object in 0..OBJECTS {
        union.set(object, 0, None);
    }
    told(rt, "set, of an edge that is replaced", start, OBJECTS, union.retired())?;
    let start = Instant::now(rt)?;
    for _call in 0..10000 {
        let _ = union.scan([1, 3, 5, 7, 9, 11, 13, 15].as_slice());
    }
    told(rt, "scan of 8 words, where all stay", start, 10000, union.retired())?;
    let start = Instant::now(rt)?;
    let left = union.scan([2, 4, 6, 8, 10, 12, 14, 16].as_slice());
    told(rt, "scan of 8 words, where all leave", start, 1, left)?;
    let start = Instant::now(rt)?;
    for _call in 0..OBJECTS {
        let _ = union.left();
    }
    told(rt, "left", start, OBJECTS, 0)
}

fn main(rt: HostRuntime) -> io::Result<()> {
    let alloc = rt.alloc();
    println!(&rt; "-- a chain of 60,000")?;
    let mut union = Full::new(alloc, OBJECTS)?;
    chain(&mut union);
    tests(&rt, &mut union, OBJECTS - 1, 0, 100)?;
    tests(&rt, &mut union, OBJECTS - 1, OBJECTS - 2, 100000)?;
    scans(&rt, &mut union)?;
    println!(&rt; "-- a star: all lead to object 1")?;
    let mut union = Full::new(alloc, OBJECTS)?;
    star(&mut union);
    tests(&rt, &mut union, 2, 1, 100000)?;
    tests(&rt, &mut union, 3, 2, 100000)?;
    scans(&rt, &mut union)?;
    println!(&rt; "-- a table: 4,000 plies, 100 adjacencies, 55,900 balances")?;
    let mut union = Full::new(alloc, OBJECTS)?;
    table(&mut union);
    tests(&rt, &mut union, PLIES / 16 + 1, OBJECTS - 1, 100000)?;
    tests(&rt, &mut union, PLIES, PLIES + ADJACENCIES, 100000)?;
    tests(&rt, &mut union, PLIES, 0, 100)?;
    scans(&rt, &mut union)?;
    println!(&rt; "-- an object with 59,997 copies")?;
    let mut union = Full::new(alloc, OBJECTS)?;
    copies(&mut union);
    tests(&rt, &mut union, 2, 0, 100)
}
MAIN
cd "$work/crates/measure"
rt run 2> "$work/log" || { tail -20 "$work/log"; exit 1; }
