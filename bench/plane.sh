#!/bin/sh
# Measures put of fib_plane on 60,000 objects over a plain board: the word is there already, a new edge, and an edge that is replaced.
#
#     bench/plane.sh            (in the repository, with the kit's rt on the path; some minutes, for what it stands on is built first)
#
# The program is made in a temporary folder, beside copies of the crates that it stands on. It stands outside the gate, and is tried and not
# proved: it makes puts whose conditions only the layers above can show.
set -e
. "$(dirname "$0")/beside.sh"
beside fib_plane
cat > "$work/crates/measure/src/main.rt" <<'MAIN'
//! Times of puts.
#![tactic(auto)]

use fib_core::Word;
use fib_core_plainboard::PlainBoard;
use fib_plane::{Plane, Put};
use fib_plane_view::Objects;
use fib_pool::Kind;
use std::io;
use std::io::Print;
use std::time::{Clock, Instant};

const OBJECTS: u32 = 60000;
const PLIES: u32 = 4000;
const ADJACENCIES: u32 = 100;
const BALANCES: u32 = 55900;

fn told(rt: &(impl Print + Clock), what: &str, start: Instant, stored: u32) -> io::Result<()> {
    let nanos = start.elapsed(rt)?.as_nanos();
    println!(rt; "{what}: {} ns a put, {stored} stored", nanos / 55900)
}

/// A tree of plies, and a balance in each cell of its leaves.
fn grow(plane: &mut Plane<PlainBoard>) {
    for ply in 1..PLIES {
        plane.put((ply - 1) / 16, (ply - 1) % 16, Word::ToPly(ply));
    }
    for place in 0..BALANCES {
        if PLIES / 16 + 1 + place / 16 < PLIES {
            let balance = PLIES + ADJACENCIES + place;
            plane.put(PLIES / 16 + 1 + place / 16, place % 16, Word::ToBalance(balance));
        }
    }
}

/// A bucket of each balance, to the adjacency that is this much further. Answers how many puts stored.
fn aim(plane: &mut Plane<PlainBoard>, further: u32) -> u32 {
    let mut stored = 0;
    for place in 0..BALANCES {
        let balance = PLIES + ADJACENCIES + place;
        let adjacency = PLIES + (place + further) % ADJACENCIES;
        if plane.put(balance, 0, Word::ToAdjacency(adjacency)) == Put::Stored {
            stored += 1;
        }
    }
    stored
}

fn main(rt: HostRuntime) -> io::Result<()> {
    let alloc = rt.alloc();
    let board = PlainBoard::new(alloc, OBJECTS, 8)?;
    let mut plane = Plane::new(alloc, board)?;
    plane.room(200000)?;
    for _object in 1..OBJECTS {
        let _ = plane.take(Kind::Balance);
    }
    grow(&mut plane);
    let start = Instant::now(&rt)?;
    let stored = aim(&mut plane, 0);
    told(&rt, "a new edge", start, stored)?;
    let start = Instant::now(&rt)?;
    let stored = aim(&mut plane, 0);
    told(&rt, "no change", start, stored)?;
    let start = Instant::now(&rt)?;
    let stored = aim(&mut plane, 1);
    told(&rt, "an edge that is replaced", start, stored)?;
    let start = Instant::now(&rt)?;
    let left = plane.scan();
    told(&rt, "a scan of all copies, shared out", start, left)
}
MAIN
cd "$work/crates/measure"
rt try --steps 100000000000 --seconds 300 2> "$work/log" || { tail -20 "$work/log"; exit 1; }
