#!/bin/sh
# Measures fib_ply over a plane over a plain board: adding and removing a /24 where the table has 1,000 and 60,000 prefixes.
#
#     bench/ply.sh              (in the repository, with the kit's rt on the path; some minutes, for what it stands on is built first)
#
# The program is made in a temporary folder, beside copies of the crates that it stands on. It stands outside the gate, and is tried and not
# proved: it makes calls whose conditions only the layers above can show.
set -e
. "$(dirname "$0")/beside.sh"
beside fib_plane fib_ply
cat > "$work/crates/measure/src/main.rt" <<'MAIN'
//! Times of adding and removing a prefix.
#![tactic(auto)]

use fib_addr::{Addr, Prefix};
use fib_plane_view::Objects;
use fib_core_plainboard::PlainBoard;
use fib_ply::PrefixTable;
use fib_pool::Kind;
use fib_plane::Plane;
use std::io;
use std::io::Print;
use std::time::{Clock, Instant};

const OBJECTS: u32 = 131072;
const TRIES: u32 = 1000;

/// Of a thousand prefixes of a routing table, how many have which length.
const LENGTHS: [(u8, u32); 15] = [
    (24, 560), (23, 100), (22, 130), (21, 55), (20, 50), (19, 30), (18, 20), (17, 12),
    (16, 25), (15, 6), (14, 5), (13, 3), (12, 2), (11, 1), (10, 1),
];

/// Numbers without a pattern, the same in each run.
#[derive(Drop)]
struct Numbers {
    state: u64,
}

impl Numbers {
    fn below(&mut self, bound: u32) -> u32 {
        self.state = self.state.wrapping_mul(6364136223846793005).wrapping_add(1442695040888963407);
        ((self.state >> 33) % bound as u64) as u32
    }

    fn length(&mut self) -> u8 {
        let mut left = self.below(1000);
        for (len, share) in LENGTHS {
            if left < share {
                return len;
            }
            left -= share;
        }
        24
    }
}

/// Prefixes of a routing table, in order: runs of neighbours, some inside shorter ones, and gaps between.
#[derive(Drop)]
struct Prefixes {
    numbers: Numbers,
    next: u32,
}

impl Prefixes {
    fn next(&mut self) -> Prefix {
        let len = self.numbers.length();
        let size = 1 << (32 - len as u32);
        let first = (self.next + size - 1) / size * size;
        self.next = if len >= 21 { first + size } else { first };
        if self.numbers.below(4) == 0 {
            self.next += self.numbers.below(256) * 256;
        }
        Prefix::masked(Addr(first), len)
    }
}

/// A table of that many prefixes, and the greatest address with one.
fn fill(shared: &mut Plane<PlainBoard>, table: &mut PrefixTable, count: u32) -> io::Result<u32> {
    let mut prefixes = Prefixes { numbers: Numbers { state: 7 }, next: 0x0100_0000 };
    let mut added = 1;
    while added < count {
        let prefix = prefixes.next();
        if table.object(prefix).is_none() {
            let Some(balance) = shared.take(Kind::Balance) else {
                unreachable!()
            };
            table.room(shared)?;
            table.add(shared, prefix, balance);
            shared.scan();
            added += 1;
        }
    }
    Ok(prefixes.next)
}

/// Adds a /24 within the first that many addresses that isn't there, and removes it again.
fn measure(rt: &(impl Print + Clock), shared: &mut Plane<PlainBoard>, table: &mut PrefixTable, end: u32) -> io::Result<()> {
    let Some(balance) = shared.take(Kind::Balance) else {
        unreachable!()
    };
    let mut numbers = Numbers { state: 11 };
    let mut adding = 0;
    let mut removing = 0;
    let mut scanning = 0;
    let mut stores = 0;
    let mut tried = 0;
    while tried < TRIES {
        let prefix = Prefix::masked(Addr(0x0100_0000 + numbers.below(end - 0x0100_0000)), 24);
        if table.object(prefix).is_some() {
            continue;
        }
        let start = Instant::now(rt)?;
        table.room(shared)?;
        stores += table.add(shared, prefix, balance);
        adding += start.elapsed(rt)?.as_nanos();
        shared.scan();
        let start = Instant::now(rt)?;
        stores += table.remove(shared, prefix);
        removing += start.elapsed(rt)?.as_nanos();
        let start = Instant::now(rt)?;
        shared.scan();
        scanning += start.elapsed(rt)?.as_nanos();
        tried += 1;
    }
    let tries = TRIES as u128;
    println!(rt; "  add {} ns, remove {} ns, scan {} ns, {} stores", adding / tries, removing / tries, scanning / tries, stores / TRIES as u64)
}

fn run(rt: &HostRuntime, count: u32) -> io::Result<()> {
    let alloc = rt.alloc();
    let board = PlainBoard::new(alloc, OBJECTS, 8)?;
    let mut shared = Plane::new(alloc, board)?;
    let mut table = PrefixTable::new(alloc);
    table.reserve(alloc, count as usize + 2)?;
    let Some(balance) = shared.take(Kind::Balance) else {
        unreachable!()
    };
    table.ready(&mut shared, balance);
    let start = Instant::now(rt)?;
    let end = fill(&mut shared, &mut table, count)?;
    let nanos = start.elapsed(rt)?.as_nanos();
    println!(rt; "{count} prefixes, {} plies, {} ns a prefix to fill", table.plies(), nanos / count as u128)?;
    measure(rt, &mut shared, &mut table, end)
}

fn main(rt: HostRuntime) -> io::Result<()> {
    run(&rt, 1000)?;
    run(&rt, 60000)
}
MAIN
cd "$work/crates/measure"
rt try --steps 1000000000000 --seconds 1200 2> "$work/log" || { tail -20 "$work/log"; exit 1; }
