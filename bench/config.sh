#!/bin/sh
# Measures Config::edit, Config::change and Entries::follow_changes over 1,000, 8,000 and 60,000 routes 100.x.y.0/24 by way of one address.
#
#     bench/config.sh           (in the repository, with the kit's rt on the path; what it stands on is proved first, which takes long
#                               where the repository hasn't been proved yet)
#
# The program is made in a temporary folder, beside copies of the crates that it stands on. It stands outside the gate; it is proved and built.
set -e
. "$(dirname "$0")/beside.sh"
beside fib_commands fib_config fib_entries
cat > "$work/crates/measure/src/main.rt" <<'MAIN'
//! Times of edits, and of entries that follow them.
#![tactic(auto)]

ghost use Rattle.std.specs.Prelude.{◌≤◌, ◌<◌, IfOk};
ghost use Rattle.fib_resolve.specs.Reachable.{IsWritten};

use fib_commands::{Line, read_line};
use fib_config::Config;
use fib_entries::Entries;
use fib_resolve::Edit;
use std::alloc::{AllocError, Global};
use std::io;
use std::io::Print;
use std::time::{Clock, Duration, Instant};

/// More objects than the tables take.
const ROOM: u32 = 1 << 30;

/// The routes that are added at the full size.
const LAST: u32 = 500;

/// The further routes that the entries follow.
const FOLLOWED: u32 = 4;

/// The edit that adds the route of that number.
fn edit_of(alloc: Global, number: u32) -> Result<Edit, AllocError>
    ensures { IfOk result IsWritten }
{
    let x = number / 256;
    let y = number % 256;
    let line = format!(in alloc; "ip route add 100.{x}.{y}.0/24 via 192.168.255.1")?;
    match read_line(alloc, line.as_bytes()) {
        Ok(Line::Change(edit)) => Ok(edit),
        _ => Err(AllocError),
    }
}

/// The time of the edits that add the routes of these numbers.
fn add<R: Print + Clock + Alloc<A = Global>>(rt: &R, config: &mut Config, from: u32, to: u32) -> io::Result<Duration> {
    let mut taken = Duration::ZERO;
    for number in from..to {
        let edit = edit_of(rt.alloc(), number)?;
        let start = Instant::now(rt)?;
        let added = config.edit(&edit);
        taken = taken.saturating_add(start.elapsed(rt)?);
        if added.is_err() {
            println!(rt; "route {number} was refused")?;
        }
    }
    Ok(taken)
}

/// Prints a time.
fn told<R: Print>(rt: &R, routes: u32, what: &str, nanos: u128) -> io::Result<()> {
    println!(rt; "{routes} routes: {what}: {nanos} ns")
}

/// Loads the routes, and prints the mean time of the last edits.
fn load<R: Print + Clock + Alloc<A = Global>>(rt: &R, config: &mut Config, routes: u32) -> io::Result<()>
    requires { 500 ≤ routes }
{
    let first = add(rt, config, 0, routes - LAST)?;
    told(rt, routes, "all edits but the last 500", first.as_nanos())?;
    let last = add(rt, config, routes - LAST, routes)?;
    told(rt, routes, "Config::edit, in the mean of the last 500", last.as_nanos() / 500)
}

/// Adds a further route, which the entries follow, and prints both times.
fn follow<R: Print + Clock + Alloc<A = Global>>(
    rt: &R,
    config: &mut Config,
    entries: &mut Entries,
    number: u32,
) -> io::Result<()> {
    let edit = edit_of(rt.alloc(), number)?;
    let start = Instant::now(rt)?;
    let Ok(edited) = config.change(&edit) else {
        return println!(rt; "route {number} was refused");
    };
    told(rt, number, "Config::change", start.elapsed(rt)?.as_nanos())?;
    let start = Instant::now(rt)?;
    if entries.follow_changes(config, &[edited.change], ROOM).is_err() {
        return println!(rt; "route {number} was not followed");
    }
    told(rt, number, "Entries::follow_changes", start.elapsed(rt)?.as_nanos())
}

/// Entries of the loaded routes, which follow further ones.
fn follow_all<R: Print + Clock + Alloc<A = Global>>(rt: &R, config: &mut Config, routes: u32) -> io::Result<()>
    requires { routes ≤ 60000 }
{
    let start = Instant::now(rt)?;
    let mut entries = Entries::of(rt.alloc(), config.tables())?;
    told(rt, routes, "Entries::of", start.elapsed(rt)?.as_nanos())?;
    for number in routes..routes + FOLLOWED {
        follow(rt, config, &mut entries, number)?;
    }
    Ok(())
}

fn measure<R: Print + Clock + Alloc<A = Global>>(rt: &R, routes: u32) -> io::Result<()>
    requires least { 500 ≤ routes }
    requires most { routes ≤ 60000 }
{
    let mut config = Config::new(rt.alloc(), ROOM)?;
    load(rt, &mut config, routes)?;
    follow_all(rt, &mut config, routes)
}

fn main(rt: HostRuntime) -> io::Result<()> {
    measure(&rt, 1_000)?;
    measure(&rt, 8_000)?;
    measure(&rt, 60_000)
}
MAIN
cd "$work/crates/measure"
rt run 2> "$work/log" || { tail -20 "$work/log"; exit 1; }
