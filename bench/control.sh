#!/bin/sh
# Measures a control over a plain board with 1,000, 8,000 and 60,000 routes 100.x.y.0/24 by way of one next hop, which is recursive over two
# uplinks: the routes in one batch, and then one change at a time, as CHANGES says. `Control::apply` has the entries' time in it;
# bench/config.sh measures that alone.
#
#     bench/control.sh          (in the repository, with the kit's rt on the path; what it stands on is proved first, which takes long
#                               where the repository hasn't been proved yet)
#
# The program is made in a temporary folder, beside copies of the crates that it stands on. It stands outside the gate; it is proved and built.
set -e
. "$(dirname "$0")/beside.sh"
beside fib_commands fib_control
mkdir -p "$work/crates/measure/specs" "$work/crates/measure/proofs/routes" "$work/crates/measure/proofs/fresh"
cat > "$work/crates/measure/src/main.rt" <<'MAIN'
//! Times of changes, and of the turns that they make.
#![tactic(auto)]

ghost use Rattle.std.specs.Prelude.{◌≡◌, ◌≤◌, ◌<◌, ◌^◌, true, IfOk, OnOk, length};
ghost use Rattle.std.specs.List.{AllByRecursion};
ghost use Rattle.fib_resolve.specs.Reachable.{IsWritten};
ghost use Rattle.fib_control.specs.Controls.{promise_in};

use fib_commands::{Line, read_line};
use fib_control::Control;
use fib_core_plainboard::PlainBoard;
use fib_resolve::Edit;
use fib_stack::Turn;
use std::alloc::{AllocError, Global};
use std::io;
use std::io::Print;
use std::time::{Clock, Instant};

/// The links, the next hop over them, and another over one of them.
const LINKS: [&str; 12] = [
    "create interface up0",
    "set interface state up0 up",
    "set interface ip address up0 10.1.0.1/24",
    "create interface up1",
    "set interface state up1 up",
    "set interface ip address up1 10.2.0.1/24",
    "set ip neighbor up0 10.1.0.2 02:00:00:00:00:01",
    "set ip neighbor up1 10.2.0.2 02:00:00:00:00:02",
    "ip route add 192.168.255.1/32 via 10.1.0.2 via 10.2.0.2",
    "ip route add 192.168.255.2/32 via 10.1.0.2",
    "ip route add 98.0.0.0/24 via 192.168.255.2",
    "ip route add 98.0.1.0/24 via 192.168.255.2",
];

/// The changes that are measured one by one. With the first one the lists that are full grow. Then a route comes behind all others and one
/// before them; a route gets a path by way of the other next hop and loses its old one; the route before all others goes; a route comes
/// with the host of a next hop that no other has, and both go; a route over an uplink comes, and goes; an uplink's neighbor has another address, and the uplink goes down and
/// up; the first route that was loaded goes.
const CHANGES: [&str; 14] = [
    "ip route add 101.0.0.0/24 via 192.168.255.1",
    "ip route add 101.0.1.0/24 via 192.168.255.1",
    "ip route add 99.0.0.0/24 via 192.168.255.1",
    "ip route add 100.0.9.0/24 via 192.168.255.2",
    "ip route del 100.0.9.0/24 via 192.168.255.1",
    "ip route del 99.0.0.0/24",
    "ip route add 101.0.2.0/24 via 192.168.255.3",
    "ip route del 101.0.2.0/24",
    "ip route add 101.0.2.0/24 via 10.1.0.2 up0",
    "ip route del 101.0.2.0/24",
    "set ip neighbor up1 10.2.0.2 02:00:00:00:00:03",
    "set interface state up1 down",
    "set interface state up1 up",
    "ip route del 100.0.0.0/24",
];

/// The edit that a line says.
fn said(alloc: Global, line: &str) -> Result<Edit, AllocError>
    ensures { IfOk result IsWritten }
{
    match read_line(alloc, line.as_bytes()) {
        Ok(Line::Change(edit)) => Ok(edit),
        _ => Err(AllocError),
    }
}

/// The edit that adds the route of that number.
fn route(alloc: Global, number: u32) -> Result<Edit, AllocError>
    ensures { IfOk result IsWritten }
{
    let x = number / 256;
    let y = number % 256;
    let line = format!(in alloc; "ip route add 100.{x}.{y}.0/24 via 192.168.255.1")?;
    said(alloc, line.as_str())
}

/// The edits that add so many routes.
fn routes(alloc: Global, count: u32) -> Result<Vec<Edit>, AllocError>
    ensures written { IfOk result (λ v. AllByRecursion IsWritten v.items) }
    ensures few { IfOk result (λ v. length v.items < 2 ^ 32) }
{
    let mut edits = Vec::new(alloc);
    for number in 0..count {
        edits.push(route(alloc, number)?)?;
    }
    Ok(edits)
}

/// Nobody is out.
fn fresh(alloc: Global) -> Result<Control<PlainBoard>, AllocError>
    ensures { IfOk result (λ c. (promise_in c).alone ≡ true) }
{
    let board = PlainBoard::new(alloc, 131072, 1)?;
    match Control::new(alloc, board) {
        Ok(control) => Ok(control),
        Err(_) => Err(AllocError),
    }
}

/// Prints a time.
fn told<R: Print>(rt: &R, what: &str, nanos: u128) -> io::Result<()> {
    println!(rt; "{what}: {nanos} ns")
}

/// Turns until nothing is queued; prints how many there were, and their stores.
fn turns<R: Print + Clock>(rt: &R, control: &mut Control<PlainBoard>) -> io::Result<()> {
    let start = Instant::now(rt)?;
    let mut count = 0u32;
    let mut stored = 0u64;
    for _turn in 0..u32::MAX {
        match control.turn() {
            Ok(turn) => match stores(&turn) {
                Some(stores) => {
                    count = count.wrapping_add(1);
                    stored = stored.wrapping_add(stores);
                }
                None => break,
            },
            Err(_) => break,
        }
    }
    println!(rt; "  {count} turns, {stored} stores: {} ns", start.elapsed(rt)?.as_nanos())
}

/// How many stores a turn made, if one was made.
fn stores(turn: &Turn) -> Option<u64> {
    match turn {
        Turn::Idle => None,
        Turn::Restacked { stores, .. } => Some(*stores),
    }
}

/// What is left after turns: a scan, a retry, and the version is settled.
fn settle<R: Print + Clock>(rt: &R, control: &mut Control<PlainBoard>) -> io::Result<()> {
    let start = Instant::now(rt)?;
    control.scan();
    control.retry();
    if control.mark_settled().is_err() {
        println!(rt; "  not settled")?;
    }
    told(rt, "  scan, retry and settling", start.elapsed(rt)?.as_nanos())
}

/// One change, and all that it makes.
fn change<R: Print + Clock>(rt: &R, control: &mut Control<PlainBoard>, what: &str, edit: &Edit) -> io::Result<()>
    requires { IsWritten edit.now }
{
    if control.version().applied == u32::MAX {
        return Ok(());
    }
    let start = Instant::now(rt)?;
    let made = control.apply(edit);
    told(rt, what, start.elapsed(rt)?.as_nanos())?;
    if made.is_err() {
        println!(rt; "  refused")?;
    }
    turns(rt, control)?;
    settle(rt, control)
}

/// The routes as one change.
fn load<R: Print + Clock + Alloc<A = Global>>(rt: &R, control: &mut Control<PlainBoard>, count: u32) -> io::Result<()> {
    let edits = routes(rt.alloc(), count)?;
    if control.version().applied == u32::MAX {
        return Ok(());
    }
    let start = Instant::now(rt)?;
    let made = control.apply_all(edits.as_slice());
    told(rt, "all routes in a batch", start.elapsed(rt)?.as_nanos())?;
    if made.is_err() {
        println!(rt; "  refused")?;
    }
    turns(rt, control)?;
    settle(rt, control)
}

/// A line's change.
fn line<R: Print + Clock + Alloc<A = Global>>(rt: &R, control: &mut Control<PlainBoard>, text: &str) -> io::Result<()> {
    let edit = said(rt.alloc(), text)?;
    change(rt, control, text, &edit)
}

fn measure_on<R: Print + Clock + Alloc<A = Global>>(rt: &R, control: &mut Control<PlainBoard>, count: u32) -> io::Result<()>
    requires { count ≤ 60000 }
{
    println!(rt; "== {count} routes")?;
    for text in LINKS {
        line(rt, control, text)?;
    }
    load(rt, control, count)?;
    for text in CHANGES {
        line(rt, control, text)?;
    }
    Ok(())
}

fn measure<R: Print + Clock + Alloc<A = Global>>(rt: &R, count: u32) -> io::Result<()>
    requires { count ≤ 60000 }
{
    let mut control = fresh(rt.alloc())?;
    measure_on(rt, &mut control, count)
}

fn main(rt: HostRuntime) -> io::Result<()> {
    measure(&rt, 1_000)?;
    measure(&rt, 8_000)?;
    measure(&rt, 60_000)
}
MAIN
cat > "$work/crates/measure/proofs/fresh/Answers.antt" <<'ANSWERS'
use Rattle.std.proofs.Common.{◌≡◌, ◌∙◌, ap, arith, refl, sym, subst}
use Rattle.fib_core_board.specs.Boards.{Board, IsFresh}
use Rattle.fib_plane_view.specs.Promise.{Promise}
use Rattle.fib_plane.specs.Views.{promise_of}
use Rattle.measure.proofs.fresh.Goals as goal

pub new-requires-2 : goal.new-requires-2
new-requires-2 c = subst IsFresh (sym c.in_ok-board.ensures) (record { some = omega arith; few = omega arith; fresh = refl })

pub returns-in-Ok : goal.returns-in-Ok
returns-in-Ok c = ap (λ (p : Promise). p.alone) (c.in-Ok.ensures.rest ∙ ap promise_of c.in_ok-board.ensures)
ANSWERS
cat > "$work/crates/measure/proofs/routes/Invariants.antt" <<'INVARIANTS'
use Rattle.std.proofs.Common.{◌≡◌, length}
use Rattle.std.specs.List.{AllByRecursion}
use Rattle.fib_resolve.specs.Reachable.{IsWritten}
use Rattle.measure.proofs.routes.Given as goal

abbrev pub invariant-loop-number : goal.invariant-loop-number
invariant-loop-number l = record {
  written : AllByRecursion IsWritten l.edits.items;
  long : length l.edits.items ≡ l.number;
}
INVARIANTS
cd "$work/crates/measure"
rt run 2> "$work/log" || { tail -20 "$work/log"; exit 1; }
