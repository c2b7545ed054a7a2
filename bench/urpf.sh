#!/bin/sh
# Counts what reverse path checks cost of a route that comes and goes: `Urpf::follow` and the turns behind it, where 1,000 and 60,000 routes
# 100.x.y.0/24 stand by way of one next hop, which is recursive over two uplinks. Counted are instructions, by callgrind, so nothing else on
# the machine matters; what the entries' own following takes stands beside.
#
#     bench/urpf.sh             (in the repository, with the kit's rt and valgrind on the path; what it stands on is proved first, which takes
#                               long where the repository hasn't been proved yet)
#
# The program is made in a temporary folder, beside copies of the crates that it stands on and of the rig of their tests. It stands outside
# the gate; it is proved and built.
set -e
. "$(dirname "$0")/beside.sh"
beside fib_commands fib_entries fib_urpf
rig="$top/crates/test_urpf"
mkdir -p "$work/crates/measure/specs" "$work/crates/measure/proofs/rig/turns" "$work/crates/measure/proofs/rig/settle" "$work/crates/measure/proofs/load" "$work/crates/measure/proofs/flap" "$work/crates/measure/proofs/make_all"
sed 's/test_urpf/measure/g; s/8192/1073741824/g; s/10_000/1_000_000/; s/10,000/1,000,000/' "$rig/src/rig.rt" > "$work/crates/measure/src/rig.rt"
for part in specs/Rigs.antt specs/Lib.antt proofs/rig/turns/Invariants.antt proofs/rig/settle/Invariants.antt; do
    sed 's/test_urpf/measure/g' "$rig/$part" > "$work/crates/measure/$part"
done
for loop in load:number flap:time make_all:line; do
    name=${loop%:*}
    cat > "$work/crates/measure/proofs/$name/Invariants.antt" <<PROOF
use Rattle.measure.specs.Rigs.{IsKept}
use Rattle.measure.proofs.$name.Given as goal

abbrev pub invariant-loop-${loop#*:} : goal.invariant-loop-${loop#*:}
invariant-loop-${loop#*:} l = IsKept l.rig
PROOF
done
cat > "$work/crates/measure/src/main.rt" <<'MAIN'
//! A route that comes and goes beneath reverse path checks: `measure ROUTES TIMES`.
#![tactic(auto)]

ghost use Rattle.std.specs.Prelude.{OnOk};
ghost use Rattle.measure.specs.Rigs.{IsKept};

mod rig;

use crate::rig::{Rig, begin, make, settle, turns};
use fib_addr::read_number;
use std::alloc::{AllocError, Global};
use std::env;
use std::process::ExitCode;

const UPLINKS: [&str; 9] = [
    "create interface up0",
    "create interface up1",
    "set interface state up0 up",
    "set interface state up1 up",
    "set interface ip address up0 10.1.0.1/30",
    "set interface ip address up1 10.2.0.1/30",
    "set ip neighbor up0 10.1.0.2 02:00:00:00:00:01",
    "set ip neighbor up1 10.2.0.2 02:00:00:00:00:02",
    "ip route add 192.168.255.1/32 via 10.1.0.2 up0 via 10.2.0.2 up1",
];

fn make_all(alloc: Global, rig: &mut Rig) -> Result<(), AllocError>
    requires { IsKept rig.old }
    ensures { OnOk result (IsKept rig.new) }
{
    for line in UPLINKS {
        let _made = make(alloc, rig, line)?;
        turns(rig, 16)?;
    }
    Ok(())
}

fn load(alloc: Global, rig: &mut Rig, routes: u32) -> Result<(), AllocError>
    requires { IsKept rig.old }
    ensures { OnOk result (IsKept rig.new) }
{
    for number in 0..routes {
        let x = number / 256;
        let y = number % 256;
        let line = format!(in alloc; "ip route add 100.{x}.{y}.0/24 via 192.168.255.1")?;
        let _made = make(alloc, rig, &line)?;
        turns(rig, 4)?;
    }
    let _done = settle(rig)?;
    Ok(())
}

fn flap(alloc: Global, rig: &mut Rig, times: u32) -> Result<(), AllocError>
    requires { IsKept rig.old }
    ensures { OnOk result (IsKept rig.new) }
{
    for _time in 0..times {
        let _gone = make(alloc, rig, "ip route del 100.1.7.0/24")?;
        turns(rig, 4)?;
        let _come = make(alloc, rig, "ip route add 100.1.7.0/24 via 192.168.255.1")?;
        turns(rig, 4)?;
    }
    Ok(())
}

fn measure(alloc: Global, routes: u32, times: u32) -> Result<(), AllocError> {
    let mut rig = begin(alloc)?;
    make_all(alloc, &mut rig)?;
    load(alloc, &mut rig, routes)?;
    flap(alloc, &mut rig, times)
}

fn main(rt: HostRuntime) -> ExitCode {
    let Ok(all) = env::args(&rt) else {
        return ExitCode::from(1);
    };
    let mut numbers = [0; 2];
    for (place, word) in all.skip(1).enumerate() {
        if place < 2 {
            numbers[place] = read_number(&word, 1_000_000).unwrap_or(0);
        }
    }
    match measure(rt.alloc(), numbers[0], numbers[1]) {
        Ok(()) => ExitCode::from(0),
        Err(_) => ExitCode::from(6),
    }
}
MAIN
cd "$work/crates/measure"
rt run > "$work/log" 2>&1 || { tail -40 "$work/log"; exit 1; }
# The instructions of so many flaps, after as many and twice as many, in all and within the calls.
count() {
    valgrind --tool=callgrind --callgrind-out-file="$work/calls" out/measure "$1" "$2" 2> /dev/null
    callgrind_annotate --inclusive=yes --threshold=100 "$work/calls" > "$work/told"
    echo "$1 routes, $2 times:"
    grep -E "Urpf::follow|Urpf::turn|change_tables|PROGRAM TOTALS" "$work/told" | head -12
}
for routes in 1000 60000; do
    count "$routes" 1000
    count "$routes" 2000
done
