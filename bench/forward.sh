#!/bin/sh
# Measures Worker::forward over live cells with 60,000 routes, by 1, 2 and 4 workers in threads, beside a walk in C over
# cells of the same shape.
#
#     bench/forward.sh          (in the repository, with the kit's rt and a C compiler on the path; what it stands on is
#                               proved first, which takes long where the repository hasn't been proved yet)
#
# The program is made in a temporary folder, beside copies of the crates that it stands on. It stands outside the gate;
# it is proved and built. A batch of 60,000 routes 100.x.y.0/24, each by one of 64 neighbors, is applied and settled,
# and then each worker forwards packets to random addresses within them: six plies, a balance and an adjacency, ten
# loads of cells. The walk in C makes the same ten loads by the same numbers, in cells that it lays out itself as the
# control plane does, prefix by prefix. It stores no pass word and loads no version, which a pass must do: twice more it
# runs as a pass does, with those words side by side, and each in a cache line of its own, as the table has them. Times
# are by the clock, and the walks come after the program: beside other work they can't be compared. With INSTRUCTIONS=1
# (and valgrind) both are run once more with fewer packets, and the instructions a packet are counted.
set -e
. "$(dirname "$0")/beside.sh"
beside trial_live
mkdir -p "$work/crates/measure/specs" "$work/crates/measure/proofs/edits"
cat > "$work/crates/measure/src/main.rt" <<'MAIN'
//! Times of whole passes.
#![tactic(auto)]

ghost use Rattle.std.specs.Prelude.{IfSome, length, ◌<◌, ◌^◌, ◌≡◌};
ghost use Rattle.std.specs.List.{AllByRecursion};
ghost use Rattle.fib_resolve.specs.Reachable.{IsWritten};
ghost use Rattle.fib_core_board.specs.Crews.{MaySend, board_sent};
ghost use Rattle.trial_live.specs.Crewed.{IsManned, SameCrew};

use fib_addr::Addr;
use fib_cells::{Cells, LiveBoard};
use fib_control::Control;
use fib_core::Record;
use trial_live::alone::fresh;
use trial_live::live::{change_all, edit_of, pass, settle_home};
use fib_resolve::{Edit, End};
use fib_worker::Worker;
use std::alloc::Global;
use std::io;
use std::io::Print;
use std::thread::{Threads, for_each_mut};
use std::time::{Clock, Instant};

const ROUTES: u32 = 60_000;

const NEIGHBORS: u32 = 64;

const PACKETS: u32 = 4_000_000;

/// A worker, the number from which it draws its packets, and how many of them left by an adjacency.
#[derive(Drop)]
struct Job<'a> {
    worker: Option<Worker<'a>>,
    state: u64,
    left: u64,
}

/// The next number without a pattern, the same in each run and in C.
fn drawn(state: u64) -> u64 {
    state
        .wrapping_mul(6364136223846793005)
        .wrapping_add(1442695040888963407)
}

/// An address within one of the routes.
fn addr_of(state: u64) -> Addr {
    let route = ((state >> 33) % 60_000) as u32;
    let host = ((state >> 20) % 256) as u32;
    Addr(0x6400_0000 + route * 256 + host)
}

/// A packet's flow hash.
fn hash_of(state: u64) -> u32 {
    (state % 0x1_0000_0000) as u32
}

/// One where the packet left by an adjacency.
fn left_by(answer: &Record) -> u64 {
    match answer.end {
        End::Hop { mac: Some(_), .. } => 1,
        _ => 0,
    }
}

/// Forwards all packets from that state on, and answers the worker and how many left by an adjacency.
fn forward_from<'a>(mut worker: Worker<'a>, mut state: u64) -> Option<(Worker<'a>, u64)> {
    let mut left: u64 = 0;
    for _packet in 0..PACKETS {
        state = drawn(state);
        let (after, answer) = pass(worker, addr_of(state), hash_of(state))?;
        worker = after;
        left = left.wrapping_add(left_by(&answer));
    }
    Some((worker, left))
}

/// Forwards all packets of a job.
fn forward_all(job: &mut Job<'_>) {
    if let Some(worker) = job.worker.take() {
        if let Some((worker, left)) = forward_from(worker, job.state) {
            job.worker = Some(worker);
            job.left = job.left.wrapping_add(left);
        }
    }
}

/// The first so many jobs, each in a thread of its own.
fn run_all<R: Threads + Sync>(rt: &R, jobs: &mut [Job<'_>], count: usize) {
    for_each_mut(
        rt,
        jobs,
        8,
        &|place: usize, job: &mut Job| -> () {
            if place < count {
                forward_all(job)
            }
        },
    );
}

/// The interface.
const LINK: [&str; 3] = [
    "create interface eth0",
    "set interface state eth0 up",
    "set interface ip address eth0 192.168.0.1/16",
];

fn neighbor(alloc: Global, number: u32) -> Option<Edit>
    ensures { IfSome result IsWritten }
{
    let mac = 10 + number % 64;
    let line = format!(in alloc;
        "set ip neighbor eth0 192.168.1.{number} 02:00:00:00:01:{mac}"
    ).ok()?;
    edit_of(alloc, line.as_str())
}

fn route(alloc: Global, number: u32) -> Option<Edit>
    ensures { IfSome result IsWritten }
{
    let x = number / 256;
    let y = number % 256;
    let n = number % NEIGHBORS;
    let line = format!(in alloc; "ip route add 100.{x}.{y}.0/24 via 192.168.1.{n} eth0").ok()?;
    edit_of(alloc, line.as_str())
}

/// The edit of that number: first the interface's, then the neighbors', and then the routes'.
fn edit(alloc: Global, number: u32) -> Option<Edit>
    ensures { IfSome result IsWritten }
{
    if number < 3 {
        edit_of(alloc, LINK[number as usize])
    } else if number < 3 + NEIGHBORS {
        neighbor(alloc, number - 3)
    } else {
        route(alloc, number - 3 - NEIGHBORS)
    }
}

/// All edits.
fn edits(alloc: Global) -> Option<Vec<Edit>>
    ensures written { IfSome result (λ v. AllByRecursion IsWritten v.items) }
    ensures few { IfSome result (λ v. length v.items < 2 ^ 32) }
{
    let mut all = Vec::new(alloc);
    for number in 0..3 + NEIGHBORS + ROUTES {
        let next = edit(alloc, number)?;
        all.push(next).ok()?;
    }
    Some(all)
}

/// Makes all edits as one change, and settles it. Whether that went well.
fn load(alloc: Global, control: &mut Control<LiveBoard<'_>>) -> bool
    requires { IsManned 4 control.old.plane.board }
    ensures { SameCrew control.old.plane.board control.new.plane.board }
{
    let Some(all) = edits(alloc) else {
        return false;
    };
    if change_all(control, all.as_slice()).is_none() {
        return false;
    }
    settle_home(control).is_some()
}

fn sent<'a>(control: &mut Control<LiveBoard<'a>>, number: u32) -> Job<'a>
    requires { MaySend control.old.plane.board number }
    ensures { control.new.plane.board ≡ board_sent control.old.plane.board number }
{
    Job {
        worker: Some(Worker::new(control.worker(number))),
        state: u64::from(number),
        left: 0,
    }
}

/// One for each worker.
fn jobs_of<'a>(control: &mut Control<LiveBoard<'a>>) -> [Job<'a>; 4]
    requires { IsManned 4 control.old.plane.board }
{
    let one = sent(control, 0);
    let two = sent(control, 1);
    let three = sent(control, 2);
    let four = sent(control, 3);
    [one, two, three, four]
}

/// How many packets left by an adjacency.
fn all_left(jobs: &[Job<'_>]) -> u64 {
    let mut left: u64 = 0;
    for job in jobs {
        left = left.wrapping_add(job.left);
    }
    left
}

/// Prints the picoseconds a packet, and how many packets left by an adjacency until then.
fn measure<R: Threads + Sync + Print + Clock>(
    rt: &R,
    jobs: &mut [Job<'_>],
    count: usize,
) -> io::Result<()> {
    let start = Instant::now(rt)?;
    run_all(rt, jobs, count);
    let picos = start.elapsed(rt)?.as_nanos() / 4000;
    println!(rt; "{count} {picos} {}", all_left(jobs))
}

/// With one worker, two and four.
fn measure_all<R: Threads + Sync + Print + Clock>(rt: &R, jobs: &mut [Job<'_>]) -> io::Result<()> {
    measure(rt, jobs, 1)?;
    measure(rt, jobs, 2)?;
    measure(rt, jobs, 4)
}

fn run<R: Threads + Sync + Print + Clock>(
    rt: &R,
    alloc: Global,
    control: &mut Control<LiveBoard<'_>>,
) -> io::Result<()>
    requires { IsManned 4 control.old.plane.board }
{
    if !load(alloc, control) {
        return println!(rt; "the routes weren't loaded");
    }
    let mut jobs = jobs_of(control);
    measure_all(rt, &mut jobs)
}

fn main(rt: HostRuntime) -> io::Result<()> {
    let (cells, seat) = Cells::new(rt.alloc(), 131_072, 4)?;
    let Some(mut control) = fresh(rt.alloc(), &cells, seat) else {
        return println!(rt; "no memory");
    };
    run(&rt, rt.alloc(), &mut control)
}
MAIN
cat > "$work/crates/measure/proofs/edits/Invariants.antt" <<'INVARIANTS'
use Rattle.std.proofs.Common.{◌≡◌, length}
use Rattle.std.specs.List.{AllByRecursion}
use Rattle.fib_resolve.specs.Reachable.{IsWritten}
use Rattle.measure.proofs.edits.Given as goal

abbrev pub invariant-loop-number : goal.invariant-loop-number
invariant-loop-number l = record {
  written : AllByRecursion IsWritten l.all.items;
  long : length l.all.items ≡ l.number;
}
INVARIANTS
cat > "$work/walk.c" <<'WALK'
#include <pthread.h>
#include <stdatomic.h>
#include <stdint.h>
#include <stdio.h>
#include <stdlib.h>
#include <time.h>

enum { ROUTES = 60000, NEIGHBORS = 64, PACKETS = 4000000, OBJECTS = 131072 };
enum { DROP, RECEIVE, GLEAN, TO_PLY, TO_BALANCE, TO_ADJACENCY, PLAIN };

static _Atomic uint64_t *cells;
static uint32_t next_object = 1;

static uint64_t word(uint64_t tag, uint64_t value) { return tag << 56 | value; }

static void fill(uint32_t object, uint64_t w) {
    for (int s = 0; s < 16; s++) cells[16 * object + s] = w;
}

/* The ply below this cell; one is made where there is none. */
static uint32_t ply_below(uint32_t ply, uint32_t slot) {
    uint64_t w = cells[16 * ply + slot];
    if (w >> 56 == TO_PLY) return (uint32_t)w;
    uint32_t object = next_object++;
    fill(object, w);
    cells[16 * ply + slot] = word(TO_PLY, object);
    return object;
}

static void add(uint32_t route, uint32_t adjacency) {
    uint32_t addr = 0x64000000u + route * 256, ply = 0, balance = next_object++;
    fill(balance, word(TO_ADJACENCY, adjacency));
    for (int depth = 0; depth < 5; depth++) ply = ply_below(ply, addr >> (28 - 4 * depth) & 15);
    cells[16 * ply + (addr >> 8 & 15)] = word(TO_BALANCE, balance);
}

static void lay_out(void) {
    uint32_t adjacencies[NEIGHBORS], dropping = next_object++;
    cells = calloc(16 * OBJECTS, sizeof *cells);
    if (!cells) exit(1);
    fill(0, word(TO_BALANCE, dropping));
    for (int n = 0; n < NEIGHBORS; n++) {
        uint32_t object = adjacencies[n] = next_object++;
        cells[16 * object] = word(PLAIN, 0);
        cells[16 * object + 1] = word(PLAIN, 0xC0A80100u + n);
        cells[16 * object + 2] = word(PLAIN, 1 + 0x020000000100ull + n);
    }
    for (uint32_t route = 0; route < ROUTES; route++) add(route, adjacencies[route % NEIGHBORS]);
}

struct end { int tag; uint32_t interface, hop; uint64_t mac; };

static struct end walk(uint32_t addr, uint32_t hash) {
    struct end end = { DROP, 0, 0, 0 };
    uint32_t at = 0;
    int depth = 0;
    for (;;) {
        uint64_t w = atomic_load(&cells[16 * at + (addr >> (28 - 4 * depth) & 15)]);
        at = (uint32_t)w;
        if (w >> 56 == TO_PLY && depth < 7) { depth++; continue; }
        if (w >> 56 != TO_BALANCE) return end;
        break;
    }
    for (;;) {
        uint64_t w = atomic_load(&cells[16 * at + (hash & 15)]);
        at = (uint32_t)w;
        if (w >> 56 == TO_BALANCE) { hash >>= 1; continue; }
        if (w >> 56 == TO_ADJACENCY) break;
        end.tag = (int)(w >> 56);
        end.interface = at;
        return end;
    }
    end.tag = TO_ADJACENCY;
    end.interface = (uint32_t)atomic_load(&cells[16 * at]);
    end.hop = (uint32_t)atomic_load(&cells[16 * at + 1]);
    end.mac = atomic_load(&cells[16 * at + 2]) & 0xFFFFFFFFFFFFFFull;
    return end;
}

/* The version, and then a pass word a worker: side by side, or each in a cache line of its own. */
static _Atomic uint64_t words[64] __attribute__((aligned(64)));

/* How far apart they are; 0 where a walk stores none and loads no version. */
static int apart;

struct job { uint64_t state, left; int number; };

static struct end pass(struct job *job, uint32_t addr, uint32_t hash, uint64_t number) {
    _Atomic uint64_t *mine = &words[apart * (job->number + 1)];
    if (!apart) return walk(addr, hash);
    atomic_store(mine, 2 * number + 1);
    uint64_t lo = atomic_load(&words[0]);
    struct end end = walk(addr, hash);
    uint64_t hi = atomic_load(&words[0]);
    atomic_store(mine, 2 * number + 2);
    if (hi < lo) exit(1);
    return end;
}

static void *forward_all(void *given) {
    struct job *job = given;
    uint64_t state = job->state, left = 0;
    for (int packet = 0; packet < PACKETS; packet++) {
        state = state * 6364136223846793005ull + 1442695040888963407ull;
        uint32_t route = (uint32_t)(state >> 33) % ROUTES, host = (uint32_t)(state >> 20) % 256;
        struct end end = pass(job, 0x64000000u + route * 256 + host, (uint32_t)state, (uint64_t)packet);
        left += end.tag == TO_ADJACENCY && end.mac != 0;
    }
    job->left += left;
    return 0;
}

static double now(void) {
    struct timespec t;
    clock_gettime(CLOCK_MONOTONIC, &t);
    return t.tv_sec * 1e9 + t.tv_nsec;
}

int main(int count, char **arguments) {
    struct job jobs[4] = { { 0, 0, 0 }, { 1, 0, 1 }, { 2, 0, 2 }, { 3, 0, 3 } };
    apart = count > 1 ? atoi(arguments[1]) : 0;
    lay_out();
    for (int workers = 1; workers <= 4; workers *= 2) {
        pthread_t threads[4];
        double start = now();
        for (int n = 0; n < workers; n++) pthread_create(&threads[n], 0, forward_all, &jobs[n]);
        for (int n = 0; n < workers; n++) pthread_join(threads[n], 0);
        uint64_t left = 0;
        double picos = (now() - start) / (PACKETS / 1000);
        for (int n = 0; n < workers; n++) left += jobs[n].left;
        printf("%d %.0f %llu\n", workers, picos, (unsigned long long)left);
    }
    return 0;
}
WALK
${CC:-cc} -O3 -pthread -o "$work/walk" "$work/walk.c"
cd "$work/crates/measure"
rt run > "$work/forward.txt" 2> "$work/log" || { tail -20 "$work/log"; exit 1; }
"$work/walk" > "$work/walk.txt"
"$work/walk" 1 > "$work/side.txt"
"$work/walk" 8 > "$work/apart.txt"
mhz=$(awk -F: '/^cpu MHz/ { print $2; exit }' /proc/cpuinfo)
paste -d ' ' "$work/forward.txt" "$work/walk.txt" "$work/side.txt" "$work/apart.txt" | awk -v mhz="$mhz" '
    $3 != $6 || $3 != $9 || $3 != $12 { print "the answers differ"; exit 1 }
    { printf "%d workers: %.1f ns a packet, %.0f cycles at %.0f MHz; the walk in C %.1f ns; %.2f times that\n",
        $1, $2 / 1000, $2 * mhz / 1000000, mhz, $5 / 1000, $2 / $5
      printf "   in C with a pass word and the version, in one cache line %.1f ns, each in one of its own %.1f ns; %.2f times that\n",
        $8 / 1000, $11 / 1000, $2 / $11
      if ($1 == 1) { alone = $2; walked = $11 }
      printf "   of one worker\047s packets a second each makes %.2f, in C %.2f\n", alone / $2, walked / $11 }
'
[ -n "$INSTRUCTIONS" ] || exit 0
# Instructions a packet: what 140,000 packets more cost.
counted() { valgrind --tool=callgrind --callgrind-out-file=/dev/null "$@" 2>&1 | sed -n 's/.*Collected : //p'; }
sed -i 's/PACKETS: u32 = 4_000_000/PACKETS: u32 = 20_000/' src/main.rt
rt run > /dev/null 2> "$work/log"
few=$(counted out/measure)
sed -i 's/PACKETS: u32 = 20_000/PACKETS: u32 = 40_000/' src/main.rt
rt run > /dev/null 2> "$work/log"
echo "forward: $((($(counted out/measure) - few) / 140000)) instructions a packet"
for packets in 20000 40000; do
    sed "s/PACKETS = 4000000/PACKETS = $packets/" "$work/walk.c" > "$work/few.c"
    ${CC:-cc} -O3 -pthread -o "$work/walk$packets" "$work/few.c"
done
few=$(counted "$work/walk20000" 8)
echo "the walk in C as a pass: $((($(counted "$work/walk40000" 8) - few) / 140000)) instructions a packet"
