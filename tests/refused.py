#!/usr/bin/env python3
"""Refuses each allocation of whole runs in turn, and judges what the program does then.

    tests/refused.py PROGRAM [--workers N] [--pairs N] [--on] [--commands FILE..]

PROGRAM is one of the built programs, by whose name the runs are chosen: fib_tool, fib_frames, fib_tracer, fib_checker or fib_counter; or
trial_refused, which makes each call that wants memory once more. A small C library is compiled with `cc` and loaded beside it, which
refuses the call of the given number among the program's calls of `malloc` and `realloc`, and every other one passes; with --pairs so many
times two calls of one run, and with --on that call and every later one. With --commands the runs are over these command files in place of
the program's own, with no capture. For fib_tool three runs are gone through, each with as many refusals as it makes calls: a few routes
(the first path), an interface with a neighbor and a capture of one packet, and 200 routes over two uplinks whose packets are forwarded in
three rounds, one of which takes an uplink down (the realistic script).

A run whose allocation is refused must end with status 6 and have written a first part of what the whole run writes, or have done without that
memory: status 0 and all of it. Where the words themselves can't be had the status is 1, and nothing is written. The first run that does anything
else is shown and ends the sweep.
"""
import argparse
import collections
import os
import pathlib
import random
import subprocess
import sys
import tempfile

LIBRARY = r"""
#define _GNU_SOURCE
#include <dlfcn.h>
#include <errno.h>
#include <fcntl.h>
#include <stdatomic.h>
#include <stdlib.h>
#include <sys/mman.h>

static void *(*plain_malloc)(size_t);
static void *(*plain_realloc)(void *, size_t);
static atomic_long early, *calls = &early;
static long refused, too, on;

__attribute__((constructor)) static void begin(void) {
    const char *name = getenv("COUNTED"), *number = getenv("REFUSED");
    int file = name ? open(name, O_RDWR) : -1;
    void *shared = file < 0 ? MAP_FAILED : mmap(NULL, sizeof(atomic_long), PROT_READ | PROT_WRITE, MAP_SHARED, file, 0);
    plain_malloc = dlsym(RTLD_NEXT, "malloc");
    plain_realloc = dlsym(RTLD_NEXT, "realloc");
    refused = number ? atol(number) : 0;
    too = getenv("REFUSED_TOO") ? atol(getenv("REFUSED_TOO")) : 0;
    on = getenv("REFUSED_ON") ? atol(getenv("REFUSED_ON")) : 0;
    if (shared != MAP_FAILED) calls = shared;
    atomic_store(calls, 0);
}

static int is_refused(void) {
    long call = atomic_fetch_add(calls, 1) + 1;
    return call == refused || call == too || (on && refused && call > refused);
}

void *malloc(size_t size) {
    if (!plain_malloc) plain_malloc = dlsym(RTLD_NEXT, "malloc");
    if (is_refused()) return errno = ENOMEM, NULL;
    return plain_malloc(size);
}

void *realloc(void *old, size_t size) {
    if (!plain_realloc) plain_realloc = dlsym(RTLD_NEXT, "realloc");
    if (is_refused()) return errno = ENOMEM, NULL;
    return plain_realloc(old, size);
}
"""

NEIGHBOR = ["create interface eth0", "set interface state eth0 up", "set interface ip address eth0 10.0.0.1/24"]
NEIGHBOR += ["set ip neighbor eth0 10.0.0.9 02:00:00:00:00:09"]
UPLINKS = ["create interface up0", "create interface up1", "set interface state up0 up", "set interface state up1 up"]
UPLINKS += ["set interface ip address up0 10.1.0.1/30", "set interface ip address up1 10.2.0.1/30"]
UPLINKS += ["set ip neighbor up0 10.1.0.2 02:00:00:00:00:01", "set ip neighbor up1 10.2.0.2 02:00:00:00:00:02"]
UPLINKS += ["ip route add 192.168.255.1/32 via 10.1.0.2 up0 via 10.2.0.2 up1"]
UPLINKS += [f"ip route add 100.64.{k}.0/24 via 192.168.255.1" for k in range(200)]


def capture(packets):
    """UDP packets, raw, packet K from port 4000 + K to 100.64.T.9 with T = K mod 200."""
    file = bytes.fromhex("d4c3b2a1020004000000000000000000ffff000065000000")
    for k in range(packets):
        source, target = bytes([198, 51, 100, 1]), bytes([100, 64, k % 200, 9])
        head = b"\x45\0\0\x1c\0\0\0\0\x40\x11\0\0" + source + target
        body = (4000 + k).to_bytes(2, "big") + (53).to_bytes(2, "big") + b"\0\x08\0\0"
        file += bytes(8) + 2 * (28).to_bytes(4, "little") + head + body
    return file


CHANGES = [line for line in UPLINKS if not line.startswith("forward")]
CHECKS = NEIGHBOR + ["ip route add 20.0.0.0/8 via 10.0.0.7", "check 20.1.1.1 eth0", "check 8.8.8.8 eth0", "set interface state eth0 down", "check 20.1.1.1 eth0"]

# Of each program its runs: lines, and how many packets the capture has, None where no capture is named.
RUNS = {
    "fib_tool": {
        "first path": (["ip route add 10.0.0.0/8 via local", "lookup 10.1.1.1 0", "lookup 11.0.0.0 0", "show adj"], None),
        "one neighbor": (NEIGHBOR + ["lookup 10.0.0.9 0", "show ip fib", "show fib path-lists", "show adj", "forward 1"], 1),
        "realistic": (UPLINKS + ["forward 64", "forward 64", "set interface state up0 down", "forward 64"], 192),
    },
    "fib_frames": {"two uplinks": (UPLINKS[:40] + ["forward 192"], 192)},
    "fib_tracer": {"two uplinks": (UPLINKS[:40] + ["trace"], 16)},
    "fib_checker": {"a link goes": (CHECKS, None)},
    "fib_counter": {"two uplinks": (CHANGES[:40], 192)},
    "trial_refused": {"a held pass, by calls": ([], None)},
}

# The programs that take a number of workers.
CREWED = ["fib_tool", "fib_frames", "fib_counter"]


def run(asked, library, files, refused, counted):
    """Runs with these refusals: the call's number, and that of a second one, 0 where there is none."""
    words = [asked.program] + (["--workers", str(asked.workers)] if asked.kind in CREWED else []) + (files if asked.kind != "trial_refused" else [])
    told = {"REFUSED": str(refused[0]), "REFUSED_TOO": str(refused[1]), "REFUSED_ON": str(int(asked.on))}
    kept = {**os.environ, "LD_PRELOAD": library, "COUNTED": str(counted), **told}
    counted.write_bytes(bytes(8))
    return subprocess.run(words, capture_output=True, env=kept)


def calls_in(counted):
    return int.from_bytes(counted.read_bytes(), sys.byteorder)


def judged(asked, ended, whole):
    """What the run did, or None where it did what it must not."""
    mine, all_of_it = (ended.stdout, ended.stderr), (whole.stdout, whole.stderr)
    if asked.kind != "fib_frames":
        mine, all_of_it = mine[:1], all_of_it[:1]
    if ended.returncode == 0:
        return "did without" if mine == all_of_it else None
    if ended.returncode == 1:
        return "status 1" if not any(mine) else None
    first = all(all_of_it[k].startswith(mine[k]) for k in range(len(mine)))
    return "status 6" if ended.returncode == 6 and first else None


def refusals(asked, calls):
    """The numbers of the calls that each run refuses."""
    if not asked.pairs:
        return [(number, 0) for number in range(1, calls + 1)]
    rng = random.Random(1)
    return [tuple(sorted(rng.sample(range(1, calls + 1), 2))) for _ in range(asked.pairs)]


def sweep(asked, library, folder, name, told):
    lines, packets = told
    commands, counted = folder / "commands", folder / "counted"
    commands.write_text("".join(line + "\n" for line in lines), "latin-1")
    files = [str(commands)]
    if packets:
        (folder / "capture").write_bytes(capture(packets))
        files.append(str(folder / "capture"))
    whole = run(asked, library, files, (0, 0), counted)
    if whole.returncode != 0:
        print(f"{name}: status {whole.returncode} where no allocation is refused")
        return False
    calls = calls_in(counted)
    found = collections.Counter()
    for numbers in refusals(asked, calls):
        ended = run(asked, library, files, numbers, counted)
        what = judged(asked, ended, whole) if calls_in(counted) >= numbers[0] else "not reached"
        if what is None:
            print(f"{name}: allocation {numbers} of {calls}: status {ended.returncode}, {len(ended.stdout)} of {len(whole.stdout)} bytes")
            return False
        found[what] += 1
    print(f"{name}: {calls} allocations: " + ", ".join(f"{what} {count}" for what, count in sorted(found.items())), flush=True)
    return True


def main():
    parser = argparse.ArgumentParser()
    parser.add_argument("program")
    parser.add_argument("--workers", type=int, default=1)
    parser.add_argument("--pairs", type=int, default=0)
    parser.add_argument("--on", action="store_true")
    parser.add_argument("--commands", nargs="+", default=[])
    asked = parser.parse_args()
    asked.kind = pathlib.Path(asked.program).name
    files = {name: (pathlib.Path(name).read_text("latin-1").split("\n"), None) for name in asked.commands}
    with tempfile.TemporaryDirectory() as place:
        folder = pathlib.Path(place)
        library = str(folder / "refused.so")
        (folder / "refused.c").write_text(LIBRARY)
        subprocess.run(["cc", "-O1", "-shared", "-fPIC", "-o", library, str(folder / "refused.c"), "-ldl"], check=True)
        return 0 if all(sweep(asked, library, folder, name, told) for name, told in (files or RUNS[asked.kind]).items()) else 1


if __name__ == "__main__":
    sys.exit(main())
