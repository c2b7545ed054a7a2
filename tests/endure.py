#!/usr/bin/env python3
"""Runs the program on hostile and generated files without end, and judges each run by a reference oracle.

    tests/endure.py PROGRAM ORACLE [--minutes M] [--first SEED] [--keep FOLDER]

PROGRAM is the built fib_tool. ORACLE is the reference oracle, as tests/compare.py tells of it. By turns a run is over

    a generated command file and capture of one of the five profiles,
    the same with some bytes of either file changed, taken out or put in,
    random bytes for both,

each with some number of workers from 1 to 8. A run that ends with status 0 must print what the oracle allows; any other must end with the
status that the oracle tells and print nothing. The first one that does anything else is shown, its files are kept, and the run ends with
status 1. Beforehand the greatest resident sizes are compared that 1,000 and 60,000 changes of one flapping route take, over command files of
the same size: they must be the same within a tenth.
"""
import argparse
import os
import pathlib
import random
import subprocess
import sys
import tempfile
import time

PROFILES = ["small", "recursive", "hostile", "batch", "need"]

LINK = ["create interface eth0", "set interface state eth0 up", "set interface ip address eth0 10.0.0.1/24"]

# Bytes that a mutation likes to put in.
SHARP = [b"\0", b"\n", b" ", b"\r", b"#", b"0", b"255", b"256", b"4294967295", b"4294967296", b"/32", b"via", b"\xff\xff\xff\xff", b"begin\n", b"commit\n"]


def generated(oracle, rng, seed, folder):
    subprocess.run(
        [sys.executable, oracle, "gen", str(seed), "--profile", rng.choice(PROFILES), "--lines", str(rng.randint(1, 60)), "--packets", str(rng.randint(0, 60)), "-o", folder],
        check=True,
        stdout=subprocess.DEVNULL,
    )
    return [pathlib.Path(folder) / name for name in ("commands", "capture.pcap")]


def mutated(data, rng):
    data = bytearray(data)
    for _ in range(rng.randint(1, 6)):
        at = rng.randint(0, len(data))
        kind = rng.randint(0, 3)
        if kind == 0 and data:
            data[at % len(data)] = rng.randint(0, 255)
        elif kind == 1:
            del data[at : at + rng.randint(1, 20)]
        elif kind == 2:
            data[at:at] = rng.choice(SHARP)
        else:
            end = min(len(data), at + rng.randint(1, 80))
            data[at:at] = data[at:end]
    return bytes(data)


def files_of(oracle, rng, seed, folder):
    files = generated(oracle, rng, seed, folder)
    kind = ("generated", "mutated", "random")[seed % 3]
    if kind == "mutated":
        for file in files:
            if rng.random() < 0.7:
                file.write_bytes(mutated(file.read_bytes(), rng))
    elif kind == "random":
        for file in files:
            file.write_bytes(rng.randbytes(rng.randint(0, 400)))
        if rng.random() < 0.5:
            files[1].write_bytes(bytes.fromhex("d4c3b2a1020004000000000000000000ffff000065000000") + rng.randbytes(rng.randint(0, 400)))
    return kind, files


def failure(asked, words, files):
    """Why the program's run over these files is not allowed, or None."""
    run = subprocess.run([asked.program, *words, *files], capture_output=True, timeout=120)
    if run.returncode != 0:
        wanted = subprocess.run([sys.executable, asked.oracle, "expect", *files], capture_output=True).returncode
        fits = wanted == run.returncode and not run.stdout
        return None if fits else f"status {run.returncode}, and not {wanted}"
    judged = subprocess.run([sys.executable, asked.oracle, "check", *files, "-"], input=run.stdout, capture_output=True)
    return None if judged.returncode == 0 else (judged.stdout + judged.stderr).decode(errors="replace")


def resident(program, lines):
    """The greatest resident size of a run over these lines, in KB."""
    with tempfile.NamedTemporaryFile(suffix=".fib") as file:
        file.write(("\n".join(lines) + "\n").encode())
        file.flush()
        child = subprocess.Popen([program, file.name], stdout=subprocess.DEVNULL)
        _, status, usage = os.wait4(child.pid, 0)
        if status:
            sys.exit(f"a flapping route: status {status}")
        return usage.ru_maxrss


def flapping(changes, lines):
    pair = ["ip route add 20.0.0.0/8 via 10.0.0.7", "ip route del 20.0.0.0/8 via 10.0.0.7"]
    flaps = [pair[k % 2] for k in range(changes)]
    return LINK + flaps + ["#" + "." * (len(pair[0]) - 1)] * (lines - changes)


def main():
    parser = argparse.ArgumentParser()
    parser.add_argument("program")
    parser.add_argument("oracle")
    parser.add_argument("--minutes", type=float, default=60)
    parser.add_argument("--first", type=int, default=1)
    parser.add_argument("--keep", default="endured")
    asked = parser.parse_args()
    few, many = (resident(asked.program, flapping(changes, 60_000)) for changes in (1_000, 60_000))
    print(f"a flapping route: {few} KB after 1,000 changes, {many} KB after 60,000", flush=True)
    if many > few * 1.1:
        return 1
    counts = {"generated": 0, "mutated": 0, "random": 0}
    seed, end = asked.first, time.monotonic() + 60 * asked.minutes
    while time.monotonic() < end:
        rng = random.Random(seed)
        with tempfile.TemporaryDirectory() as folder:
            kind, files = files_of(asked.oracle, rng, seed, folder)
            words = ["--workers", str(rng.randint(1, 8))]
            why = failure(asked, words, [str(file) for file in files])
            if why:
                keep = pathlib.Path(asked.keep)
                keep.mkdir(parents=True, exist_ok=True)
                for file in files:
                    (keep / f"{seed}-{file.name}").write_bytes(file.read_bytes())
                print(f"{kind} {seed} {' '.join(words)}: {why}\nits files are kept in {keep}")
                return 1
        counts[kind] += 1
        seed += 1
        if sum(counts.values()) % 1000 == 0:
            print(counts, flush=True)
    print(f"seeds {asked.first} to {seed - 1}: {counts}: all allowed")
    return 0


if __name__ == "__main__":
    sys.exit(main())
