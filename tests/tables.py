#!/usr/bin/env python3
"""Writes generated tables and rounds into the crate of worked files, and renews what that crate must print.

    tests/tables.py ORACLE [CRATE]

ORACLE is the reference oracle: a Python model of the program that shares nothing with this repository and is no part of it. It is a
command line that knows

    gen SEED --profile P --lines N [--packets N] -o DIR   writes a command file and a capture
    expect [--objects N] COMMANDS                         prints what the program must print
    soak SEED                                             prints the four lines of a long run

and its package `fibref` lies beside it. Each table is a generated command file without lines that forward packets, followed by
lookups at addresses of its own routes and next hops, and a listing of its entries. Each case of rounds is a generated command file
with its capture, run with 1 to 6 workers. A `forward 0` after each line that forwards has the lines that follow run in a round
without packets, so that what packets print is one text: the oracle's resolution over the tables at their round's opening. The long files (a chain, a ring, a line of many paths) are written here too. All other files of
the crate's data are kept, and their answers are made anew by the oracle.

A line of the crate's `args` is the words of one run, joined by colons. A run of the words `follow` and a file has entries follow the
file's edits, and prints nothing where they are what the plain programs say after each; every generated table and short worked file
is followed so, and further generated command files. A run of `drive` and a file drives a control over a plain board by the same
edits, the long files' too.
"""
import pathlib
import random
import re
import subprocess
import sys
import tempfile

PROFILES = {"recursive": 75, "need": 75, "small": 20, "hostile": 15, "batch": 15}
ROUNDS = {"recursive": 6, "need": 4, "small": 4, "hostile": 4, "batch": 6}
FOLLOWED = {"recursive": 40, "need": 40, "batch": 20}
PACKETS = 24
FIRST_SEED = 2001
FIRST_FOLLOWED = 4001
MOST_FOLLOWED = 100
LINES = 24
LOOKUPS = 12
LINK = ["create interface eth0", "set interface state eth0 up", "set interface ip address eth0 10.0.0.1/24"]


def chain(number):
    """The host of that number on a chain or a ring."""
    return f"20.0.{number // 250}.{number % 250 + 1}"


def chain_of(length):
    """Recursive routes each by way of the next; the last over the link."""
    routes = [f"ip route add {chain(k)}/32 via {chain(k + 1)}" for k in range(length - 1)]
    asked = [f"lookup {chain(k)} {k}" for k in (0, length // 2, length - 1)]
    return LINK + routes + [f"ip route add {chain(length - 1)}/32 via 10.0.0.7 eth0"] + asked


def ring_of(length):
    """Recursive routes each by way of the next, round in a ring, one of which has a way out too."""
    routes = [f"ip route add {chain(k)}/32 via {chain((k + 1) % length)}" for k in range(length)]
    asked = [f"lookup {chain(k)} 5" for k in (0, 1, length - 1)]
    return LINK + routes + [f"ip route add {chain(0)}/32 via 10.0.0.7 eth0"] + asked


def worked():
    """Long or odd files, by their names."""
    shares = "ip route add 20.0.0.0/8 via 10.0.0.7 eth0 via 10.0.0.8 eth0 via 10.0.0.9 eth0"
    many = "ip route add 20.0.0.0/8" + 10_000 * " via 10.0.0.7"
    return {
        "chain_of_a_thousand.fib": chain_of(1_000),
        "ring_of_five_hundred.fib": ring_of(500),
        "ten_thousand_times_one_path.fib": LINK + [many, "lookup 20.1.1.1 5", "show fib path-lists"],
        "three_shares_of_hops.fib": LINK + [shares] + [f"lookup 20.1.1.1 {h}" for h in (5, 6, 10, 11)],
        "byte_zero.fib": LINK + ["lookup 10.0.0.7 5", "lookup 10.0.0.7 5\0"],
    }


def run(oracle, *words):
    return subprocess.run([sys.executable, oracle, *map(str, words)], check=True, capture_output=True).stdout


def asks(text, seed):
    """Lookups near the addresses that the lines name, with hashes of their own."""
    draw = random.Random(seed)
    found = sorted(set(re.findall(r"\b\d{1,3}(?:\.\d{1,3}){3}\b", text)))
    named = [a for a in found if all(int(part) < 256 for part in a.split("."))]
    lines = []
    for _ in range(LOOKUPS if named else 0):
        parts = draw.choice(named).split(".")
        if draw.random() < 0.3:
            parts[3] = str(draw.randrange(256))
        lines.append(f"lookup {'.'.join(parts)} {draw.randrange(2 ** 32)}")
    return lines + ["show ip fib"]


def table(oracle, profile, seed):
    with tempfile.TemporaryDirectory() as folder:
        run(oracle, "gen", seed, "--profile", profile, "--lines", LINES, "-o", folder)
        text = (pathlib.Path(folder) / "commands").read_text(errors="surrogateescape")
    kept = [line for line in text.split("\n") if line and not line.lstrip(" \t").startswith("forward")]
    return "\n".join(kept + asks(text, seed)) + "\n"


def rounds_text(commands, capture):
    """What a run prints no packet of which meets a change, by the oracle's own resolution at each round's opening."""
    from fibref.capture import Flow, read_capture
    from fibref.fib import Fib
    from fibref.listings import Result, Version, cut_text, result_text
    from fibref.run import Runner, Settings

    packets, settings, lines = read_capture(capture), Settings(), []
    for opened in Runner(commands, packets, settings).rounds():
        lines += opened.control
        fib = Fib(opened.history[0], settings.profile.edges) if opened.packets else None
        version = Version(opened.opening, opened.opening)
        for number in opened.packets:
            packet = packets.packets[number]
            if isinstance(packet, Flow):
                end = fib.resolve(packet.addr, packet.flow_hash)
                result = Result(number, packet.addr, packet.flow_hash, version, version, end)
                lines.append(result_text(opened.history[-1], result))
            else:
                lines.append(f"packet {number} {packet}")
    if packets.cut_at is not None:
        lines.append(cut_text(packets.cut_at))
    return "".join(line + "\n" for line in lines).encode()


def followed(oracle, crate):
    """The files that entries follow alone; they are written."""
    names = []
    for profile, count in FOLLOWED.items():
        for seed in range(FIRST_FOLLOWED, FIRST_FOLLOWED + count):
            with tempfile.TemporaryDirectory() as folder:
                run(oracle, "gen", seed, "--profile", profile, "--lines", LINES, "-o", folder)
                text = (pathlib.Path(folder) / "commands").read_bytes()
            name = f"followed_{profile}_{seed}.fib"
            (crate / "data" / name).write_bytes(text)
            names.append(name)
    return names


def is_short(crate, words):
    """Whether the words name one file of few lines: entries are compared pair by pair after each of them."""
    return words.endswith(".fib") and ":" not in words and (crate / "data" / words).read_bytes().count(b"\n") < MOST_FOLLOWED


def apart(commands):
    """The same lines, but those after one that forwards come in a round of their own, without packets."""
    return re.sub(rb"(?m)^([ \t]*forward[ \t][^\n]*\n)", rb"\1forward 0\n", commands)


def is_read(capture):
    from fibref.capture import CaptureRefused, read_capture

    try:
        return bool(read_capture(capture).packets)
    except CaptureRefused:
        return False


def rounds(oracle, crate):
    """The words of generated runs over captures; their files are written."""
    words = []
    for profile, count in ROUNDS.items():
        seed = FIRST_SEED
        for case in range(count):
            while True:
                seed += 1
                with tempfile.TemporaryDirectory() as folder:
                    run(oracle, "gen", seed, "--profile", profile, "--lines", LINES, "--packets", PACKETS, "-o", folder)
                    commands, capture = ((pathlib.Path(folder) / name).read_bytes() for name in ("commands", "capture.pcap"))
                if is_read(capture) and b"forward" in commands:
                    break
            name = f"rounds_{profile}_{seed}"
            (crate / "data" / f"{name}.fib").write_bytes(apart(commands))
            (crate / "data" / f"{name}.pcap").write_bytes(capture)
            words.append(f"--workers={case % 8 + 1}:{name}.fib:{name}.pcap")
    return words


def expected(oracle, crate, words):
    if words.startswith(("follow:", "drive:")):
        return b""
    names = [word for word in words.split(":") if not word.startswith("--")]
    options = [word for word in words.split(":") if word.startswith("--objects")]
    if not names:
        return run(oracle, "soak", words.removeprefix("--soak="))
    files = [crate / "data" / name for name in names]
    if len(files) == 2:
        return rounds_text(files[0].read_bytes(), files[1].read_bytes())
    return run(oracle, "expect", *options, *files)


def main():
    oracle = sys.argv[1]
    sys.path.insert(0, str(pathlib.Path(oracle).resolve().parent))
    crate = pathlib.Path(sys.argv[2] if len(sys.argv) > 2 else "crates/test_cases")
    runs = [words for words in (crate / "args").read_text().split() if not re.match(r"table_|follow:|drive:|--workers=\d:rounds_", words)]
    for name, lines in worked().items():
        (crate / "data" / name).write_text("\n".join(lines) + "\n")
        runs += [] if name in runs else [name]
    for profile, count in PROFILES.items():
        for seed in range(FIRST_SEED, FIRST_SEED + count):
            name = f"table_{profile}_{seed}.fib"
            (crate / "data" / name).write_text(table(oracle, profile, seed), errors="surrogateescape")
            runs.append(name)
    files = [words for words in runs if is_short(crate, words)]
    runs += rounds(oracle, crate)
    files += followed(oracle, crate)
    runs += [f"follow:{name}" for name in files]
    runs += [f"drive:{name}" for name in [*files, *(name for name in worked() if name not in files)]]
    (crate / "args").write_text("\n".join(runs) + "\n")
    (crate / "stdout").write_bytes(b"".join(expected(oracle, crate, words) for words in runs))
    print(f"{len(runs)} runs")


if __name__ == "__main__":
    main()
