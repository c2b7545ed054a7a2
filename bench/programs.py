#!/usr/bin/env python3
"""Measures the built programs on a large capture: what frames and totals cost over forwarding alone.

    bench/programs.py [--packets N] [--workers N]       (in the repository, with the built programs in crates/*/out)

A command file of two uplinks and 200 routes behind them, and a capture of N UDP packets to these in turn, are made in a temporary
folder. Each program runs over them three times, its output thrown away; told are its least processor time, of all its threads, and its
greatest resident size, over that capture and over one without packets. fib_tool and fib_frames print a line a packet; fib_counter
does not.
"""
import argparse
import os
import pathlib
import struct
import subprocess
import tempfile

UPLINKS = """create interface up0
create interface up1
set interface state up0 up
set interface state up1 up
set interface ip address up0 10.1.0.1/30
set interface ip address up1 10.2.0.1/30
set ip neighbor up0 10.1.0.2 02:00:00:00:00:01
set ip neighbor up1 10.2.0.2 02:00:00:00:00:02
ip route add 192.168.255.1/32 via 10.1.0.2 up0 via 10.2.0.2 up1
"""
HEADER = struct.pack("<IHHiIII", 0xA1B2C3D4, 2, 4, 0, 0, 65535, 101)


def record(k):
    """A packet of 28 bytes to one of the 200 routes, with a time to live of 64."""
    header = struct.pack("!BBHHHBBH4s4s", 0x45, 0, 28, 0, 0, 64, 17, 0, bytes([198, 51, 100, 1]), bytes([100, 64, k % 200, 9]))
    return struct.pack("<IIII", 0, 0, 28, 28) + header + struct.pack("!HHHH", 4000 + k % 7, 53, 8, 0)


def made(folder, packets, forwards):
    commands, capture = folder / "commands", folder / "capture"
    routes = "".join(f"ip route add 100.64.{k}.0/24 via 192.168.255.1\n" for k in range(200))
    commands.write_text(UPLINKS + routes + (f"forward {packets}\n" if forwards else ""))
    with capture.open("wb") as out:
        out.write(HEADER)
        for first in range(0, packets, 1400):
            out.write(b"".join(record(k) for k in range(first, min(first + 1400, packets))))
    return [str(commands), str(capture)]


def run(words):
    """The processor time of a run in seconds, and its greatest resident size in MB."""
    with open(os.devnull, "wb") as sink:
        child = subprocess.Popen(words, stdout=sink, stderr=sink)
        _, status, usage = os.wait4(child.pid, 0)
    if status != 0:
        raise SystemExit(f"{words[0]}: status {status}")
    return usage.ru_utime + usage.ru_stime, usage.ru_maxrss / 1024


def main():
    parser = argparse.ArgumentParser()
    parser.add_argument("--packets", type=int, default=1_000_000)
    parser.add_argument("--workers", default="4")
    parser.add_argument("--out", default="crates/{}/out/{}", help="where the program of a name is")
    asked = parser.parse_args()
    with tempfile.TemporaryDirectory() as folder:
        for packets in (0, asked.packets):
            for name in ("fib_tool", "fib_frames", "fib_counter"):
                files = made(pathlib.Path(folder), packets, name != "fib_counter")
                words = [asked.out.replace("{}", name), "--workers", asked.workers, *files]
                times = [run(words) for _ in range(3)]
                print(f"{name}, {packets} packets: {min(t for t, _ in times):.2f} s, {max(m for _, m in times):.0f} MB", flush=True)


if __name__ == "__main__":
    main()
