#!/usr/bin/env python3
"""Counts what a line costs a built fib_tool, its turns and scan with it, in instructions by callgrind.

    bench/lines.py PROGRAM [--routes N..] [--shapes SHAPE..]

A script of so many routes 100.x.y.0/24 in one batch, by way of 192.168.255.1, which is recursive over two uplinks, ends with lines of one
shape, 200 of them and 400: the difference is told for one line. A shape that refuses a line is told as such.
"""
import argparse
import concurrent.futures
import re
import subprocess
import tempfile

LINKS = []
for k, net in enumerate(["10.1.0", "10.2.0"]):
    LINKS += [f"create interface up{k}", f"set interface state up{k} up", f"set interface ip address up{k} {net}.1/24"]
    LINKS += [f"set ip neighbor up{k} {net}.2 02:00:00:00:00:0{k + 1}"]
LINKS += ["ip route add 192.168.255.1/32 via 10.1.0.2 via 10.2.0.2", "ip route add 192.168.255.2/32 via 10.1.0.2"]
LINKS += ["ip route add 98.0.0.0/24 via 192.168.255.2", "ip route add 98.0.1.0/24 via 192.168.255.2"]


def comes_and_goes(prefix, paths):
    return [f"ip route add {prefix} {paths}", f"ip route del {prefix}"]


AGAIN = "ip route add 100.0.9.0/24 via 192.168.255.1"
SHAPES = {
    "a route behind all others comes, and goes": comes_and_goes("101.0.0.0/24", "via 192.168.255.1"),
    "a route before all others comes, and goes": comes_and_goes("99.0.0.0/24", "via 192.168.255.1"),
    "a route comes again as it is": [AGAIN],
    "a route gets another next hop, two lines each time": [
        "ip route add 100.0.9.0/24 via 192.168.255.2",
        "ip route del 100.0.9.0/24 via 192.168.255.1",
        AGAIN,
        "ip route del 100.0.9.0/24 via 192.168.255.2",
    ],
    "two routes come in a batch, and go in one": ["begin"]
    + [f"ip route add 101.0.{k}.0/24 via 192.168.255.1" for k in (0, 1)]
    + ["commit", "begin", "ip route del 101.0.0.0/24", "ip route del 101.0.1.0/24", "commit"],
    "a route by way of two new next hops comes, and goes": comes_and_goes("101.0.0.0/24", "via 192.168.7.1 via 192.168.7.2"),
    "the next hop of all routes loses a path, and gets it again": [
        "ip route del 192.168.255.1/32 via 10.2.0.2",
        "ip route add 192.168.255.1/32 via 10.2.0.2",
    ],
    "a host's route comes, and goes": comes_and_goes("192.168.9.1/32", "via 10.1.0.2"),
    "a host's route under a next hop in use comes, and goes": comes_and_goes("10.1.0.2/32", "via 192.168.255.2"),
    "a loop is made, and broken": ["ip route add 192.168.255.2/32 via 98.0.0.1", "ip route del 192.168.255.2/32 via 98.0.0.1"],
    "a default route comes, and goes": comes_and_goes("0.0.0.0/0", "via 192.168.255.1"),
    "a /16 comes over two next hops, and goes": comes_and_goes("192.168.0.0/16", "via 10.1.0.2"),
    "a neighbor's new address": [f"set ip neighbor up0 10.1.0.2 02:00:00:00:01:0{k}" for k in (1, 2)],
    "a neighbor that nobody has comes, and goes": ["set ip neighbor up0 10.1.0.77 02:00:00:00:00:77", "set ip neighbor del up0 10.1.0.77"],
    "an address comes, and goes": ["set interface ip address up0 10.9.0.1/24", "set interface ip address del up0 10.9.0.1/24"],
    "an uplink goes down, and up": ["set interface state up0 down", "set interface state up0 up"],
}


def script(routes, shape, lines):
    text = LINKS + ["begin"] + [f"ip route add 100.{k // 256}.{k % 256}.0/24 via 192.168.255.1" for k in range(routes)] + ["commit"]
    return "".join(line + "\n" for line in text + (SHAPES[shape] * lines)[:lines])


def counted(program, text):
    """The instructions of a run, and whether it refused a line."""
    with tempfile.NamedTemporaryFile("w", suffix=".fib") as file:
        file.write(text)
        file.flush()
        words = ["valgrind", "--tool=callgrind", "--callgrind-out-file=/dev/null", program, "--objects", "131072", file.name]
        run = subprocess.run(words, capture_output=True, text=True)
    return int(re.search(r"Collected : (\d+)", run.stderr)[1]), ": " in run.stdout


def cost(program, routes, shape):
    (fewer, _), (more, is_refused) = (counted(program, script(routes, shape, lines)) for lines in (200, 400))
    return "refused" if is_refused else f"{(more - fewer) // 200:,}"


def main():
    parser = argparse.ArgumentParser()
    parser.add_argument("program")
    parser.add_argument("--routes", type=int, nargs="+", default=[1_000, 60_000])
    parser.add_argument("--shapes", nargs="+", default=list(SHAPES))
    parser.add_argument("--jobs", type=int, default=2)
    asked = parser.parse_args()
    with concurrent.futures.ThreadPoolExecutor(asked.jobs) as pool:
        runs = {shape: [pool.submit(cost, asked.program, routes, shape) for routes in asked.routes] for shape in asked.shapes}
        for shape, costs in runs.items():
            print("| " + " | ".join([shape] + [it.result() for it in costs]) + " |", flush=True)


if __name__ == "__main__":
    main()
