#!/usr/bin/env python3
"""Judges a program's output by a reference oracle on generated command files and captures.

    tests/compare.py PROGRAM ORACLE [--scripts N] [--lines N] [--packets N] [--first SEED]

PROGRAM is one of the built programs; its file's name says which. ORACLE is the reference oracle: a Python model of the programs that
shares nothing with this repository and is no part of it. It is a command line that knows

    gen SEED --profile P --lines N --packets N -o DIR   writes a command file and a capture
    expect COMMANDS CAPTURE                             ends with the status that is due
    check COMMANDS CAPTURE OUTPUT                       says whether a run of fib_tool may print OUTPUT (- for standard input)
    trace-check COMMANDS CAPTURE OUTPUT                 the same of fib_tracer
    frames COMMANDS CAPTURE TEXT                        the same of fib_frames, and writes the frames that belong to that text
    count COMMANDS CAPTURE                              writes what fib_counter prints
    rpf COMMANDS                                        writes what fib_checker prints

N command files of each of the five profiles are generated, so `--scripts 200` makes 1,000 of them; each is run with 1, 3 and 8
workers (fib_checker and fib_tracer take no number of them), and each output is judged. For fib_checker lines that check sources are put
between the lines of the command file, for fib_tracer in most files a line `trace`. The first output that isn't allowed is shown and ends
the run.
"""
import argparse
import pathlib
import random
import re
import subprocess
import sys
import tempfile

PROFILES = ["small", "recursive", "hostile", "batch", "need"]
WORKERS = [["--workers", n] for n in ("1", "3", "8")]


class Oracle:
    def __init__(self, path):
        self.path = path

    def answers(self, *words, text=b""):
        return subprocess.run([sys.executable, self.path, *words], input=text, capture_output=True)

    def fault(self, *words, text):
        """What a check of a text finds wrong with it, or None."""
        judged = self.answers(*words, "-", text=text)
        return None if judged.returncode == 0 else (judged.stdout + judged.stderr).decode(errors="replace")


def tool_fault(oracle, files, run):
    return oracle.fault("check", *files, text=run.stdout)


def tracer_fault(oracle, files, run):
    return oracle.fault("trace-check", *files, text=run.stdout)


def frames_fault(oracle, files, run):
    """The text is on standard error, and the frames are on standard output."""
    judged = oracle.answers("frames", *files, "-", text=run.stderr)
    if judged.returncode != 0:
        return (judged.stdout + judged.stderr).decode(errors="replace")
    return None if judged.stdout == run.stdout else "the frames are not those of the text"


def counter_fault(oracle, files, run):
    return None if oracle.answers("count", *files).stdout == run.stdout else "the totals differ"


def checker_fault(oracle, files, run):
    return None if oracle.answers("rpf", files[0]).stdout == run.stdout else "the verdicts differ"


FAULTS = {
    "fib_tool": tool_fault,
    "fib_tracer": tracer_fault,
    "fib_frames": frames_fault,
    "fib_counter": counter_fault,
    "fib_checker": checker_fault,
}


def with_checks(path, seed):
    """Puts up to two checks of sources after each line: addresses and interfaces of the file, and some that are none of it."""
    rnd = random.Random(seed)
    lines = path.read_bytes().split(b"\n")
    text = b"\n".join(lines)
    names = sorted(set(re.findall(rb"create interface (\S+)", text)))[:6] + [b"eth9", b"bad/name"]
    addresses = sorted(set(re.findall(rb"\d+\.\d+\.\d+\.\d+", text)))[:40] + [b"8.8.8.8", b"1.2.3"]
    out = []
    for line in lines:
        out.append(line)
        out += [b"check " + rnd.choice(addresses) + b" " + rnd.choice(names) for _ in range(rnd.randrange(3))]
    path.write_bytes(b"\n".join(out))


def with_trace(path, seed):
    """Puts a line `trace` somewhere between the lines, in three of four files."""
    rnd = random.Random(seed)
    lines = path.read_bytes().split(b"\n")
    if rnd.randrange(4):
        lines.insert(rnd.randrange(len(lines)), b"trace")
    path.write_bytes(b"\n".join(lines))


def generated(asked, oracle, seed, profile, folder):
    """The words for the program: the names of a command file and of a capture, where it takes one."""
    sizes = ["--lines", str(asked.lines), "--packets", str(asked.packets)]
    oracle.answers("gen", str(seed), "--profile", profile, *sizes, "-o", folder).check_returncode()
    commands, capture = (pathlib.Path(folder) / name for name in ("commands", "capture.pcap"))
    if asked.name == "fib_checker":
        with_checks(commands, f"{profile} {seed}")
        return [str(commands)]
    if asked.name == "fib_tracer":
        with_trace(commands, f"{profile} {seed}")
    return [str(commands), str(capture)]


def failure(asked, oracle, files):
    """Why one of the program's runs over these files is not allowed, or None."""
    options = [[]] if asked.name in ("fib_checker", "fib_tracer") else WORKERS
    runs = [subprocess.run([asked.program, *words, *files], capture_output=True) for words in options]
    status = runs[0].returncode
    if any(run.returncode != status for run in runs):
        return "the number of workers changes the status"
    if status != 0:
        wanted = oracle.answers("rpf" if asked.name == "fib_checker" else "expect", *files).returncode
        return None if wanted == status and not runs[0].stdout else f"status {status}, and not {wanted}"
    return next(filter(None, (FAULTS[asked.name](oracle, files, run) for run in runs)), None)


def asked_for():
    parser = argparse.ArgumentParser()
    parser.add_argument("program")
    parser.add_argument("oracle")
    parser.add_argument("--scripts", type=int, default=200)
    parser.add_argument("--lines", type=int, default=40)
    parser.add_argument("--packets", type=int, default=40)
    parser.add_argument("--first", type=int, default=1)
    asked = parser.parse_args()
    asked.name = pathlib.Path(asked.program).name
    if asked.name not in FAULTS:
        parser.error(f"the program is one of {', '.join(FAULTS)}")
    return asked


def main():
    asked = asked_for()
    oracle = Oracle(asked.oracle)
    for profile in PROFILES:
        for seed in range(asked.first, asked.first + asked.scripts):
            with tempfile.TemporaryDirectory() as folder:
                files = generated(asked, oracle, seed, profile, folder)
                why = failure(asked, oracle, files)
                if why:
                    print(f"{profile} {seed}: {why}")
                    sys.stdout.write(pathlib.Path(files[0]).read_text(errors="replace"))
                    return 1
        print(f"{profile}: {asked.scripts} allowed", flush=True)
    print(f"{len(PROFILES) * asked.scripts} command files of {asked.name}: all allowed")
    return 0


if __name__ == "__main__":
    sys.exit(main())
