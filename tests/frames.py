#!/usr/bin/env python3
"""Has tcpdump write the capture that fib_frames reads, and read the frames that it sends.

    tests/frames.py PROGRAM [--packets N]

PROGRAM is the built fib_frames; tcpdump is on the path. UDP packets are made for two neighbors on two interfaces, with header checksums
that are good but for every seventh, and times to live from 0 on; tcpdump copies them into a capture of its own. What must hold:

- tcpdump reads as many frames as there are packets with a hop left;
- each has its neighbor's address as its target and its interface's as its source, and a time to live one less than its packet's;
- tcpdump calls a frame's checksum bad exactly where its packet's was;
- the text ends with a line for each packet without a hop left, in their order.

Some checksums are 0xfeff to 0xffff, at which the updated one goes round.
"""
import argparse
import pathlib
import struct
import subprocess
import sys
import tempfile

COMMANDS = """create interface up0
create interface up1
set interface state up0 up
set interface state up1 up
set interface ip address up0 10.1.0.1/24
set interface ip address up1 10.2.0.1/24
set ip neighbor up0 10.1.0.2 02:00:00:00:00:01
set ip neighbor up1 10.2.0.2 02:00:00:00:00:02
ip route add 100.0.0.0/16 via 10.1.0.2 up0
ip route add 100.1.0.0/16 via 10.2.0.2 up1
forward 4294967295
"""


def header_sum(header):
    total = sum(struct.unpack("!10H", header))
    while total > 0xFFFF:
        total = (total & 0xFFFF) + (total >> 16)
    return total


def packet(number):
    """A UDP packet's bytes. Its identification makes the checksum go through all values near the end of 16 bits."""
    size = 28 + number % 5
    fields = [0x45, 0, size, number % 65536, 0, number % 67, 17, 0, 0xC6336401, 0x64000000 | (number % 2) << 16 | number % 251]
    header = struct.pack("!BBHHHBBHII", *fields)
    fields[7] = 0xFFFF - header_sum(header)
    if number % 7 == 6:
        fields[7] ^= 0x1234
    return struct.pack("!BBHHHBBHII", *fields) + struct.pack("!HHHH", 4000 + number % 1000, 9, size - 20, 0) + bytes(size - 28)


def ethernet_file(packets):
    frames = [b"\2\0\0\0\0\7\2\0\0\0\0\6\x08\0" + p for p in packets]
    records = [struct.pack("<IIII", 1, 2, len(f), len(f)) + f for f in frames]
    return struct.pack("<IHHIIII", 0xA1B2C3D4, 2, 4, 0, 0, 65535, 1) + b"".join(records)


def run(program, folder, packets):
    """The frames and the text of a run over a capture that tcpdump wrote."""
    files = [str(folder / name) for name in ("made.pcap", "capture.pcap", "commands")]
    pathlib.Path(files[0]).write_bytes(ethernet_file(packets))
    pathlib.Path(files[2]).write_text(COMMANDS)
    subprocess.run(["tcpdump", "-r", files[0], "-w", files[1]], check=True, capture_output=True)
    return subprocess.run([program, files[2], files[1]], check=True, capture_output=True)


def told(folder, frames):
    """What tcpdump says of each frame, on one line each."""
    path = folder / "frames.pcap"
    path.write_bytes(frames)
    said = subprocess.run(["tcpdump", "-e", "-v", "-n", "-t", "-r", str(path)], check=True, capture_output=True, text=True)
    return said.stdout.replace("\n    ", " ").splitlines()


def wanted(number, before):
    """What tcpdump must say of the frame of a packet."""
    to = f"02:fe:00:00:00:0{number % 2} > 02:00:00:00:00:0{number % 2 + 1}, ethertype IPv4"
    return [to, f"ttl {before[8] - 1},", f"id {number % 65536},"]


def main():
    parser = argparse.ArgumentParser()
    parser.add_argument("program")
    parser.add_argument("--packets", type=int, default=70000)
    asked = parser.parse_args()
    packets = [packet(n) for n in range(asked.packets)]
    with tempfile.TemporaryDirectory() as name:
        folder = pathlib.Path(name)
        ran = run(asked.program, folder, packets)
        lines = told(folder, ran.stdout)
    live = [n for n, p in enumerate(packets) if p[8] > 1]
    if len(lines) != len(live):
        print(f"{len(lines)} frames, and not {len(live)}")
        return 1
    for number, line in zip(live, lines):
        was_bad = header_sum(packets[number][:20]) != 0xFFFF
        if not all(part in line for part in wanted(number, packets[number])) or ("bad cksum" in line) != was_bad:
            print(f"packet {number}: {line}")
            return 1
    expired = "".join(f"ttl expired in packet {n}\n" for n, p in enumerate(packets) if p[8] <= 1)
    if not ran.stderr.decode().endswith(f"02:00:00:00:00:0{(asked.packets - 1) % 2 + 1}\n{expired}"):
        print("the text does not end with the lines on packets without a hop left")
        return 1
    near = sum(1 for n in live if int.from_bytes(packets[n][10:12], "big") >= 0xFEFF)
    print(f"{len(lines)} frames as they must be; {near} of them with checksums from 0xfeff on")
    return 0


if __name__ == "__main__":
    sys.exit(main())
