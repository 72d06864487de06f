#!/usr/bin/env python3
"""Times the reader of captures beside tcpdump, on a capture of 200,000 frames of 54 to 1,518 octets.

Both read the capture in turn. The frames per second are of the least times.

usage: captures.py PROGRAM [ROUNDS]
"""
import os
import random
import shutil
import struct
import subprocess
import sys
import tempfile
import time

sys.dont_write_bytecode = True
sys.path.append(os.path.join(os.path.dirname(os.path.realpath(__file__)), "..", "tools"))

from tool_parts import options

FRAMES = 200_000
HEADER = bytes.fromhex("d4c3b2a1020004000000000000000000ffff000001000000")


def frame(size):
    """A plain IPv6 packet (next header 59) from a host to another one, padded to the size."""
    ethernet = bytes.fromhex("02000000002202000000001186dd")
    ip = bytes.fromhex("60000000") + struct.pack(">HBB", size - 54, 59, 64)
    addresses = bytes.fromhex("fe80" + 26 * "0" + "11" + "fe80" + 26 * "0" + "22")
    return ethernet + ip + addresses + bytes(size - 54)


def make_capture(path):
    """Writes the capture, the same one in each run, with every length about equally often."""
    lengths = random.Random(1)
    with open(path, "wb") as out:
        out.write(HEADER)
        for k in range(FRAMES):
            size = lengths.randint(54, 1518)
            out.write(struct.pack("<IIII", k // 1000, 1000 * (k % 1000), size, size))
            out.write(frame(size))


def seconds(command):
    """How long a run of the command takes, and what it prints on standard output."""
    began = time.monotonic()
    done = subprocess.run(command, stdout=subprocess.PIPE, stderr=subprocess.DEVNULL, check=True)
    return time.monotonic() - began, done.stdout.decode().strip()


def main(program, rounds):
    if shutil.which("tcpdump") is None:
        print("captures: tcpdump is missing, so there is nothing to measure against")
        return
    with tempfile.TemporaryDirectory() as work:
        path = os.path.join(work, "in.pcap")
        make_capture(path)
        commands = {
            "pcap_io": [program, path],
            "tcpdump": ["tcpdump", "-r", path, "-w", "/dev/null"],
        }
        least = {name: float("inf") for name in commands}
        for _ in range(rounds):
            for name, command in commands.items():
                took, text = seconds(command)
                least[name] = min(least[name], took)
                if name == "pcap_io" and text != f"{FRAMES} records":
                    sys.exit(f"captures: {program} found {text}")
    for name in commands:
        rate = FRAMES / least[name]
        print(f"captures: {name}: {rate:,.0f} frames a second, {least[name]:.3f} s at least of {rounds} runs")
    print(f"captures: ratio of times: {least['pcap_io'] / least['tcpdump']:.2f}")


if __name__ == "__main__":
    main(*options.of_measurement(__doc__, 7))
