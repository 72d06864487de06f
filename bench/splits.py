#!/usr/bin/env python3
"""Times `split` beside `editcap -F pcap`, on captures of a million frames at one interface: of 54 to 1,518 octets, and of 70.

Both read the capture in turn, and the octets of what they leave are compared. The times are the least processor times, which
other programs on the machine stretch less than the clock's, and the least times of the clock.

usage: splits.py PROGRAM [ROUNDS]
"""
import os
import random
import resource
import shutil
import struct
import subprocess
import sys
import tempfile
import time

sys.dont_write_bytecode = True
sys.path.append(os.path.join(os.path.dirname(os.path.realpath(__file__)), "..", "tools"))

from captures import frame
from tool_parts import options

FRAMES = 1_000_000


def block(kind, body):
    total = struct.pack("<I", 12 + len(body))
    return struct.pack("<I", kind) + total + body + total


def make_capture(path, least, most, count=FRAMES):
    """Writes the capture, the same one in each run, with every length about equally often, and stamps in microseconds."""
    lengths = random.Random(1)
    frames = {size: frame(size) + bytes(-size % 4) for size in range(least, most + 1)}
    with open(path, "wb") as out:
        out.write(block(0x0A0D0D0A, struct.pack("<IHHq", 0x1A2B3C4D, 1, 0, -1)))
        out.write(block(1, struct.pack("<HHI", 1, 0, 262144)))
        for k in range(count):
            size = lengths.randint(least, most)
            stamp = 1000 * k
            out.write(block(6, struct.pack("<5I", 0, stamp >> 32, stamp & 0xFFFFFFFF, size, size) + frames[size]))


def seconds(command, folder):
    """The processor time that a run of the command takes, and its time by the clock."""
    before, began = resource.getrusage(resource.RUSAGE_CHILDREN), time.monotonic()
    subprocess.run(command, cwd=folder, stdout=subprocess.DEVNULL, check=True)
    took, after = time.monotonic() - began, resource.getrusage(resource.RUSAGE_CHILDREN)
    return after.ru_utime - before.ru_utime + after.ru_stime - before.ru_stime, took


def measure(program, rounds, least, most):
    with tempfile.TemporaryDirectory() as folder:
        make_capture(os.path.join(folder, "in.pcapng"), least, most)
        commands = {"split": [program, "split", "in.pcapng"], "editcap": ["editcap", "-F", "pcap", "in.pcapng", "out.pcap"]}
        best = {name: (float("inf"), float("inf")) for name in commands}
        for _ in range(rounds):
            for name, command in commands.items():
                best[name] = tuple(map(min, best[name], seconds(command, folder)))
        if subprocess.run(["cmp", "-i", "24", "in.pcapng.0.pcap", "out.pcap"], cwd=folder).returncode:
            sys.exit("splits: split and editcap leave other frames")
    for name, (processor, clock) in best.items():
        print(f"splits: {least} to {most} octets: {name}: {processor / FRAMES * 1e9:,.0f} ns of processor time a frame, "
              f"{clock / FRAMES * 1e9:,.0f} ns, at least of {rounds} runs")
    ratios = [ours / theirs for ours, theirs in zip(best["split"], best["editcap"])]
    print(f"splits: {least} to {most} octets: ratio of processor times {ratios[0]:.2f}, of times {ratios[1]:.2f}")


def main(program, rounds):
    if shutil.which("editcap") is None:
        print("splits: editcap is missing, so there is nothing to measure against")
        return
    measure(program, rounds, 54, 1518)
    measure(program, rounds, 70, 70)


if __name__ == "__main__":
    main(*options.of_measurement(__doc__, 5))
