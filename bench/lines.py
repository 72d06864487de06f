#!/usr/bin/env python3
"""Times the reader of a journal's lines beside sha256sum, on the entries of a journal of 200,000 frames of 54 to 1,518
octets, each of which was sent at one port, and on one of as many frames of 70 octets.

Both read the file in turn. The megabytes per second are of the least processor times, which other programs on the machine
stretch less than the clock's.

usage: lines.py PROGRAM [ROUNDS]
"""
import os
import random
import resource
import subprocess
import sys
import tempfile

sys.dont_write_bytecode = True
sys.path.append(os.path.join(os.path.dirname(os.path.realpath(__file__)), "..", "tools"))

from tool_parts import options

FRAMES = 200_000


def make_journal(path, least, most):
    """Writes the entries, the same ones in each run: those of the frames, and a drain behind each."""
    octets = random.Random(1)
    kept = 0
    with open(path, "w") as out:
        for k in range(FRAMES):
            size = octets.randint(least, most)
            kept += size
            frame = octets.randbytes(size).hex()
            out.write(f"{2 * k} 0 {1000 + k} F 1 {1000 + k} {frame} pass-all 2 - 0 0\n{2 * k + 1} 5 {1000 + k} D 2 1\n")
    return f"{2 * FRAMES} entries, {kept} octets"


def seconds(command):
    """The processor time that a run of the command takes, and what it prints on standard output."""
    before = resource.getrusage(resource.RUSAGE_CHILDREN)
    done = subprocess.run(command, stdout=subprocess.PIPE, check=True)
    after = resource.getrusage(resource.RUSAGE_CHILDREN)
    took = after.ru_utime - before.ru_utime + after.ru_stime - before.ru_stime
    return took, done.stdout.decode().strip()


def measure(program, rounds, least, most):
    with tempfile.TemporaryDirectory() as work:
        path = os.path.join(work, "journal.txt")
        want = make_journal(path, least, most)
        size = os.path.getsize(path)
        commands = {"read_line": [program, path], "sha256sum": ["sha256sum", path]}
        best = {name: float("inf") for name in commands}
        for _ in range(rounds):
            for name, command in commands.items():
                took, text = seconds(command)
                best[name] = min(best[name], took)
                if name == "read_line" and text != want:
                    sys.exit(f"lines: {program} found {text}")
    for name in commands:
        rate = size / best[name] / 1e6
        print(f"lines: frames of {least} to {most} octets: {name}: {rate:,.0f} MB a second, {best[name]:.3f} s at least of {rounds} runs")


def main(program, rounds):
    measure(program, rounds, 54, 1518)
    measure(program, rounds, 70, 70)


if __name__ == "__main__":
    main(*options.of_measurement(__doc__, 7))
