"""How many instructions a frame takes: valgrind counts (its cachegrind). Each count is that of a long run without that of a
short one, over the frames that the long one has more, so that no start and no end is in it."""
import re
import subprocess

from tool_parts import options
from tool_parts.serving import plan_of

COUNTER = ("valgrind", "--tool=cachegrind", "--cache-sim=no", "--cachegrind-out-file=/dev/null", "--log-file=counted.txt")

# The frames of a short run and of a long one.
FRAMES = (1000, 3000)
# Room in the history for all entries.
WHOLE = 100_000


def instructions():
    """How many the last run took."""
    with open("counted.txt", encoding="ascii", errors="replace") as log:
        return int(re.search("I +refs: +([0-9,]+)", log.read())[1].replace(",", ""))


def count(*command):
    """How many instructions a run of the program takes."""
    ran = subprocess.run([*COUNTER, *command], capture_output=True, text=True)
    if ran.returncode != 0:
        options.stop(f"{' '.join(command)}: status {ran.returncode}: {ran.stderr}")
    return instructions()


def replay_plan(ports, entries=WHOLE):
    """A plan over the captures of bench/make_captures.py."""
    roles = ("host", "trusted", "host", "host", "server")[:ports]
    ends = [(role, f"{number}.pcap", f"{number}.out", "pcap") for number, role in enumerate(roles, 1)]
    return plan_of(ends, entries=entries)


def a_frame(count_run):
    """What a frame takes, by each count of a run of so many frames."""
    short, long = map(count_run, FRAMES)
    return [round((more - less) / (FRAMES[1] - FRAMES[0])) for less, more in zip(short, long)]
