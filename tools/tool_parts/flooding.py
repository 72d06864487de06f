"""What hosts and an operator of a live switch notice while one host sends as many frames as it can that are refused, for
tools/check-flood and tools/check-serve. It goes on in the current folder.

The host of port 1, the good one, sends paced frames to that of port 2, whose address is static. That of port 3 sends frames
in the name of port 2's and from an address that isn't on-link, in turn."""
import subprocess
import threading
import time
from dataclasses import dataclass, field

from reading import making

from .serving import ADDRESSES, MACS, SECONDS, Peer, Serving, Terminal, data, eventually, plan_of

PORTS = [("host", f"{number}.sock", f"{number}.sock") for number in (1, 2, 3)]
CONTROL = "control.sock"

BAD_MAC, OFF_LINK = 0x020000000033, 0x20010DB8 << 96 | 0x33
REFUSED = [making.data(BAD_MAC, source, ADDRESSES[1], MACS[1]) for source in (ADDRESSES[2], OFF_LINK)]
RULES = ("WrongPort", "OffLink")
# How many of them are sent at once.
AT_ONCE = 512

# How many frames the good host sends a second. With each of so many the other one sends one, so that it stays known where it
# is: a station is forgotten behind 300 s.
PACE = 200
KNOWN = 100 * PACE

# Octets of a frame's number.
NUMBER = 8


@dataclass
class Noticed:
    """What is told of a flood; times are in s, memory is in KiB."""

    # How many frames the good host sent, and how long each took that came.
    sent: int = 0
    waits: list = field(default_factory=list)
    # How long each answer of control took, the first one before the flood, and behind each how many frames were refused and
    # what the switch had in memory; and what that was at most.
    answers: list = field(default_factory=list)
    memory: list = field(default_factory=list)
    most_memory: int = 0
    # How long the flood took.
    took: float = 0.0
    # The summary, the segments and the octets of the journal, and how long its check took.
    summary: dict = field(default_factory=dict)
    segments: int = 0
    octets: int = 0
    checked: float = 0.0


def paced(number):
    """A frame of the good host."""
    return data(1, 2, number.to_bytes(NUMBER))


class Work(threading.Thread):
    """What is done beside the rest; what went wrong there is raised where it is looked after."""

    def __init__(self, work, *given):
        super().__init__(daemon=True)
        self.work, self.given, self.fault = work, given, None
        self.start()

    def run(self):
        try:
            self.work(*self.given)
        except (AssertionError, OSError) as fault:
            self.fault = fault

    def look_after(self):
        if self.fault:
            raise self.fault

    def finish(self):
        self.join(SECONDS)
        self.look_after()
        assert not self.is_alive(), f"{self.work.__name__} doesn't end"


class Flood:
    """The peers of a switch, of which one sends so many frames that are refused."""

    def __init__(self, serving, frames):
        self.serving, self.frames = serving, frames
        self.good, self.other, self.bad = (Peer(path) for _, path, _ in PORTS)
        self.terminal = Terminal(CONTROL)
        self.peers = (self.good, self.other, self.bad, self.terminal)
        self.is_over, self.moments, self.counters, self.noticed = threading.Event(), [], {}, Noticed()

    def begin(self):
        """The good host gets its address, and the other one has its own; it is known where both are."""
        for peer in self.peers:
            peer.meet()
        assert self.terminal.ask(f"static fe80::{ADDRESSES[2] & 0xFFFF:x} 2") == ["ok"]
        self.good.send(making.claim(MACS[1], ADDRESSES[1]))
        assert eventually(lambda: " 1 valid " in self.terminal.ask("show bindings")[0]), "a claim isn't valid"
        self.other.send(data(2, 1))
        assert self.good.take() == data(2, 1), "a frame isn't carried"

    def send_paced(self):
        began = time.monotonic()
        while not self.is_over.is_set():
            number = len(self.moments)
            if number % KNOWN == KNOWN - 1:
                self.other.send(data(2, 1))
            self.moments.append(time.monotonic())
            self.good.send(paced(number))
            time.sleep(max(0.0, began + (number + 1) / PACE - time.monotonic()))

    def take_paced(self):
        """Takes what comes from the good host: its frames in their order, and no others."""
        last = -1
        while (frame := self.other.take()) is not None:
            moment, number = time.monotonic(), int.from_bytes(frame[-NUMBER:])
            assert frame == paced(number), f"{frame.hex()} comes, which isn't the good host's"
            assert last < number, f"frame {number} comes behind frame {last}"
            self.noticed.waits.append(moment - self.moments[number])
            last = number

    def pass_over(self, peer):
        """Takes what comes to a host, which may be nothing for long."""
        peer.end(peer.paths[1]).settimeout(None)
        while peer.take() is not None:
            pass

    def send_refused(self):
        began = time.monotonic()
        for at in range(0, self.frames, AT_ONCE):
            self.bad.send(*(REFUSED * (AT_ONCE // len(REFUSED)))[: self.frames - at])
        self.noticed.took = time.monotonic() - began

    def ask(self):
        """`show counters`, read at once, and what the switch has in memory."""
        asked, text = time.monotonic(), b""
        self.terminal.write(b"show counters\n")
        while not text.endswith(b"\nend\n"):
            more = self.terminal.end(CONTROL).recv(1 << 16)
            assert more, f"control ends within {text}"
            text += more
        self.noticed.answers.append(time.monotonic() - asked)
        self.counters = {name: int(count) for name, count in map(str.split, text.decode().splitlines()[:-1])}
        self.noticed.memory.append((self.refused(), self.memory("VmRSS")))

    def memory(self, what):
        """What the switch has in memory, or had at most, in KiB (proc(5), `status`)."""
        with open(f"/proc/{self.serving.run.pid}/status", encoding="ascii") as status:
            return next(int(line.split()[1]) for line in status if line.startswith(f"{what}:"))

    def refused(self):
        return sum(self.counters[rule] for rule in RULES)

    def go_on(self, gap):
        """Asks control with such gaps until all frames of the flood are refused."""
        takers = [Work(self.take_paced), Work(self.pass_over, self.good), Work(self.pass_over, self.bad)]
        self.ask()
        sending, flood = Work(self.send_paced), Work(self.send_refused)
        end = None
        while self.refused() < self.frames:
            assert end is None or time.monotonic() < end, f"{self.refused()} frames are refused"
            time.sleep(gap)
            self.ask()
            for work in (*takers, sending, flood):
                work.look_after()
            if end is None and not flood.is_alive():
                end = time.monotonic() + SECONDS
        self.is_over.set()
        sending.finish()
        self.noticed.sent, self.noticed.most_memory = len(self.moments), self.memory("VmHWM")
        return takers

    def leave(self, takers):
        """All that was sent is taken, and then the switch ends."""
        assert self.terminal.ask("quit") == ["ok"]
        for peer in (self.good, self.other, self.bad):
            peer.leave()
        for taker in takers:
            taker.finish()


def look_back(noticed, serving, frames):
    """The switch has ended in order, its summary says what came, and its journal is good."""
    out, error = serving.run.communicate(timeout=SECONDS)
    assert (serving.run.returncode, error) == (0, ""), (serving.run.returncode, error)
    words = out.split()
    noticed.summary = dict(zip(words[::2], map(int, words[1::2])))
    assert noticed.summary["dropped"] == frames, noticed.summary
    assert len(noticed.waits) + noticed.summary["cut"] >= noticed.sent, (noticed.sent, len(noticed.waits), noticed.summary)
    with open("journal.txt", "rb") as journal:
        noticed.segments = sum(line.startswith(b"end ") for line in journal)
        noticed.octets = journal.tell()
    began = time.monotonic()
    # It takes microseconds a frame.
    checked = subprocess.run([serving.program, "check", "journal.txt"], capture_output=True, text=True,
                             timeout=SECONDS + frames / 10_000)
    noticed.checked = time.monotonic() - began
    assert checked.stdout == f"good: {noticed.summary['entries']} entries\n", (checked.stdout, checked.stderr)


def flood(frames, entries, gap):
    """What is noticed while a switch with room for so many entries refuses so many frames; control is asked with gaps of so
    many seconds."""
    with Serving(plan_of(PORTS, (CONTROL, CONTROL), entries=entries)) as serving:
        run = Flood(serving, frames)
        try:
            run.begin()
            run.leave(run.go_on(gap))
        finally:
            run.is_over.set()
            for peer in run.peers:
                peer.close()
        look_back(run.noticed, serving, frames)
    return run.noticed
