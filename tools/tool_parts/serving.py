"""A live switch and its peers over Unix stream sockets, for the trials of tools/check-serve. All paths are within the
current folder, since those of sockets are short."""
import contextlib
import os
import re
import select
import socket
import subprocess
import tempfile
import time

from reading import making

SECONDS = 20

# A claim is valid after so many ms.
TEST_MS = 1000

MACS = {1: 0x020000000011, 2: 0x020000000022}
ADDRESSES = {port: making.LINK_LOCAL | mac & 0xFF for port, mac in MACS.items()}
ROUTER, ROUTER_MAC, SWITCH_MAC = making.ROUTER, making.ROUTER_MAC, 0x020000000001


def eventually(holds):
    """Whether this holds before the time is over."""
    end = time.monotonic() + SECONDS
    while not (held := holds()) and time.monotonic() < end:
        time.sleep(0.002)
    return held


def are_sockets():
    """Whether a Unix socket can be made."""
    with tempfile.TemporaryDirectory() as folder:
        try:
            with socket.socket(socket.AF_UNIX, socket.SOCK_STREAM) as tried:
                tried.bind(os.path.join(folder, "a"))
        except (AttributeError, OSError):
            return False
    return True


def plan_of(ports, control=None, entries=20000, octets=4_000_000):
    """A configuration: of each port its role, its input and its output, and where that is so its format."""
    lines = [f'mac = "{SWITCH_MAC.to_bytes(6).hex(":")}"', 'journal = "journal.txt"']
    lines += [f"entries = {entries}", f"bytes = {octets}", f"probe_gap_ms = {TEST_MS // 2}", f"test_ms = {TEST_MS}"]
    if control:
        lines += [f'control = "{control[0]}"', f'control_out = "{control[1]}"']
    for number, (role, put, got, *form) in enumerate(ports, 1):
        lines += ["[[port]]", f"number = {number}", f'role = "{role}"', f'format = "{form[0] if form else "stream"}"']
        lines += [f'input = "{put}"', f'output = "{got}"']
    return "".join(f"{line}\n" for line in lines)


def data(port, to, more=b""):
    """A packet of a host to a host's MAC address, or to the router's."""
    mac, address = (MACS[to], ADDRESSES[to]) if to else (ROUTER_MAC, ROUTER)
    return making.data(MACS[port], ADDRESSES[port], address, mac) + more


def plain(number, port=1):
    """A frame without IPv6, whose EtherType is one for experiments (IEEE 802 clause 9.2.4), from a port's host to nobody
    who is known."""
    return making.frame(0x0200000000AA, MACS[port], 0x88B5, number.to_bytes(46))


def records(*frames):
    """Frames as a stream has them."""
    return b"".join(len(frame).to_bytes(4) + frame for frame in frames)


def joined(path):
    """A connection to a path, which may be there a moment before somebody listens at it."""
    deadline = time.monotonic() + SECONDS
    while True:
        met = socket.socket(socket.AF_UNIX, socket.SOCK_STREAM)
        met.settimeout(SECONDS)
        try:
            met.connect(path)
            return met
        except ConnectionRefusedError:
            met.close()
            if time.monotonic() > deadline:
                raise
        time.sleep(0.001)


class Peer:
    """A peer of one path, or of two: one to which it writes, and one from which it reads. Paths are met when they are
    needed."""

    def __init__(self, put, got=None):
        self.paths, self.ends = (put, got or put), {}

    def end(self, path):
        if path not in self.ends:
            self.ends[path] = joined(path)
        return self.ends[path]

    def meet(self, *which):
        for path in which or self.paths:
            self.end(path)

    def write(self, octets):
        self.end(self.paths[0]).sendall(octets)

    def read(self, count):
        got = b""
        while len(got) < count and (piece := self.end(self.paths[1]).recv(count - len(got))):
            got += piece
        return got

    def send(self, *frames):
        self.write(records(*frames))

    def take(self):
        """The next frame, or None at the end."""
        head = self.read(4)
        return self.read(int.from_bytes(head)) if head else None

    def is_readable(self):
        return bool(select.select([self.end(self.paths[1])], [], [], 0)[0])

    def leave(self):
        """Sends nothing more."""
        self.end(self.paths[0]).shutdown(socket.SHUT_WR)

    def close(self):
        for end in self.ends.values():
            end.close()


class Terminal(Peer):
    def ask(self, line):
        """The reply to a command."""
        self.write(f"{line}\n".encode())
        lines = [self.line()]
        while line.startswith("show ") and not lines[-1].startswith("error: ") and lines[-1] != "end":
            lines.append(self.line())
        return lines

    def line(self):
        got = b""
        while not got.endswith(b"\n"):
            octet = self.read(1)
            assert octet, f"control ends within {got}"
            got += octet
        return got.decode().rstrip("\n")


class Serving:
    """A run of `program` in this folder; `more` are arguments of its process."""

    program = None

    def __init__(self, plan, **more):
        with open("plan.toml", "w", encoding="ascii") as file:
            file.write(plan)
        # That of the run before.
        with contextlib.suppress(FileNotFoundError):
            os.remove("journal.txt")
        self.paths = set(re.findall(r'"(\S*\.sock)"', plan))
        # The journal is opened behind all paths, and of these control's is the last.
        self.last = "journal.txt" if "journal.txt" in plan else max(self.paths)
        streams = {"stdout": subprocess.PIPE, "stderr": subprocess.PIPE, "text": True}
        self.run = subprocess.Popen([self.program, "serve", "plan.toml"], **streams, **more)

    def __enter__(self):
        assert eventually(lambda: self.run.poll() is not None or os.path.exists(self.last)), "it doesn't listen"
        return self

    def __exit__(self, *_):
        with contextlib.suppress(ProcessLookupError):
            self.run.kill()
        self.run.communicate()

    def finish(self, status, complaints=""):
        """It ends so, with such lines on standard error, and answers the summary's numbers by their names, and the journal,
        which is good."""
        out, error = self.run.communicate(timeout=SECONDS)
        self.complaints = error
        assert self.run.returncode == status and re.fullmatch(complaints, error), (self.run.returncode, out, error)
        assert not any(map(os.path.exists, with_locks(self.paths))), "a path stays"
        checked = subprocess.run([self.program, "check", "journal.txt"], capture_output=True, text=True, timeout=SECONDS)
        words = out.split()
        summary = dict(zip(words[::2], map(int, words[1::2])))
        with open("journal.txt", encoding="ascii") as journal:
            text = journal.read()
        assert checked.stdout == f"good: {summary['entries']} entries\n", (checked.stdout, checked.stderr)
        return summary, text


def with_locks(paths):
    """These paths, and the files that lock them."""
    return sorted(name for path in paths for name in (path, f"{path}.lock"))


def sockets():
    """The sockets and lock files in this folder."""
    return sorted(name for name in os.listdir() if ".sock" in name)


def refused(plan, what):
    """A run that can't open this ends so."""
    with open("plan.toml", "w", encoding="ascii") as file:
        file.write(plan)
    run = subprocess.run([Serving.program, "serve", "plan.toml"], capture_output=True, text=True, timeout=SECONDS)
    assert (run.returncode, run.stdout, run.stderr) == (7, "", f"cannot open {what}\n"), (run.returncode, run.stderr)
