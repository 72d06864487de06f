"""The parts of journals that savi-journal-keep leaves in a folder (docs/savi-journal-keep.8): their names, and their octets.

A part has whole segments of one run, but for the last part of a run that was killed. Behind one another the parts of a run
are its journal, octet for octet."""
import contextlib
import io
import os
import re
import shutil
import signal
import stat
import subprocess
import time
from dataclasses import dataclass, replace

# By what a part's name ends, the program that packed it.
PACKERS = {".zst": "zstd", ".xz": "xz", ".gz": "gzip"}

# RUN-PART-ENTRY: when the run began, the number of the part from 1, and that of its first entry over all segments from 0.
NAME = re.compile(r"([0-9]{8}T[0-9]{6}\.[0-9]{3}Z)-([0-9]{8,})-([0-9]+)\.txt(\.zst|\.xz|\.gz)?", re.ASCII)

# A run's head: the lines of its journal in front of the first segment.
HEAD = ".head"

# Beside a pipe that is kept, the link to the folder of its parts.
LINK = ".kept"

# How much is read at once, in octets.
PIECE = 1 << 18


class Fault(OSError):
    """Why parts can't be read, in words that name them."""

    def __init__(self, what):
        super().__init__(None, what)

    def __str__(self):
        return self.strerror


@dataclass(frozen=True, order=True)
class Part:
    """A file of a folder, in the order of time. `form` is how it is packed, or nothing."""

    run: str
    number: int
    entry: int
    form: str
    folder: str

    @property
    def name(self):
        return f"{self.run}-{self.number:08}-{self.entry}.txt{self.form}"

    @property
    def path(self):
        return os.path.join(self.folder, self.name)


def run_name(moment):
    """The name of a run that begins at a moment, in ms."""
    return f"{time.strftime('%Y%m%dT%H%M%S', time.gmtime(moment // 1000))}.{moment % 1000:03}Z"


def is_unkept_pipe(path):
    """Whether a journal is a pipe that has no folder of parts: who writes to it waits until somebody reads it."""
    try:
        return stat.S_ISFIFO(os.stat(path).st_mode) and not os.path.isdir(f"{path}{LINK}")
    except OSError:
        return False


def parts_of(folder):
    """The parts in a folder, the oldest first. Of one that is being packed the text stands for both."""
    found = {}
    for match in filter(None, map(NAME.fullmatch, os.listdir(folder))):
        part = Part(match[1], int(match[2]), int(match[3]), match[4] or "", folder)
        key = part.run, part.number
        if key not in found or not part.form:
            found[key] = part
    return sorted(found.values())


def of_run(parts, run):
    """The parts of a run, or of the last one where none is named."""
    wanted = run or (parts[-1].run if parts else None)
    return [part for part in parts if part.run == wanted]


def head_of(folder, run):
    """The lines of a run in front of its first segment, or nothing."""
    try:
        with open(os.path.join(folder, f"{run}{HEAD}"), "rb") as file:
            return file.read()
    except FileNotFoundError:
        return b""


def as_it_is(part):
    """A part as it is now: it may have been packed since it was listed."""
    forms = (part.form, "", *PACKERS)
    return next((other for form in forms if os.path.exists((other := replace(part, form=form)).path)), part)


@contextlib.contextmanager
def opened(part):
    """The text of a part, as a file of octets."""
    part = as_it_is(part)
    if not part.form:
        with open(part.path, "rb") as file:
            yield file
        return
    program = PACKERS[part.form]
    if not shutil.which(program):
        raise Fault(f"{part.path}: it was packed by {program}, which isn't here")
    # Where the file is gone by now that is told as of any other.
    os.stat(part.path)
    run = subprocess.Popen([program, "-dc", part.path], stdout=subprocess.PIPE, stderr=subprocess.DEVNULL)
    try:
        yield run.stdout
    finally:
        run.stdout.close()
        status = run.wait()
    if status not in (0, -signal.SIGPIPE):
        raise Fault(f"{part.path}: it can't be unpacked: {program} ended with status {status}")


def pieces(part, skipped=0):
    """The octets of a part in pieces, but for so many at its front."""
    with opened(part) as file:
        if file.seekable():
            file.seek(skipped)
            skipped = 0
        while piece := file.read(PIECE):
            yield piece[skipped:]
            skipped = max(0, skipped - len(piece))


def text_of(parts, told=None):
    """The octets of a run's parts in pieces; where the first ones aren't there, its head in front of the rest. Others that
    lack are told to `told`, as (first, last), or else are a fault."""
    if parts[0].number > 1:
        yield head_of(parts[0].folder, parts[0].run)
    wanted = parts[0].number
    for part in parts:
        if part.number > wanted and not told:
            raise Fault(f"{part.folder}: parts {wanted} to {part.number - 1} of {part.run} aren't there")
        if part.number > wanted:
            told(wanted, part.number - 1)
        wanted = part.number + 1
        yield from pieces(part)


class LastRun(io.RawIOBase):
    """The journal of the last run in a folder, or what is there of it, as a file."""

    def __init__(self, folder):
        super().__init__()
        parts = of_run(parts_of(folder), None)
        if not parts:
            raise Fault(f"no part of a journal is in {folder}")
        self.pieces, self.left = text_of(parts), b""

    def readable(self):
        return True

    def readinto(self, room):
        while not self.left:
            self.left = next(self.pieces, None)
            if self.left is None:
                self.left = b""
                return 0
        count = min(len(room), len(self.left))
        room[:count] = self.left[:count]
        self.left = self.left[count:]
        return count


def open_journal(name):
    """A journal in a file, or the last run in a folder of savi-journal-keep. Each octet is a character, so that any file can
    be read up to what is at fault in it."""
    if not os.path.isdir(name):
        return open(name, encoding="latin-1", newline="\n")
    return io.TextIOWrapper(io.BufferedReader(LastRun(name), PIECE), encoding="latin-1", newline="\n")
