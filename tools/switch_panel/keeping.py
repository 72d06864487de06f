"""Keeps the journal of a live switch in parts: each of whole segments, packed, and no more of them than there is room for
(docs/savi-journal-keep.8)."""
import errno
import os
import queue
import re
import shutil
import subprocess
import threading
import time

from tool_parts.kept import HEAD, PACKERS, Part, parts_of, run_name

# The longest line (docs/FORMATS.md), with its line feed. What is longer is kept as it comes.
LONGEST = 3401

# The first octets of a journal, and of the last line of a segment.
BEGIN, END = b"savi-journal ", b"end "

# No head is longer, in octets.
LONGEST_HEAD = 1 << 14

# How many octets are written between two looks at the room.
LOOK = 1 << 24

# What a write answers where a disk has no room.
FULL = (errno.ENOSPC, errno.EDQUOT)

# The words by which each program packs a file, and leaves it under the name with its ending alone.
PACKING = {"zstd": ("zstd", "-q", "-f", "--rm"), "xz": ("xz", "-q", "-f"), "gzip": ("gzip", "-q", "-f")}


class Lost(Exception):
    """Why nothing more can be kept, in words."""


def first_packer():
    """The ending of parts by the first program that is here, or nothing."""
    return next((form for form, program in PACKERS.items() if shutil.which(program)), "")


class Shelf:
    """The folder of the parts. What is closed is packed by a thread of its own, so that no reader waits for it. `current` is
    the part that is being written, or None."""

    def __init__(self, folder, most, form, tell):
        self.folder, self.most, self.form, self.tell = folder, most, form, tell
        self.current, self.closed, self.turn = None, queue.SimpleQueue(), threading.Lock()
        self.packing = threading.Thread(target=self.pack_on, daemon=True)

    def start(self):
        """Begins with what was left unpacked by one that was killed."""
        for part in parts_of(self.folder):
            if not part.form:
                self.closed.put(part)
        self.closed.put(False)
        self.packing.start()

    def finish(self):
        """Waits until all is packed."""
        self.closed.put(None)
        self.packing.join()

    def close(self, part):
        self.current = None
        self.closed.put(part)

    def look(self):
        """Has the room looked at."""
        self.closed.put(False)

    def pack_on(self):
        while (part := self.closed.get()) is not None:
            with self.turn:
                if part and self.form:
                    self.pack(part)
                self.trim()

    def pack(self, part):
        program = PACKERS[self.form]
        try:
            ran = subprocess.run([*PACKING[program], part.path], capture_output=True, text=True)
            why = ran.stderr.strip() or f"status {ran.returncode}" if ran.returncode else None
        except OSError as error:
            why = error.strerror
        if why and os.path.exists(part.path):
            self.tell(f"{part.name}: it stays unpacked: {program}: {why}")

    def trim(self):
        """Removes the oldest parts while there are more octets than there may be."""
        sizes = {part: size_of(part) for part in parts_of(self.folder)}
        while sum(sizes.values()) > self.most and (oldest := self.oldest(sizes)):
            if not self.remove(oldest, list(sizes), sum(sizes.values())):
                return
            del sizes[oldest]

    def oldest(self, parts):
        """The first part that isn't being written, or None."""
        return next((part for part in parts if (part.run, part.number) != self.current), None)

    def make_room(self):
        """Removes the oldest part where the disk is full. Answers whether there was one."""
        with self.turn:
            parts = parts_of(self.folder)
            oldest = self.oldest(parts)
            return bool(oldest) and self.remove(oldest, parts, sum(map(size_of, parts)))

    def remove(self, part, parts, total):
        size, written = size_of(part), time.gmtime(modified(part))
        behind = next((other for other in parts if other.run == part.run and other.number == part.number + 1), None)
        entries = f"entries {part.entry} to {behind.entry - 1}" if behind else f"entries from {part.entry} on"
        try:
            os.remove(part.path)
            if not any(other.run == part.run and other != part for other in parts):
                os.remove(os.path.join(self.folder, f"{part.run}{HEAD}"))
        except FileNotFoundError:
            pass
        except OSError as error:
            self.tell(f"{part.name}: it can't be removed: {error.strerror}")
            return False
        self.tell(f"removed {part.name}: {entries}, written until {time.strftime('%Y-%m-%d %H:%M:%S', written)} UTC, {size} "
                  f"octets; {total - size} are left, of at most {self.most}")
        return True


def size_of(part):
    try:
        return os.stat(part.path).st_size
    except OSError:
        return 0


def modified(part):
    try:
        return os.stat(part.path).st_mtime
    except OSError:
        return 0


def places(octets, word):
    """Where a word stands in octets."""
    at = octets.find(word)
    while at >= 0:
        yield at
        at = octets.find(word, at + len(word))


def cuts(octets):
    """Where segments end in whole lines, each with its number of entries; and where journals begin, with None: that may be
    in the line in which the one before was cut."""
    found = [(at, None) for at in places(octets, BEGIN)]
    lines = [at + 1 for at in places(octets, b"\n" + END)]
    for at in [0] * octets.startswith(END) + lines:
        behind = octets.find(b"\n", at) + 1
        if behind and (number := octets[at + len(END):behind - 1]).isdigit():
            found.append((behind, int(number)))
    return sorted(found, key=lambda cut: (cut[0], cut[1] is None))


class Keeper:
    """Takes journals as they come, and writes their parts. A part ends behind a segment, `every` seconds or more after it was
    begun."""

    def __init__(self, shelf, every, tell):
        self.shelf, self.every, self.tell = shelf, every, tell
        self.rest, self.run, self.file, self.since = b"", None, None, 0

    # The text.

    def take(self, octets):
        """The octets that come next. A line that isn't whole yet waits for its rest."""
        octets = self.rest + octets
        end = octets.rfind(b"\n") + 1
        if not end and len(octets) > LONGEST:
            end = len(octets)
        self.rest, at = octets[end:], 0
        for place, entries in cuts(octets[:end]):
            self.write(octets[at:place])
            if entries is None:
                self.end()
            else:
                self.end_segment(entries)
            at = place
        self.write(octets[at:end])

    def end_of_text(self):
        """Nothing more comes of this run."""
        self.write(self.rest)
        self.rest = b""
        self.end()

    def end(self):
        if not self.run:
            return
        cut = "" if self.is_between else "; it is cut within a segment"
        self.close_part()
        self.tell(f"{self.run} ended: {self.entry} entries in {self.number} parts{cut}")
        self.run = None

    def end_segment(self, entries):
        self.entry += entries
        self.is_between = True
        self.tick()

    def tick(self):
        """Ends a part whose time is over."""
        if self.seconds_left() == 0:
            self.close_part()

    def seconds_left(self):
        """How long the part may still go on, or None where that isn't known yet."""
        if not self.file or not self.is_between:
            return None
        return max(0, self.began + self.every - time.monotonic())

    # The files.

    def write(self, octets):
        if not octets:
            return
        if not self.run:
            self.begin_run(octets)
        if not self.file:
            self.begin_part()
        self.is_between = False
        if self.head is not None:
            self.take_head(octets)
        self.write_whole(self.file, octets)
        self.since += len(octets)
        if self.since > LOOK:
            self.since = 0
            self.shelf.look()

    def write_whole(self, file, octets):
        left = memoryview(octets)
        while left:
            try:
                left = left[file.write(left):]
            except OSError as error:
                if not self.may_go_on(error):
                    raise Lost(f"{file.name}: {error.strerror}") from None

    def may_go_on(self, error):
        """Whether a disk was full, and the oldest part could be removed."""
        return error.errno in FULL and self.shelf.make_room()

    def new_run(self):
        """A name by the time, which no other run has."""
        while True:
            run = run_name(time.time_ns() // 1_000_000)
            if not any(name.startswith(run) for name in os.listdir(self.shelf.folder)):
                return run
            time.sleep(0.001)

    def begin_run(self, octets):
        self.run = self.new_run()
        self.number = self.entry = 0
        self.head = b""
        if not octets.startswith(BEGIN):
            self.head = None
            self.tell(f"{self.run}: what comes is no journal: it doesn't begin with `{BEGIN.decode().strip()}`. It is kept as it is")

    def begin_part(self):
        self.number += 1
        part = Part(self.run, self.number, self.entry, "", self.shelf.folder)
        self.shelf.current = part.run, part.number
        self.file = self.make(part.path)
        self.part, self.began = part, time.monotonic()

    def make(self, path):
        """A new file, whose writes aren't held back."""
        while True:
            try:
                return open(path, "xb", buffering=0)
            except OSError as error:
                if not self.may_go_on(error):
                    raise Lost(f"{path}: it can't be made: {error.strerror}") from None

    def take_head(self, octets):
        """Keeps a run's head in a file of its own, as long as a part of it is there."""
        self.head += octets[: LONGEST_HEAD]
        lines = re.split(rb"(?m)^begin\n", self.head, maxsplit=1)
        if len(lines) == 2:
            with self.make(os.path.join(self.shelf.folder, f"{self.run}{HEAD}")) as file:
                self.write_whole(file, lines[0])
        if len(lines) == 2 or len(self.head) >= LONGEST_HEAD:
            self.head = None

    def close_part(self):
        if self.file:
            self.file.close()
            self.file = None
            self.shelf.close(self.part)
