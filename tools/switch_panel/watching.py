"""Which ports refuse frames, from the finished part of a journal: up to the last line `end N` that stands there.

A journal has one such line for each of its segments. What stands behind the last one isn't finished and isn't counted yet.
A journal is read in one pass, a file or the parts of it that savi-journal-keep keeps, and what is kept in memory is a number
for each port and rule."""
import collections
import os
import stat

from tool_parts import kept

# The first octets.
HEAD = b"savi-journal "

# The longest line (docs/FORMATS.md), with its line feed.
LONGEST = 3401

# How much of a journal's end is looked at, in octets.
LAST_OCTETS = 4096


class NoJournal(Exception):
    """What isn't a journal, or can't be watched, and where that shows."""


def cut_text(octets):
    return repr(octets[:60].decode("ascii", "replace"))


class Counts:
    """The frames that the segments of one journal refused, from its octets piece by piece: `finished` by (port, rule), and
    `last` the moment of the last one of each; `entries` of all finished segments. `name` and `at` are the text that is
    read, and the line in it."""

    def __init__(self, name):
        self.name, self.at, self.rest = name, 0, b""
        self.finished, self.open, self.last, self.moments = (collections.Counter(), collections.Counter(), {}, {})
        self.entries, self.segments, self.number, self.roles, self.is_begun = 0, 0, 0, {}, False

    def go_on_in(self, name):
        """The octets that come next are those of another text from its front."""
        self.name, self.at = name, 0

    def fail(self, what):
        raise NoJournal(f"{self.name}, line {self.at}: {what}")

    def take(self, octets):
        *lines, self.rest = (self.rest + octets).split(b"\n")
        for line in lines:
            self.at += 1
            self.take_line(line)
        self.at += 1
        if len(self.rest) >= LONGEST:
            self.fail(f"more than {LONGEST - 1:,} octets in one line")
        if not self.is_begun and not self.rest.startswith(HEAD[: len(self.rest)]):
            self.fail(f"no journal, which begins with `{HEAD.decode().strip()}`: {cut_text(self.rest)}")
        self.at -= 1

    def take_line(self, line):
        if not self.is_begun and not line.startswith(HEAD):
            self.fail(f"no journal, which begins with `{HEAD.decode().strip()}`: {cut_text(line)}")
        self.is_begun = True
        if len(line) >= LONGEST:
            self.fail(f"more than {LONGEST - 1:,} octets in one line")
        words = line.split(b" ", 8)
        if words[0].isdigit():
            self.take_entry(words)
        elif words[0] == b"end" and len(words) == 2:
            self.finish(words[1])
        elif words[0] == b"port" and len(words) in (4, 6) and words[1].isdigit():
            self.roles[int(words[1])] = words[2].decode("ascii", "replace")

    def take_entry(self, words):
        if int(words[0]) != self.number:
            self.fail(f"entry {self.number} is expected, and here stands entry {cut_text(words[0])}")
        self.number += 1
        if len(words) > 7 and words[3] in (b"F", b"L") and words[7].startswith(b"drop-"):
            if not words[2].isdigit() or not words[4].isdigit():
                self.fail("a frame has no moment and port")
            key = int(words[4]), words[7][5:].decode("ascii", "replace")
            self.open[key] += 1
            self.moments[key] = int(words[2])

    def finish(self, count):
        if count != b"%d" % self.number:
            self.fail(f"`end {self.number}` is expected, and here stands {cut_text(b'end ' + count)}")
        self.finished += self.open
        self.last |= self.moments
        self.entries += self.number
        self.segments += 1
        self.number, self.open, self.moments = 0, collections.Counter(), {}

    def rows(self):
        """The refusals of each port and rule, most first."""
        return [{"port": port, "role": self.roles.get(port, "-"), "rule": rule, "frames": count,
                 "last_ms": self.last[port, rule]} for (port, rule), count in self.finished.most_common()]


class File:
    """A journal that grows in a file. One that was emptied, or is another file by now, is read anew."""

    def __init__(self, path):
        self.path, self.file, self.counts = path, None, Counts(path)

    def look(self):
        """Reads on. Answers whether there is one."""
        try:
            found = os.stat(self.path)
        except OSError:
            return self.file is not None
        if self.file is None or self.is_other(found):
            if self.file is not None:
                self.file.close()
            self.file = open(self.path, "rb")
            self.counts = Counts(self.path)
        while piece := self.file.read(kept.PIECE):
            self.counts.take(piece)
        return True

    def is_other(self, found):
        mine = os.fstat(self.file.fileno())
        return (mine.st_dev, mine.st_ino) != (found.st_dev, found.st_ino) or found.st_size < self.file.tell()

    def is_older(self, moment):
        """Whether it was last written before a moment, in ms."""
        return os.fstat(self.file.fileno()).st_mtime_ns < 1_000_000 * moment

    def lacks(self):
        return None


class Folder:
    """The last run of a folder of parts. `number` and `octets` say how far it was read: in which part, and how much of it;
    a part that is packed doesn't grow any more, and `is_whole` once it was read."""

    def __init__(self, path):
        self.path, self.counts = path, Counts(path)
        self.run, self.first, self.number, self.octets, self.is_whole = None, 1, 0, 0, False

    def look(self):
        parts = kept.of_run(kept.parts_of(self.path), None)
        if parts and parts[0].run != self.run:
            self.begin(parts[0])
        try:
            for part in parts:
                if part.number > self.number or part.number == self.number and not self.is_whole:
                    self.read(part)
        except FileNotFoundError:
            pass  # it was packed or removed just now: the next look reads on, from it
        return bool(parts)

    def begin(self, part):
        """Another run, whose first parts may not be there any more."""
        self.run, self.first, self.number, self.octets, self.is_whole = part.run, part.number, part.number, 0, False
        self.counts = Counts(part.name)
        if part.number > 1:
            self.counts.take(kept.head_of(self.path, part.run))
            self.counts.go_on_in(part.name)

    def read(self, part):
        if part.number != self.number:
            self.number, self.octets, self.is_whole = part.number, 0, False
            self.counts.go_on_in(part.name)
        for piece in kept.pieces(part, self.octets):
            self.counts.take(piece)
            self.octets += len(piece)
        self.is_whole = bool(part.form)

    def is_older(self, moment):
        """Whether its last run began before a moment, in ms."""
        return self.run < kept.run_name(moment)

    def lacks(self):
        if self.first == 1:
            return None
        return f"The first {self.first - 1} parts of {self.run} aren't there any more, and aren't counted."


def watched(path):
    """What is watched by a name: a file, a folder of savi-journal-keep, or a pipe that it reads."""
    try:
        mode = os.stat(path).st_mode
    except OSError:
        return File(path)
    if stat.S_ISDIR(mode):
        return Folder(path)
    if not stat.S_ISFIFO(mode):
        return File(path)
    if os.path.isdir(f"{path}{kept.LINK}"):
        return Folder(os.path.realpath(f"{path}{kept.LINK}"))
    raise NoJournal(f"{path}: a pipe, which its reader alone can read: name the folder of savi-journal-keep")


def why_not_whole(path):
    """Why the journal of a run that has ended isn't whole, or None, also where that can't be seen in it, as in a pipe."""
    try:
        if not stat.S_ISREG(os.stat(path).st_mode):
            return None
        with open(path, "rb") as file:
            file.seek(max(0, os.path.getsize(path) - LAST_OCTETS))
            *lines, rest = file.read().split(b"\n")
    except OSError:
        return None
    if rest or not lines or not lines[-1].startswith(b"end "):
        return "it doesn't end by the line `end N`: the switch was killed, or its disk is full"
    last_segment = lines[max((at for at, line in enumerate(lines) if line == b"begin"), default=0):]
    if any(line.endswith(b" paused") for line in last_segment):
        return "its last segment is paused, and none follows: the switch was killed"
    return None
