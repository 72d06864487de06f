"""A journal as one page of HTML without outside parts: what was refused when and from whom, the addresses over time, and the
counts. picture.html beside this file has the page's form, its style, and the code by which it draws itself in a browser.

What a page has doesn't grow with the length of the journal: where a port and a rule have many frames, they are counted in
bins of time, and so many addresses are drawn."""
import array
import html
import json
import os
import re

from reading.commands import RULES
from reading.plan import address_text, key_text

from . import counting, telling

# How many refused frames of each port and rule a page has one by one, and how many of these in words. Behind that they are
# counted in bins of time, of which there are so many.
FRAMES, WORDS, BINS, COARSE = 2000, 1000, 4096, 4

# How many addresses are drawn of each port, by the one that had them first, and how many changes of each.
ADDRESSES, CHANGES = 500, 200

# Refusals are shown first where there are so many.
MANY = 50

# How many sources of each port and rule are named; of more than these each has at least one frame in so many. And of how many
# ports and rules the headline tells.
NAMED, SHARE, LEADING = 3, 100, 3


class Bins:
    """Counts over time in up to BINS bins of one width in ms, which is doubled, two bins to one, when time goes beyond them.
    For the marks of an address, which are there or aren't, COARSE of them are one."""

    def __init__(self):
        self.width, self.all = 1, []

    def reach(self, at):
        while at // self.width >= BINS:
            self.width *= 2
            for bins in self.all:
                bins.halve()

    def new(self, row):
        self.all.append(row)
        return row


class Row:
    """The counts of one row, and of each bin the first entry that is counted there."""

    def __init__(self):
        self.counts, self.entries = array.array("Q", bytes(8 * BINS)), array.array("Q", bytes(8 * BINS))

    def count(self, at, entry):
        if not self.counts[at]:
            self.entries[at] = entry
        self.counts[at] += 1

    def halve(self):
        for at in range(BINS // 2):
            one, two = 2 * at, 2 * at + 1
            self.entries[at] = self.entries[one] if self.counts[one] else self.entries[two]
            self.counts[at] = self.counts[one] + self.counts[two]
        empty = bytes(4 * BINS)
        self.counts[BINS // 2 :] = self.entries[BINS // 2 :] = array.array("Q", empty)

    def met(self):
        """The bins with something in them: their places, counts and first entries, in a row."""
        return [number for at in range(BINS) if self.counts[at] for number in (at, self.counts[at], self.entries[at])]


class Flags:
    """Of each COARSE bins whether something is in them."""

    def __init__(self):
        self.flags = bytearray(BINS // COARSE)

    def count(self, at):
        self.flags[at // COARSE] = 1

    def halve(self):
        pairs = zip(self.flags[::2], self.flags[1::2])
        self.flags[:] = bytes(one | two for one, two in pairs).ljust(BINS // COARSE, b"\0")

    def met(self):
        return [at for at, flag in enumerate(self.flags) if flag]


class Marks:
    """The refused frames of one port and rule: one by one, as (time, entry, source, place of its words), or in bins."""

    def __init__(self):
        self.frames, self.row, self.worded = [], None, 0


class Drawing:
    """What of a journal is drawn, as `counting.tell` tells of it. Times are in ms since the first frame."""

    def __init__(self):
        self.bins, self.marks, self.words, self.sources = Bins(), {}, {}, {}
        self.tracks, self.drawn, self.left_out, self.cut_short = {}, {}, 0, set()

    # Refusals.

    def refused(self, told, entry, source):
        at, marks = entry.moment - told.first, self.marks.setdefault((entry.port, entry.rule), Marks())
        self.bins.reach(at)
        if marks.row:
            self.count(marks, at, entry.number, source)
            return
        place = -1
        if marks.worded < WORDS:
            marks.worded += 1
            place = self.words.setdefault(telling.tell_whole(entry), len(self.words))
        marks.frames.append((at, entry.number, source, place))
        if len(marks.frames) > FRAMES:
            marks.row, frames, marks.frames = self.bins.new(Row()), marks.frames, []
            for at, number, source, _ in frames:
                self.count(marks, at, number, source)

    def count(self, marks, at, number, source):
        place = at // self.bins.width
        marks.row.count(place, number)
        vlan, octets = source
        if (vlan, int.from_bytes(octets, "big")) in self.tracks and len(octets) == 16:
            if source not in self.sources:
                self.sources[source] = self.bins.new(Flags())
            self.sources[source].count(place)

    # Addresses.

    def changed(self, address, _, change):
        track = self.tracks.get(address)
        if track is None:
            port = change.binding.port
            if self.drawn.get(port, 0) >= ADDRESSES:
                self.left_out += 1
                return
            self.drawn[port] = self.drawn.get(port, 0) + 1
            track = self.tracks[address] = []
        if len(track) < CHANGES:
            track.append(change)
        else:
            self.cut_short.add(address)


def page(name, told, drawing, names):
    """The page, as text. `names` are those of ports by their numbers."""
    with open(os.path.join(os.path.dirname(__file__), "picture.html"), encoding="utf-8") as file:
        form = file.read()
    parts = {
        "name": html.escape(name), "order": "many" if told.total("dropped") >= MANY else "few",
        "summary": summary(told), "headline": headline(told, names), "notes": notes(told, drawing),
        "counters": counters(told, names), "binned": binned(drawing),
        "data": json.dumps(data(told, drawing, names), separators=(",", ":")).replace("<", "\\u003c"),
    }
    return re.sub("{{([a-z]+)}}", lambda match: parts[match[1]], form)


def port_name(told, number, names):
    name = names.get(number)
    return f"port {number}, {told.ports[number].role}{f', {name}' if name else ''}"


def summary(told):
    start = "" if told.first is None else f"The first frame came at {counting.moment_text(told.first)}, and "
    rows = (("entries", told.entries), ("frames", told.total("frames")), ("passed", told.total("passed")),
            ("dropped", told.total("dropped")), ("probes", told.probes), ("lost", told.lost), ("cut", told.total("cut")))
    counts = "".join(f"<div><dt>{word}</dt><dd>{count:,}</dd></div>" for word, count in rows)
    return (f"<dl>{counts}</dl><p>{start}the last entry is {told.seconds(told.last):,.3f} s behind it. "
            "All times below are since the first frame.</p>" if start else f"<dl>{counts}</dl><p>There is no frame.</p>")


def headline(told, names):
    """Who was refused most, how often, and by which rule."""
    dropped, frames = told.total("dropped"), told.total("frames")
    if not dropped:
        return ""
    rows = sorted(told.refused.values(), key=lambda refused: -refused.all.count)[:LEADING]
    items = "".join(
        f"<li><b>{html.escape(port_name(told, refused.port, names))}</b>: <b>{refused.all.count:,}</b> by "
        f"<b>{refused.rule}</b>, {html.escape(telling.RULE_WORDS[refused.rule])}; {html.escape(sources_text(refused))}</li>"
        for refused in rows)
    rest = len(told.refused) - len(rows)
    more = f"<li>and {rest} more {'rows' if rest > 1 else 'row'} below</li>" if rest else ""
    return (f'<div class="note"><p>{dropped:,} of {frames:,} frames were refused ({100 * dropped / frames:.0f}%), most of them '
            f"at:</p><ul>{items}{more}</ul></div>")


def sources_text(refused):
    """The sources with the most frames. Where there are many a source with few frames tells nothing."""
    ranked, frames = refused.ranked(), refused.all.count
    is_few = len(ranked) <= NAMED and not refused.others
    named = ranked[:NAMED] if is_few else [(source, span) for source, span in ranked[:NAMED] if SHARE * span.count >= frames]
    texts = [f"{counting.source_text(source)} ({span.count:,})" for source, span in named]
    if rest := len(ranked) - len(named):
        left = frames - sum(span.count for _, span in named)
        count = f"{'more than ' if refused.others else ''}{rest:,}{' more' if named else ''} source{'s' if rest > 1 else ''}"
        texts.append(f"{count} ({left:,})" if named else count)
    return "from " + ", ".join(texts)


def notes(told, drawing):
    found = []
    if told.fault:
        found.append(f"The journal is at fault, and this is what stands before the fault: {told.fault}.")
    if told.is_rest:
        found.append(counting.REST_TEXT)
    if told.others:
        found.append(counting.others_text(told))
    if drawing.left_out:
        found.append(f"Of the addresses that a port had first {ADDRESSES} are drawn. Changes of others that aren't: "
                     f"{drawing.left_out:,}.")
    if drawing.cut_short:
        found.append(f"Of {len(drawing.cut_short):,} addresses the first {CHANGES} changes are drawn.")
    return "".join(f'<p class="note">{html.escape(note)}</p>' for note in found)


def binned(drawing):
    if not any(marks.row for marks in drawing.marks.values()):
        return ""
    return (f'<p class="faint">Where a port and a rule have more than {FRAMES:,} refused frames, these are counted in spans of '
            f"{drawing.bins.width:,} ms.</p>")


def counters(told, names):
    """A table with a column for each port and a row for each rule that dropped something."""
    groups = {key: refused.all.count for key, refused in told.refused.items()}
    ports = list(told.ports)
    rows = [(word, [getattr(told.ports[port], what) for port in ports], "total") for word, what in
            (("frames", "frames"), ("passed", "passed"), ("dropped", "dropped"))]
    met = [rule for rule in RULES if any((port, rule) in groups for port in ports)]
    rows += [(rule, [groups.get((port, rule), 0) for port in ports], "rule") for rule in met]
    rows.append(("left out at", [told.ports[port].cut for port in ports], "total"))
    heads = "".join(f'<th scope="col">{port}<br><small>{head_text(told, port, names)}</small></th>' for port in ports)
    body = "".join(counter_row(*row) for row in rows)
    return f'<table><tr><th scope="col">port</th>{heads}<th scope="col">all</th></tr>{body}</table>'


def head_text(told, port, names):
    name = html.escape(names.get(port, ""))
    return f"{told.ports[port].role}{f'<br>{name}' if name else ''}"


def counter_row(name, counts, kind):
    cells = "".join(f"<td>{count:,}</td>" if count else '<td class="none">0</td>' for count in [*counts, sum(counts)])
    return f'<tr class="{kind}"><th scope="row">{name}</th>{cells}</tr>'


def data(told, drawing, names):
    """What the page's code draws. Times are in ms since the first frame."""
    first = told.first or 0
    tracks = sorted(drawing.tracks.items(), key=lambda item: (item[1][0].binding.port, item[1][0].moment, item[0]))
    rows = {(vlan, address.to_bytes(16, "big")): at for at, ((vlan, address), _) in enumerate(tracks)}
    is_binned = any(marks.row for marks in drawing.marks.values())
    return {
        "last": max(told.last - first, 1), "savi": told.plan.savi, "bin": drawing.bins.width if is_binned else 0, "coarse": COARSE,
        "ports": [[number, count.role, names.get(number, "")] for number, count in told.ports.items()],
        "addresses": [[key_text(vlan, address_text(address)), told.plan.method(vlan, address), bars(track, first)]
                      for (vlan, address), track in tracks],
        "marked": [[rows[source], row.met()] for source, row in drawing.sources.items()],
        "refused": [refused_data(drawing.marks[refused.port, refused.rule], refused, rows) for refused in shown_order(told)],
        "words": list(drawing.words),
    }


def shown_order(told):
    """What was refused, in the order of the ports and of the rules; where it is much, by the number of frames."""
    if told.total("dropped") < MANY:
        return told.by_port_and_rule()
    return sorted(told.by_port_and_rule(), key=lambda refused: -refused.all.count)


def bars(track, first):
    """Of each binding: when it begins, its port, kind, claimant, what it also is, its entry, whether time made it, and the
    place, if any, where the address became free. The end of each but the last is where the next one begins."""
    return [[change.moment - first, *(change.binding or (0, "", None, None)), change.entry, int(change.by_time)]
            for change in track]


def refused_data(marks, refused, rows):
    """The refusals of one port and rule, with the places of the sources' addresses, or -1, and those of their texts."""
    group = {"port": refused.port, "rule": refused.rule, "text": telling.RULE_WORDS[refused.rule], "count": refused.all.count,
             "from": sources_text(refused)}
    if marks.row:
        return group | {"bins": marks.row.met()}
    return group | {
        "times": [at for at, _, _, _ in marks.frames], "entries": [entry for _, entry, _, _ in marks.frames],
        "words": [place for _, _, _, place in marks.frames if place >= 0],
        "rows": [rows.get(source, -1) for _, _, source, _ in marks.frames],
    }
