"""Runs of a scene of crates/world_runs in which each opening, each read and each write fails in turn, made by counting: of
each kind of call the first fails, then the second, and so on, up to one that isn't made. What such a run leaves may differ
from what the scene leaves as docs/FORMATS.md (Statuses and standard error) and docs/LIVE.md say, and in nothing
else."""
import itertools

# The line of `stdin` behind which the runs stand, up to an empty line, and behind it what they are runs of.
MARK = "# Each call fails in turn, made by tools/world-runs --write: "

STATUSES = {"opening": 7, "plan": 5, "read": 5, "write": 6, "journal": 6, "summary": 6}


def calls(ports, has_control, outputs=()):
    """The kinds of calls: the word of a line `fails`, and how a run is named in which one of them fails. Where outputs are
    named, a capture is split into them."""
    yield "opening", "opening {}"
    yield "plan", "read {} of the " + ("capture" if outputs else "configuration")
    for n in range(1, ports + 1):
        yield f"read {n}", f"read {{}} at port {n}"
        yield f"write {n}", f"write {{}} at port {n}"
    for name in outputs:
        yield f"write {name}", f"write {{}} of {name}"
    if has_control:
        yield "read control", "read {} of control"
        yield "write control", "write {} of control"
    for which in ("journal", "summary"):
        yield which, f"write {{}} of the {which}"
    yield "error", "write {} of standard error"


class Left:
    """What a run leaves, by the lines that are printed of it."""

    def __init__(self, lines):
        self.status, self.sections, title = int(lines[0].split()[1]), {}, None
        self.written = {}
        for line in lines[1:]:
            word, colon, rest = line.partition(":")
            is_output = bool(colon) and (word.startswith("port ") or word.endswith(".pcap"))
            if is_output and title not in ("standard error", "replies"):
                self.written[word] = rest
            elif colon and not rest and not line.startswith("error"):
                title = word.removesuffix(" behind its head").removesuffix(" behind its entries")
                self.sections[title] = []
            elif title == "standard error" or word != "check":
                self.sections[title].append(line)
        self.written |= {"replies": "\n".join(self.sections.pop("replies", []))}
        self.errors, self.summary = self.sections["standard error"], self.sections["standard output"]
        self.ends = dict(end.split(" ", 1) for end in self.all_ends())

    def all_ends(self):
        """The ends of the passes, each as WHO HOW."""
        if "ends" in self.sections:
            return self.sections["ends"]
        return [line.split(" E ")[1] for line in self.sections["journal"] if " E " in line]

    def has_journal(self):
        return bool(self.ends)


def made(scene, leaves):
    """The runs of a scene: which calls fail, by the word and the number of each, what that is called, and the lines that it
    leaves. `leaves` has these for such calls."""
    whole = leaves({})
    for which, words in calls(len(scene.roles), scene.control() is not None, scene.out_names):
        for number in itertools.count(1):
            lines = leaves({which: number})
            yield {which: number}, words.format(number), lines
            if number == 1 and which != "error" and Left(lines).errors:
                fails = {which: 1, "error": 1}
                yield fails, f"{words.format(1)}, and nothing can be said of it", leaves(fails)
            if lines == whole:
                break


def faults(form, fails, lines, leaves):
    """What a run of this form of the command line may not leave."""
    which, number = next(iter(fails.items()))
    left, whole = Left(lines), Left(leaves({}))
    if lines == leaves({}):
        return []
    if len(fails) == 2:
        told = Left(leaves({which: number}))
        return differing(left, told, errors=[])
    if which == "error":
        return differing(left, whole, errors=whole.errors[: number - 1])
    found = [] if left.status == STATUSES[which.split()[0]] else [f"the status is {left.status}"]
    if form == "split" and which != "summary":
        return found + faults_of_split(which, left, whole)
    if which in ("opening", "plan"):
        is_silent = not (left.has_journal() or left.summary or any(left.written.values()))
        return found + ([] if is_silent and len(left.errors) == 1 else ["something is done, or what isn't said"])
    if form == "learn" and which != "summary":
        found += [] if left.summary[-1:] == ["end"] else ["what is learned isn't told to its end"]
        errors = [f"port {which.split()[1]}: read failed"]
        return found + differing(left, whole, status=left.status, errors=errors, summary=left.summary)
    if which == "summary":
        front = whole.summary[: number - 1]
        return found + differing(left, whole, status=left.status, summary=front)
    if which == "journal":
        errors = [*whole.errors, "journal: write failed"]
        return found + differing(left, whole, status=left.status, errors=errors, ends={})
    return found + faults_of_end(which, left, whole)


def faults_of_split(which, left, whole):
    """A split stops: it says why in one line, counts nothing, and each output has a front of what it had."""
    file = "plan" if which == "plan" else which.split()[-1]
    is_said = left.errors[0].startswith("cannot open ") if which == "opening" else left.errors[0].startswith(f"{file}: ")
    found = [] if is_said and len(left.errors) == 1 else [f"standard error is told {left.errors}"]
    found += [f"it counts {left.summary}"] if left.summary else []
    fronts = (name for name, octets in left.written.items() if not whole.written[name].startswith(octets))
    return found + [f"{name} has no front of what it had" for name in fronts]


def differing(left, other, **more):
    """Where a run differs from another, but for what is given."""
    want = {what: getattr(other, what) for what in ("status", "errors", "summary", "written", "ends")} | more
    return [f"{what} should be {value}" for what, value in want.items() if getattr(left, what) != value]


def faults_of_end(which, left, whole):
    """A read or write of a port or of control: the line and the end of that one alone, and what it wrote is a front."""
    act, name = which.split()
    title = name if name == "control" else f"port {name}"
    who = "control" if name == "control" else f"in{name}" if act == "read" else f"out{name}"
    how = "unwritten" if which == "write control" else "failed"
    found = [] if left.ends == whole.ends | {who: how} else [f"the ends are {left.ends}"]
    said = [line for line in whole.errors if not line.startswith(f"{title}:")] + [f"{title}: {act} failed"]
    found += [] if sorted(left.errors) == sorted(said) else [f"standard error is told {left.errors}"]
    if act == "write":
        ended = "replies" if name == "control" else title
        found += [] if whole.written[ended].startswith(left.written[ended]) else [f"{ended} has no front of what it had"]
    return found
