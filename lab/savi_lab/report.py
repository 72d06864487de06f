"""The table, and what is wrong."""
import collections
import textwrap

from .attacks import UNGUARDED
from .stations import STATIONS

# Widths for a terminal: of the first column, and of each other one.
WIDTHS = (36, 40)


def harm(result):
    """What a network let an attack do, in words."""
    if result.suffered:
        return result.suffered
    if not result.arrived:
        return "-"
    return f"no harm; {result.arrived} of {len(result.frames)} frames arrive"


def judged(journal, station):
    """The frames that came in from a station, as (octets, verdict)."""
    port = str(STATIONS[station][0])
    with open(journal, encoding="ascii") as lines:
        for words in map(str.split, lines):
            if len(words) > 7 and words[3] == "F" and words[4] == port:
                yield words[6], words[7]


def verdicts_of(journal):
    """The verdicts on the attacker's frames, by their octets."""
    found = collections.defaultdict(list)
    for octets, verdict in judged(journal, "attacker"):
        found[octets].append(verdict.removeprefix("drop-"))
    return found


def rule(result, verdicts):
    """The verdicts on the frames of an attack."""
    names = [verdicts.get(frame.hex(), ["none"])[0] for frame in result.frames]
    return ", ".join(dict.fromkeys(names)) or "-"


def rows_of(trials):
    """The rows of attacks, and then those of honest traffic."""
    journals = [trial for trial in trials if trial.journal]
    verdicts = [verdicts_of(trial.journal) for trial in journals]
    for title in trials[0].results:
        row = [title] + [harm(trial.results[title]) for trial in trials]
        yield row + [rule(trial.results[title], found) for trial, found in zip(journals, verdicts)]
    for title in dict.fromkeys(title for trial in trials for title in trial.honest):
        words = {True: "comes through", False: "FAILS", None: "not tried"}
        yield [title] + [words[trial.honest.get(title)] for trial in trials] + ["" for _ in journals]


def heads_of(trials):
    heads = ["Attack"] + [f"On {trial.title}" for trial in trials]
    return heads + ["Rule in its journal" for trial in trials if trial.journal]


def table(trials):
    """For a terminal."""
    yield from wrapped(heads_of(trials))
    yield ""
    for row in rows_of(trials):
        yield from wrapped(row)


def mark(cell, suffered):
    """Shorter than what a table for a terminal says."""
    if cell == suffered:
        return "**harm**"
    return cell.removeprefix("no harm; ").removesuffix(" frames arrive")


def markdown(trials):
    """With a column that says what the victims suffer, by the first network, and marks for all networks."""
    heads = heads_of(trials)
    heads.insert(1, "Harm")
    yield "| " + " | ".join(heads) + " |"
    yield "|---" * len(heads) + "|"
    for row in rows_of(trials):
        result = trials[0].results.get(row[0])
        suffered = result.suffered if result else ""
        cells = [mark(cell, suffered) if suffered else mark(cell, None) for cell in row[1:]]
        yield "| " + " | ".join([row[0], suffered, *cells]) + " |"


def wrapped(row):
    widths = (WIDTHS[0], *(WIDTHS[1:] * (len(row) - 1)))
    cells = [textwrap.wrap(cell, width) or [""] for cell, width in zip(row, widths)]
    for at in range(max(map(len, cells))):
        parts = [(cell[at] if at < len(cell) else "").ljust(width) for cell, width in zip(cells, widths)]
        yield "  ".join(parts).rstrip()


def lines(trials, is_markdown):
    if not trials:
        return
    yield from markdown(trials) if is_markdown else table(trials)
    yield ""
    yield "-: no frame of the attack came to a host or the router. Host 2 takes fragmented neighbor discovery"
    yield "(suppress_frag_ndisc = 0), as kernels did before RFC 6980; else the kernels are as they come."
    yield from (f"check of the journal of {trial.title}: {trial.checked}" for trial in trials if trial.checked)


def failed(trial):
    """The honest traffic that didn't come through."""
    return {name for name, came in trial.honest.items() if came is False}


def faults(trial, trials):
    """What is wrong: of a switch each harm, what `check` finds, each frame of the router that it dropped, and honest traffic
    that failed and that a plain bridge, where one was tried, carried at the same time."""
    yield from (f"{trial.title}: {said}" for said in trial.said)
    if trial.is_peer:
        return
    unsure = set().union(*(failed(other) for other in trials if other.is_plain))
    yield from (f"{trial.title}: failed: {name}" for name in trial.honest if name in failed(trial) - unsure)
    if trial.journal:
        harmed = ((name, found.suffered) for name, found in trial.results.items() if name not in UNGUARDED)
        yield from (f"{trial.title}: {name}: {suffered}" for name, suffered in harmed if suffered)
        dropped = {verdict for _, verdict in judged(trial.journal, "router") if verdict.startswith("drop-")}
        yield from (f"{trial.title}: a frame of the router: {verdict}" for verdict in sorted(dropped))
    if trial.checked is not None and not trial.checked.startswith("good: "):
        yield f"{trial.title}: its journal isn't good: {trial.checked}"


def delays(trial):
    """What a busy machine is enough for."""
    if trial.late:
        yield f"{trial.title}: {trial.late}"
    if trial.is_plain:
        yield from (f"{trial.title}: {name}" for name in trial.honest if name in failed(trial))
