"""The tables of `savi-ctl`."""
from tool_parts import columns

# What becomes of a binding when its time is over, by its state.
BECOMES = {"bound": "ends", "tentative": "valid", "valid": "asked", "testing-lt": "gone", "testing-vp": "port {}'s"}

# The counters of `show counters` that are no rule, and what they count.
NO_RULES = {"Pass": "frames that passed", "Cut": "frames left out at a full queue, or at an ended output",
            "Probes": "probes that were queued", "Lost": "probes that were left out"}

# What a port's peer is, by the panel.
PEERS = {"here": "guest is here", "away": "no guest", "joined": "interface", "lost": "LOST: restart", "unused": "nobody",
         "unknown": "its own peer"}


def table(heads, rows, numbers=()):
    """Rows under their heads, in columns. Columns of `numbers` end at their right."""
    return columns.table(list(heads), rows, [head for head in heads if head not in numbers])


def span(ms):
    """A length of time in two units."""
    if ms is None:
        return "-"
    if ms < 10_000:
        return f"{ms / 1000:.1f} s"
    seconds = ms // 1000
    for unit, of, below, name in ((86400, 3600, "h", "d"), (3600, 60, "m", "h"), (60, 1, "s", "m")):
        if seconds >= unit:
            return f"{seconds // unit} {name} {seconds % unit // of} {below}"
    return f"{seconds} s"


def ending(row):
    if row["left_ms"] is None:
        return "for good"
    return f"{BECOMES.get(row['state'], 'ends').format(row['claimant'])} in {span(row['left_ms'])}"


def bindings(rows):
    cells = ((row["address"], row["port"], row["name"] or "-", row["state"], ago(row), ending(row)) for row in rows)
    yield from table(("Address", "Port", "Name", "State", "Heard", "Then"), cells, ("Port",))


def ago(row):
    return "-" if row["heard_ms"] is None else f"{span(row['heard_ms'])} ago"


def ports(rows):
    heads = ("Port", "Name", "Role", "Service", "Peer", "Addresses", "Requests", "Waiting")
    cells = ((row["port"], row["name"] or "-", row["role"], row["service"], PEERS.get(row["peer"], row["peer"]),
              f"{row['held']} of {row['per_port']}", row["pending"], f"{row['queued']} of {row['depth']}") for row in rows)
    yield from table(heads, cells, ("Port", "Addresses", "Requests", "Waiting"))


def stations(rows):
    cells = ((row["mac"], row["port"], row["name"] or "-", ago(row), f"in {span(row['left_ms'])}") for row in rows)
    yield from table(("MAC address", "Port", "Name", "Heard", "Forgotten"), cells, ("Port",))


def counters(rows):
    """The rules that dropped something, most first, and then what else is counted."""
    rules = sorted((row for row in rows if row["counter"] not in NO_RULES and row["count"]), key=lambda row: -row["count"])
    if rules:
        yield from table(("Rule", "Frames dropped"), ((row["counter"], row["count"]) for row in rules), ("Frames dropped",))
    else:
        yield "No frame was dropped."
    yield ""
    others = ((row["count"], NO_RULES[row["counter"]]) for row in rows if row["counter"] in NO_RULES)
    yield from table(("Count", "Of"), others, ("Count",))


TABLES = {"bindings": bindings, "ports": ports, "stations": stations, "counters": counters}
