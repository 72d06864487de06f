"""What crates/conf_runs must print: the plan or the fault of each configuration (docs/CONFIGURATION.md)."""
from .plan import ConfigFault, read_plan
from .session import head

# What stands for the number of a fault that has none.
UNNUMBERED = "255"


def change_of(written):
    """OLD and NEW of a change, with their line feeds; none that changes anything where nothing is written."""
    old, _, new = (part.strip().replace("\\n", "\n") for part in written.partition("=>"))
    return old, new


def changed(text, change):
    return text.replace(*change, 1)


def fault_in(octets):
    """The number of the fault in a replay, or 0."""
    try:
        read_plan(octets)
    except ConfigFault as fault:
        words = str(fault).split("config fault ")
        return words[1] if len(words) == 2 else UNNUMBERED
    return "0"


def answer(text, streams):
    """The head of the plan's journal and the names that aren't there, or the fault."""
    try:
        plan = read_plan(text.encode("utf-8"), streams)
    except ConfigFault as fault:
        return [f"  {fault}"]
    names = [f'journal "{plan.journal}"']
    if plan.control:
        names.append('control "{}" "{}"'.format(*plan.control))
    names += [f'port {port.number} "{port.input}" "{port.output}"' for port in plan.ports]
    return head(plan).splitlines() + names


def pairs(text, changes):
    """A line for each change: the fault with it and each one behind it."""
    lines = []
    for i, first in enumerate(changes):
        one = changed(text, first)
        faults = [fault_in(changed(one, second).encode("utf-8")) for second in changes[i + 1 :]]
        lines.append(" ".join(["pairs:"] + faults))
    return lines


def worked_out(given):
    """The lines that must be printed of those that are given."""
    printed, text, changes = [], "", []
    for line in given:
        word, _, rest = line.partition(" ")
        if word == "text":
            text, changes = rest, []
        elif word == "line":
            text += rest.replace("\\n", "\n") + "\n"
        elif word == "fill":
            text = (text + "#").ljust(int(rest), "-")
        elif word == "change":
            changes.append(change_of(rest))
            printed.append(f"fault {fault_in(changed(text, changes[-1]).encode('utf-8'))}: {rest}")
        elif word == "pairs":
            printed += pairs(text, changes)
        elif word in ("replay", "live"):
            printed += [line] + answer(changed(text, change_of(rest)), word == "live")
        elif word == "octets":
            printed.append(f"fault {fault_in(bytes.fromhex(rest))}: octets {rest}")
    return printed
