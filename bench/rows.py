"""The rows of the table with which `make bench` ends: bench/all takes them from what the measurements print."""


def row(line, ours, c=None, before=None, most=None):
    """Prints what the switch takes, as a part of what C takes and the program before, where these were measured; and which
    part of what C takes is aimed at, at most."""
    beside_c, beside_before = ("-" if other is None else f"{ours / other:.2f}" for other in (c, before))
    is_met = c is not None and ours <= most * c if most else None
    show(line, beside_c, beside_before, f"at most {most}" if most else "-", is_met)


def figure(line, ours, unit, before=None, most=None):
    """Prints a figure of the switch that has none of C beside it, as a part of that of the program before, where that was
    measured; and how much is aimed at, at most."""
    beside_before = "-" if before is None else f"{ours / before:.2f}"
    aim, is_met = (f"at most {most} {unit}", ours <= most) if most else ("-", None)
    show(line, f"{ours:.3g} {unit}", beside_before, aim, is_met)


def show(line, ours, beside_before, aim, is_met):
    told = "" if is_met is None else ": met" if is_met else ": missed"
    print(f"| {line} | {ours} | {beside_before} | {aim}{told} |", flush=True)
