"""What a live switch takes of the machine (docs/LIVE.md), and how it is said that there is less."""
import re

# Standard input, output and error, the configuration and the journal.
OF_A_RUN = 5

# Of a path the file that locks it, the socket that listens and the one of its peer; one that serves both ways has the peer's
# twice.
ONE_WAY, BOTH_WAYS = 3, 4

# A capture that is read, and one that is written.
CAPTURES = 2


def descriptors(plan):
    """How many descriptors a switch has open at most."""
    pairs = [(port.input, port.output) for port in plan.ports if port.format == "stream"]
    captures = CAPTURES * (len(plan.ports) - len(pairs))
    pairs += [plan.control] if plan.control else []
    return OF_A_RUN + captures + sum(BOTH_WAYS if into == out else 2 * ONE_WAY for into, out in pairs)


def threads(plan):
    """How many threads a switch has while no input has ended: the ticker's, one for each output, two for each input that
    doesn't end by itself, who reads and who judges, and two for control likewise."""
    return 1 + len(plan.ports) + 2 * sum(port.format == "stream" for port in plan.ports) + 2 * bool(plan.control)


def lacking_descriptors(limits, needed):
    """What a process lacks that is to open so many descriptors, by the text of /proc/PID/limits (proc(5)), or None."""
    found = re.search(r"^Max open files +(\d+) ", limits, re.M)
    if not found or int(found[1]) >= needed:
        return None
    return (f"the switch may open {found[1]} descriptors, and takes {needed}: a port whose peer finds none left isn't served "
            "(ulimit -n, LimitNOFILE=)")
