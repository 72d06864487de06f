"""The load of a seed: a plan of five ports, and their captures. Three hosts claim their addresses, and then send packets
whose ports and sources a generator draws."""
from itertools import islice

from . import making

# Ports 1, 2 and 3 are hosts, 4 is trusted and 5 a server; each method of validation has a prefix.
ROLES = ("host", "host", "host", "trusted", "server")
METHODS = ("fcfs", "dhcp", "mixed")
ENTRIES = 1_000_000

HOSTS = 3

# When the first packet comes, and how long after each the next one does (ms).
FIRST, STEP = 1000, 10


def plan():
    """The text of the configuration."""
    lines = ['mac = "02:00:00:00:00:01"', 'journal = "journal.txt"', f"entries = {ENTRIES}"]
    for number, role in enumerate(ROLES, 1):
        lines += ["[[port]]", f"number = {number}", f'role = "{role}"']
        lines += [f'input = "{number}.pcap"', f'output = "{number}.out"']
    for number, method in enumerate(METHODS, 1):
        lines += ["[[prefix]]", f'prefix = "2001:db8:{number}::/64"', f'method = "{method}"']
    return "".join(f"{line}\n" for line in lines)


def draws(seed):
    """Numbers of 15 bits, by a linear congruential generator of 31, whose low 16 aren't given."""
    state = seed
    while True:
        state = (1103515245 * state + 12345) % 2**31
        yield state >> 16


def mac(host):
    return 0x020000000000 | 0x11 * host


def address(host):
    return making.LINK_LOCAL | 0x11 * host


def load(seed, frames):
    """The captures by port, of so many packets behind the claims: the first draw of each packet gives its host, the second
    one the host whose address is its source."""
    records = {port: [] for port in range(1, len(ROLES) + 1)}
    for host in range(1, HOSTS + 1):
        records[host].append((0, making.claim(mac(host), address(host))))
    drawn = iter(1 + draw % HOSTS for draw in islice(draws(seed), 2 * frames))
    for k, (host, source) in enumerate(zip(drawn, drawn)):
        records[host].append((FIRST + STEP * k, making.data(mac(host), address(source))))
    return {port: making.capture(sent) for port, sent in records.items()}
