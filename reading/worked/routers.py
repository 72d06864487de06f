"""What is learned of routers from small captures, worked out by hand: port 1 is a host's and port 2 trusted, with a window of
500 ms."""
from .. import making
from ..capture import Arrival
from ..learn import Learned
from ..plan import read_address
from .histories import TWO_PORTS, plan_of

MAC, ROUTER = 0x020000000022, read_address("fe80::22")
LINK, OTHER = "2001:db8:1::", "2001:db8:9::"

# The advertisement of fe80::22 for 1800 s, without a prefix.
ADVERT = bytes.fromhex(
    "333300000001 020000000022 86dd 6000000000103aff fe800000000000000000000000000022"
    "ff020000000000000000000000000001 86003506400007080000000000000000"
)


def prefix_option(net, valid=1800, length=64, flags=0xC0):
    return bytes([3, 4, length, flags]) + valid.to_bytes(4, "big") * 2 + bytes(4) + read_address(net).to_bytes(16, "big")


def advert(lifetime=1800, options=b"", source=ROUTER, hop_limit=255):
    message = bytes([134, 0, 0, 0, 64, 0]) + lifetime.to_bytes(2, "big") + bytes(8) + options
    return making.icmp(MAC, source, making.ALL_NODES, message, hop_limit)


# Name, prefixes of the plan, frames (port, stamp, octets), and the lines that are printed.
WORKED = (
    ("a port that was silent in the window blocks, and one that had a router in it forwards", (),
     ((2, 1000, ADVERT), (1, 1001, ADVERT), (1, 1600, ADVERT)),
     ("advert 1000 2 pass", "advert 1001 1 drop", "advert 1600 1 pass", "port 1 forwarding", "port 2 forwarding",
      "router fe80::22 1 1801600", "router fe80::22 2 1801000", "lost 0", "end")),
    ("the window begins with the first frame", (),
     ((1, 1600, ADVERT),),
     ("advert 1600 1 drop", "port 1 learning", "port 2 forwarding", "lost 0", "end")),
    ("nothing is seen", (), (), ("port 1 learning", "port 2 forwarding", "lost 0", "end")),
    ("an advertisement at the end of the window comes too late", (),
     ((2, 1000, ADVERT), (1, 1500, ADVERT), (1, 1501, ADVERT)),
     ("advert 1000 2 pass", "advert 1500 1 drop", "advert 1501 1 drop", "port 1 blocking", "port 2 forwarding",
      "router fe80::22 2 1801000", "lost 0", "end")),
    ("one of another prefix in the window", ((LINK + "/64", "fcfs"),),
     ((2, 1000, ADVERT), (1, 1001, advert(options=prefix_option(LINK))), (1, 1002, advert(options=prefix_option(OTHER))),
      (1, 1003, advert(options=prefix_option(LINK))), (1, 1600, ADVERT)),
     ("advert 1000 2 pass", "advert 1001 1 drop", "advert 1002 1 drop", "advert 1003 1 drop", "advert 1600 1 drop",
      "port 1 blocking", "port 2 forwarding", "router fe80::22 2 1801000", "lost 0", "end")),
    ("one of another prefix behind the window is dropped, the next passes", ((LINK + "/64", "fcfs"),),
     ((1, 1000, advert(options=prefix_option(LINK))), (1, 1500, advert(options=prefix_option(OTHER))),
      (1, 1600, advert(options=prefix_option(LINK, 60)))),
     ("advert 1000 1 drop", "advert 1500 1 drop", "advert 1600 1 pass", "port 1 forwarding", "port 2 forwarding",
      "router fe80::22 1 1801600", "prefix 2001:db8:1::/64 61600", "lost 0", "end")),
    ("an entry doesn't stand at its own moment", (),
     ((2, 1000, advert(1, prefix_option(OTHER, 1))), (2, 1999, bytes(14)), (2, 2000, bytes(14))),
     ("advert 1000 2 pass", "port 1 blocking", "port 2 forwarding", "lost 0", "end")),
    ("and stands until then", (),
     ((2, 1000, advert(1, prefix_option(OTHER, 1))), (2, 1999, bytes(14))),
     ("advert 1000 2 pass", "port 1 blocking", "port 2 forwarding", "router fe80::22 2 2000",
      "prefix 2001:db8:9::/64 2000", "lost 0", "end")),
    ("lifetimes of 0 remove, and all ones never end", (),
     ((2, 1000, advert(9, prefix_option(LINK) + prefix_option(OTHER))),
      (2, 1001, advert(0, prefix_option(LINK, 0) + prefix_option(OTHER, 0xFFFFFFFF)))),
     ("advert 1000 2 pass", "advert 1001 2 pass", "port 1 learning", "port 2 forwarding", "prefix 2001:db8:9::/64 -",
      "lost 0", "end")),
    ("bits past the length are cleared; what isn't on the link, and fe80::/64, don't count", (),
     ((2, 1000, advert(0, prefix_option("2001:db8:1::22", length=62) + prefix_option(OTHER, flags=0x40)
                       + prefix_option("fe80::", length=10) + prefix_option("ff02::") + prefix_option(OTHER, length=0))),),
     ("advert 1000 2 pass", "port 1 learning", "port 2 forwarding", "prefix 2001:db8:1::/62 1801000", "lost 0", "end")),
    ("what a host doesn't take", (),
     ((2, 1000, advert(hop_limit=64)), (2, 1001, ADVERT[:-1] + b"\x01"), (2, 1002, advert(source=read_address("fec0::22"))),
      (2, 1003, advert(options=bytes(8)))),
     ("advert 1000 2 drop", "advert 1001 2 drop", "advert 1002 2 drop", "advert 1003 2 drop", "port 1 learning",
      "port 2 forwarding", "lost 0", "end")),
    ("33 prefixes", (),
     ((2, 1000, advert(0, b"".join(prefix_option(f"2001:db8:{n:x}::") for n in range(33)))),),
     ("advert 1000 2 pass", "port 1 learning", "port 2 forwarding",
      *sorted((f"prefix 2001:db8:{n:x}::/64 1801000" if n else "prefix 2001:db8::/64 1801000" for n in range(32)),
              key=lambda line: read_address(line.split()[1][:-3])), "lost 1", "end")),
)


def check(same):
    for name, prefixes, frames, want in WORKED:
        captures = {
            n: ([Arrival(stamp, len(octets), octets) for port, stamp, octets in frames if port == n], "end") for n in (1, 2)
        }
        learned = Learned(plan_of(TWO_PORTS, prefixes, control=False), captures, 500)
        same(f"learning: {name}", "the lines are", list(learned.lines()), list(want))
    print(f"learning: {len(WORKED)} captures: as they should be")
