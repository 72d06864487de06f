"""What docs/TROUBLE.md says of things that operators meet in service, as histories that were worked out by hand. Ports 1,
2, 3 are hosts, 4 is trusted and 5 a server."""
from .. import making
from ..making import advertisement, claim, data, router_advertisement, router_solicitation, to_client, to_server
from .histories import A11, A22, A33, LEASED, M1, M2, M3, CLAIM_11, REPLY, REQUEST, ROUTER_MAC
from .histories import a, judged, plan_of, replay, replies, sent

ROUTER = making.ROUTER
RIVAL, HOLDER = data(M2, A11), advertisement(M1, A11)
ELSEWHERE = a("2001:db8:9::1")
CLAIMED = "1@1000 pass-trusted 4 0"


def other(kind):
    """A frame with another EtherType than IPv6's."""
    return making.frame((1 << 48) - 1, M1, kind, bytes(46))


# Keys of the plan, frames, control's lines, what the frames come to, replies.
HISTORIES = {
    "a host takes the router's address while the router is away": (
        "",
        [(1, 1000, claim(M1, ROUTER)), (1, 2000, data(M1, ROUTER)), (4, 3000, claim(ROUTER_MAC, ROUTER)),
         (1, 3100, advertisement(M1, ROUTER)), (1, 3150, router_advertisement(M1, ROUTER)),
         (4, 3200, router_advertisement(ROUTER_MAC, ROUTER)), (4, 3300, advertisement(ROUTER_MAC, ROUTER)),
         (1, 3600, data(M1, ROUTER)), (4, 3601, advertisement(ROUTER_MAC, ROUTER))],
        "3400 show bindings\n3500 clear fe80::fe\n3650 show bindings\n",
        [CLAIMED, "1@2000 pass-all 2,3,4,5 0", "4@3000 pass-trusted+1 1 1", "1@3100 pass-all 2,3,4,5 0",
         "1@3150 drop-RouterAdvert - 0", "4@3200 pass-all 1,2,3,5 0", "4@3300 pass-all 1,2,3,5 0",
         "1@3600 drop-Unverified - 1", "4@3601 pass-all 1,2,3,5 0"],
        ["fe80::fe 1 valid - 303100", "end", "ok", "end"]),
    "the router's address at a port that is shut": (
        "",
        [(1, 1000, claim(M1, ROUTER)), (1, 2000, data(M1, ROUTER)), (1, 2100, advertisement(M1, ROUTER)),
         (4, 3000, claim(ROUTER_MAC, ROUTER)), (4, 3100, router_advertisement(ROUTER_MAC, ROUTER)),
         (4, 3200, advertisement(ROUTER_MAC, ROUTER))],
        "500 static fe80::fe 4\n501 static fe80::fe 3\n502 shut 3\n3300 show bindings\n",
        ["1@1000 pass-trusted+3 4 0", "1@2000 drop-WrongPort - 0", "1@2100 drop-WrongPort - 0", "4@3000 pass-trusted+3 - 0",
         "4@3100 pass-all 1,2,5 0", "4@3200 pass-all 1,2,5 0"],
        ["error: trusted port", "ok", "ok", "fe80::fe 3 static - -", "end"]),
    "two hosts check an address within half a second": (
        "", [(1, 1000, CLAIM_11), (2, 1300, claim(M2, A11)), (2, 2400, RIVAL), (1, 2401, HOLDER)], "2500 show bindings\n",
        [CLAIMED, "2@1300 drop-Contested - 0", "2@2400 drop-WrongPort - 1", "1@2401 pass-all 2,3,4,5 0"],
        ["fe80::11 1 valid - 302401", "end"]),
    "two hosts check an address within a second": (
        "", [(1, 1000, CLAIM_11), (2, 1700, claim(M2, A11)), (2, 2700, RIVAL)], "2800 show bindings\n",
        [CLAIMED, "2@1700 pass-trusted+1 1,4 1", "2@2700 pass-all 1,3,4,5 1"], ["fe80::11 2 valid - 302700", "end"]),
    "a host that is away for half a second": (
        "",
        [(1, 1000, CLAIM_11), (2, 10000, RIVAL), (2, 10400, RIVAL), (2, 10500, RIVAL), (1, 11000, data(M1, A11)),
         (2, 11001, advertisement(M2, A11)), (1, 11500, data(M1, A11))],
        "10100 show bindings\n11002 show bindings\n",
        [CLAIMED, "2@10000 drop-WrongPort - 1", "2@10400 drop-WrongPort - 1", "2@10500 pass-all 1,3,4,5 0",
         "1@11000 drop-WrongPort - 1", "2@11001 pass-all 1,3,4,5 0", "1@11500 drop-WrongPort - 1"],
        ["fe80::11 1 testing-vp 2 10500", "end", "fe80::11 2 valid - 311001", "end"]),
    "a probe meets a host's own check": (
        "", [(1, 1000, CLAIM_11), (2, 1600, RIVAL), (2, 2100, RIVAL)], "",
        [CLAIMED, "2@1600 drop-WrongPort - 1", "2@2100 pass-all 1,3,4,5 1"], []),
    "a test that is longer than a host's own check": (
        "test_ms = 2500\n", [(1, 1000, CLAIM_11), (2, 1600, RIVAL), (2, 2100, RIVAL), (1, 3600, data(M1, A11))], "",
        [CLAIMED, "2@1600 drop-Contested - 0", "2@2100 drop-Contested - 0", "1@3600 pass-all 2,3,4,5 0"], []),
    "a lease for a full port": (
        "per_port = 1\n",
        [(1, 1000, CLAIM_11), (1, 1100, claim(M1, a("fe80::12"))), (5, 1000, claim(M2, A22)), (1, 2000, REQUEST),
         (5, 2100, REPLY), (1, 2300, data(M1, LEASED))],
        "2200 show ports\n",
        [CLAIMED, "5@1000 pass-trusted 4 0", "1@1100 drop-PortFull - 0", "1@2000 pass-all 2,3,4,5 0", "5@2100 pass-all 1 0",
         "1@2300 drop-NotAssigned - 0"],
        ["1 host up 1 0 0", "2 host up 0 0 0", "3 host up 0 0 0", "4 trusted up 0 0 0", "5 server up 1 0 0", "end"]),
    "a start": (
        "", [(1, 1000, data(M1, A11)), (1, 1400, data(M1, A11)), (1, 1500, data(M1, A11)), (1, 1501, data(M1, LEASED)),
             (1, 1502, data(M1, LEASED + 1))],
        "0 static 2001:db8:2::101 1\n",
        ["1@1000 drop-Unverified - 1", "1@1400 drop-Unverified - 1", "1@1500 pass-all 2,3,4,5 0",
         "1@1501 pass-all 2,3,4,5 0", "1@1502 drop-NotAssigned - 0"], ["ok"]),
    "router solicitations and their sources": (
        "",
        [(1, 1000, router_solicitation(M1, 0)), (1, 1100, CLAIM_11), (1, 1300, router_solicitation(M1, A11)),
         (1, 5300, router_solicitation(M1, A11)), (2, 2000, router_solicitation(M2, ELSEWHERE)),
         (3, 2000, router_solicitation(M3, A33)), (3, 6000, router_solicitation(M3, A33))],
        "",
        [CLAIMED, "1@1100 pass-trusted 4 0", "1@1300 drop-Unverified - 0", "2@2000 drop-OffLink - 0",
         "3@2000 drop-Unverified - 1", "1@5300 pass-all 2,3,4,5 1", "3@6000 pass-all 1,2,4,5 0"], []),
    "what passes unjudged": (
        "", [(1, 1000 + at, other(kind)) for at, kind in enumerate((0x8863, 0x8864, 0x8847, 0x8848, 0x9100, 0x0800, 0x0806))]
        + [(1, 1007, other(0x8100)), (1, 1008, other(0x88A8))], "",
        [f"1@{1000 + at} pass-all 2,3,4,5 0" for at in range(7)] + ["1@1007 drop-Tagged - 0", "1@1008 drop-Tagged - 0"], []),
}


def check(same):
    """Compares each history with what it must come to. `same` takes a name, what is compared, and both values."""
    for name, (keys, frames, lines, want, said) in HISTORIES.items():
        run = replay(plan_of(more=keys), frames, lines)
        same(name, "the frames come to", judged(run), want)
        same(name, "the replies are", replies(run), said)
        if name == "a probe meets a host's own check":
            probe = claim(0x020000000001, A11)
            same(name, "port 1 is sent", sent(run, 1), [(1600, probe), (1850, probe), (2100, RIVAL)])
    check_pool(same)
    check_offload(same)
    print(f"what operators meet: {len(HISTORIES) + 2} histories as they should be")


def check_pool(same):
    """A host that asks for 40 addresses, one after another, with an identity for each."""
    name, frames = "a port that uses up a pool", [(1, 1000, CLAIM_11), (5, 1000, claim(M2, A22))]
    for k in range(40):
        client = making.identity(0x020000001000 + k)
        leased = making.message(7, k, client, [(LEASED + k, 600)])
        frames.append((1, 2000 + 2 * k, to_server(M1, A11, making.message(3, k, client))))
        frames.append((5, 2001 + 2 * k, to_client(M2, A22, M1, A11, leased)))
    frames += [(1, 3000, data(M1, LEASED + 30)), (1, 3001, data(M1, LEASED + 31))]
    run = replay(plan_of(), frames, "2500 show ports\n")
    same(name, "dropped frames are", [row for row in judged(run) if "drop" in row], ["1@3001 drop-NotAssigned - 0"])
    same(name, "the port has", replies(run)[0], "1 host up 32 0 0")


def check_offload(same):
    """Segments that were joined to one frame."""
    run = replay(plan_of(), [(4, 1000, bytes(2962)), (1, 1001, bytes(1519))])
    rows = [entry.text for entry in run.entries() if entry.text.startswith("L")]
    same("joined segments", "they come to", rows, ["L 4 1000 2962 drop-Malformed 0 0", "L 1 1001 1519 drop-Malformed 0 0"])
