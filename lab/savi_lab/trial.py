"""One network: its stations come up, each attack is made, and honest traffic is tried."""
import contextlib
import multiprocessing
import os
import shutil
import signal
import time
from dataclasses import dataclass, field

from . import attacks, frames, leases
from .attacks import Field
from .namespaces import PATIENCE, PREFIX, Ground, LabFault, Late, die_with_parent, undisturbed, wait_until
from .networks import make_switch_space
from .stations import (HONEST, INTERFACE, OUTSIDE, OWN_PREFIX, STATIONS, Station, reaches, reaches_from, start_router,
                       start_server)


@dataclass
class Trial:
    """What became of one network. `honest` says of each kind of honest traffic whether it came through, or None where that
    wasn't tried; `said` is what the network had to say at its end. `journal` is the name of a file or None, and `checked`
    what `check` says of it, or None. `late` says what wasn't ready in time, so that the rest wasn't tried, or is empty."""

    title: str
    is_peer: bool
    is_plain: bool
    late: str = ""
    results: dict = field(default_factory=dict)
    honest: dict = field(default_factory=dict)
    said: list = field(default_factory=list)
    journal: str | None = None
    checked: str | None = None


class StationGround(Ground):
    """The namespaces of the stations, and what runs there."""

    names = ("switch", *STATIONS)

    def __init__(self, folder, find=shutil.which):
        self.folder, self.find, self.stations, self.network, self.field = folder, find, {}, None, None

    def build(self, make_network):
        space = make_switch_space()
        for name in STATIONS:
            self.stations[name] = Station(name, space)
        self.network = make_network(space, self.folder)
        return self.network

    def boot(self):
        """Brings the stations up. Answers whether there is a DHCPv6 server."""
        host1, host2, attacker, router, server = self.stations.values()
        host2.space.set(f"{INTERFACE}/suppress_frag_ndisc", 0)
        adverts = start_router(router, self.folder, self.find)
        for station in (server, attacker, host1, host2):
            station.up()
        if not wait_until(lambda: self.is_up(adverts), PATIENCE, 0.2):
            raise Late(f"not up within {PATIENCE} s: {', '.join(self.lacks())}")
        return start_server(server, self.folder, self.find) is not None

    def is_up(self, adverts):
        if adverts is None:
            router = self.stations["router"]
            message = frames.router_advertisement(router.link_local, OWN_PREFIX)
            router.send(frames.to_all_nodes(router.mac, router.link_local, 58, message))
        return not self.lacks()

    def lacks(self):
        """What isn't there yet."""
        host1, host2, attacker, router, server = self.stations.values()
        wanted = [(station, station.link_local) for station in (attacker, server, host1, host2)]
        wanted += [(host, host.address) for host in (host1, host2)]
        found = [f"{station.name} has no address" for station, address in wanted if not station.has(address)]
        return found + [f"{host.name} has no router" for host in (host1, host2) if router.link_local not in host.routers()]


def try_honest(ground, is_server):
    """The traffic of hosts that do nothing wrong."""
    host1, host2, _, router, _ = ground.stations.values()
    honest = {
        "host 1 to host 2 and back": reaches(host1, host2, host2.address),
        "host 2 to the outside and back": reaches(host2, router, OUTSIDE),
        "the same with 4,000 octets, in fragments": reaches(host2, router, OUTSIDE, length=4000),
    }
    client = ground.field.client
    reply = wait_until(client.lease, HONEST, 0) if is_server else None
    address = leases.address_of(reply) if reply else None
    honest["host 1 gets a DHCPv6 lease"] = bool(address) if is_server else None
    honest["host 1 to the outside and back, from the leased address"] = (
        reaches_from(host1, router, address) if address else False if is_server else None)
    if ground.network.goes_away:
        ground.network.go_away()
        honest["host 1 to host 2 and back, when it has left and come again"] = reaches(host1, host2, host2.address)
    return honest


def make(make_network, folder, tell):
    """Tries one network. `tell` is called with each thing worth saying meanwhile. What a switch did until something was late
    is judged too."""
    with StationGround(folder) as ground:
        network = ground.build(make_network)
        trial, is_joined = Trial(network.title, network.is_peer, network.is_plain), False
        try:
            network.up()
            is_joined = True
            try_all(ground, trial, tell)
        except Late as late:
            trial.late = str(late)
        if is_joined:
            trial.said = network.close()
            trial.journal, trial.checked = network.journal, network.check()
    return trial


def try_all(ground, trial, tell):
    is_server = ground.boot()
    tell(f"{trial.title}: the stations are up")
    ground.field = Field(ground.stations, ground.network.joins_hosts)
    ground.field.client = leases.Client(ground.field.host1)
    for title, attack in attacks.ATTACKS.items():
        trial.results[title] = attacks.run(attack, ground.field)
    trial.honest = try_honest(ground, is_server)


def work(answer, make_network, folder, tell):
    """As a process of its own, which cleans up and ends when the lab does; where the lab was killed, its folder too."""
    die_with_parent(signal.SIGTERM)
    lab, began = os.getppid(), time.monotonic()
    try:
        answer.send(make(make_network, folder, tell))
        tell(f"{os.path.basename(folder)}: {time.monotonic() - began:.0f} s")
    except LabFault as fault:
        answer.send(type(fault)(f"{os.path.basename(folder)}: {fault}"))
    finally:
        above = os.path.dirname(folder)
        if os.getppid() != lab and os.path.basename(above).startswith(PREFIX):
            with undisturbed(), contextlib.suppress(OSError):
                shutil.rmtree(folder, ignore_errors=True)
                os.rmdir(above)


def make_all(networks, folder, tell, deadline):
    """Tries the networks at once, each in a process and a folder of its own. Answers of each, in their order, the trial, or
    the fault for which there is none."""
    context = multiprocessing.get_context("fork")
    workers = []
    try:
        for name, make_network in networks.items():
            own = os.path.join(folder, name)
            os.mkdir(own)
            receiving, sending = context.Pipe(duplex=False)
            workers.append((context.Process(target=work, args=(sending, make_network, own, tell)), receiving))
            workers[-1][0].start()
            sending.close()
        return [answer_of(name, receiving, deadline) for name, (_, receiving) in zip(networks, workers)]
    finally:
        with undisturbed():
            end_all([worker for worker, _ in workers])


def answer_of(name, receiving, deadline):
    """What a worker answers until the deadline, which is a moment of the clock, or None."""
    if not receiving.poll(deadline and max(0, deadline - time.monotonic())):
        return Late(f"{name}: not done within the time of --most")
    try:
        return receiving.recv()
    except EOFError:
        return LabFault(f"{name}: it ended without an answer")


def end_all(workers):
    """Each cleans up when it is asked to end; one that doesn't is made to, and what it leaves is removed with the rest."""
    for worker in workers:
        worker.terminate()
    for worker in workers:
        worker.join(PATIENCE)
        worker.kill()
        worker.join()
