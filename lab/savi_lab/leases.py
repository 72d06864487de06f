"""A client of DHCPv6 (RFC 8415), and an attacker who answers it."""
import os
import select
import socket
import time

from reading import making
from reading.making import octets
from reading.plan import address_text, read_address

SOLICIT, ADVERTISE, REQUEST, REPLY = 1, 2, 3, 7
CLIENT_ID, SERVER_ID, IA_NA, IA_ADDRESS, PREFERENCE, ELAPSED_TIME, DNS_SERVERS = 1, 2, 3, 5, 7, 8, 23
CLIENT_PORT, SERVER_PORT = 546, 547
ALL_SERVERS = "ff02::1:2"

FALSE_LEASE, FALSE_DNS = read_address("2001:db8:bad:d::66"), read_address("2001:db8:bad:d::53")


def options_of(octets_of_options):
    """The options by their codes; of one code the first counts."""
    found, at = {}, 0
    while at + 4 <= len(octets_of_options):
        code, length = (int.from_bytes(octets_of_options[at + place : at + place + 2], "big") for place in (0, 2))
        found.setdefault(code, octets_of_options[at + 4 : at + 4 + length])
        at += 4 + length
    return found


def address_of(answer):
    """The address that an answer leases, or None."""
    association = options_of(answer.get(IA_NA, b"")[12:])
    content = association.get(IA_ADDRESS, b"")
    return int.from_bytes(content[:16], "big") if len(content) >= 24 else None


class Attacker:
    """It answers each message of a client with a lease of its own, and says that nobody is to be preferred to it."""

    def __init__(self, field, client):
        self.field, self.client = field, client
        self.identity = making.identity(field.attacker.mac)

    def answer(self, kind, heard, seconds=1.0):
        """Waits for the client's message of the kind `heard`, and answers by one of the other kind."""
        def is_it(frame):
            return frame[54:58] == octets(CLIENT_PORT, 2) + octets(SERVER_PORT, 2) and frame[62:63] == bytes([heard])

        frame = self.field.attacker.wait_for(is_it, seconds)
        if frame is None:
            return
        options = options_of(frame[66:])
        more = making.option(SERVER_ID, self.identity) + making.option(PREFERENCE, b"\xff")
        more += making.option(DNS_SERVERS, octets(FALSE_DNS, 16))
        transaction = int.from_bytes(frame[63:66], "big")
        payload = making.message(kind, transaction, options.get(CLIENT_ID), [(FALSE_LEASE, 3600)], more=more)
        own, host = self.field.attacker, self.client.host
        self.field.strike(making.to_client(own.mac, own.link_local, host.mac, host.link_local, payload))


class Client:
    def __init__(self, host):
        self.host, self.identity = host, making.identity(host.mac)
        self.socket = host.in_space(lambda: socket.socket(socket.AF_INET6, socket.SOCK_DGRAM))
        self.socket.bind((address_text(host.link_local), CLIENT_PORT, 0, host.index))

    def send(self, kind, more=b""):
        self.transaction = os.urandom(3)
        more += making.option(ELAPSED_TIME, bytes(2))
        payload = making.message(kind, int.from_bytes(self.transaction, "big"), self.identity, more=more)
        self.socket.sendto(payload, (ALL_SERVERS, SERVER_PORT, 0, self.host.index))

    def answers(self, kind, seconds):
        """The options of each answer of a kind that comes within so many seconds."""
        deadline = time.monotonic() + seconds
        while (left := deadline - time.monotonic()) > 0 and select.select([self.socket], [], [], left)[0]:
            payload = self.socket.recv(2048)
            if payload[:1] == bytes([kind]) and payload[1:4] == self.transaction:
                yield options_of(payload[4:])

    def choose(self, seconds):
        """The offer with the greatest preference, of equal ones the first; 255 ends the wait (RFC 8415 section 18.2.9)."""
        best = None
        for offer in self.answers(ADVERTISE, seconds):
            if best is None or offer.get(PREFERENCE, b"\0") > best.get(PREFERENCE, b"\0"):
                best = offer
            if best.get(PREFERENCE) == b"\xff":
                break
        return best

    def lease(self, attacker=None, seconds=1.0):
        """The options of the reply that it accepts, or None. An attacker answers too where one is there."""
        self.send(SOLICIT)
        if attacker:
            attacker.answer(ADVERTISE, SOLICIT)
        offer = self.choose(seconds)
        if offer is None:
            return None
        server = offer.get(SERVER_ID, b"")
        self.send(REQUEST, making.option(SERVER_ID, server))
        if attacker:
            attacker.answer(REPLY, REQUEST)
        return next((reply for reply in self.answers(REPLY, 2 * seconds) if reply.get(SERVER_ID) == server), None)
