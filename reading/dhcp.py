"""Messages of DHCPv6 (RFC 8415 sections 8 and 21), as far as the switch reads them."""
from dataclasses import dataclass, field

SOLICIT, REQUEST, RENEW, REBIND, REPLY, RELEASE, DECLINE, RELAY_FORW, RELAY_REPL = 1, 3, 5, 6, 7, 8, 9, 12, 13

CLIENT_ID, IA_NA, IA_TA, IA_ADDRESS, STATUS, RAPID_COMMIT = 1, 3, 4, 5, 13, 14

# The octets of an association in front of its options.
FIXED_OF_IA = {IA_NA: 12, IA_TA: 4}


class Refused(Exception):
    """A message that isn't well-formed."""


@dataclass
class Message:
    """`leases` are (address, valid lifetime in s) in the order of the message."""

    kind: int
    transaction: int
    client: bytes | None = None
    is_rapid: bool = False
    leases: list = field(default_factory=list)

    @property
    def asks(self):
        """A message that a server may answer by a Reply with addresses: request, renew, rebind, or solicit with rapid
        commit, from a client that names itself."""
        is_asking = self.kind in (REQUEST, RENEW, REBIND) or self.kind == SOLICIT and self.is_rapid
        return is_asking and self.client is not None


def read_message(octets):
    """The message, or None where it is refused. What only relays send is read no further than its fixed part."""
    if len(octets) < 4:
        return None
    message = Message(octets[0], int.from_bytes(octets[1:4], "big"))
    if message.kind not in (RELAY_FORW, RELAY_REPL):
        try:
            read_body(message, options(octets[4:]))
        except Refused:
            return None
    return message


def options(octets):
    """The options that fill the octets, as (code, content)."""
    found, at = [], 0
    while at < len(octets):
        if len(octets) - at < 4:
            raise Refused
        code, length = int.from_bytes(octets[at : at + 2], "big"), int.from_bytes(octets[at + 2 : at + 4], "big")
        if at + 4 + length > len(octets):
            raise Refused
        found.append((code, octets[at + 4 : at + 4 + length]))
        at += 4 + length
    return found


def status(content):
    if len(content) < 2:
        raise Refused
    return int.from_bytes(content[:2], "big")


def read_body(message, found):
    """A status other than success voids the addresses of the message, unless a client gives them up by it."""
    gives_up, is_void = message.kind in (RELEASE, DECLINE), False
    for code, content in found:
        if code == CLIENT_ID:
            if not 3 <= len(content) <= 130:
                raise Refused
            message.client = content if message.client is None else message.client
        elif code in FIXED_OF_IA:
            message.leases += read_association(content, FIXED_OF_IA[code], gives_up)
        elif code == STATUS:
            is_void |= status(content) != 0
        elif code == RAPID_COMMIT:
            message.is_rapid = True
    if is_void and not gives_up:
        message.leases = []


def read_association(content, fixed, gives_up):
    if len(content) < fixed:
        raise Refused
    leases, is_void = [], False
    for code, inner in options(content[fixed:]):
        if code == IA_ADDRESS:
            leases += read_address(inner, gives_up)
        elif code == STATUS:
            is_void |= status(inner) != 0
    return [] if is_void and not gives_up else leases


def read_address(content, gives_up):
    """An address, its preferred and its valid lifetime, and options."""
    if len(content) < 24:
        raise Refused
    is_void = any([status(inner) != 0 for code, inner in options(content[24:]) if code == STATUS])
    lease = int.from_bytes(content[:16], "big"), int.from_bytes(content[20:24], "big")
    return [] if is_void and not gives_up else [lease]
