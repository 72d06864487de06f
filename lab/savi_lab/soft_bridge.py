"""A bridge that keeps VLANs apart, and floods each frame: what stands behind a trunk where the kernel has no bridge that
filters VLANs."""
import selectors
import socket
import struct
import threading

from reading.frame import BAD_TAG, inner_frame, read_tag, tagged_frame

from .stations import ETH_P_ALL, PACKET_ADD_MEMBERSHIP, PACKET_MR_PROMISC, PACKET_OUTGOING, SOL_PACKET

# <linux/if_packet.h>: the kernel takes the tag out of a frame, and tells it beside.
PACKET_AUXDATA, STATUS_VLAN_VALID = 8, 1 << 4
AUXDATA = struct.Struct("=IIIHHHH")

HEADER, LONGEST = 14, 1 << 16


class SoftBridge(threading.Thread):
    """`ports` are names of interfaces in a namespace, each with the number of its VLAN, or with those of a trunk."""

    def __init__(self, space, ports):
        super().__init__(daemon=True)
        self.ports, self.selector = ports, selectors.DefaultSelector()
        with space.entered():
            self.ends = {name: opened(name) for name in ports}
        for name, end in self.ends.items():
            self.selector.register(end, selectors.EVENT_READ, name)

    def run(self):
        """Until the interfaces are gone."""
        while self.selector.get_map():
            for key, _ in self.selector.select():
                try:
                    self.take(key.data, *key.fileobj.recvmsg(LONGEST, socket.CMSG_SPACE(AUXDATA.size)))
                except OSError:
                    self.selector.unregister(key.fileobj)

    def take(self, port, frame, control, _, sender):
        if sender[2] == PACKET_OUTGOING or len(frame) < HEADER:
            return
        frame = with_own_tag(frame, control)
        tag, vlans = read_tag(frame), self.ports[port]
        vlan = tag if isinstance(vlans, tuple) else vlans if tag is None else BAD_TAG
        for name, others in self.ports.items():
            if name != port and vlan in (others if isinstance(others, tuple) else (others,)):
                inner = inner_frame(frame)
                self.ends[name].send(tagged_frame(vlan, inner) if isinstance(others, tuple) else inner)


def opened(name):
    end = socket.socket(socket.AF_PACKET, socket.SOCK_RAW, 0)
    membership = struct.pack("=IHH8s", socket.if_nametoindex(name), PACKET_MR_PROMISC, 0, b"")
    end.setsockopt(SOL_PACKET, PACKET_ADD_MEMBERSHIP, membership)
    end.setsockopt(SOL_PACKET, PACKET_AUXDATA, 1)
    end.bind((name, ETH_P_ALL))
    return end


def with_own_tag(frame, control):
    """A frame with the tag that the kernel took out of it, if it did."""
    for level, kind, data in control:
        if (level, kind) == (SOL_PACKET, PACKET_AUXDATA):
            status, _, _, _, _, tag, _ = AUXDATA.unpack(data[: AUXDATA.size])
            if status & STATUS_VLAN_VALID:
                return tagged_frame(tag, frame)
    return frame
