"""A packet socket whose frames have their tags, for the peers that Scapy's layers make."""

import socket
import struct
import time

PACKET_AUXDATA, SOL_PACKET, VLAN_VALID, OUTGOING = 8, 263, 1 << 4, 4


def say(text):
    print(text, flush=True)


def octets_of(mac):
    return bytes.fromhex(mac.replace(":", ""))


def frame_id(octets):
    """The FrameID of a frame of EtherType 0x8892, or 0."""
    at = 16 if octets[12:14] == b"\x81\0" else 12
    return int.from_bytes(octets[at + 2:at + 4], "big") if octets[at:at + 2] == b"\x88\x92" else 0


class PacketSocket:
    """A packet socket that returns the frames for one end. The kernel has removed a tag; it is put back."""

    def __init__(self, interface, is_mine):
        self.socket = socket.socket(socket.AF_PACKET, socket.SOCK_RAW, socket.htons(3))
        self.socket.setsockopt(SOL_PACKET, PACKET_AUXDATA, 1)
        self.socket.bind((interface, 3))
        self.is_mine = is_mine

    def send(self, packet):
        self.socket.send(bytes(packet).ljust(60, b"\0"))

    def take(self):
        """The next frame that waits in the socket, or None if it is not for this end."""
        octets, beside, _, address = self.socket.recvmsg(2048, 256)
        if address[2] == OUTGOING or not self.is_mine(octets):
            return None
        for level, kind, told in beside:
            status, _, _, _, _, tag = struct.unpack("IIIHHH", told[:18])
            if level == SOL_PACKET and kind == PACKET_AUXDATA and status & VLAN_VALID:
                octets = octets[:12] + b"\x81\0" + struct.pack(">H", tag) + octets[12:]
        return octets

    def receive(self, until):
        """The next frame for this end, or None at that time."""
        while (left := until - time.monotonic()) > 0:
            self.socket.settimeout(left)
            try:
                octets = self.take()
            except TimeoutError:
                return None
            if octets is not None:
                return octets
        return None
