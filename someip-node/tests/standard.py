"""SOME/IP and its Service Discovery, from the public standard alone: what a peer sends and reads. Nothing of it is taken
from this repository."""
import socket
import struct

REQUEST, NOTIFICATION, RESPONSE, ERROR, TP = 0x00, 0x02, 0x80, 0x81, 0x20
FIND, OFFER, SUBSCRIBE, ACK = 0, 1, 6, 7


def message(service, method, client, session, kind, payload, interface=1, code=0):
    """A message (SOME/IP Protocol Specification, 'Header')."""
    head = struct.pack(">HHIHHBBBB", service, method, 8 + len(payload), client, session, 1, interface, kind, code)
    return head + payload


class Message:
    """The first message of a datagram."""

    def __init__(self, data):
        (self.service, self.method, self.length, self.client, self.session, _, self.interface, self.kind,
         self.code) = struct.unpack(">HHIHHBBBB", data[:16])
        self.payload = data[16:8 + self.length]


def entry(kind, service, instance, major, ttl, last, options=0):
    """An entry (SOME/IP Service Discovery, 'Entries'): with as many options of the first run as are said."""
    return struct.pack(">BBBBHHI", kind, 0, 0, options << 4, service, instance, major << 24 | ttl) + last


def endpoint_option(address, port):
    """An IPv4 Endpoint Option for UDP."""
    return struct.pack(">HBB4sBBH", 9, 4, 0, socket.inet_aton(address), 0, 17, port)


def discovery(session, reboot, entries, options=b""):
    """A message of Service Discovery."""
    flags = bytes([0xC0 if reboot else 0x40, 0, 0, 0])
    payload = flags + struct.pack(">I", len(entries)) + entries + struct.pack(">I", len(options)) + options
    return message(0xFFFF, 0x8100, 0, session, NOTIFICATION, payload)


def entries_of(data):
    """The entries of a message of Service Discovery: kind, service, instance, TTL and the last four bytes."""
    payload = Message(data).payload
    length = struct.unpack(">I", payload[4:8])[0]
    for at in range(8, 8 + length, 16):
        kind, _, _, _, service, instance, major_ttl = struct.unpack(">BBBBHHI", payload[at:at + 12])
        yield kind, service, instance, major_ttl & 0xFFFFFF, payload[at + 12:at + 16]


class Joined:
    """Segments of one message, put together (SOME/IP Transport Protocol)."""

    def __init__(self):
        self.bytes, self.total = {}, None

    def take(self, found):
        """Takes a segment, and returns the whole payload where it is there."""
        head = struct.unpack(">I", found.payload[:4])[0]
        offset, more, part = head & ~15, head & 1, found.payload[4:]
        self.bytes[offset] = part
        if not more:
            self.total = offset + len(part)
        if self.total is None or sum(map(len, self.bytes.values())) < self.total:
            return None
        return b"".join(self.bytes[at] for at in sorted(self.bytes))
