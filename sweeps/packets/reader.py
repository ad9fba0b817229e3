"""A small reader of recordings, as docs/FORMATS.md says: the packets, and the fault that ends them."""
import struct
from typing import NamedTuple, Optional

from model import Packet

PCAP = {b"\xd4\xc3\xb2\xa1": ("<", 1000), b"\xa1\xb2\xc3\xd4": (">", 1000),
        b"\x4d\x3c\xb2\xa1": ("<", 1), b"\xa1\xb2\x3c\x4d": (">", 1)}
SECTION = b"\x0a\x0d\x0d\x0a"
ORDERS = {b"\x4d\x3c\x2b\x1a": "<", b"\x1a\x2b\x3c\x4d": ">"}
TAGS = (0x8100, 0x88A8, 0x9100)
HELD = 16 * 1024 * 1024


class Piece(NamedTuple):
    """A packet or a block of a file: where it begins and ends, and the packet in it, if it is one."""
    start: int
    end: int
    packet: Optional[Packet]


def pieces_of(data):
    """The pieces of a file, and its fault, `(NAME, PLACE)`, or None."""
    if data[:4] in PCAP and len(data) >= 24:
        return pcap_pieces(data)
    if data[:4] == SECTION and len(data) >= 12:
        return block_pieces(data)
    return [], ("NotRecording", 0)


# ---- Classic pcap

def pcap_pieces(data):
    order, unit = PCAP[data[:4]]
    link = struct.unpack(order + "I", data[20:24])[0] & 0xFFFF
    pieces, place = [], 24
    while place < len(data):
        if len(data) - place < 16:
            return pieces, ("Truncated", place)
        seconds, fraction, size, _ = struct.unpack(order + "IIII", data[place:place + 16])
        end = place + 16 + size
        if end - place > HELD:
            return pieces, ("BlockTooLong", place)
        if end > len(data):
            return pieces, ("Truncated", place)
        time = seconds * 10**9 + fraction * unit
        pieces.append(Piece(place, end, packet_of(time, 0, link, data[place + 16:end])))
        place = end
    return pieces, None


# ---- pcapng, with times in microseconds: no interface here has options

def block_pieces(data):
    pieces, place, order, links = [], 0, "<", []
    while place < len(data):
        fault, order = head_of(data, place, order)
        if fault:
            return pieces, (fault, place)
        size = struct.unpack(order + "I", data[place + 4:place + 8])[0]
        body, last = data[place + 8:place + size - 4], data[place + size - 4:place + size]
        kind = struct.unpack(order + "I", data[place:place + 4])[0]
        fault, packet = (None, None)
        if last != data[place + 4:place + 8]:
            fault = "BlockLength"
        elif data[place:place + 4] == SECTION:
            links = []
            fault = "BlockLength" if len(body) < 16 else None
        elif kind == 1:
            fault = "BlockLength" if len(body) < 8 else None
            links = links if fault else links + [struct.unpack(order + "HHI", body[:8])]
        elif kind in (2, 3, 6):
            fault, packet = packet_in(kind, body, order, links)
        if fault:
            return pieces, (fault, place)
        place += size
        pieces.append(Piece(place - size, place, packet))
    return pieces, None


def head_of(data, place, order):
    """The fault that the head of a block shows, or None, and the order of numbers from there on."""
    if len(data) - place < 12:
        return "Truncated", order
    if data[place:place + 4] == SECTION:
        order = ORDERS.get(data[place + 8:place + 12])
        if order is None:
            return "BadOrder", order
    size = struct.unpack(order + "I", data[place + 4:place + 8])[0]
    if size < 12 or size % 4:
        return "BlockLength", order
    if size > HELD:
        return "BlockTooLong", order
    return ("Truncated" if place + size > len(data) else None), order


def packet_in(kind, body, order, links):
    """The fault of a block that is a packet, and the packet."""
    head = 4 if kind == 3 else 20
    if len(body) < head:
        return "BlockLength", None
    interface, time = 0, None
    if kind == 3:
        size, = struct.unpack(order + "I", body[:4])
        if links and links[0][2]:
            size = min(size, links[0][2])
    else:
        form = "HHIIII" if kind == 2 else "IIIII"
        fields = struct.unpack(order + form, body[:20])
        interface, size = fields[0], fields[-2]
        time = (fields[-4] << 32 | fields[-3]) * 1000
    if head + size > len(body):
        return "BlockLength", None
    if interface >= len(links):
        return "UnknownInterface", None
    return None, packet_of(time, interface, links[interface][0], body[head:head + size])


# ---- Link layers

def packet_of(time, interface, link, frame):
    """A packet, with the bytes of IPv4 where the link layer carries it, and else none."""
    vlans = []
    if link == 1:
        place = 12
        while len(vlans) < 2 and len(frame) >= place + 4 and number(frame, place) in TAGS:
            vlans.append(number(frame, place + 2) & 0xFFF)
            place += 4
        begin = place + 2
    elif link in (113, 276):
        place, begin = (14, 16) if link == 113 else (0, 20)
    elif link in (101, 228):
        return Packet(time, interface, link, vlans, frame)
    else:
        return Packet(time, interface, None, vlans, b"")
    is_ipv4 = len(frame) >= begin and number(frame, place) == 0x0800
    return Packet(time, interface, link, vlans, frame[begin:] if is_ipv4 else b"")


def number(data, place):
    return int.from_bytes(data[place:place + 2], "big")
