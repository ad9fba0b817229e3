"""Recordings with packets that give no datagram, and with faults: what `recording` and `audit` tell of them."""
import struct

MESSAGE = struct.pack(">HHIHHBBBB", 0x1111, 1, 8, 0, 1, 1, 1, 1, 0)
SHOWN = "1 message 1111.0001 length 8 client 0000 session 0001 interface 01 type REQUEST_NO_RETURN code 00 payload -\n"


def ipv4(flags=0, protocol=17, udp_len=8 + len(MESSAGE), version=0x45, identification=0):
    """An IPv4 packet from 1.2.3.4:40001 to 1.2.3.5:30509 with a message that waits for no answer."""
    udp = struct.pack(">HHHH", 40001, 30509, udp_len, 0) + MESSAGE
    return struct.pack(">BBHHHBBH", version, 0, 20 + len(udp), identification, flags, 64, protocol, 0) + bytes(
        (1, 2, 3, 4, 1, 2, 3, 5)) + udp


def fragment(identification, place, byte):
    """A fragment of a packet with eight bytes, which is not the last."""
    head = struct.pack(">BBHHHBBH", 0x45, 0, 28, identification, 0x2000 | place, 64, 17, 0)
    return head + bytes((1, 2, 3, 4, 1, 2, 3, 5)) + bytes((byte,)) * 8


# Each kind, and packets of it, each of an interface: interface 0 is of raw IP, interface 1 of another link type.
KINDS = (
    ("of another link type", ((1, ipv4()), (1, b""))),
    ("not IPv4", ((0, ipv4(version=0x65)), (0, b""))),
    ("not UDP", ((0, ipv4(protocol=6)), (0, ipv4(protocol=6)[:-1]), (0, ipv4(protocol=0, udp_len=7)),
                 (0, ipv4(flags=0x1FFF, protocol=6)), (0, ipv4(flags=0x2000, protocol=1)))),
    ("cut short", ((0, ipv4()[:-1]), (0, ipv4(udp_len=7)[:-1]), (0, ipv4()[:28]))),
    ("with a bad UDP length", ((0, ipv4(udp_len=7)), (0, ipv4(udp_len=9 + len(MESSAGE))), (0, ipv4(udp_len=0)))),
)


def block(kind, body):
    length = 12 + len(body)
    return struct.pack("<II", kind, length) + body + struct.pack("<I", length)


def section(magic=0x1A2B3C4D):
    return block(0x0A0D0D0A, struct.pack("<IHHq", magic, 1, 0, -1))


def interface(link):
    return block(1, struct.pack("<HHI", link, 0, 0))


def packet(of, data):
    return block(6, struct.pack("<IIIII", of, 0, 0, len(data), len(data)) + data + bytes(-len(data) % 4))


def recording(packets):
    """A section of pcapng with the two interfaces and these packets."""
    return section() + interface(101) + interface(105) + b"".join(packet(*it) for it in packets)


# Counts of packets of each kind, and what is told of them. The last three kinds are copies, fragments without the rest
# and fragments that differ.
LEFT_OUT = (
    ((1, 0, 0, 0, 0, 0, 0, 0), "left out 1 of another link type"),
    ((0, 2, 0, 0, 0, 0, 0, 0), "left out 2 not IPv4"),
    ((0, 0, 3, 2, 0, 0, 1, 0), "left out 3 not UDP, 2 cut short, 1 fragments without the rest"),
    ((0, 0, 0, 0, 0, 7, 0, 2), "left out 7 copies, 2 fragments that differ"),
    ((1, 2, 4, 5, 60, 7, 8, 9), "left out 1 of another link type, 2 not IPv4, 4 not UDP, 5 cut short, 60 with a bad UDP "
     "length, 7 copies, 8 fragments without the rest, 9 fragments that differ"),
)


def left_out(counts):
    """So many packets of each kind, none of which is a copy of another but those of the sixth."""
    links, others, not_udp, cut, lengths, copies, parts, differing = counts
    numbers = iter(range(1, 1000))
    yield from ((1, ipv4(identification=next(numbers))) for _ in range(links))
    yield from ((0, ipv4(version=0x65, identification=next(numbers))) for _ in range(others))
    yield from ((0, ipv4(protocol=6, identification=next(numbers))) for _ in range(not_udp))
    yield from ((0, ipv4(identification=next(numbers))[:-1]) for _ in range(cut))
    yield from ((0, ipv4(udp_len=7, identification=next(numbers))) for _ in range(lengths))
    if copies:
        yield from [(0, ipv4(identification=next(numbers)))] * (1 + copies)
    yield from ((0, fragment(next(numbers), 0, 1)) for _ in range(parts))
    if differing:
        number = next(numbers)
        yield from ((0, fragment(number, place, 1)) for place in range(differing - 1))
        yield 0, fragment(number, 0, 2)


DATAGRAM = (0, ipv4())
IPV6 = KINDS[1][1][0]
# What ends a recording after its packets, and the fault, whose place is the first byte of it.
FAULTS = (
    ("Truncated", section()[:11]),
    ("Truncated", packet(*DATAGRAM)[:-1]),
    ("BadOrder", section(0x1A2B3C4E)),
    ("BlockLength", struct.pack("<III", 99, 8, 8)),
    ("BlockLength", struct.pack("<III", 99, 14, 14) + bytes(8)),
    ("BlockLength", block(99, bytes(4))[:-4] + struct.pack("<I", 20)),
    ("BlockLength", block(1, bytes(4))),
    ("UnknownInterface", packet(2, b"")),
)


def told(counts):
    """What is told of so many packets of each kind."""
    parts = [f"{count} {words}" for count, (words, _) in zip(counts, KINDS) if count]
    return f"left out {', '.join(parts)}\n"


def recordings():
    """Words, a recording, the status, and the texts on standard output and on standard error."""
    for datagrams, data, status, left, fault in recorded():
        error = (f"recording: {left}" if left else "") + fault
        yield ["recording"], data, status, SHOWN if datagrams else "", error
        yield ["recording", "--ports", "1"], data, status, "", error
        # No endpoint is learnt, so the audit looks at no datagram.
        passed = f"not looked at {datagrams} datagrams\n" if datagrams else ""
        text = f"audited 0 datagrams, 0 messages, 0 findings\n{left}{passed}no Offer was seen\n"
        yield ["audit"], data, status, text, fault
    for counts, text in LEFT_OUT:
        shown = SHOWN if counts[5] else ""
        yield ["recording", "--dedup", "1"], recording(left_out(counts)), 0, shown, f"recording: {text}\n"


def recorded():
    """How many datagrams, a recording, the status, what is told of packets, and what of a fault."""
    for index, (_, packets) in enumerate(KINDS):
        counts = [0] * len(KINDS)
        counts[index] = len(packets)
        yield 0, recording(packets), 0, told(counts), ""
    everything = [it for times, (_, packets) in enumerate(KINDS) for it in packets[:1] * (times + 1)]
    yield 1, recording([DATAGRAM, *reversed(everything)]), 0, told(range(1, len(KINDS) + 1)), ""
    yield 1, recording([DATAGRAM]), 0, "", ""
    for fault, end in FAULTS:
        front = recording([DATAGRAM])
        yield 1, front + end, 1, "", f"recording: {fault} at {len(front)}\n"
        front = recording([DATAGRAM, IPV6])
        yield 1, front + end, 1, told((0, 1)), f"recording: {fault} at {len(front)}\n"
    for data in (b"", bytes(24), section()[:11], struct.pack("<I", 0xA1B2C3D4) + bytes(19)):
        yield 0, data, 1, "", "recording: NotRecording at 0\n"
