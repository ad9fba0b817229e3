"""The recordings of examples/taps, whose stories stand beside them in README.md. Written to standard output.

    write.py > two.pcapng
    write.py one > one.pcapng
    write.py busy > busy.pcapng

In `two` two taps stand on the way between the nodes a and b: tap 0 at a, and tap 1 at b, where packets have VLAN 5. So each
packet comes twice, at the tap of its receiver 50 microseconds later. One answer is lost between the taps. In `one` a tap
has only what b sends: ten calls. In `busy` a tap has twelve seconds of calls and events. One answer is slow, one does not
come, and two events are lost.
"""
import struct
import sys

A, B, GROUP, NAMES = "192.168.0.1", "192.168.0.2", "239.0.0.1", "224.0.0.251"
BEGIN = 1_700_000_000_000_000
LATER = 50
MOST = 1480


# ---- SOME/IP

def message(service, method, client, session, kind, payload):
    return struct.pack(">HHIHHBBBB", service, method, 8 + len(payload), client, session, 1, 1, kind, 0) + payload


def offer(session):
    """An Offer of 1234.0001, major version 1, at UDP port 30509 of a, for 12 seconds."""
    entry = struct.pack(">BBBBHHBBHI", 1, 0, 0, 0x10, 0x1234, 1, 1, 0, 12, 0)
    option = struct.pack(">HBB4sBBH", 9, 4, 0, address(A), 0, 17, 30509)
    payload = struct.pack(">BxxxI", 0xC0, len(entry)) + entry + struct.pack(">I", len(option)) + option
    return udp(A, 30490, GROUP, 30490, message(0xFFFF, 0x8100, 0, session, 2, payload))


def call(session):
    return udp(B, 40001, A, 30509, message(0x1234, 0x0421, 0x0102, session, 0, b"\x01"))


def answer(session):
    return udp(A, 30509, B, 40001, message(0x1234, 0x0421, 0x0102, session, 0x80, b"\x2a"))


def event(session):
    """An event of 2000 bytes, which are too many for one packet."""
    return udp(A, 30509, B, 40002, message(0x1234, 0x8001, 0, session, 2, bytes(range(250)) * 8))


# ---- mDNS

def question():
    """Who is bench.local?"""
    name = b"\x05bench\x05local\x00"
    return udp(B, 5353, NAMES, 5353, struct.pack(">HHHHHH", 0, 0, 1, 0, 0, 0) + name + struct.pack(">HH", 1, 1))


# ---- Packets

def address(text):
    return bytes(map(int, text.split(".")))


def checksum(data):
    total = sum(struct.unpack(f">{len(data) // 2}H", data))
    while total > 0xFFFF:
        total = (total & 0xFFFF) + (total >> 16)
    return ~total & 0xFFFF


def udp(source, source_port, destination, destination_port, data):
    """A datagram without a checksum of its own, and between which addresses it goes."""
    return source, destination, struct.pack(">HHHH", source_port, destination_port, 8 + len(data), 0) + data


def ipv4(identification, source, destination, data):
    """The IPv4 packets of a datagram: one, or fragments."""
    for place in range(0, len(data), MOST):
        part = data[place:place + MOST]
        more = 0x2000 if place + MOST < len(data) else 0
        head = struct.pack(">BBHHHBBH", 0x45, 0, 20 + len(part), identification, more | place // 8, 64, 17, 0)
        head += address(source) + address(destination)
        yield head[:10] + struct.pack(">H", checksum(head)) + head[12:] + part


def ethernet(source, destination, vlan, packet):
    receiver = address(destination)
    if receiver[0] >= 224:
        to = b"\x01\x00\x5e" + bytes((receiver[1] & 0x7F,)) + receiver[2:]
    else:
        to = b"\x02\x00" + receiver
    tag = struct.pack(">HH", 0x8100, vlan) if vlan else b""
    return (to + b"\x02\x00" + address(source) + tag + b"\x08\x00" + packet).ljust(60, b"\0")


# ---- The recording

def block(kind, body):
    body += bytes(-len(body) % 4)
    return struct.pack("<II", kind, 12 + len(body)) + body + struct.pack("<I", 12 + len(body))


def captured(time, tap, data):
    """A packet of a tap, with the time in microseconds."""
    return block(6, struct.pack("<IIIII", tap, time >> 32, time & 0xFFFFFFFF, len(data), len(data)) + data)


# Milliseconds after the beginning, the datagram, and whether it comes to the second tap.
STORY = [
    (0, offer(1), True),
    (200, question(), True),
    (1000, call(1), True),
    (1003, answer(1), True),
    (1500, event(1), True),
    (2000, call(2), True),
    (2003, answer(2), False),
    (4500, offer(2), True),
]


CALLS = [(500_000 * number, call(number)) for number in range(1, 11)]


def speed(session):
    """An event of two bytes."""
    return udp(A, 30509, B, 40001, message(0x1234, 0x8002, 0, session, 2, b"\x00\x2a"))


def busy():
    """A call every 100 milliseconds and an event about every 50, with the microseconds after the beginning."""
    yield 0, offer(1)
    for number in range(1, 121):
        yield 100_000 * number, call(number)
        if number < 120:
            yield 100_000 * number + (40_000 if number == 60 else 2_000 + 7 * number), answer(number)
    for session in range(1, 241):
        if session not in (100, 101):
            yield 50_000 * session + session * 37 % 400, speed(session)


def packets_of_one_tap(story):
    """Each packet of a story at one tap, by microseconds after the beginning."""
    for number, (after, (source, destination, data)) in enumerate(sorted(story), 1):
        for packet in ipv4(number, source, destination, data):
            yield BEGIN + after, 0, ethernet(source, destination, 0, packet)


def packets():
    """Each packet that a tap has: its time, the tap and its bytes."""
    sent = {A: 0, B: 0}
    for after, (source, destination, data), comes in STORY:
        sent[source] += 1
        time = BEGIN + after * 1000
        way = [(0, 0), (1, 5)] if source == A else [(1, 5), (0, 0)]
        for packet in ipv4(sent[source], source, destination, data):
            for place, (tap, vlan) in enumerate(way if comes else way[:1]):
                yield time + place * LATER, tap, ethernet(source, destination, vlan, packet)
            time += 123


def recording(taps, found):
    section = block(0x0A0D0D0A, struct.pack("<IHHq", 0x1A2B3C4D, 1, 0, -1))
    return section + block(1, struct.pack("<HHI", 1, 0, 0)) * taps + b"".join(captured(*packet) for packet in sorted(found))


if __name__ == "__main__":
    stories = {"one": CALLS, "busy": busy()}
    of_one_tap = [recording(1, packets_of_one_tap(stories[word])) for word in sys.argv[1:]]
    sys.stdout.buffer.write(b"".join(of_one_tap) or recording(2, packets()))
