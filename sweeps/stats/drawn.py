"""Recordings of which figures are told, beside those that the sweep `audit` draws: with times of all lengths, in fragments,
and with copies; and the words of calls."""
import struct

import crowds
import wire

SERVER, CLIENTS = crowds.SERVER, [(wire.address("192.168.0.2"), 40001), (wire.address("192.168.0.3"), 40001)]
METHODS, EVENTS = (0x0421, 0x0422), (0x8001, 0x8002)
TICK = 1000
FAR = 6 * 10**9
SERVICES = ("1111", "2222", "1111.0421", "1111.8001,ffff", "ffff.8100", "2222,1111.8002", "3333")


def words_of(some, records):
    """The words of options of a call."""
    def chance(share):
        return some.random() < share

    words = []
    if chance(0.2):
        words += ["--ports", some.choice(("30509", "30509,40001", "30490", "1"))]
        words += ["--learned"] if chance(0.3) else []
    if chance(0.15):
        words += ["--service", some.choice(SERVICES)]
    if chance(0.1):
        words += ["--client", some.choice(("0000", "0001", "0002", "0102", "0103"))]
    if chance(0.15):
        words += ["--address", ",".join(address_text(some, records) for _ in range(some.choice((1, 1, 2))))]
    if chance(0.15):
        words += ["--from", time_text(some, records)]
    if chance(0.15):
        words += ["--until", time_text(some, records)]
    if chance(0.3):
        words += ["--overtake-ms", some.choice(("0", "1", "10", "1000", "60000"))]
    if chance(0.2):
        words += ["--sessions", some.choice(("sender", "event"))]
    return words + (["--json"] if chance(0.25) else [])


def address_text(some, records):
    ends = [end[0] for record in records for end in (record.source, record.destination)] or [SERVER[0]]
    return wire.endpoint_text((some.choice(ends), 0)).partition(":")[0]


def time_text(some, records):
    """A time at that of a datagram, or near it."""
    times = [record.time for record in records if record.time is not None] or [0]
    time = max(0, some.choice(times) + some.choice((0, 0, 1, -1, 10**6, -10**6, 10**8, 10**9)))
    fraction = f"{time % 10**9:09}".rstrip("0")
    return f"{time // 10**9}" + (f".{fraction}" if fraction else "")


# ---- Times of all lengths

def spread(some):
    """Datagrams of a few methods and events, with latencies and cycles of all lengths."""
    begin = 1700000000 * 10**9
    found = [(begin - 1, wire.Record(0, *record[1:])) for record in crowds.offered()]
    for client in CLIENTS[:some.choice((1, 1, 2))]:
        for method in METHODS[:some.choice((1, 2))]:
            found += calls(some, begin, client, method)
        for event in EVENTS[:some.choice((1, 2))]:
            found += events(some, begin, client, event)
    return [record._replace(time=time) for time, record in sorted(found, key=lambda pair: pair[0])]


def lengths(some):
    """Draws so many times in microseconds, of about one length or of all."""
    least, most = some.choice(((0, 6), (0, 12), (5, 8), (9, 9), (16, 20), (0, 33), (32, 34)))
    for _ in range(some.choice((1, 2, 3, 10, 100, 300))):
        bits = some.randint(least, most)
        yield some.choice((some.randrange(1 << bits), 1 << bits, (1 << bits) - 1))


def calls(some, begin, client, method):
    """Calls after each other, each with its answer: some have none, an error, two, or the session of another."""
    time, mostly = begin, some.random() < 0.7
    for number, latency in enumerate(lengths(some)):
        session = 1 + number if mostly else some.randrange(1, 4)
        header = wire.Header(0x1111, method, 1, session, 1, some.choice((wire.REQUEST,) * 9 + (wire.ONEWAY,)), 0)
        yield time, wire.Record(0, client, SERVER, wire.message(header, b""))
        for _ in range(some.choice((0, 1, 1, 1, 1, 1, 1, 2))):
            kind, code = some.choice(((wire.RESPONSE, 0),) * 6 + ((wire.RESPONSE, 1), (wire.ERROR, 0), (wire.ERROR, 3)))
            answer = wire.message(header._replace(kind=kind, code=code), b"\1")
            yield time + latency * TICK + some.randrange(TICK), wire.Record(0, SERVER, client, answer)
        time += some.choice((0, 1, 10**3, 10**6, 10**9, latency * TICK))


def events(some, begin, client, event):
    time = begin
    for session, cycle in enumerate(lengths(some), 1):
        header = wire.Header(0x1111, event, 0, session, 1, wire.NOTIFICATION, 0)
        yield time, wire.Record(0, SERVER, client, wire.message(header, bytes(some.choice((0, 0, 1, 40)))))
        time += cycle * TICK + some.choice((0, 0, 1, 999))


# ---- Packets

def numbered(record, number):
    """The packet of a datagram, with this Identification."""
    data = wire.packet(record)
    return data[:4] + struct.pack(">H", number % 0x10000) + data[6:]


def mirrored(some, records):
    """Packets of the datagrams, as a port that mirrors both directions records them."""
    packets = [(record.time, numbered(record, number)) for number, record in enumerate(records)]
    packets += [(time + some.randrange(4 * 10**6), data) for time, data in packets]
    return sorted(packets, key=lambda packet: packet[0])


def pieces_of(some, data):
    """The fragments of an IPv4 packet."""
    body, cuts = data[20:], [0]
    while cuts[-1] < len(body):
        cuts.append(cuts[-1] + 8 * some.choice((1, 2, 3, 10, 100)))
    for begin, end in zip(cuts, cuts[1:]):
        part, more = body[begin:end], 0x2000 if end < len(body) else 0
        length, place = struct.pack(">H", 20 + len(part)), struct.pack(">H", more | begin // 8)
        yield data[:2] + length + data[4:6] + place + data[8:20] + part


def fragmented(some, records):
    """Packets of the datagrams, some of them in fragments, of which the last may come after the next datagrams; and the
    datagrams as they become whole. No fragment waits for long."""
    packets, whole, late = [], [], []

    def end(delayed):
        for time, piece, record in delayed:
            packets.append((time, piece))
            whole.append(record._replace(time=time))
            late.remove((time, piece, record))

    before = None
    for number, record in enumerate(records):
        if not isinstance(record, wire.Record):
            packets.append(record)
            continue
        if before is not None and record.time - before > FAR or some.random() < 0.5:
            end(list(late))
        before = record.time
        pieces = list(pieces_of(some, numbered(record, number))) if some.random() < 0.3 else []
        if not 1 < len(pieces) < 40:
            packets.append((record.time, numbered(record, number)))
            whole.append(record)
            continue
        some.shuffle(pieces)
        packets += [(record.time, piece) for piece in pieces[:-1]]
        late.append((record.time, pieces[-1], record))
        end(late[:-3] + (late[-1:] if some.random() < 0.5 else []))
    end(list(late))
    return packets, whole
