"""Recordings of drawn datagrams: messages of Service Discovery, calls, events, segments and garbage, over few addresses
and IDs, so that their keys meet. Nothing in them need make sense."""
import struct

import wire
from model import KINDS

SERVERS = [wire.address("192.168.0.1"), wire.address("192.168.0.2")]
CLIENTS = [wire.address("192.168.0.3"), wire.address("192.168.0.1")]
GROUP = wire.address("239.0.0.1")
SERVER_PORTS, CLIENT_PORTS = (30509, 30510), (40001, 40002)
FLAGGED, UNFLAGGED = 0xC0, 0x40
MILLISECOND = 10**6
SERVICES, METHODS = (0x1111, 0x2222), (0x0421, 0x0422, 0x8001, 0x8002)
STEPS = (0, 0, 0, 1, 1, 3, 10, 100, 250, 500, 500, 999, 1000, 1000, 1001, 2000, 3000, 5000)
PAUSES = (1, 10, 50, 100, 100, 250, 250, 500, 500, 1000, 3000)
CODES = (1, 3, 0x0A, 0xFF)
HOST6 = bytes((0xFD, *14 * (0,), 3))
PAYLOADS = [b"", b"\1", b"\2", bytes(64), bytes(65), bytes(64) + b"\1", bytes(63) + b"\1\0"]


class Draws:
    """Draws the datagrams of one recording: `some` is the generator."""

    def __init__(self, some):
        self.some = some
        self.sessions = {}
        self.loose = some.random() < 0.3
        self.rare = some.choice((0, 0.1, 0.3))
        self.steps = some.choice((STEPS, STEPS[:9], STEPS[3:]))
        self.payloads = some.sample(PAYLOADS, 2)
        self.code = some.choice((0, 0, 3))
        self.weights = some.choice(((5, 3, 3, 2), (2, 8, 1, 0), (4, 0, 8, 1), (1, 1, 1, 8), (6, 1, 1, 0)))

    def chance(self, share):
        return self.some.random() < share

    def one(self, *choices):
        return self.some.choice(choices)

    def mostly(self, usual, *others):
        """The usual choice, or now and then another one; how often, the recording says."""
        return self.some.choice(others) if self.chance(self.rare) else usual

    def server(self):
        return self.mostly(*SERVERS)

    def client(self):
        return self.mostly(*CLIENTS)

    def server_end(self):
        return self.server(), self.mostly(*SERVER_PORTS)

    def client_end(self):
        return self.client(), self.mostly(*CLIENT_PORTS)

    def service(self):
        return self.mostly(*SERVICES)

    def next_session(self, key, first):
        """The next session of what this key counts; or now and then another one."""
        last = self.sessions.get(key, self.some.choice(first))
        jump = self.some.choice((0, 0, 2, 3, 5, 65, 66, -1, -2, -3, -last)) if self.chance(0.5 if self.loose else 0.1) else 1
        session = (last + jump) % 0x10000
        session = 1 if last == 0xFFFF and jump == 1 else session
        self.sessions[key] = session or last
        return session

    # ---- Service Discovery

    def discovery(self):
        """A message of Offers, of answers or of Subscribes, mostly."""
        kind = self.one(1, 6, 6, 7)
        server, client = self.server(), self.client()
        source, destination = (client, server) if kind == 6 else (server, GROUP if kind == 1 else client)
        destination = GROUP if self.chance(0.05) else destination
        port = 30490 if self.chance(0.95) else 30509
        message = self.discovery_message((source, destination), kind)
        return (source, port), (destination, 30490 if self.chance(0.98) else 30491), message

    def discovery_message(self, ends, kind):
        session = self.next_session(ends, (0, 0, 0, 0xFFFC, 0xFFFD))
        flags = self.flags(ends, session)
        header = wire.discovery_header(session)
        if self.chance(0.02):
            header = header._replace(**{self.one("service", "method", "interface", "kind", "client", "code"): 2})
        return wire.message(header, self.payload_of_discovery(flags, kind))

    def flags(self, ends, session):
        """Flags that are mostly those of a sender whose sessions wrapped where they did."""
        wrapped = self.sessions.setdefault(("wrapped", ends), False) or session == 0
        self.sessions["wrapped", ends] = wrapped
        return self.one(FLAGGED, UNFLAGGED) if self.chance(0.05) else UNFLAGGED if wrapped else FLAGGED

    def payload_of_discovery(self, flags, kind):
        own = self.client_end if kind == 6 else self.server_end
        options = [self.option(own) for _ in range(self.one(0, 1, 1, 1, 2, 3))]
        entries = [self.entry(self.kind(kind), len(options)) for _ in range(self.one(0, 1, 1, 1, 2, 3))]
        return wire.payload_of(flags, entries, options)

    def kind(self, usual):
        return usual if self.chance(0.85) else self.one(0, 1, 6, 7)

    def option(self, own):
        if self.chance(0.9):
            return wire.endpoint_option(own() if self.chance(0.8) else self.one(self.client_end(), self.server_end()))
        kind, protocol = self.one((4, 6), (0x14, 17), (0x24, 17), (1, 17), (2, 17))
        if kind == 2:
            return struct.pack(">HBBHH", 5, 2, 0, 1, 1)
        return wire.endpoint_option((self.client(), 40001), protocol, kind)

    def entry(self, kind, options):
        first = self.some.randrange(options) if options else 0
        counts = 0x10 if options and self.chance(0.9) else self.one(0x00, 0x11, 0x20, 0x01)
        ttl = self.one(1, 2, 3, 3, 5, wire.FOREVER, 0)
        versions = self.mostly(1, 2) << 24 | ttl
        last = self.mostly(0, 1) << 16 | self.mostly(1, 2)
        service, instance = self.service(), self.mostly(1, 2)
        return struct.pack(">BBBBHHII", kind, first, self.one(0, 0, 1), counts, service, instance, versions, last)

    # ---- Calls and events

    def call(self):
        kind = self.one(wire.REQUEST, wire.REQUEST, wire.RESPONSE, wire.RESPONSE, wire.ERROR, wire.ONEWAY)
        client, server = self.client_end(), self.server_end()
        ends = (server, client) if kind in (wire.RESPONSE, wire.ERROR) else (client, server)
        code = self.mostly(0, *CODES)
        header = wire.Header(self.service(), self.mostly(0x0421, 0x0422), 1, self.mostly(1, 0, 2), 1, kind, code)
        if self.chance(self.rare / 4):
            header = header._replace(**{self.one("client", "interface", "code"): 2})
        return *ends, wire.message(header, self.one(*self.payloads) if self.chance(0.4) else self.payloads[0])

    def event(self):
        server, client = self.server_end(), self.client_end()
        receiver = (GROUP, 40001) if self.chance(0.2) else client
        service, event = self.service(), self.mostly(0x8001, 0x8002)
        session = self.next_session((server, service, event), (0, 0, 0, 0xFFFC, 0xFFFD))
        header = wire.Header(service, event, 0, session, 1, wire.NOTIFICATION, 0)
        return server, receiver, wire.message(header, b"")

    def segment(self):
        kind = self.one(wire.REQUEST, wire.RESPONSE, wire.RESPONSE, wire.ERROR, wire.NOTIFICATION, wire.NOTIFICATION)
        client, server = self.client_end(), self.server_end()
        ends = (client, server) if kind == wire.REQUEST else (server, client)
        method = 0x8001 if kind == wire.NOTIFICATION else 0x0421
        session = self.mostly(1, 2, *range(20))
        header = wire.Header(self.service(), method, 1, session, 1, kind | wire.TP, self.code)
        return *ends, wire.message(header, self.piece())

    def piece(self):
        """The payload of a segment of a message of 48 bytes, or of one that is at odds with it."""
        if self.chance(0.05):
            far, last = struct.pack(">I", 0xFFFFFFF1) + bytes(16), struct.pack(">I", 0x100000)
            return self.one(b"", b"\0", bytes(3), far, last)
        at, size = self.one(0, 0, 16, 16, 32, 32), self.one(16, 16, 16, 16, 32, 15, 0)
        more = at + size < 48 if self.chance(0.95) else self.one(0, 1)
        byte = 0 if self.chance(0.95) else 1
        return struct.pack(">I", at | self.one(0, 0, 0, 0xE) | more) + bytes([byte]) * size

    # ---- Datagrams

    def message(self):
        draw = self.some.choices((self.discovery, self.call, self.event, self.segment), self.weights)[0]
        return draw()

    def datagram(self):
        source, destination, payload = self.message()
        while self.chance(0.15):
            payload += self.message()[2]
        if self.chance(0.04):
            payload = self.spoilt(payload)
        return source, destination, payload

    def spoilt(self, payload):
        """A payload that is cut, with a byte changed, with bytes after it, or none at all."""
        place = self.some.randrange(len(payload) + 1)
        changed = payload[:place] + bytes([self.some.randrange(256)]) + payload[place + 1:]
        longer = payload + self.some.randbytes(self.one(1, 15, 16, 20))
        return self.one(payload[:place], changed, changed, longer, b"")

    def stray(self):
        """A packet that gives no datagram: no IPv4, no UDP, a fragment or one that was cut."""
        whole = bytearray(wire.packet(wire.Record(0, *self.datagram())))
        place, byte = self.one((0, 0x60), (9, 6), (6, 0x20), (7, 1), (25, 4))
        whole[place] = byte
        return bytes(whole) if self.chance(0.8) else bytes(whole[:-1])

    def time_after(self, time):
        step = self.one(*self.steps) * MILLISECOND
        if self.chance(0.05):
            return time - step - self.some.randrange(2 * MILLISECOND)
        if self.chance(0.002):
            return time + wire.FOREVER * 1000 * MILLISECOND
        return time + step + (self.some.randrange(MILLISECOND) if self.chance(0.2) else 0)

    def records(self):
        """The packets of a recording, with their times."""
        time = self.one(0, 10**9, 1700000000 * 10**9, 1700000000 * 10**9 + 999999)
        found = []
        for _ in range(self.one(5, 20, 60, 120)):
            found.append((time, self.stray()) if self.chance(0.02) else wire.Record(time, *self.datagram()))
            time = max(0, self.time_after(time))
        return found

    def rules(self):
        """The words of options of a call."""
        words = []
        if self.chance(0.2):
            words += ["--ports", self.one("1", "30509", "30509,40001", "40001", "30490")]
        if self.chance(0.3):
            words += ["--answer-ms", self.one("1", "500", "1000", "3000")]
        if self.chance(0.4):
            words += ["--settle-ms", self.one("1", "250", "500", "1000", "3000")]
        if self.chance(0.3):
            words += ["--overtake-ms", self.one("0", "1", "10", "1000", "60000")]
        if self.chance(0.2):
            words += ["--sessions", self.one("sender", "sender", "event")]
        if self.chance(0.3):
            words += ["--group"]
        return words

    def bench(self):
        """The text of a file of rules."""
        return "".join(self.rule() for _ in range(self.one(1, 1, 2, 4)))

    def rule(self):
        lines = ["[[rule]]"]
        if self.chance(0.7):
            lines.append(f"service = {self.one(*SERVICES)}")
            if self.chance(0.5):
                lines.append(f"method = {self.one(*METHODS)}")
        if self.chance(0.5):
            lines.append(f"answer_ms = {self.one(1, 400, 1000, 5000)}")
        if self.chance(0.6):
            lines.append(f"cycle_ms = {self.one(1, 30, 100, 400, 1500)}")
        if self.chance(0.7):
            kinds = self.some.sample(KINDS, self.one(1, 3, 8))
            lines.append(f"allow = [{', '.join(f'{chr(34)}{kind}{chr(34)}' for kind in kinds)}]")
        if self.chance(0.6):
            kinds = self.some.sample(KINDS, self.one(1, 3, 8))
            bounds = ", ".join(f'"{kind}" = {self.one(0, 1, 2, 5)}' for kind in kinds)
            lines.append(f"at_most = {{ {bounds} }}")
        return "".join(f"{line}\n" for line in lines)


class Renewals(Draws):
    """Draws subscriptions that are renewed again and again, and begin, move and end now and then, beside events that skip
    sessions. Offers and Subscribes are over UDP, over TCP alone, of IPv6 alone, or name no endpoint."""

    def __init__(self, some):
        super().__init__(some)
        self.steps, self.rare, self.loose = PAUSES, some.choice((0.1, 0.3)), some.random() < 0.5
        self.odd = some.choice((0, 0.05, 0.3))
        self.held = [self.subscription() for _ in range(self.one(1, 2, 4))]

    def subscription(self):
        """Client, server, and the numbers of a subscription, and where its events go."""
        client, server = self.client(), self.server()
        entry = wire.Entry(6, self.service(), 1, 1, self.one(1, 3, 3, wire.FOREVER), self.mostly(0, 1), self.mostly(1, 2), None)
        return client, server, entry, self.mostly(*CLIENT_PORTS)

    def message(self):
        return self.some.choices((self.renewal, self.offer, self.event), (5, 1, 8))[0]()

    def datagram(self):
        return self.message()

    def event(self):
        """An event, mostly to a client that may be subscribed."""
        source, destination, payload = super().event()
        client, server, entry, port = self.one(*self.held)
        if destination[0] == GROUP or self.chance(0.1):
            return source, destination, payload
        header = wire.message_at(payload, 0)[0]._replace(service=entry.service)
        end = server, self.mostly(*SERVER_PORTS)
        session = self.next_session((end, header.method), (0, 0xFFFD))
        return end, (client, port), wire.message(header._replace(session=session), b"")

    def renewal(self):
        """A Subscribe or an Ack of a subscription, or now and then a StopSubscribe, a Nack or another endpoint."""
        client, server, entry, port = self.one(*self.held)
        kind, is_end = self.one(6, 6, 7), self.chance(self.odd)
        entry = entry._replace(kind=kind, ttl=0 if is_end else entry.ttl)
        options = [] if kind == 7 else self.options(client, self.one(*CLIENT_PORTS) if self.chance(self.odd) else port)
        ends = (client, server) if kind == 6 else (server, client)
        return self.told(*ends, entry, options)

    def offer(self):
        entry = wire.Entry(1, self.service(), 1, 1, 0 if self.chance(self.odd) else 3, 0, 0, None)
        server = self.server()
        return self.told(server, GROUP, entry, self.options(server, self.mostly(*SERVER_PORTS)))

    def options(self, host, port):
        """Options that name an endpoint over UDP of IPv4, or now and then others, or both, or none."""
        usual = wire.endpoint_option((host, port))
        others = [wire.endpoint_option((host, port), wire.TCP), wire.endpoint6_option(HOST6, port, wire.UDP),
                  wire.endpoint6_option(HOST6, port, wire.TCP), wire.endpoint_option((host, port), 0x21),
                  wire.endpoint_option((GROUP, port), wire.UDP, 0x14), wire.endpoint6_option(HOST6, port, 0x21)]
        if not self.chance(self.odd):
            return [usual]
        return self.one([], [self.one(*others)], [self.one(*others)], [self.one(*others), usual])

    def told(self, source, destination, entry, options):
        """A message of one entry, of a sender that hardly ever begins anew."""
        session = self.sessions.get((source, destination), 0) + 1
        session = 1 if self.chance(self.odd / 10) else session
        self.sessions[source, destination] = session
        return (source, 30490), (destination, 30490), wire.message_of_one(session, FLAGGED, entry, options)


def drawn(some, sort=Draws):
    """The bytes of a drawn recording, and the options of a call over it."""
    draws = sort(some)
    records = draws.records()
    if draws.chance(0.2):
        return wire.pcapng([untimed(some, record) for record in records]), draws.rules()
    return wire.pcap(records, draws.one("<", ">"), draws.chance(0.5)), draws.rules()


def untimed(some, record):
    """The record, now and then without its time."""
    if some.random() >= 0.1:
        return record
    return record._replace(time=None) if isinstance(record, wire.Record) else (None, record[1])
