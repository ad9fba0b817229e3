"""What is seen in a recording: which datagrams are looked at, and what these hold, one thing after the other. Told
from docs/AUDIT.md and not from the sources."""
from typing import NamedTuple, Optional

import wire

FIND, OFFER, SUBSCRIBE, ACK = 0, 1, 6, 7


class Datagram(NamedTuple):
    number: int
    time: Optional[int]
    moment: int
    source: tuple
    destination: tuple
    payload: bytes


class Seen(NamedTuple):
    """A thing that was seen: its place in the list of all, the datagram that showed it, and what it is: 'fault',
    'session', 'entry', 'segment' or 'message'."""
    place: int
    datagram: Datagram
    what: str
    value: tuple

    @property
    def moment(self):
        return self.datagram.moment

    @property
    def sender(self):
        return self.datagram.source[0]

    @property
    def receiver(self):
        return self.datagram.destination[0]


# ---- Datagrams, and which of them are looked at

def datagrams_of(records):
    found, latest = [], 0
    for number, record in enumerate(records, 1):
        latest = latest if record.time is None else max(latest, min(record.time // 10**6, 2**63 - 1))
        found.append(Datagram(number, record.time, latest, record.source, record.destination, record.payload))
    return found


def is_discovery(datagram, header):
    at_port = wire.DISCOVERY_PORT in (datagram.source[1], datagram.destination[1])
    return at_port and header[:2] == (0xFFFF, 0x8100) and header.interface == 1 and header.kind == wire.NOTIFICATION


def entries_in(datagram):
    """All entries of Service Discovery in a datagram that can be read."""
    found = []
    for _, header, payload in wire.messages_of(datagram.payload)[0]:
        if is_discovery(datagram, header):
            try:
                found += wire.discovery_of(payload)[1]
            except wire.Malformed:
                pass
    return found


def looked_at(datagrams, ports, is_learning=False):
    """The datagrams that are looked at. Endpoints are learned where no ports are named, or where that is asked for."""
    found, named = [], set()
    is_learning = is_learning or ports is None
    for datagram in datagrams:
        ends = (datagram.source, datagram.destination)
        at_port = any(port == wire.DISCOVERY_PORT or port in (ports or ()) for _, port in ends)
        if at_port or is_learning and any(end in named for end in ends):
            found.append(datagram)
            named.update(entry.endpoint for entry in entries_in(datagram)
                         if entry.kind in (OFFER, SUBSCRIBE) and entry.ttl and entry.endpoint is not None)
    return found


# ---- What the datagrams show, one thing after the other

def things_of_discovery(place, header, payload):
    try:
        flag, entries = wire.discovery_of(payload)
    except wire.Malformed as fault:
        return [("fault", (fault.name, place + 16 + fault.place))]
    return [("session", (header.session, flag))] + [("entry", entry) for entry in entries]


def things_of_message(datagram, place, header, payload):
    if is_discovery(datagram, header):
        return things_of_discovery(place, header, payload)
    if not header.kind & wire.TP:
        return [("message", (header, payload))]
    if wire.DISCOVERY_PORT in (datagram.source[1], datagram.destination[1]):
        return []
    if len(payload) < 4:
        return [("fault", ("NoHeader", place + 16))]
    number = int.from_bytes(payload[:4], "big")
    return [("segment", (header, number & ~15, number & 1, payload[4:]))]


def things_of(datagram):
    messages, fault = wire.messages_of(datagram.payload)
    found = [thing for message in messages for thing in things_of_message(datagram, *message)]
    return found + ([("fault", (fault.name, fault.place))] if fault else [])


def seen_in(datagrams):
    """All that is seen, in order, and how many messages can be read. Each thing has two places: the second one of a
    segment is that of the message which it makes whole."""
    things = [(datagram, thing) for datagram in datagrams for thing in things_of(datagram)]
    seen = [Seen(2 * at, datagram, *thing) for at, (datagram, thing) in enumerate(things)]
    return seen, sum(len(wire.messages_of(datagram.payload)[0]) for datagram in datagrams)
