"""The recording examples/audit.pcap, whose story docs/FORMATS.md tells in part: a conversation in which each kind of finding
comes, but for `full` and `silent`. Written to standard output.

    story.py > examples/audit.pcap
"""
import struct
import sys

import wire

A, B, C, GROUP = "192.168.0.1", "192.168.0.2", "192.168.0.3", "239.0.0.1"
OFFER, SUBSCRIBE, ACK = 1, 6, 7
BEGIN = 1700000000 * 10**9


def entry(kind, ttl, group=0, endpoint=None, has_bad_run=False):
    at = wire.endpoint_of(endpoint) if endpoint else None
    return wire.Entry(kind, 0x1111, 1, 1, ttl, 0, group, at, has_bad_run)


def told(time, source, destination, payload):
    """A datagram so many milliseconds after the first."""
    return wire.Record(BEGIN + time * 10**6, wire.endpoint_of(source), wire.endpoint_of(destination), payload)


def discovery(time, source, destination, session, *entries):
    """A message of Service Discovery of a node that never wrapped its sessions."""
    payload = wire.discovery_message(session, 0xC0, entries)
    return told(time, f"{source}:30490", f"{destination}:30490", payload)


def header(method, client, session, kind, code=0, interface=1):
    return wire.Header(0x1111, method, client, session, interface, kind, code)


def call(time, session, payload=b"\1", method=0x0421):
    message = wire.message(header(method, 0x0102, session, wire.REQUEST), payload)
    return told(time, f"{B}:40001", f"{A}:30509", message)


def answer(time, session):
    message = wire.message(header(0x0421, 0x0102, session, wire.RESPONSE), b"\2")
    return told(time, f"{A}:30509", f"{B}:40001", message)


def unknown_method(time, session, method):
    message = wire.message(header(method, 0x0102, session, wire.ERROR, 3), b"")
    return told(time, f"{A}:30509", f"{B}:40001", message)


def oneway(time, session, interface):
    message = wire.message(header(0x0424, 0x0102, session, wire.ONEWAY, interface=interface), b"\1")
    return told(time, f"{B}:40001", f"{A}:30509", message)


def event(time, session, receiver=f"{B}:40001"):
    return told(time, f"{A}:30509", receiver, wire.message(header(0x8001, 0, session, wire.NOTIFICATION), b"\3"))


def segment(time, session, byte):
    """The first segment of an event of 1500 bytes."""
    payload = struct.pack(">I", 1) + byte * 1392
    message = wire.message(header(0x8002, 0, session, wire.NOTIFICATION | wire.TP), payload)
    return told(time, f"{A}:30509", f"{B}:40001", message)


STORY = [
    discovery(0, A, GROUP, 1, entry(OFFER, 12, endpoint=f"{A}:30509")),
    discovery(10, B, A, 1, entry(SUBSCRIBE, 12, 1, f"{B}:40001")),
    discovery(12, A, B, 1, entry(ACK, 12, 1)),
    call(1000, 1),
    answer(1020, 1),
    told(1200, f"{C}:5353", "224.0.0.251:5353", bytes(12)),
    event(1500, 1),
    call(2500, 2),
    answer(4800, 2),
    answer(4850, 2),
    answer(5000, 9),
    call(5500, 3),
    call(5600, 3, b"\4"),
    answer(5650, 3),
    event(6000, 2),
    event(6001, 2),
    event(6500, 4),
    discovery(8000, A, GROUP, 2, entry(OFFER, 12, endpoint=f"{A}:30509")),
    discovery(8010, C, A, 1, entry(SUBSCRIBE, 12, 2, f"{C}:40002")),
    discovery(8012, A, C, 1, entry(ACK, 0, 2)),
    discovery(9000, B, A, 3, entry(SUBSCRIBE, 12, 1, f"{B}:40001")),
    event(11500, 5, f"{C}:40002"),
    segment(12000, 1, b"\5"),
    segment(12100, 1, b"\6"),
    segment(13000, 2, b"\5"),
    told(14000, f"{A}:30509", f"{B}:40001", wire.message(header(0x8001, 0, 6, wire.NOTIFICATION), b"\3\3\3")[:18]),
    discovery(15000, C, GROUP, 1, entry(OFFER, 3, endpoint=f"{C}:30509")),
    discovery(20000, A, GROUP, 1, entry(OFFER, 12, endpoint=f"{A}:30509")),
    discovery(20010, B, A, 4, entry(SUBSCRIBE, 12, 1, f"{B}:40001")),
    discovery(20012, A, B, 1, entry(ACK, 12, 1)),
    event(30000, 1),
    call(30500, 1, method=0x0423),
    unknown_method(30520, 1, 0x0423),
    discovery(31000, C, GROUP, 2, entry(OFFER, 3)),
    discovery(31500, C, GROUP, 3, entry(OFFER, 3, has_bad_run=True)),
    discovery(31550, C, GROUP, 2),
    discovery(31600, A, C, 1, entry(ACK, 12, 3)),
    discovery(31700, A, C, 2, entry(ACK, 0, 3)),
    event(31800, 3),
    event(31850, 2),
    oneway(31900, 1, 2),
    discovery(31920, A, GROUP, 2, entry(OFFER, 0)),
    call(31940, 4),
]

if __name__ == "__main__":
    sys.stdout.buffer.write(wire.pcap(STORY))
