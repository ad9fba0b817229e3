"""The recording examples/losses.pcap: a server sends an event each half second, its client renews the subscription each
second, and of nine events three are lost. Written to standard output.

    story.py > examples/losses.pcap
"""
import sys
from pathlib import Path

sys.path.append(str(Path(__file__).resolve().parents[1] / "audit"))
import wire  # noqa: E402

SERVER, CLIENT, GROUP = "192.168.0.1", "192.168.0.2", "239.0.0.1"
OFFER, SUBSCRIBE, ACK = 1, 6, 7
BEGIN = 1700000000 * 10**9
LOST = (3, 6, 7)


def told(time, source, destination, payload):
    """A datagram so many milliseconds after the first."""
    return wire.Record(BEGIN + time * 10**6, wire.endpoint_of(source), wire.endpoint_of(destination), payload)


def discovery(time, source, destination, session, kind, endpoint=None):
    end = wire.endpoint_of(endpoint) if endpoint else None
    entry = wire.Entry(kind, 0x1111, 1, 1, 3, 0, 0 if kind == OFFER else 1, end)
    return told(time, f"{source}:30490", f"{destination}:30490", wire.discovery_message(session, 0xC0, [entry]))


def second(at):
    """The Offer of a second, the Subscribe and its Ack, with the session that all have."""
    return [discovery(1000 * at, SERVER, GROUP, at + 1, OFFER, f"{SERVER}:30509"),
            discovery(1000 * at + 10, CLIENT, SERVER, at + 1, SUBSCRIBE, f"{CLIENT}:40001"),
            discovery(1000 * at + 12, SERVER, CLIENT, at + 1, ACK)]


def event(session):
    header = wire.Header(0x1111, 0x8001, 0, session, 1, wire.NOTIFICATION, 0)
    return told(500 * session - 250, f"{SERVER}:30509", f"{CLIENT}:40001", wire.message(header, b"\1"))


def story():
    events = [event(session) for session in range(1, 10) if session not in LOST]
    return sorted([record for at in range(6) for record in second(at)] + events)


if __name__ == "__main__":
    sys.stdout.buffer.write(wire.pcap(story()))
