"""The lines that `show` prints of a datagram, told from docs/PROTOCOL.md and docs/FORMATS.md and not from the
sources."""
import os
import struct
import sys

HERE = os.path.dirname(os.path.abspath(__file__))
sys.path.insert(0, os.path.join(HERE, "..", "audit"))
import wire

TYPES = {0x00: "REQUEST", 0x01: "REQUEST_NO_RETURN", 0x02: "NOTIFICATION", 0x80: "RESPONSE", 0x81: "ERROR"}
ADDRESSES = {0x04: "endpoint4", 0x14: "multicast4", 0x24: "sdendpoint4", 0x06: "endpoint6", 0x16: "multicast6",
             0x26: "sdendpoint6"}
PROTOCOLS = {6: "tcp", 17: "udp"}
ENTRIES = {0: "find", 1: "offer", 6: "subscribe", 7: "ack"}
STOPPED = {"offer": "stopoffer", "subscribe": "stopsubscribe", "ack": "nack"}


def message_line(header, payload):
    kind = "TP_" * bool(header.kind & wire.TP) + TYPES[header.kind & ~wire.TP]
    return (f"message {header.service:04x}.{header.method:04x} length {8 + len(payload)} client {header.client:04x} "
            f"session {header.session:04x} interface {header.interface:02x} type {kind} code {header.code:02x} "
            f"payload {payload.hex() or '-'}")


def segment_line(place, payload):
    if len(payload) < 4:
        return f"fault NoHeader at {place + 16}"
    number = int.from_bytes(payload[:4], "big")
    return f"segment offset {number & ~15} more {number & 1} bytes {len(payload) - 4}"


def option_text(kind, data):
    """An option by its type and the bytes that its length counts."""
    if kind in ADDRESSES:
        host, (protocol, port) = data[1:-4], struct.unpack(">xBH", data[-4:])
        address = ".".join(map(str, host)) if len(host) == 4 else host.hex()
        return f"{ADDRESSES[kind]} {address}:{port} {PROTOCOLS.get(protocol, f'proto{protocol:02x}')}"
    if kind == 2:
        return "load {} {}".format(*struct.unpack(">xHH", data))
    return f"unknown {kind:02x} {data.hex()}"


def options_in(payload, place):
    """The texts of the options from this place on."""
    found = []
    while place < len(payload):
        length, kind = struct.unpack(">HB", payload[place:place + 3])
        found.append(option_text(kind, payload[place + 3:place + 3 + length]))
        place += 3 + length
    return found


def runs_text(text, options):
    first, second, counts = text[1:4]
    runs = [(first, counts >> 4), (second, counts & 15)]
    if any(count and index + count > len(options) for index, count in runs):
        return "badrun"
    return " ".join(f"run{number} [{', '.join(options[index:index + count])}]"
                    for number, (index, count) in enumerate(runs, 1))


def entry_line(text, options):
    kind, service, instance, major_ttl, last = struct.unpack(">B3xHHII", text)
    name, ttl = ENTRIES[kind], major_ttl & wire.FOREVER
    name = name if ttl else STOPPED.get(name, name)
    is_of_group = kind in (6, 7)
    rest = f"counter {last >> 16 & 15} group {last & 0xFFFF:04x}" if is_of_group else f"minor {last}"
    return (f"{name} {service:04x}.{instance:04x} major {major_ttl >> 24:02x} ttl {ttl} {rest} "
            f"{runs_text(text, options)}")


def discovery_lines(place, payload):
    """Those of a payload of Service Discovery that begins behind the header at a place."""
    try:
        wire.discovery_of(payload)
    except wire.Malformed as fault:
        return [f"fault {fault.name} at {place + 16 + fault.place}"]
    texts, begin = wire.parts_of(payload)
    options = options_in(payload, begin)
    head = f"sd reboot {payload[0] >> 7} unicast {payload[0] >> 6 & 1} entries {len(texts) // 16}"
    return [head, *(entry_line(texts[at:at + 16], options) for at in range(0, len(texts), 16))]


def is_discovery(header):
    return header[:2] == (0xFFFF, 0x8100) and header.interface == 1 and header.kind == wire.NOTIFICATION


def lines_of(data):
    """The lines of a datagram, without its number."""
    found = [] if data else ["empty"]
    messages, fault = wire.messages_of(data)
    for place, header, payload in messages:
        found.append(message_line(header, payload))
        if is_discovery(header):
            found += discovery_lines(place, payload)
        if header.kind & wire.TP:
            found.append(segment_line(place, payload))
    return found + ([f"fault {fault.name} at {fault.place}"] if fault else [])
