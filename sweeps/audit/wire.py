"""The bytes of recordings and of messages, read and written as docs/FORMATS.md and docs/PROTOCOL.md say. Nothing here
stems from the sources of the stack."""
import struct
from typing import NamedTuple, Optional

REQUEST, ONEWAY, NOTIFICATION, RESPONSE, ERROR, TP = 0x00, 0x01, 0x02, 0x80, 0x81, 0x20
TYPES = (0x00, 0x01, 0x02, 0x80, 0x81, 0x20, 0x21, 0x22, 0xA0, 0xA1)
DISCOVERY_PORT = 30490
FOREVER = 0xFFFFFF


class Record(NamedTuple):
    """A UDP datagram of a recording: its time in nanoseconds, or None where it has none."""
    time: Optional[int]
    source: tuple
    destination: tuple
    payload: bytes


class Header(NamedTuple):
    service: int
    method: int
    client: int
    session: int
    interface: int
    kind: int
    code: int


class Entry(NamedTuple):
    """An entry of Service Discovery: its kind is 0 Find, 1 Offer, 6 Subscribe or 7 Ack; its endpoint is that of the
    first IPv4 UDP endpoint option, or None. One with a bad run has no options. Of an Offer the last four bytes are the
    minor version. One that was read says whether it names any endpoint: over UDP or TCP, of IPv4 or IPv6."""
    kind: int
    service: int
    instance: int
    major: int
    ttl: int
    counter: int
    group: int
    endpoint: Optional[tuple]
    has_bad_run: bool = False
    minor: int = 0
    names_endpoint: bool = False


class Malformed(Exception):
    """What cannot be read: the name of the fault, and its place."""

    def __init__(self, name, place):
        super().__init__(name)
        self.name, self.place = name, place


# ---- Addresses

def address(text):
    return int.from_bytes(bytes(map(int, text.split("."))), "big")


def endpoint_text(endpoint):
    return ".".join(map(str, endpoint[0].to_bytes(4, "big"))) + f":{endpoint[1]}"


def endpoint_of(text):
    host, port = text.split(":")
    return address(host), int(port)


# ---- Messages

def message(header, payload):
    return struct.pack(">HHIHHBBBB", header.service, header.method, 8 + len(payload), header.client, header.session,
                       1, header.interface, header.kind, header.code) + payload


def message_at(data, place):
    """The message that begins at this place, and where it ends."""
    rest = data[place:]
    if len(rest) < 16:
        raise Malformed("Truncated", len(data))
    service, method, length, client, session, protocol, interface, kind, code = struct.unpack(">HHIHHBBBB", rest[:16])
    if length < 8:
        raise Malformed("LengthTooSmall", place + 4)
    if protocol != 1:
        raise Malformed("WrongProtocolVersion", place + 12)
    if kind not in TYPES:
        raise Malformed("UnknownMessageType", place + 14)
    if len(rest) < length + 8:
        raise Malformed("Truncated", len(data))
    return Header(service, method, client, session, interface, kind, code), rest[16:8 + length], place + 8 + length


def messages_of(data):
    """The messages of a datagram, each with its place, and the fault that ends it, or None."""
    found, place = [], 0
    while place < len(data):
        try:
            header, payload, end = message_at(data, place)
        except Malformed as fault:
            return found, fault
        found.append((place, header, payload))
        place = end
    return found, None


def segments(header, payload, size=1392):
    """The messages in which a long one is sent."""
    cut = range(0, len(payload), size)
    return [message(header._replace(kind=header.kind | TP),
                    struct.pack(">I", at | (at + size < len(payload))) + payload[at:at + size]) for at in cut]


# ---- Service Discovery

def endpoint_option(endpoint, protocol=17, kind=4):
    return struct.pack(">HBBIBBH", 9, kind, 0, endpoint[0], 0, protocol, endpoint[1])


def endpoint6_option(host, port, protocol):
    """An endpoint of IPv6, whose address is so many bytes."""
    return struct.pack(">HBB16sBBH", 21, 6, 0, host, 0, protocol, port)


def entry_bytes(entry, index, count):
    """An entry whose first run has so many options from this index on."""
    last = entry.counter << 16 | entry.group
    return struct.pack(">BBBBHHII", entry.kind, index, 0, count << 4, entry.service, entry.instance,
                       entry.major << 24 | entry.ttl, last)


def discovery_payload(flags, entries):
    """A payload with these entries, each with its endpoint as an option, which those of one endpoint share. A bad run
    is of the option after the last."""
    ends = list(dict.fromkeys(entry.endpoint for entry in entries if entry.endpoint is not None))
    run = lambda entry: ((len(ends), 1) if entry.has_bad_run else
                         (ends.index(entry.endpoint), 1) if entry.endpoint is not None else (0, 0))
    return payload_of(flags, [entry_bytes(entry, *run(entry)) for entry in entries], map(endpoint_option, ends))


def payload_of(flags, entries, options):
    """A payload with the bytes of these entries and of these options."""
    texts, ends = b"".join(entries), b"".join(options)
    return struct.pack(">II", flags << 24, len(texts)) + texts + struct.pack(">I", len(ends)) + ends


def discovery_header(session):
    return Header(0xFFFF, 0x8100, 0, session, 1, NOTIFICATION, 0)


def discovery_message(session, flags, entries):
    return message(discovery_header(session), discovery_payload(flags, entries))


def message_of_one(session, flags, entry, options):
    """A message of Service Discovery with one entry, which has all of these options."""
    return message(discovery_header(session), payload_of(flags, [entry_bytes(entry, 0, len(options))], options))


def parts_of(payload):
    """The bytes of the entries and of the options of a payload, and where each begins."""
    if len(payload) < 8:
        raise Malformed("Truncated", len(payload))
    size = int.from_bytes(payload[4:8], "big")
    if size % 16:
        raise Malformed("EntriesLength", 4)
    if len(payload) < 8 + size + 4:
        raise Malformed("Truncated", len(payload))
    begin = 8 + size + 4
    end = begin + int.from_bytes(payload[begin - 4:begin], "big")
    if len(payload) < end:
        raise Malformed("Truncated", len(payload))
    if len(payload) > end:
        raise Malformed("TrailingBytes", end)
    return payload[8:8 + size], begin


LENGTHS = {2: 5, 4: 9, 0x14: 9, 0x24: 9, 6: 21, 0x16: 21, 0x26: 21}
TCP, UDP = 6, 17


def endpoint_in(whole):
    """What an option names: whether it is an endpoint, over UDP or TCP, and that of one of IPv4 over UDP, or None."""
    protocol = {4: whole[9:10], 6: whole[21:22]}.get(whole[2], b"")
    end = (int.from_bytes(whole[4:8], "big"), int.from_bytes(whole[10:12], "big"))
    return protocol in (bytes([TCP]), bytes([UDP])), end if whole[2] == 4 and whole[9] == UDP else None


def options_of(payload, place):
    """What each of the options names, from this place on."""
    found = []
    while place < len(payload):
        length = int.from_bytes(payload[place:place + 2], "big")
        whole = payload[place:place + 3 + length]
        if len(payload) - place < 3 or length == 0 or len(whole) < 3 + length:
            raise Malformed("OptionLength", place)
        kind = payload[place + 2]
        if LENGTHS.get(kind, length) != length:
            raise Malformed("OptionLength", place)
        found.append(endpoint_in(whole))
        place += 3 + length
    return found


def entry_of(text, options):
    kind, first, second, counts, service, instance, version, last = struct.unpack(">BBBBHHII", text)
    runs = [(index, count) for index, count in ((first, counts >> 4), (second, counts & 15)) if count]
    is_bad = any(index + count > len(options) for index, count in runs)
    chosen = [] if is_bad else [option for index, count in runs for option in options[index:index + count]]
    endpoint = next((end for _, end in chosen if end is not None), None)
    return Entry(kind, service, instance, version >> 24, version & FOREVER, last >> 16 & 15, last & 0xFFFF, endpoint,
                 is_bad, last, any(is_endpoint for is_endpoint, _ in chosen))


def discovery_of(payload):
    """The flag of reboots and the entries of a payload of Service Discovery."""
    texts, begin = parts_of(payload)
    for at in range(0, len(texts), 16):
        if texts[at] not in (0, 1, 6, 7):
            raise Malformed("UnknownEntryType", 8 + at)
    options = options_of(payload, begin)
    return payload[0] >> 7, [entry_of(texts[at:at + 16], options) for at in range(0, len(texts), 16)]


# ---- Recordings

def packet(record):
    """The IPv4 packet of a datagram; checksums are not looked at."""
    udp = struct.pack(">HHHH", record.source[1], record.destination[1], 8 + len(record.payload), 0) + record.payload
    ends = (record.source[0], record.destination[0])
    return struct.pack(">BBHHHBBHII", 0x45, 0, 20 + len(udp), 0, 0, 64, 17, 0, *ends) + udp


def timed_packet(record):
    """The time and the bytes of a packet, which may be given as they are."""
    return (record.time, packet(record)) if isinstance(record, Record) else record


def pcap(records, order=">", nanoseconds=False):
    """A recording in classic pcap, of raw IPv4 packets. A record may be a packet with its time."""
    out = [struct.pack(order + "IHHiIII", 0xA1B23C4D if nanoseconds else 0xA1B2C3D4, 2, 4, 0, 0, 65535, 228)]
    for time, data in map(timed_packet, records):
        fraction = time % 10**9 // (1 if nanoseconds else 1000)
        out += [struct.pack(order + "IIII", time // 10**9, fraction, len(data), len(data)), data]
    return b"".join(out)


def block(kind, body):
    body += bytes(-len(body) % 4)
    size = struct.pack("<I", 12 + len(body))
    return struct.pack("<I", kind) + size + body + size


def pcapng(records):
    """A recording in pcapng, with times in nanoseconds; a record without a time is a simple packet."""
    out = [block(0x0A0D0D0A, struct.pack("<IHHq", 0x1A2B3C4D, 1, 0, -1)),
           block(1, struct.pack("<HHI", 228, 0, 0) + struct.pack("<HHB3xHH", 9, 1, 9, 0, 0))]
    for time, data in map(timed_packet, records):
        if time is None:
            out.append(block(3, struct.pack("<I", len(data)) + data))
        else:
            out.append(block(6, struct.pack("<IIIII", 0, time >> 32, time & 0xFFFFFFFF, len(data), len(data)) + data))
    return b"".join(out)


def packets_of(data):
    """The packets of a recording of raw IPv4 packets, with their times: classic pcap, or what `pcapng` writes."""
    if data[:4] == b"\x0a\x0d\x0d\x0a":
        return blocks_of(data)
    order = ">" if data[:2] == b"\xa1\xb2" else "<"
    unit = 1 if struct.unpack(order + "I", data[:4])[0] == 0xA1B23C4D else 1000
    found, place = [], 24
    while place < len(data):
        seconds, fraction, size, _ = struct.unpack(order + "IIII", data[place:place + 16])
        found.append((seconds * 10**9 + fraction * unit, data[place + 16:place + 16 + size]))
        place += 16 + size
    return found


def blocks_of(data):
    found, place = [], 0
    while place < len(data):
        kind, size = struct.unpack("<II", data[place:place + 8])
        body = data[place + 8:place + size - 4]
        if kind == 3:
            found.append((None, body[4:4 + int.from_bytes(body[:4], "little")]))
        if kind == 6:
            _, high, low, captured, _ = struct.unpack("<IIIII", body[:20])
            found.append((high << 32 | low, body[20:20 + captured]))
        place += size
    return found


def datagram_of(time, data):
    """The datagram of an IPv4 packet, or None where it gives none."""
    if len(data) < 20 or data[0] >> 4 != 4:
        return None
    head, total = (data[0] & 15) * 4, int.from_bytes(data[2:4], "big")
    if head < 20 or total < head or total > len(data) or int.from_bytes(data[6:8], "big") & 0x3FFF or data[9] != 17:
        return None
    udp = data[head:total]
    if len(udp) < 8 or not 8 <= (size := int.from_bytes(udp[4:6], "big")) <= len(udp):
        return None
    source, destination = struct.unpack(">II", data[12:20])
    source_port, destination_port = struct.unpack(">HH", udp[:4])
    return Record(time, (source, source_port), (destination, destination_port), udp[8:size])


def records_of(data):
    """The datagrams of a recording, in order."""
    found = [datagram_of(*packet) for packet in packets_of(data)]
    return [record for record in found if record is not None]
