"""The way in of `recording`, as docs/FORMATS.md says it: which datagrams of packets are printed, and what is left out."""
import struct

LEFT_OUT = ("of another link type", "not IPv4", "not UDP", "cut short", "with a bad UDP length", "copies",
            "fragments without the rest", "fragments that differ")
# What the cases have to tell together.
KINDS = (*LEFT_OUT, "message", "Truncated")
TYPES = {0: "REQUEST", 1: "REQUEST_NO_RETURN", 2: "NOTIFICATION", 0x80: "RESPONSE", 0x81: "ERROR"}


class Packet:
    """A packet as it was captured: time in nanoseconds or None, interface, link type, VLAN IDs, and IPv4's bytes."""

    def __init__(self, time, interface, link, vlans, ipv4):
        self.time, self.interface, self.link, self.vlans, self.ipv4 = time, interface, link, vlans, ipv4


class Fields:
    """The fields of a whole IPv4 packet."""

    def __init__(self, data):
        header = data[0] % 16 * 4
        total, self.identification, self.fragment = struct.unpack(">HHH", data[2:8])
        self.protocol = data[9]
        self.source, self.destination = data[12:16], data[16:20]
        self.payload = data[header:total]

    def key(self):
        return (self.source, self.destination, self.identification, self.fragment, self.protocol, self.payload)


def fault_of(data):
    """Why bytes are no whole IPv4 packet, or None."""
    if len(data) < 20 or data[0] // 16 != 4 or data[0] % 16 < 5:
        return "not IPv4"
    if len(data) < data[0] % 16 * 4 or len(data) < struct.unpack(">H", data[2:4])[0]:
        return "cut short" if data[9] == 17 else "not UDP"
    return None


def datagram_in(payload):
    """The ports and the bytes of the datagram that stands there, or None."""
    if len(payload) < 8:
        return None
    source, destination, length = struct.unpack(">HHH", payload[:6])
    if length < 8 or length > len(payload):
        return None
    return source, destination, payload[8:length]


class Parts:
    """Fragments by packet: at most 64, each for 30 seconds after its first."""

    def __init__(self):
        self.held = {}
        self.without = self.differ = 0

    def expire(self, now):
        for key in [key for key, part in self.held.items() if now - part[0] > 30 * 10**9]:
            self.without += len(self.held.pop(key)[1])

    def offer(self, now, fields):
        """The payload that is whole by this fragment, or None."""
        self.expire(now)
        start = fields.fragment % 0x2000 * 8
        more = bool(fields.fragment & 0x2000)
        if start + len(fields.payload) > 65535:
            self.without += 1
            return None
        key = (fields.source, fields.destination, fields.identification)
        part = self.held.setdefault(key, (now, []))
        part[1].append((start, more, fields.payload))
        known, ends = {}, set()
        differs = False
        for at, goes_on, data in part[1]:
            for index, byte in enumerate(data):
                differs = differs or known.setdefault(at + index, byte) != byte
            if not goes_on:
                ends.add(at + len(data))
        if len(ends) > 1 or (ends and known and max(known) >= min(ends)):
            differs = True
        if ends and any(at + len(data) > min(ends) for at, _, data in part[1]):
            differs = True
        if differs:
            self.differ += len(self.held.pop(key)[1])
            return None
        if ends and all(index in known for index in range(min(ends))):
            del self.held[key]
            return bytes(known[index] for index in range(min(ends)))
        if len(self.held) > 64:
            oldest = min(self.held, key=lambda it: list(self.held).index(it))
            self.without += len(self.held.pop(oldest)[1])
        return None

    def end(self):
        for _, fragments in self.held.values():
            self.without += len(fragments)


def datagrams(packets, options, counts):
    """Frame, time, endpoints and bytes of each datagram that is told, before the last step chooses."""
    clock = 0
    seen = []
    parts = Parts()
    for frame, packet in enumerate(packets, 1):
        if "interface" in options and packet.interface not in options["interface"]:
            continue
        if "vlan" in options and not set(packet.vlans) & set(options["vlan"]):
            continue
        if packet.time is not None:
            clock = max(clock, min(packet.time, 2**64 - 1))
        if packet.link is None:
            counts["of another link type"] += 1
            continue
        fault = fault_of(packet.ipv4)
        if fault:
            counts[fault] += 1
            continue
        fields = Fields(packet.ipv4)
        if "dedup" in options:
            window = options["dedup"] * 10**6
            copy = any(key == fields.key() and clock - at <= window for at, key in seen)
            seen.append((clock, fields.key()))
            if copy:
                counts["copies"] += 1
                continue
        if fields.protocol != 17:
            counts["not UDP"] += 1
            continue
        payload = fields.payload
        if fields.fragment % 0x4000:
            payload = parts.offer(clock, fields)
            if payload is None:
                continue
        found = datagram_in(payload)
        if found is None:
            counts["with a bad UDP length"] += 1
            continue
        yield frame, packet.time, (fields.source, found[0]), (fields.destination, found[1]), found[2]
    parts.end()
    counts["fragments without the rest"] += parts.without
    counts["fragments that differ"] += parts.differ


def messages_of(data):
    """The messages that stand whole in a datagram, `(HEADER, PAYLOAD)`, and the fault behind them, or None."""
    messages, place = [], 0
    while place < len(data):
        fault = fault_in(data, place)
        if fault:
            return messages, fault
        header = struct.unpack(">HHIHHBBBB", data[place:place + 16])
        end = place + 8 + header[2]
        messages.append((header, data[place + 16:end]))
        place = end
    return messages, None


def fault_in(data, place):
    """Why no message stands at a place of a datagram, or None."""
    if len(data) < place + 16:
        return f"Truncated at {len(data)}"
    _, _, length, _, _, protocol, _, kind, _ = struct.unpack(">HHIHHBBBB", data[place:place + 16])
    if length < 8:
        return f"LengthTooSmall at {place + 4}"
    if protocol != 1:
        return f"WrongProtocolVersion at {place + 12}"
    if kind & ~0x20 not in TYPES:
        return f"UnknownMessageType at {place + 14}"
    return f"Truncated at {len(data)}" if len(data) < place + 8 + length else None


def is_asked(options, header):
    """Whether a message has the service and the client that are asked for."""
    return options.get("service", header[0]) == header[0] and options.get("client", header[3]) == header[3]


def is_wanted(options, time, source, destination, data):
    if "ports" in options and "learned" not in options and not {source[1], destination[1]} & set(options["ports"]):
        return False
    if "address" in options and not {source[0], destination[0]} & set(options["address"]):
        return False
    if "from" in options and (time is None or time < options["from"]):
        return False
    if "until" in options and (time is None or time >= options["until"]):
        return False
    is_any = "service" not in options and "client" not in options
    return is_any or any(is_asked(options, header) for header, _ in messages_of(data)[0])


def time_text(time):
    return "-" if time is None else f"{time // 10**9}.{time % 10**9:09}"


def endpoint_text(endpoint):
    return f"{'.'.join(map(str, endpoint[0]))}:{endpoint[1]}"


def lines_of(data):
    """The lines of a datagram without its number, which here has neither segments nor Service Discovery."""
    if not data:
        yield "empty"
    messages, fault = messages_of(data)
    for (service, method, length, client, session, _, interface, kind, code), payload in messages:
        yield (f"message {service:04x}.{method:04x} length {length} client {client:04x} session {session:04x} "
               f"interface {interface:02x} type {TYPES[kind]} code {code:02x} payload {payload.hex() or '-'}")
    if fault:
        yield f"fault {fault}"


def shown(packets, options, files):
    """The status and the two texts. A packet that is `...` ends its file, which is cut in it."""
    counts = dict.fromkeys(LEFT_OUT, 0)
    cut = next((packet for packet in packets if isinstance(packet, tuple)), None)
    whole = packets[:packets.index(cut)] if cut else packets
    lines = []
    number = 0
    faulty = False
    for frame, time, source, destination, data in datagrams(whole, options, counts):
        # Nothing here is offered or subscribed, so no endpoint is learned.
        ports = {30490, *options.get("ports", ())}
        if "learned" in options and not {source[1], destination[1]} & ports:
            continue
        if not is_wanted(options, time, source, destination, data):
            continue
        number += 1
        head = f"#{frame} " if "frames" in options else ""
        if "endpoints" in options:
            head += f"{time_text(time)} {endpoint_text(source)} {endpoint_text(destination)} "
        told = list(lines_of(data))
        faulty = faulty or told[-1].startswith("fault ")
        lines += [f"{head}{number} {line}\n" for line in told]
    left = [f"{count} {words}" for words, count in counts.items() if count]
    error = f"recording: left out {', '.join(left)}\n" if left else ""
    if cut:
        file, place = cut
        name = f"{file}.pcap: " if files > 1 else ""
        error += f"recording: {name}Truncated at {place}\n"
    return (1 if cut or faulty else 0), "".join(lines), error


def kinds(wanted):
    """What a case tells of those that all cases have to tell together."""
    return [word for word in KINDS if f" {word}" in wanted[1] + wanted[2]]
