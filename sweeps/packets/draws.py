"""Recordings and words of `recording` that are drawn."""
import struct

from model import Packet

ADDRESSES = [bytes((192, 168, 0, 1)), bytes((192, 168, 0, 2)), bytes((10, 0, 0, 3))]
PORTS = [30490, 30509, 40001]
START = 1_700_000_000 * 10**9


def options(chance):
    """Words, and what they ask for."""
    words, asked = [], {}

    def take(name, value, text, share=0.2):
        if chance.random() < share:
            asked[name] = value
            words.extend([f"--{name}", text] if text is not None else [f"--{name}"])

    take("frames", True, None, 0.5)
    take("endpoints", True, None, 0.5)
    ports = chance.sample(PORTS, chance.randint(1, 2))
    take("ports", ports, ",".join(map(str, ports)))
    addresses = chance.sample(ADDRESSES, chance.randint(1, 2))
    take("learned", True, None, 0.1)
    take("address", addresses, ",".join(".".join(map(str, a)) for a in addresses))
    take("service", 0x1234, "1234")
    take("client", 0x0102, "0102")
    at = START + chance.randrange(0, 80) * 10**9
    take("from", at, f"{at // 10**9}", 0.1)
    at = START + chance.randrange(0, 80 * 10**9)
    take("until", at, f"{at // 10**9}.{at % 10**9:09}", 0.1)
    interfaces = chance.sample(range(3), chance.randint(1, 2))
    take("interface", interfaces, ",".join(map(str, interfaces)))
    vlans = chance.sample((0, 5, 6, 4095), chance.randint(1, 3))
    take("vlan", vlans, ",".join(map(str, vlans)))
    window = chance.choice((1, 2, 5, 1000, 60000))
    take("dedup", window, str(window), 0.5)
    return words, asked


def message(chance, size=None):
    payload = bytes(chance.randrange(4) for _ in range(chance.choice((0, 1, 30)) if size is None else size))
    return struct.pack(">HHIHHBBBB", chance.choice((0x1234, 0x4321)), 0x0421, 8 + len(payload),
                       chance.choice((0x0101, 0x0102)), chance.randrange(1, 4), 1, 1,
                       chance.choice((0, 1, 2, 0x80, 0x81)), 0) + payload


def ipv4(chance, identification, payload, fragment=0, protocol=17, source=None, destination=None):
    source = source or chance.choice(ADDRESSES)
    destination = destination or chance.choice(ADDRESSES)
    extra = bytes(4 * chance.choice((0, 0, 0, 1, 10)))
    return struct.pack(">BBHHHBBH", 0x45 + len(extra) // 4, 0, 20 + len(extra) + len(payload), identification, fragment,
                       64, protocol, 0) + source + destination + extra + payload


def udp(chance, data, length=None):
    return struct.pack(">HHHH", chance.choice(PORTS), chance.choice(PORTS),
                       8 + len(data) if length is None else length, 0) + data


def pieces(chance, identification):
    """A datagram in fragments: in any order, perhaps some twice, overlapping, missing, or with another byte."""
    payload = udp(chance, message(chance, chance.choice((40, 200))))
    if chance.random() < 0.1:
        payload = udp(chance, b"", 7) + bytes(24)
    source, destination = chance.choice(ADDRESSES), chance.choice(ADDRESSES)
    places = sorted({0, *(8 * chance.randrange(0, len(payload) // 8 + 1) for _ in range(chance.randint(1, 3)))})
    made = []
    for index, at in enumerate(places):
        end = places[index + 1] if index + 1 < len(places) else len(payload)
        if chance.random() < 0.2:
            end = min(len(payload), end + 8 * chance.randint(0, 3))
        data = payload[at:end]
        if chance.random() < 0.08 and data:
            data = data[:-1] + bytes((data[-1] ^ 1,))
        more = 0 if end == len(payload) else 0x2000
        if chance.random() < 0.03:
            more ^= 0x2000
        made.append(ipv4(chance, identification, data, more | at // 8, source=source, destination=destination))
    made = [it for it in made for _ in range(chance.choice((0, 1, 1, 1, 1, 1, 1, 2)))]
    chance.shuffle(made)
    return made


def bytes_of(chance, identification):
    """IPv4 packets that come close together."""
    kind = chance.random()
    if kind < 0.45:
        return [ipv4(chance, identification, udp(chance, message(chance)), chance.choice((0, 0x4000, 0x8000)))]
    if kind < 0.5:
        return [ipv4(chance, identification, udp(chance, b""))]
    if kind < 0.8:
        return pieces(chance, identification)
    if kind < 0.84:
        return [ipv4(chance, identification, udp(chance, message(chance)), chance.choice((0, 0x2000, 5)), 6)]
    if kind < 0.88:
        return [ipv4(chance, identification, udp(chance, message(chance), chance.choice((0, 7, 9999))))]
    if kind < 0.92:
        whole = ipv4(chance, identification, udp(chance, message(chance)), chance.choice((0, 0x2000)), chance.choice((17, 6)))
        return [whole[:chance.choice((20, len(whole) - 1))]]
    if kind < 0.96:
        return [b"\x65" + bytes(39), ipv4(chance, identification, bytes(3))[:12]]
    return [ipv4(chance, identification, bytes(chance.choice((0, 7))), 0x1FFF)]


def block(kind, body):
    body += bytes(-len(body) % 4)
    return struct.pack("<II", kind, 12 + len(body)) + body + struct.pack("<I", 12 + len(body))


class BlockFile:
    """pcapng in nanoseconds: interface 0 and 1 are of Ethernet, interface 2 is of raw IP or of another link type."""

    def __init__(self, chance):
        self.links = [1, 1, chance.choice((101, 228, 105))]
        resolution = struct.pack("<HHB3xHH", 9, 1, 9, 0, 0)
        self.data = block(0x0A0D0D0A, struct.pack("<IHHq", 0x1A2B3C4D, 1, 0, -1))
        for link in self.links:
            self.data += block(1, struct.pack("<HHI", link, 0, 0) + resolution)

    def add(self, time, interface, data):
        if time is None:
            self.data += block(3, struct.pack("<I", len(data)) + data)
        else:
            self.data += block(6, struct.pack("<IIIII", interface, time >> 32, time % 2**32, len(data), len(data)) + data)


class ClassicFile:
    """Classic pcap in nanoseconds, of Ethernet, which has interface 0 alone."""

    def __init__(self, chance):
        self.links = [1]
        self.data = struct.pack("<IHHIIII", 0xA1B23C4D, 2, 4, 0, 0, 65535, 1)

    def add(self, time, interface, data):
        self.data += struct.pack("<IIII", time // 10**9, time % 10**9, len(data), len(data)) + data


def recording(chance):
    """Packets as the model takes them, and the files that hold them. The last one that is a tuple cuts its file."""
    packets, files = [], []
    now = START
    for index in range(chance.choice((1, 1, 2, 3))):
        file = chance.choice((BlockFile, BlockFile, ClassicFile))(chance)
        for _ in range(chance.randint(1, 12)):
            now += chance.choice((0, 1_000, 900_000, 1_000_000, 4_000_000, 900_000_000, 29_999_000_000, 31_000_000_000))
            identification = chance.randrange(3)
            for ip in bytes_of(chance, identification):
                now += chance.choice((0, 0, 1_000, 1_000_000))
                add(chance, packets, file, now - chance.choice((0, 0, 0, 500_000)), ip)
                if chance.random() < 0.25:
                    add(chance, packets, file, now + chance.choice((0, 1_000_000, 2_000_000, 5_000_001)), ip)
        files.append(file)
    if chance.random() < 0.1:
        last = files[-1]
        place = len(last.data)
        last.add(now, 0, bytes(60))
        last.data = last.data[:-1]
        packets.append((len(files) - 1, place))
    return packets, [file.data for file in files]


def add(chance, packets, file, time, ip):
    """Adds a packet to a file, under the header of its link type."""
    interface = chance.randrange(len(file.links))
    if isinstance(file, BlockFile) and chance.random() < 0.05:
        time, interface = None, 0
    link = file.links[interface]
    vlans = []
    data = ip
    if link == 1:
        vlans = [chance.choice((0, 5, 6, 4095)) for _ in range(chance.choice((0, 0, 1, 2)))]
        tags = b"".join(struct.pack(">HH", chance.choice((0x8100, 0x88A8, 0x9100)), chance.choice((0, 0xE000)) | vlan)
                        for vlan in vlans)
        data = bytes(12) + tags + b"\x08\x00" + ip
    file.add(time, interface, data)
    packets.append(Packet(time, interface, None if link == 105 else link, vlans, ip))
