"""edges, scale: recordings at the limits of the reader, and larger than memory, through `recording -` and
`audit --ports 30509 -`.

`edges`, in seconds: a recording that comes a byte at a time, one whose reads are all interrupted once, both together;
65,536 interfaces of a section and one more; a packet and a block of 16 MiB, and of one byte or word more; a copy behind
16 MiB of other packets, which are kept to compare, and behind one byte more; fragments of 64 packets, and of 65; 65,536
endpoints that Offers name, and one more (of `recording` alone).

`scale`: 5 GiB, and 3 million records. Each recording is made as it is read, and ends with one datagram, whose line has
to be there: so all of it was read.

Memory is limited. The text on standard output, that on standard error and the exit status have to be these, byte for
byte. Run by `sweeps/run edges` and `sweeps/run scale`: sweep.py PROGRAM PART.
"""
import os
import resource
import struct
import subprocess
import sys
import tempfile
import threading
from typing import Callable, NamedTuple

HELD = 16 * 1024 * 1024
INTERFACES = 65536
OTHERS = 4096
ENDPOINTS = 65536
LINE = "{} message 1111.0001 length 8 client 0000 session 0001 interface 01 type REQUEST_NO_RETURN code 00 payload -\n"
AUDITED = "audited {0} datagrams, {0} messages, 0 findings\n{1}no Offer was seen\n"
LEFT = "recording: left out "


# ---- Packets

def checksum(data):
    total = sum(struct.unpack(f">{len(data) // 2}H", data))
    return ~((total & 0xFFFF) + (total >> 16)) & 0xFFFF


MESSAGE = struct.pack(">HHIHHBBBB", 0x1111, 1, 8, 0, 1, 1, 1, 1, 0)


def udp(source, destination, payload):
    return struct.pack(">HHHH", source, destination, 8 + len(payload), 0) + payload


UDP = udp(40001, 30509, MESSAGE)


def ipv4(payload, identification=0, fragment=0, protocol=17, receiver=(192, 168, 0, 1)):
    """An Ethernet packet with an IPv4 packet."""
    head = struct.pack(">BBHHHBBH", 0x45, 0, 20 + len(payload), identification, fragment, 64, protocol, 0)
    ends = bytes((192, 168, 0, 2, *receiver))
    head = head[:10] + struct.pack(">H", checksum(head[:10] + b"\0\0" + ends)) + ends
    return bytes(12) + b"\x08\x00" + head + payload


def datagram():
    """An Ethernet packet with a message that waits for no answer."""
    return ipv4(UDP)


def offers(first, count):
    """An Ethernet packet with an Offer for each of so many endpoints: 10.0.0.0 with this number added, port 30509."""
    entries = b"".join(struct.pack(">BBBBHHII", 1, index, 0, 0x10, 0x2222, index, 0x01000003, 0)
                       for index in range(count))
    options = b"".join(struct.pack(">HBBIBBH", 9, 4, 0, (10 << 24) + first + index, 0, 17, 30509)
                       for index in range(count))
    body = struct.pack(">II", 0xC0000000, len(entries)) + entries + struct.pack(">I", len(options)) + options
    head = struct.pack(">HHIHHBBBB", 0xFFFF, 0x8100, 8 + len(body), 0, 1, 1, 1, 2, 0)
    return ipv4(udp(30490, 30490, head + body))


def other(length):
    """An Ethernet packet of so many bytes that is not IPv4."""
    return bytes(12) + b"\x08\x06" + bytes(length - 14)


# ---- Recordings

def classic():
    return struct.pack("<IHHiIII", 0xA1B2C3D4, 2, 4, 0, 0, 0x7FFFFFFF, 1)


def packet(data):
    return struct.pack("<IIII", 0, 0, len(data), len(data)) + data


def block(kind, body):
    length = 12 + len(body)
    return struct.pack("<II", kind, length) + body + struct.pack("<I", length)


def section():
    return block(0x0A0D0D0A, struct.pack("<IHHq", 0x1A2B3C4D, 1, 0, -1))


INTERFACE = block(1, struct.pack("<HHI", 1, 0, 0))


def enhanced(data):
    return block(6, struct.pack("<IIIII", 0, 0, 0, len(data), len(data)) + data + bytes(-len(data) % 4))


def few_packets():
    return [classic()] + [packet(other(300))] * 3 + [packet(datagram())]


def interfaces(count):
    return [section(), INTERFACE * count, enhanced(datagram())]


def long_packet(more):
    return [classic(), packet(other(HELD - 16 + more)), packet(datagram())]


def long_block(words):
    return [section(), INTERFACE, enhanced(other(HELD - 32 + 4 * words)), enhanced(datagram())]


def copy_behind(more):
    """A datagram, packets of TCP, and the datagram again. The first one and these count 16 MiB and so many bytes more:
    256 for each, and its payload."""
    left = HELD - (256 + len(UDP)) - (OTHERS - 1) * 4096
    others = [packet(ipv4(bytes(4096 - 256), number, protocol=6)) for number in range(OTHERS - 1)]
    last = packet(ipv4(bytes(left - 256 + more), OTHERS, protocol=6))
    return [classic(), packet(datagram()), *others, last, packet(datagram())]


def fragments(count):
    """The datagram in two fragments so many times, the first ones before the others, which come in turn."""
    first = [packet(ipv4(UDP[:8], number, 0x2000)) for number in range(count)]
    return [classic(), *first, *(packet(ipv4(UDP[8:], number, 1)) for number in reversed(range(count)))]


def endpoints(count):
    """Offers of so many endpoints, a datagram to an endpoint that none names, and one to the first that is named."""
    for first in range(0, count, 256):
        yield packet(offers(first, min(256, count - first)))
    yield packet(datagram()) + packet(ipv4(UDP, receiver=(10, 0, 0, 0)))


def many(count, length):
    """A recording of so many packets of this length, and the datagram, piece by piece."""
    yield classic()
    piece = packet(other(length))
    at_once = max(1, (1 << 20) // len(piece))
    whole, left = divmod(count, at_once)
    joined = piece * at_once
    for _ in range(whole):
        yield joined
    yield piece * left
    yield packet(datagram())


# ---- What is expected

def left_out(count):
    return f"recording: left out {count} not IPv4\n"


def split_told(told):
    """What `audit` tells in its summary, and what on standard error, where `recording` tells so much there."""
    at = told.index("\n") + 1 if told.startswith(LEFT) else 0
    return told[len("recording: "):at], told[at:]


class Case(NamedTuple):
    """What is tried: its name, kilobytes of memory, what is set, the recording, what is told on standard error, how
    often the datagram is reached, words of the call, and whether `audit` is tried too."""
    name: str
    kilobytes: int
    variables: dict
    pieces: Callable
    told: str
    reached: int
    words: tuple = ()
    is_audited: bool = True


def edges(odd):
    preload = {"LD_PRELOAD": odd}
    one = preload | {"READ_MOST": "1"}
    interrupted = preload | {"READ_INTERRUPTED": "1"}
    behind = len(section()) + INTERFACES * len(INTERFACE)
    behind_one = len(section()) + len(INTERFACE)
    yield Case("a byte at a time", 40_000, one, few_packets, left_out(3), 1)
    yield Case("each read interrupted", 40_000, interrupted, few_packets, left_out(3), 1)
    yield Case("each byte interrupted", 40_000, one | interrupted, few_packets, left_out(3), 1)
    yield Case("65536 interfaces", 60_000, {}, lambda: interfaces(INTERFACES), "", 1)
    yield Case("65537 interfaces", 60_000, {}, lambda: interfaces(INTERFACES + 1),
               f"recording: TooManyInterfaces at {behind}\n", 0)
    yield Case("a packet of 16 MiB", 120_000, {}, lambda: long_packet(0), left_out(1), 1)
    yield Case("a packet of one byte more", 120_000, {}, lambda: long_packet(1), "recording: BlockTooLong at 24\n", 0)
    yield Case("a block of 16 MiB", 120_000, {}, lambda: long_block(0), left_out(1), 1)
    yield Case("a block of one word more", 120_000, {}, lambda: long_block(1),
               f"recording: BlockTooLong at {behind_one}\n", 0)
    dedup = ("--dedup", "60000")
    told = f"recording: left out {OTHERS} not UDP"
    yield Case("a copy behind 16 MiB", 120_000, {}, lambda: copy_behind(0), f"{told}, 1 copies\n", 1, dedup)
    yield Case("a copy behind one byte more", 120_000, {}, lambda: copy_behind(1), f"{told}\n", 2, dedup)
    yield Case("fragments of 64 packets", 40_000, {}, lambda: fragments(64), "", 64)
    yield Case("fragments of 65 packets", 40_000, {}, lambda: fragments(65),
               "recording: left out 2 fragments without the rest\n", 64)
    learned = ("--learned", "--service", "1111")
    yield Case("65536 endpoints", 60_000, {}, lambda: [classic(), *endpoints(ENDPOINTS)], "", 1, learned, False)
    yield Case("65537 endpoints", 60_000, {}, lambda: [classic(), *endpoints(ENDPOINTS + 1)],
               "recording: full endpoints\n", 2, learned, False)


def scale(odd):
    yield Case("5 GiB", 40_000, {}, lambda: many(81920, 65520), left_out(81920), 1)
    yield Case("3 million records", 40_000, {}, lambda: many(3_000_000, 14), left_out(3_000_000), 1)


# ---- Runs

def feed(pipe, pieces):
    """Writes the pieces, as far as they are read."""
    try:
        for piece in pieces:
            pipe.write(piece)
        pipe.close()
    except BrokenPipeError:
        pass


def run(program, words, kilobytes, variables, pieces):
    def limit():
        resource.setrlimit(resource.RLIMIT_AS, (kilobytes * 1024, kilobytes * 1024))

    child = subprocess.Popen([program, *words], stdin=subprocess.PIPE, stdout=subprocess.PIPE, stderr=subprocess.PIPE,
                             env=os.environ | variables, preexec_fn=limit, bufsize=0)
    feeder = threading.Thread(target=feed, args=(child.stdin, pieces))
    feeder.start()
    out, err = child.stdout.read(), child.stderr.read()
    status = child.wait()
    feeder.join()
    return out.decode(), err.decode(), status


def main():
    program, part = sys.argv[1:3]
    cases = findings = 0
    with tempfile.TemporaryDirectory() as room:
        odd = os.path.join(room, "odd_reads.so")
        source = os.path.join(os.path.dirname(os.path.abspath(__file__)), "odd_reads.c")
        subprocess.run(["cc", "-shared", "-fPIC", "-O1", source, "-o", odd, "-ldl"], check=True)
        for case in {"edges": edges, "scale": scale}[part](odd):
            lines = "".join(LINE.format(number + 1) for number in range(case.reached))
            calls = [(["recording"], lines, case.told)]
            if case.is_audited:
                left, told = split_told(case.told)
                calls.append((["audit", "--ports", "30509"], AUDITED.format(case.reached, left), told))
            for words, text, told in calls:
                status = 0 if case.reached else 1
                came = run(program, [*words, *case.words, "-"], case.kilobytes, case.variables, case.pieces())
                cases += 1
                if came != (text, told, status):
                    findings += 1
                    print(f"{part}: {words[0]}, {case.name}: expected {(text, told, status)}, got {came}")
    if findings == 0:
        print(f"{part}: {cases} cases, no finding")
    return findings > 0


if __name__ == "__main__":
    sys.exit(main())
