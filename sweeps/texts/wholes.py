"""Recordings whose messages are put together from their segments: what `recording --whole` prints of each."""
import struct
from typing import NamedTuple, Optional

# ---- Segments: the bytes, and the lines that are printed of them where nothing is put together

MESSAGE = "message 1234.0421 length {} client 0001 session {} interface 01 type TP_REQUEST code 00 payload {}"
WHOLE_LINE = "whole 1234.0421 length {} client 0001 session {} interface 01 type REQUEST code 00 payload {}"
AT_0 = "segment offset 0 more 1 bytes 16"
AT_16 = "segment offset 16 more 0 bytes 4"
FIRST_LINE = MESSAGE.format(28, "0001", "00000001000102030405060708090a0b0c0d0e0f")
LAST_LINE = MESSAGE.format(16, "0001", "0000001010111213")
OTHER_LINE = "message 5555.0001 length 8 client 0001 session 0001 interface 01 type REQUEST code 00 payload -"

# A request of 20 bytes in two segments, of 16 and of 4.
FIRST = ("123404210000001c000100010101200000000001000102030405060708090a0b0c0d0e0f", FIRST_LINE, AT_0)
LAST = ("123404210000001000010001010120000000001010111213", LAST_LINE, AT_16)
WHOLE = WHOLE_LINE.format(28, "0001", "000102030405060708090a0b0c0d0e0f10111213")
# Another one.
FIRST_2 = ("123404210000001c000100020101200000000001101112131415161718191a1b1c1d1e1f",
           MESSAGE.format(28, "0002", "00000001101112131415161718191a1b1c1d1e1f"), AT_0)
LAST_2 = ("123404210000001000010002010120000000001020212223", MESSAGE.format(16, "0002", "0000001020212223"), AT_16)
WHOLE_2 = WHOLE_LINE.format(28, "0002", "101112131415161718191a1b1c1d1e1f20212223")
# A first segment of the one that has another first byte, and a last one with 16 bytes.
FIRST_CHANGED = ("123404210000001c000100010101200000000001ff0102030405060708090a0b0c0d0e0f",
                 MESSAGE.format(28, "0001", "00000001ff0102030405060708090a0b0c0d0e0f"), AT_0)
LAST_LONG = ("123404210000001c000100010101200000000010101112131415161718191a1b1c1d1e1f",
             MESSAGE.format(28, "0001", "00000010101112131415161718191a1b1c1d1e1f"), "segment offset 16 more 0 bytes 16")
WHOLE_LONG = WHOLE_LINE.format(40, "0001", "000102030405060708090a0b0c0d0e0f101112131415161718191a1b1c1d1e1f")
# A last one of 4 bytes at 1408, a first one of 4 bytes, and one of 4 bytes at 1408 that is not the last.
TOO_LONG = ("123404210000001000010001010120000000058020212223", MESSAGE.format(16, "0001", "0000058020212223"),
            "segment offset 1408 more 0 bytes 4")
UNALIGNED = ("123404210000001000010001010120000000000100010203", MESSAGE.format(16, "0001", "0000000100010203"),
             "segment offset 0 more 1 bytes 4")
UNALIGNED_TOO_LONG = ("123404210000001000010001010120000000058120212223",
                      MESSAGE.format(16, "0001", "0000058120212223"), "segment offset 1408 more 1 bytes 4")
# A first one of 1392 bytes, and last ones that make the message 1400 bytes long, and 1401.
FIRST_1392 = ("123404210000057c000100010101200000000001" + "5a" * 1392,
              MESSAGE.format(1404, "0001", "00000001" + "5a" * 1392), "segment offset 0 more 1 bytes 1392")
LAST_8 = ("1234042100000014000100010101200000000570" + "5b" * 8, MESSAGE.format(20, "0001", "00000570" + "5b" * 8),
          "segment offset 1392 more 0 bytes 8")
LAST_9 = ("1234042100000015000100010101200000000570" + "5b" * 9, MESSAGE.format(21, "0001", "00000570" + "5b" * 9),
          "segment offset 1392 more 0 bytes 9")
# Last ones that make a message 1048576 bytes long, and 1048577.
LAST_16 = ("123404210000001c0001000101012000000ffff0" + "5c" * 16, MESSAGE.format(28, "0001", "000ffff0" + "5c" * 16),
           "segment offset 1048560 more 0 bytes 16")
LAST_17 = ("123404210000001d0001000101012000000ffff0" + "5c" * 17, MESSAGE.format(29, "0001", "000ffff0" + "5c" * 17),
           "segment offset 1048560 more 0 bytes 17")
WHOLE_1400 = WHOLE_LINE.format(1408, "0001", "5a" * 1392 + "5b" * 8)
# First ones of 17 messages.
FIRSTS = [(f"123404210000001c0001{session:04x}0101200000000001" + "5d" * 16,
           MESSAGE.format(28, f"{session:04x}", "00000001" + "5d" * 16), AT_0) for session in range(1, 18)]
# A segment without a TP header.
HEADLESS = ("12340421000000080001000101012000", MESSAGE.format(8, "0001", "-"), "fault NoHeader at 16")
# A request of another service, the last segment after it, and both segments, in one datagram each.
OTHER = ("55550001000000080001000101010000", OTHER_LINE)
OTHER_AND_LAST = (OTHER[0] + LAST[0], OTHER_LINE, LAST_LINE, AT_16)
FIRST_AND_LAST = (FIRST[0] + LAST[0], FIRST_LINE, AT_0, LAST_LINE, AT_16)

# ---- Datagrams, which are recorded at a number of microseconds or without a time, and go from a port to a port

FORTH, OTHERS = (40000, 30509), (40001, 30509)
TO_DISCOVERY, FROM_DISCOVERY = (40000, 30490), (30490, 40000)


class Datagram(NamedTuple):
    """A datagram, and the lines that are printed of it, if it is shown."""

    time: Optional[int]
    ports: tuple
    hex: str
    lines: Optional[tuple]


def at(time, ports, segment, *more):
    """A datagram that is shown: the lines of the segment, and more."""
    return Datagram(time, ports, segment[0], (*segment[1:], *more))


def hidden(time, ports, segment):
    """One that is not."""
    return Datagram(time, ports, segment[0], None)


# ---- Rows. Two messages are put together at a time, of 1400 bytes at most, each until a second after its last segment;
# with `--whole` alone sixteen, of 1048576 bytes, until five seconds after it

TWO_SLOTS = "--whole --whole-limit 1400 --whole-slots 2 --whole-timeout 1000"
ONE_SLOT = "--whole --whole-limit 1400 --whole-slots 1 --whole-timeout 1000"


class Row(NamedTuple):
    """A recording, what of it is asked for, and the status."""

    datagrams: list
    whole: str = TWO_SLOTS
    options: str = ""
    types: str = ""
    status: int = 0


# Messages that come whole.
WHOLES = (
    # Whole at its last segment, in whichever order they come, also in one datagram; not where none is put together.
    Row([at(1_000_000, FORTH, FIRST), at(1_000_000, FORTH, LAST, WHOLE)]),
    Row([at(1_000_000, FORTH, LAST), at(1_000_000, FORTH, FIRST, WHOLE)]),
    Row([at(1_000_000, FORTH, FIRST_AND_LAST, WHOLE)]),
    Row([at(1_000_000, FORTH, FIRST), at(1_000_000, FORTH, LAST)], whole=""),
    # Two at a time; each is taken once, and may come again.
    Row([at(1_000_000, FORTH, FIRST), at(1_000_000, FORTH, FIRST_2), at(1_000_000, FORTH, LAST, WHOLE),
         at(1_000_000, FORTH, LAST_2, WHOLE_2), at(1_000_000, FORTH, LAST), at(1_000_000, FORTH, FIRST, WHOLE)]),
    # Segments of other endpoints are of other messages.
    Row([at(1_000_000, FORTH, FIRST), at(1_000_000, OTHERS, LAST), at(1_000_000, FORTH, LAST, WHOLE)]),
)

# How long a part stands.
STANDING = (
    # A part stands 999 milliseconds after its last segment, and not 1000, in milliseconds that are rounded down.
    Row([at(1_000_000, FORTH, FIRST), at(1_999_000, FORTH, LAST, WHOLE)]),
    Row([at(1_000_000, FORTH, FIRST), at(2_000_000, FORTH, LAST)]),
    Row([at(1_000_000, FORTH, FIRST), at(1_999_999, FORTH, LAST, WHOLE)]),
    Row([at(1_000_999, FORTH, FIRST), at(2_000_000, FORTH, LAST)]),
    # Five seconds without `--whole-timeout`.
    Row([at(1_000_000, FORTH, FIRST), at(5_999_999, FORTH, LAST, WHOLE)], whole="--whole"),
    Row([at(1_000_000, FORTH, FIRST), at(6_000_000, FORTH, LAST)], whole="--whole"),
)

# Datagrams without a time, and with an earlier one.
UNTIMED = (
    # A datagram without a time has the latest so far, 0 at first.
    Row([at(None, FORTH, FIRST), at(999_999, FORTH, LAST, WHOLE)]),
    Row([at(None, FORTH, FIRST), at(1_000_000, FORTH, LAST)]),
    Row([at(1_000_000, FORTH, FIRST), at(None, FORTH, LAST, WHOLE)]),
    Row([at(1_000_000, FORTH, FIRST), at(2_000_000, FORTH, OTHER), at(None, FORTH, LAST)]),
    Row([at(1_000_000, FORTH, OTHER), at(None, FORTH, FIRST), at(1_999_000, FORTH, LAST, WHOLE)]),
    # So does one with an earlier time.
    Row([at(2_000_000, FORTH, FIRST), at(1_000_000, FORTH, LAST, WHOLE)]),
    Row([at(1_000_000, FORTH, FIRST), at(2_000_000, FORTH, OTHER), at(1_500_000, FORTH, LAST)]),
    Row([at(2_000_000, FORTH, OTHER), at(1_000_000, FORTH, FIRST), at(2_999_000, FORTH, LAST, WHOLE)]),
)

# Segments that are refused: what is held stays, but for a conflict, which ends it. None is a fault.
REFUSED = (
    Row([at(1_000_000, FORTH, FIRST), at(1_000_000, FORTH, UNALIGNED, "dropped Unaligned"),
         at(1_000_000, FORTH, LAST, WHOLE)]),
    Row([at(1_000_000, FORTH, FIRST), at(1_000_000, FORTH, TOO_LONG, "dropped TooLong"),
         at(1_000_000, FORTH, UNALIGNED_TOO_LONG, "dropped Unaligned"),
         at(1_000_000, FORTH, LAST_LONG, WHOLE_LONG)]),
    Row([at(1_000_000, FORTH, FIRST_1392), at(1_000_000, FORTH, LAST_9, "dropped TooLong"),
         at(1_000_000, FORTH, LAST_8, WHOLE_1400)]),
    Row([at(1_000_000, FORTH, LAST_16)], whole="--whole"),
    Row([at(1_000_000, FORTH, LAST_17, "dropped TooLong")], whole="--whole"),
    Row([at(1_000_000, FORTH, FIRST), at(1_000_000, FORTH, FIRST_CHANGED, "dropped Conflict"),
         at(1_000_000, FORTH, LAST), at(1_000_000, FORTH, FIRST, WHOLE)]),
)

# Messages for which there is no slot, and a segment that is none.
CROWDED = (
    Row([at(1_000_000, FORTH, FIRST), at(1_000_000, FORTH, FIRST_2, "dropped NoSlot"),
         at(1_000_000, FORTH, LAST, WHOLE), at(1_000_000, FORTH, FIRST_2), at(1_000_000, FORTH, LAST_2, WHOLE_2)],
        whole=ONE_SLOT),
    # Sixteen without `--whole-slots`.
    Row([*(at(1_000_000, FORTH, first) for first in FIRSTS[:16]), at(1_000_000, FORTH, FIRSTS[16], "dropped NoSlot")],
        whole="--whole"),
    # The slot of a part whose time is over is free.
    Row([at(1_000_000, FORTH, FIRST), at(2_000_000, FORTH, FIRST_2), at(2_000_000, FORTH, LAST_2, WHOLE_2)],
        whole=ONE_SLOT),
    # A segment without a TP header is a fault, as it is where none is put together.
    Row([at(1_000_000, FORTH, FIRST), at(1_000_000, FORTH, HEADLESS), at(1_000_000, FORTH, LAST, WHOLE)], status=1),
)

# The shape of the whole message: it has more bytes than that, or fewer.
SHORT = """[[message]]
service = 0x1234
method = 0x0421
type = 'REQUEST'
shape = 'struct(u32,u32)'
name = 'pair'
"""
LONG = """[[message]]
service = 0x1234
method = 0x0421
type = 'REQUEST'
shape = 'struct(fixed<20,u8>,u16)'
"""

# Service Discovery, and values.
ASKED = (
    # At the port of Service Discovery nothing is put together, and nothing dropped.
    Row([at(1_000_000, TO_DISCOVERY, FIRST), at(1_000_000, TO_DISCOVERY, LAST),
         at(1_000_000, TO_DISCOVERY, UNALIGNED)]),
    Row([at(1_000_000, FROM_DISCOVERY, FIRST), at(1_000_000, FROM_DISCOVERY, LAST),
         at(1_000_000, FROM_DISCOVERY, UNALIGNED)]),
    # The value of a whole message; its segments have none. A fault's place counts from the whole message's header.
    Row([at(1_000_000, FORTH, FIRST),
         at(1_000_000, FORTH, LAST, WHOLE, "value pair (66051,67438087) used 8 of 20")], types=SHORT),
    Row([at(1_000_000, FORTH, FIRST), at(1_000_000, FORTH, OTHER_AND_LAST, WHOLE, "value fault Truncated at 36")],
        types=LONG, status=1),
    Row([at(1_000_000, FORTH, FIRST), at(1_000_000, FORTH, LAST)], whole="", types=LONG),
)

# With time and endpoints, and by services and ports.
FILTERED = (
    # Time and endpoints stand before these lines too.
    Row([at(1_000_000, FORTH, FIRST), at(None, FORTH, UNALIGNED, "dropped Unaligned"), at(2_000_000, FORTH, LAST)],
        options="--endpoints"),
    Row([at(1_000_000, FORTH, OTHER),
         at(None, FORTH, FIRST_AND_LAST, WHOLE, "value pair (66051,67438087) used 8 of 20")],
        options="--endpoints", types=SHORT),
    # Only datagrams that are asked for are put together, and only they have moments.
    Row([at(1_000_000, FORTH, FIRST), hidden(5_000_000, FORTH, OTHER), at(1_500_000, FORTH, LAST, WHOLE)],
        options="--service 1234"),
    Row([hidden(1_000_000, FORTH, FIRST), at(1_000_000, FORTH, OTHER_AND_LAST)], options="--service 5555"),
    Row([hidden(1_000_000, FORTH, FIRST), at(1_000_000, OTHERS, FIRST), hidden(1_000_000, OTHERS, OTHER),
         hidden(1_000_000, FORTH, LAST), at(1_000_000, OTHERS, LAST, WHOLE)],
        options="--ports 40001 --service 1234"),
)

ROWS = (*WHOLES, *STANDING, *UNTIMED, *REFUSED, *CROWDED, *ASKED, *FILTERED)

# ---- Recordings of pcapng of raw IPv4, the highest byte first


def block(kind, body):
    body += bytes(-len(body) % 4)
    return struct.pack(">II", kind, 12 + len(body)) + body + struct.pack(">I", 12 + len(body))


SECTION = block(0x0A0D0D0A, struct.pack(">IHHq", 0x1A2B3C4D, 1, 0, -1)) + block(1, struct.pack(">HHI", 228, 0, 0))


def packet(datagram):
    """The block of a datagram from 1.2.3.4 to 6.7.8.9: an enhanced packet, or a simple one, which has no time."""
    data = bytes.fromhex(datagram.hex)
    ends = bytes((1, 2, 3, 4, 6, 7, 8, 9))
    data = struct.pack(">HHIHH", 0x4500, 28 + len(data), 0, 0x4011, 0) + ends + struct.pack(
        ">HHHH", *datagram.ports, 8 + len(data), 0) + data
    if datagram.time is None:
        return block(3, struct.pack(">I", len(data)) + data)
    return block(6, struct.pack(">IIIII", 0, 0, datagram.time, len(data), len(data)) + data)


def heads(datagrams, with_endpoints):
    """What stands before the lines of each datagram that is shown: its number, and perhaps its time and endpoints."""
    for number, (time, (source, target), _, _) in enumerate(datagrams, 1):
        when = "-" if time is None else f"{time // 1_000_000}.{time % 1_000_000:06}000"
        yield f"{when} 1.2.3.4:{source} 6.7.8.9:{target} {number}" if with_endpoints else str(number)


def whole_messages():
    """Words, a recording, the text of a types file, the status, and the text on standard output."""
    for row in ROWS:
        shown = [datagram for datagram in row.datagrams if datagram.lines]
        lines = [f"{head} {line}\n" for head, datagram in zip(heads(shown, "--endpoints" in row.options), shown)
                 for line in datagram.lines]
        words = ["recording", *row.whole.split(), *row.options.split()]
        yield words, SECTION + b"".join(map(packet, row.datagrams)), row.types, row.status, "".join(lines)
