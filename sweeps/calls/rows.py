"""Calls of the program, what they read and print, and which of their files is read by calls that fail."""
import struct
from typing import NamedTuple


class Row(NamedTuple):
    """A call. It reads the files in the order in which they stand here, as far as it reads them."""

    # The words, with `|` between them.
    words: str
    # The files with what they hold.
    files: dict
    # The file whose reads fail, one after the other.
    fails: str
    # All that is printed where no call fails.
    printed: str
    # What is told on standard error then, and the status.
    told: str = ""
    status: int = 0
    # After how many bytes of that file something is printed before the next read, and what.
    before: tuple = ()


# A node that offers an instance, and one that wants it.
TWO = """
group = "239.0.0.1"

# a offers a service with a method, a method without answers, and an event in an eventgroup.
[[node]]
name = "a"
address = "192.168.0.1"
client_id = 0x0101
client_port = 40000
[[node.offer]]
service = 0x1111
instance = 1
major = 1
ttl = 3
port = 30509
methods = [0x0421]
oneways = [0x0422]
events = [{ id = 0x8001, groups = [1] }]

# b wants the service, and may subscribe to the eventgroup.
[[node]]
name = "b"
address = "192.168.0.2"
client_id = 0x0102
client_port = 40001
[[node.want]]
service = 0x1111
instance = 1
major = 1
ttl = 3
groups = [{ id = 1, events = [0x8001] }]
"""

# A schedule of one step, and its trace.
SCHEDULE = "tick a 10\n"
OFFER = (
    "1 a sent 1 192.168.0.1:30490 239.0.0.1:30490 "
    "ffff8100000000300000000101010200c000000000000010010000101111000101000003000000000000000c00090400c0a800010011772d"
)
TRACE = f"{OFFER}\nreuse clean\n"

REQUEST = "12340421 00000008 00010001 01010000\n"
SHOWN = "1 message 1234.0421 length 8 client 0001 session 0001 interface 01 type REQUEST code 00 payload -\n"

# Captures, vectors and payloads.
READINGS = (
    Row("show|capture", {"capture": REQUEST}, "capture", SHOWN),
    Row("show|capture", {"capture": "12340421\n-\n"}, "capture", "1 fault Truncated at 4\n2 empty\n", "", 1),
    Row("show|capture", {"capture": "-\n0g\n-\n"}, "capture", "", "line 2: bad hex", 1),
    Row("vectors|vectors", {"vectors": "datagram -\n> 1 empty\npayload u8 07\n"}, "vectors",
        "1 ok\n2 differs\npassed 1 of 2\n", "", 1),
    Row("vectors|vectors", {"vectors": "payload u32 000000\n> fault Truncated at 0\n"}, "vectors",
        "1 ok\npassed 1 of 1\n"),
    Row("vectors|vectors", {"vectors": "# No vector is before it.\n> 1 empty\n"}, "vectors", "",
        "line 2: bad vector", 1),
    Row("payload|u8|07", {}, "", "value 7\nused 1 of 1\n"),
    Row("payload|array<2,u16>|00000006000100020003", {}, "", "fault TooMany at 8\n", "", 1),
    Row("encode|array<2,u16>|[1,2]", {}, "", "0000000400010002\n"),
    Row("encode|u8|256", {}, "", "fault NotOfShape at 0\n", "", 1),
)

# A types file for the request, and the request with a byte that the file does not expect.
TYPES = "[[message]]\nservice = 0x1234\nmethod = 0x0421\ntype = 'REQUEST'\nshape = 'u8'\nname = 'gear'\n"
TYPED = "12340421 0000000a 00010001 01010000 0701\n"
TYPED_SHOWN = (
    "1 message 1234.0421 length 10 client 0001 session 0001 interface 01 type REQUEST code 00 payload 0701\n"
    "1 value gear 7 used 1 of 2\n"
)
WITH_TYPES = {"types": TYPES, "capture": TYPED}
SHOWINGS = (
    Row("show|--types|types|capture", WITH_TYPES, "types", TYPED_SHOWN),
    Row("show|--types|types|capture", WITH_TYPES, "capture", TYPED_SHOWN),
)


def run_of(schedule, fails, printed, told="", status=0, setup=TWO, words="run|setup|schedule"):
    """A run, of whose setup or schedule reads fail."""
    return Row(words, {"setup": setup, "schedule": schedule}, fails, printed, told, status)


def compared(how, trace, schedule, printed, told="", status=0):
    """A run beside so much of a trace as is expected, whose reads fail."""
    files = {"setup": TWO, "trace": trace, "schedule": schedule}
    return Row(f"run|{how}|trace|setup|schedule", files, "trace", printed, told, status)


# Setups, schedules and traces. A trace may begin with nothing, and with a line that was cut; it has no line behind the
# verdict.
RUNS = (
    run_of("# The Offer.\ntick a 10\n", "schedule", f"2 {OFFER}\n- reuse clean\n", words="run|--lines|setup|schedule"),
    compared("--expect", TRACE, SCHEDULE, ""),
    compared("--expect", "", SCHEDULE, f"expected -\ngot {OFFER}\nline 1\n", "", 1),
    compared("--expect", "1 a\r\n", SCHEDULE, "", "line 1: bad trace line, not UTF-8 or with a carriage return", 1),
    compared("--expect", "", "tick c 10\n", "", "step 1: UnknownNode", 1),
    compared("--begins", "", SCHEDULE, ""),
    compared("--begins", "1 a sent 1 192.168", SCHEDULE, ""),
    compared("--begins", TRACE, SCHEDULE, ""),
    compared("--begins", "1 b\n", SCHEDULE, f"expected 1 b\ngot {OFFER}\nline 1\n", "", 1),
    compared("--begins", "reuse clean\n2", "tick b 9\n", "expected 2\ngot -\nline -\n", "", 1),
    run_of(SCHEDULE, "setup", TRACE),
    run_of(SCHEDULE, "setup", "", "setup: NotToml -", 1, setup="group = \n"),
    run_of(SCHEDULE, "schedule", TRACE),
    run_of("call b 1111.0001 0421 -\n", "schedule", "1 b refused NotOffered\nreuse clean\n"),
    run_of("tick a 10\ntick a\n", "schedule", "", "line 2: bad step", 1),
    run_of("tick a 10\ntick c 10\n", "schedule", "", "step 2: UnknownNode", 1),
    Row("explore|--steps|1|setup|moves|b answer", {"setup": TWO, "moves": SCHEDULE}, "moves",
        "none within 1 steps, 2 schedules\n"),
)

# A recording of classic pcap of raw IPv4: a UDP datagram without payload from 1.2.3.4:5 to 6.7.8.9:10.
HEAD = struct.pack(">IHHiIII", 0xA1B2C3D4, 2, 4, 0, 0, 0xFFFF, 228)
PACKET = struct.pack(">IIII", 1, 2, 28, 28) + bytes.fromhex("4500001c000000004011000001020304060708090005000a00080000")
EMPTY = HEAD + PACKET
EMPTY_SHOWN = "1.000002000 1.2.3.4:5 6.7.8.9:10 1 empty\n"
# The same packet as a file of pcapng, which is written: the section, the interface and the packet.
SECTION = struct.pack("<IIIHHqI", 0x0A0D0D0A, 28, 0x1A2B3C4D, 1, 0, -1, 28)
WRITTEN = (
    SECTION
    + struct.pack("<IIHHIHHIHHI", 1, 32, 228, 0, 0, 9, 1, 9, 0, 0, 32)
    + struct.pack("<IIIIIII", 6, 60, 0, 1000002000 >> 32, 1000002000 & 0xFFFFFFFF, 28, 28) + PACKET[16:]
    + struct.pack("<I", 60)
)


def recorded(words, printed, told="", status=0, before=(), data=EMPTY):
    """A command over a recording, whose reads fail."""
    return Row(f"{words}|recording", {"recording": data}, "recording", printed, told, status, before)


# What was read is written before the next read, and the head of the section before the first.
RECORDINGS = (
    recorded("recording|--endpoints|--ports|10", EMPTY_SHOWN, before=((len(EMPTY), EMPTY_SHOWN),)),
    recorded("recording|--endpoints", EMPTY_SHOWN + EMPTY_SHOWN.replace(" 1 empty", " 2 empty"),
             before=((len(EMPTY), EMPTY_SHOWN),
                     (len(EMPTY + PACKET), EMPTY_SHOWN + EMPTY_SHOWN.replace(" 1 empty", " 2 empty"))),
             data=EMPTY + PACKET),
    recorded("audit", "audited 0 datagrams, 0 messages, 0 findings\nnot looked at 1 datagrams\nno Offer was seen\n"),
    recorded("services", ""),
    recorded("stats|--ports|10", ""),
    recorded("extract", WRITTEN.decode("latin1"),
             before=((0, SECTION.decode("latin1")), (len(EMPTY), WRITTEN.decode("latin1")))),
)

ROWS = (*READINGS, *SHOWINGS, *RUNS, *RECORDINGS)
