"""Captures, and the datagrams that they hold; and texts that name services, and what of a capture they choose."""

# Texts of captures, and how many bytes each of their datagrams has. All are too short for a header.
CAPTURES = (
    (b"", ()),
    (b"\n\n", ()),
    (b"  \n#\n#zz\n", ()),
    (b"#\xff\xfe\n00", (1,)),
    (b"12fF", (2,)),
    (b"09afAF\n", (3,)),
    (b"12\n34", (1, 1)),
    (b"12\n\n34\n", (1, 1)),
    (b"12 3 4", (2,)),
    (b"  1 2\n", (1,)),
    (b"12  ", (1,)),
    (b"-", (0,)),
    (b" - \n", (0,)),
    (b"-\n-\n", (0, 0)),
    (b"1 2\n# 1\n345 6\n7 8\n", (1, 2, 1)),
    (b"aabb\n1 2\n-\nccdd", (2, 1, 0, 2)),
)
# What stands before three bytes in a datagram with a message of which they are the payload, and what is shown of them.
HEAD = b"12340421 0000000b 00000001 01010000 "
HEAD_SHOWN = "1 message 1234.0421 length 11 client 0000 session 0001 interface 01 type REQUEST code 00 payload "
DIGITS = ((b"09afAF", "09afaf"), (b"0 9af A F", "09afaf"), (b"BCDEbc ", "bcdebc"))

# Messages of a service and a method or event, one a datagram.
MESSAGES = (
    (0x0000, 0x0001), (0x1111, 0x0000), (0x1111, 0x8001), (0x1111, 0xFFFF), (0x2222, 0x0421), (0x2222, 0x8001),
    (0x2222, 0x8002), (0xFFAB, 0x0001), (0xFFFF, 0x0001),
)
# Texts that name services, and the messages that they choose.
SERVICES = (
    ("1111", ((0x1111, 0x0000), (0x1111, 0x8001), (0x1111, 0xFFFF))),
    ("0000", ((0x0000, 0x0001),)),
    ("ffff", ((0xFFFF, 0x0001),)),
    ("FfaB", ((0xFFAB, 0x0001),)),
    ("1111.8001", ((0x1111, 0x8001),)),
    ("1111.0000", ((0x1111, 0x0000),)),
    ("1111.FFFf", ((0x1111, 0xFFFF),)),
    ("2222.8001,1111,2222.0421",
     ((0x1111, 0x0000), (0x1111, 0x8001), (0x1111, 0xFFFF), (0x2222, 0x0421), (0x2222, 0x8001))),
    ("1111,1111", ((0x1111, 0x0000), (0x1111, 0x8001), (0x1111, 0xFFFF))),
    ("3333", ()),
)


def fault_line(number, length):
    """The line of a datagram with fewer bytes than a header, or none."""
    return f"{number} fault Truncated at {length}\n" if length else f"{number} empty\n"


def message_line(number, service, method):
    return (f"{number} message {service:04x}.{method:04x} length 8 client 0000 session 0001 interface 01 type REQUEST "
            "code 00 payload -\n")


def captures():
    """Words, a capture, the status, and the text on standard output."""
    for text, lengths in CAPTURES:
        shown = "".join(fault_line(number, length) for number, length in enumerate(lengths, 1))
        yield ["show"], text, int(any(lengths)), shown, ""
    for digits, shown in DIGITS:
        yield ["show"], HEAD + digits, 0, f"{HEAD_SHOWN}{shown}\n", ""
    lines = "".join(f"{service:04x}{method:04x}000000080000000101010000\n" for service, method in MESSAGES)
    for text, chosen in SERVICES:
        shown = "".join(message_line(number, *message) for number, message in enumerate(chosen, 1))
        yield ["show", "--service", text], lines.encode(), 0, shown, ""
