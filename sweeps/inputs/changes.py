"""Vectors that are cut and changed."""
import os
from typing import NamedTuple

HERE = os.path.dirname(os.path.abspath(__file__))
VECTORS = os.path.join(HERE, "..", "..", "examples", "vectors", "all.txt")
# The bytes that others are changed to.
BYTES = (0x00, 0x7F, 0x80, 0xFF)

# What the node that wants gets in the first nine steps of examples/runs/two.txt: the Offer, the answer to its call, and
# the Ack of its Subscribe.
OFFER = bytes.fromhex("ffff8100000000300000000101010200c000000000000010010000101111000101000003000000000000000c"
                      "00090400c0a800010011772d")
ANSWER = bytes.fromhex("1111042100000009010200010101800003")
ACK = bytes.fromhex("ffff8100000000240000000101010200c0000000000000100700000011110001010000030000000100000000")


class Input(NamedTuple):
    """Bytes, and where they come from."""

    origin: str
    data: bytes


def bytes_of(digits):
    return b"" if digits == "-" else bytes.fromhex(digits)


def read_vectors():
    """The bytes of each vector of a datagram, and shape and bytes of each of a payload; with their numbers."""
    datagrams, payloads = [], []
    with open(VECTORS, encoding="utf8") as file:
        lines = [line for line in file.read().split("\n") if line.startswith(("datagram ", "payload "))]
    for number, line in enumerate(lines, 1):
        kind, *words = line.split(" ")
        if kind == "datagram":
            datagrams.append(Input(f"vector {number}", bytes_of(words[0])))
        else:
            payloads.append((words[0], Input(f"vector {number}", bytes_of(words[1]))))
    return datagrams, payloads


def cuts(whole):
    """The first bytes of an input, of each number."""
    for length in range(len(whole.data) + 1):
        yield Input(f"{whole.origin} cut to {length}", whole.data[:length])


def changed_bytes(whole):
    """An input with each byte changed to each of the four."""
    for place in range(len(whole.data)):
        for byte in BYTES:
            data = whole.data[:place] + bytes((byte,)) + whole.data[place + 1:]
            yield Input(f"{whole.origin} with byte {place} as {byte:02x}", data)


def changes(whole):
    return [*cuts(whole), *changed_bytes(whole)]
