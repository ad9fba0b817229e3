#!/usr/bin/env python3
"""inputs: vectors that are cut to every length, and read with each of their bytes as 00, 7f, 80 and ff in turn.

sweep.py PROGRAM shows all of them by the built program. The vectors are those of examples/vectors/all.txt, and the
Offer, the answer and the Ack of examples/runs/two.txt.

Datagrams. `show` has to print the lines that `shown.py` tells of each, in one call. The payload of each message of a
vector is cut and changed by itself too, and shown as Service Discovery.

Payloads, by the shape of their vector, in messages with a types file. A value uses no more bytes than there are, and
the place of a fault is at most their number. `encode` writes each value that was read, and what it wrote is shown as
the same value, which uses all of it. A text that came without its mark may have no room for it. A shape that no
payload has tells so of all bytes.
"""
import concurrent.futures
import os
import re
import subprocess
import sys
import tempfile

from changes import ACK, ANSWER, OFFER, Input, changed_bytes, changes, cuts, read_vectors
from shown import lines_of
from wire import messages_of

# So many shapes stand in a types file.
SHAPES = 30
# What is told of shapes that no payload has.
IMPOSSIBLE = (["fault BadShape at 0"], ["fault TooDeep at 0"])
DISCOVERY = "ffff8100{:08x}0000000101010200"
MESSAGE = "{:04x}0001{:08x}0000000101010000"
TABLE = "[[message]]\nservice = 0x{:04x}\nmethod = 0x0001\ntype = 'REQUEST'\nshape = '{}'\n"
VALUE = re.compile(r"\d+ value (?:fault (\w+) at (\d+)|(.*?)(?: used (\d+) of (\d+))?)")


class Sweep:
    """The program, a folder for its files, and the findings so far."""

    def __init__(self, program, room):
        self.program, self.room, self.findings, self.written = program, room, [], 0

    def find(self, what):
        self.findings.append(what)

    def run(self, *words):
        """The status, the lines on standard output, and the text on standard error."""
        ended = subprocess.run([self.program, *words], capture_output=True, timeout=60)
        return ended.returncode, ended.stdout.decode().splitlines(), ended.stderr.decode()

    def show(self, datagrams, name, *words):
        """The lines of each of these datagrams, all shown by one call."""
        path = f"{self.room}/{name}"
        with open(path, "w", encoding="ascii") as file:
            file.writelines(f"{data.hex() or '-'}\n" for data in datagrams)
        status, lines, error = self.run("show", *words, path)
        shown = [[] for _ in datagrams]
        for line in lines:
            shown[int(line.split(" ")[0]) - 1].append(line)
        is_faulty = any(re.match(r"\d+ (?:value )?fault ", line) for line in lines)
        if (status, error) != (int(is_faulty), ""):
            self.find(f"show of {name}: status {status}, {error}")
        return shown

    def sweep_datagrams(self, inputs):
        """The lines of each input have to be those that the model tells."""
        for number, (given, shown) in enumerate(zip(inputs, self.show([it.data for it in inputs], "datagrams")), 1):
            wanted = [f"{number} {line}" for line in lines_of(given.data)]
            if shown != wanted:
                self.find(f"{given.origin}: {given.data.hex()}: expected {wanted}, got {shown}")

    # ---- Payloads

    def sweep_payloads(self, payloads):
        """Shows each payload by its shape, and encodes what was read."""
        shapes = dict.fromkeys(shape for shape, _ in payloads)
        told = {shape: self.run("payload", shape, "-")[1] for shape in shapes}
        possible = [shape for shape in shapes if told[shape] not in IMPOSSIBLE]
        for at in range(0, len(possible), SHAPES):
            chosen = possible[at:at + SHAPES]
            rows = [(shape, it) for shape, whole in payloads if shape in chosen for it in changes(whole)]
            self.sweep_values(chosen, rows)
        for shape, it in ((shape, it) for shape, whole in payloads if shape not in possible for it in changes(whole)):
            came = self.run("payload", shape, it.data.hex() or "-")
            if came != (1, told[shape], ""):
                self.find(f"{it.origin}: {shape} {it.data.hex()}: {came}")

    def values_of(self, shapes, rows):
        """The text of the value of each row, and how many of how many bytes it uses; or the fault and its place."""
        path = f"{self.room}/types"
        with open(path, "w", encoding="utf8") as file:
            file.writelines(TABLE.format(0x4000 + number, shape) for number, shape in enumerate(shapes))
        datagrams = [bytes.fromhex(MESSAGE.format(0x4000 + shapes.index(shape), 8 + len(it.data))) + it.data
                     for shape, it in rows]
        for (shape, it), shown in zip(rows, self.show(datagrams, "payloads", "--types", path)):
            found = len(shown) == 2 and VALUE.fullmatch(shown[1])
            if found:
                yield shape, it, found
            else:
                self.find(f"{it.origin}: {shape} {it.data.hex()}: {shown}")

    def sweep_values(self, shapes, rows):
        texts = {}
        for shape, it, found in self.values_of(shapes, rows):
            fault, place, text, used, size = found.groups()
            length = len(it.data)
            if fault and int(place) - 16 > length or used and not int(used) < int(size) == length:
                self.find(f"{it.origin}: {shape} {it.data.hex()}: {found[0]}")
            if not fault:
                texts[shape, text] = it
        self.sweep_written(shapes, texts)

    def sweep_written(self, shapes, texts):
        """Each value is written, and what was written is shown as the same value."""
        with concurrent.futures.ThreadPoolExecutor(os.cpu_count()) as pool:
            came = list(pool.map(lambda row: self.run("encode", "--", *row), texts))
        rows = []
        for (shape, text), (status, lines, error) in zip(texts, came):
            if (status, error) == (0, "") and len(lines) == 1:
                data = bytes.fromhex("" if lines[0] == "-" else lines[0])
                rows.append((shape, Input(f"{texts[shape, text].origin}, written again", data), text))
            elif (status, lines, error) != (1, ["fault TooLong at 0"], ""):
                self.find(f"{texts[shape, text].origin}: encode {shape} {text}: {status} {lines} {error}")
        self.written += len(rows)
        wanted = {(shape, it): text for shape, it, text in rows}
        for shape, it, found in self.values_of(shapes, [row[:2] for row in rows]):
            if found[1] or found[3] != wanted[shape, it] or found[4]:
                self.find(f"{it.origin}: {shape} {it.data.hex()}: expected {wanted[shape, it]}, got {found[0]}")


def as_discovery(given):
    """The datagram with a message of Service Discovery whose payload an input is."""
    head = bytes.fromhex(DISCOVERY.format(8 + len(given.data)))
    return Input(f"{given.origin}, as Service Discovery", head + given.data)


def payloads_in(datagram):
    """The payloads of the messages of a datagram."""
    for number, (_, _, payload) in enumerate(messages_of(datagram.data)[0], 1):
        yield Input(f"{datagram.origin}, payload of message {number}", payload)


def main():
    datagrams, payloads = read_vectors()
    datagrams += [Input("the Offer", OFFER), Input("the answer", ANSWER), Input("the Ack", ACK)]
    inner = [it for datagram in datagrams for it in payloads_in(datagram)]
    with tempfile.TemporaryDirectory() as room:
        sweep = Sweep(os.path.abspath(sys.argv[1]), room)
        sweep.sweep_datagrams([it for whole in datagrams for it in changes(whole)]
                              + [as_discovery(it) for whole in inner for it in changes(whole)])
        sweep.sweep_payloads(payloads)
    wholes = [*datagrams, *inner, *(whole for _, whole in payloads)]
    cut, changed = (sum(len(list(way(whole))) for whole in wholes) for way in (cuts, changed_bytes))
    print("".join(f"inputs: {finding}\n" for finding in sweep.findings), end="")
    if not sweep.findings:
        print(f"inputs: {len(datagrams) + len(payloads)} vectors, {cut} cuts, {changed} changed bytes, "
              f"{sweep.written} values written again, no finding")
    sys.exit(1 if sweep.findings else 0)


if __name__ == "__main__":
    main()
