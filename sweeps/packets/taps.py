#!/usr/bin/env python3
"""taps: the recording examples/taps/two.pcapng, cut and with bytes changed, through each option of the way in.

taps.py PROGRAM [SEED] calls the built program on it, in one file and in several. Status and both texts have to be those
that `model.py` tells of the packets that `reader.py` reads, with the lines that `show` prints of each datagram; of
`audit`, those that `sweeps/audit/model.py` tells. Besides, whatever those say:

- What is printed of a cut file is a beginning of what is printed of the whole. What is printed of a file with a changed
  byte begins with what is printed of the blocks before it.
- A byte that nobody looks at changes nothing: of an Ethernet address, of TTL, TOS and checksums, and what is padded.
- Each packet is of one interface, of one VLAN, and of one span of `--from` and `--until`: the lines of all are parted.
- Two files are what one is that has the packets of both, of either format, and on standard input.
- Where each packet comes twice at once, `--dedup` leaves the lines of the one that came before.
- With `--json` each line has one object, of which `sweeps/json/plain.py` makes the line again.
- A file that is not there ends a call before its first line, and a folder where it is reached.
"""
import importlib.util
import json
import os
import random
import re
import struct
import subprocess
import sys
import tempfile
from concurrent.futures import ThreadPoolExecutor
from itertools import product

HERE = os.path.dirname(os.path.abspath(__file__))
sys.path[:0] = [HERE, f"{HERE}/../audit", f"{HERE}/../json"]
import model
import reader
import seen
import wire
from plain import PLAIN

AUDIT = importlib.util.spec_from_file_location("audit_model", f"{HERE}/../audit/model.py")
audit_model = importlib.util.module_from_spec(AUDIT)
AUDIT.loader.exec_module(audit_model)

TAPS = f"{HERE}/../../examples/taps"
SECOND = 10**9
HEAD = 28
BEGIN = 1_700_000_000 * SECOND
A, B = bytes((192, 168, 0, 1)), bytes((192, 168, 0, 2))

# Words of a call, and what they ask for.
ALL = ("recording --frames --endpoints", {"frames": True, "endpoints": True})
ROWS = (
    ALL,
    ("recording --frames --interface 0", {"frames": True, "interface": [0]}),
    ("recording --frames --interface 1", {"frames": True, "interface": [1]}),
    ("recording --frames --vlan 5", {"frames": True, "vlan": [5]}),
    ("recording --frames --dedup 5", {"frames": True, "dedup": 5}),
    ("recording --address 192.168.0.2 --dedup 1", {"address": [B], "dedup": 1}),
    ("recording --client 0102", {"client": 0x0102}),
    ("recording --service 1234 --interface 0,1", {"service": 0x1234, "interface": [0, 1]}),
    ("recording --ports 30490,5353 --endpoints", {"ports": [30490, 5353], "endpoints": True}),
    ("recording --from 1700000001 --until 1700000002.0001",
     {"from": BEGIN + SECOND, "until": BEGIN + 2 * SECOND + 100_000}),
    ("audit", {}),
    ("audit --dedup 5", {"dedup": 5}),
    ("audit --interface 1", {"interface": [1]}),
    ("recording --frames --learned", {"frames": True, "learned": True}),
    ("recording --learned --ports 5353 --interface 0", {"learned": True, "ports": [5353], "interface": [0]}),
    ("audit --frames --service 1234", {"frames": True, "service": 0x1234}),
    ("audit --client 0102 --address 192.168.0.2 --until 1700000003", {"client": 0x0102, "address": [B], "until": BEGIN + 3 * SECOND}),
    ("audit --frames --learned --ports 5353 --from 1700000001", {"frames": True, "learned": True, "ports": [5353], "from": BEGIN + SECOND}),
)


class Case:
    """A call over files, each with its name. The last file comes on standard input where `piped` is set."""

    def __init__(self, what, row, *files, piped=False):
        self.what, self.row, self.files, self.piped = what, row, files, piped
        self.words, self.options = row
        self.came = self.before = None

    def packets(self):
        """The packets of all files up to the first fault, and this fault with the name of its file, or None."""
        packets = []
        for name, data in self.files:
            pieces, fault = reader.pieces_of(data)
            packets += [piece.packet for piece in pieces if piece.packet]
            if fault:
                return packets, (name, *fault)
        return packets, None

    def read(self):
        """Reads the datagrams, as the model has them."""
        self.counts = dict.fromkeys(model.LEFT_OUT, 0)
        packets, self.fault = self.packets()
        self.datagrams = list(model.datagrams(packets, self.options, self.counts))

    def left_out(self):
        """What is told of the packets that gave no datagram."""
        left = [f"{count} {words}" for words, count in self.counts.items() if count]
        return f"left out {', '.join(left)}" if left else ""

    def error(self):
        left = "" if self.words.startswith("audit") else self.left_out()
        error = f"recording: {left}\n" if left else ""
        if self.fault:
            name, kind, place = self.fault
            error += f"recording: {f'{name}: ' if len(self.files) > 1 else ''}{kind} at {place}\n"
        return error

    def wanted(self, lines_of):
        """The status and the two texts that are to come."""
        if self.words.startswith("audit"):
            records = [wire.Record(time, *map(wire_endpoint, ends), data) for _, time, *ends, data in self.datagrams]
            text = audit_model.Audit(records, self.rules(), self.left_out()).text()
            is_told = not text.startswith("audited ")
        else:
            lines = list(self.lines(lines_of))
            text, is_told = "".join(lines), any(" fault " in line for line in lines)
        return int(is_told or self.fault is not None), text, self.error()

    def rules(self):
        """What the audit goes by."""
        numbers = [frame for frame, *_ in self.datagrams] if "frames" in self.options else None
        return audit_model.Rules(ports=self.options.get("ports"), is_learning="learned" in self.options, frames=numbers,
                                 chosen=lambda finding: is_chosen(self.options, finding))

    def looked_at(self):
        """The datagrams that are looked at, where endpoints are learned."""
        if "learned" not in self.options:
            return self.datagrams
        made = [seen.Datagram(at, time, 0, *map(wire_endpoint, ends), data)
                for at, (_, time, *ends, data) in enumerate(self.datagrams)]
        looked = seen.looked_at(made, self.options.get("ports"), True)
        return [self.datagrams[datagram.number] for datagram in looked]

    def lines(self, lines_of):
        number = 0
        for frame, time, source, destination, data in self.looked_at():
            if not model.is_wanted(self.options, time, source, destination, data):
                continue
            number += 1
            head = f"#{frame} " if "frames" in self.options else ""
            if "endpoints" in self.options:
                ends = f"{model.endpoint_text(source)} {model.endpoint_text(destination)}"
                head += f"{model.time_text(time)} {ends} "
            yield from (f"{head}{number} {line}\n" for line in lines_of[data])

    def run(self, program, room):
        """Calls the program, and calls it for objects, of which it makes the plain lines again."""
        self.came = self.call(program, room)
        status, text, error = self.call(program, room, "--json")
        command = self.words.partition(" ")[0]
        self.objects = status, "".join(f"{PLAIN[command](json.loads(line))}\n" for line in text.splitlines()), error
        return self

    def call(self, program, room, *more):
        """What comes of a call in a folder of its own: the status, and both texts."""
        with tempfile.TemporaryDirectory(dir=room) as folder:
            for name, data in self.files:
                with open(os.path.join(folder, name), "wb") as file:
                    file.write(data)
            names = [name for name, _ in self.files]
            piped = self.files[-1][1] if self.piped else b""
            words = [program, *self.words.split(" "), *more, *names[:-1], "-" if self.piped else names[-1]]
            ended = subprocess.run(words, cwd=folder, input=piped, capture_output=True, timeout=60)
        return ended.returncode, ended.stdout.decode("utf8", "replace"), ended.stderr.decode("utf8", "replace")


def is_chosen(options, finding):
    """Whether the line of a finding names what is asked for."""
    words = re.match(r"[a-z ]*?(?:[0-9]+ ms |[0-9a-f]{2} |[A-Za-z]+ )?([0-9a-f]{4})\.", finding.text)
    client = re.search(r" client ([0-9a-f]{4})", finding.text)
    if "service" in options and not (words and int(words[1], 16) == options["service"]):
        return False
    if "client" in options and not (client and int(client[1], 16) == options["client"]):
        return False
    ends = {wire_address(end) for end in (finding.datagram.source, finding.datagram.destination)}
    if "address" in options and not ends & set(options["address"]):
        return False
    time = None if finding.time == "-" else int(finding.time.replace(".", ""))
    if "from" in options and (time is None or time < options["from"]):
        return False
    return not ("until" in options and (time is None or time >= options["until"]))


def wire_address(endpoint):
    return endpoint[0].to_bytes(4, "big")


def wire_endpoint(endpoint):
    return int.from_bytes(endpoint[0], "big"), endpoint[1]


def shown(program, room, datagrams):
    """The lines that `show` prints of each of these datagrams, without the numbers."""
    path = os.path.join(room, "capture")
    with open(path, "w", encoding="utf8") as file:
        file.writelines(f"{data.hex() or '-'}\n" for data in datagrams)
    printed = subprocess.run([program, "show", path], capture_output=True, text=True, check=False).stdout
    lines = [[] for _ in datagrams]
    for line in printed.splitlines():
        number, _, rest = line.partition(" ")
        lines[int(number) - 1].append(rest)
    return dict(zip(datagrams, lines))


# ---- Files that are cut or changed

def cuts(whole, seed):
    """Cases of the file cut at some hundred places: around each end of a block, and between. Every other one stands
    before or after a whole one."""
    some = random.Random(f"cuts{seed}")
    ends = [piece.end for piece in reader.pieces_of(whole)[0]]
    places = {*ends, *(end - 1 for end in ends), *range(0, 70, 3), *some.sample(range(len(whole)), 300)}
    for at, place in enumerate(sorted(places)):
        cut, row = whole[:place], ROWS[at // 2 % len(ROWS)]
        files = [[("cut", cut)], [("cut", cut), ("two", whole)], [("cut", cut)], [("two", whole), ("cut", cut)]][at % 4]
        yield Case(f"cut after {place} bytes", row, *files)


def changes(whole, seed):
    """Places, and cases of the file with the byte there changed: most of them are not in a long payload, and some say
    Return Codes and options to an audit."""
    some = random.Random(f"changes{seed}")
    pieces = reader.pieces_of(whole)[0]
    heads = [place for piece in pieces for place in range(piece.start, min(piece.start + 130, piece.end))]
    places = sorted(some.sample(heads, 700) + some.sample(range(len(whole)), 100))
    for at, place in enumerate(places):
        change = some.choice((1, 2, 4, 8, 16, 32, 64, 128, 255))
        data = changed(whole, place, change)
        yield place, Case(f"byte {place} changed by {change}", ROWS[at % len(ROWS)], ("two", data))
    for place, change, row in product(audited(whole), (16, 32), [row for row in ROWS if row[0].startswith("audit")]):
        yield place, Case(f"byte {place} changed by {change}", row, ("two", changed(whole, place, change)))


def audited(whole):
    """The places of the Return Codes of answers, and of the lengths of runs of first entries of Service Discovery."""
    answers = [found.start() + 15 for found in re.finditer(rb"\x12\x34\x04\x21.{10}\x80", whole, re.DOTALL)]
    return answers + [found.start() + 27 for found in re.finditer(rb"\xff\xff\x81\0", whole)]


def changed(data, place, change):
    return data[:place] + bytes((data[place] ^ change,)) + data[place + 1:]


def unseen(whole):
    """Places of bytes that nobody looks at, and whether a copy needs the same byte there."""
    for piece in reader.pieces_of(whole)[0]:
        if piece.packet is None:
            continue
        frame = piece.start + HEAD
        ip = frame + 14 + 4 * len(piece.packet.vlans)
        end = ip + reader.number(whole, ip + 2)
        heads = (piece.start + 24, frame, frame + 11, ip + 1, ip + 8, ip + 10, ip + 11)
        yield from ((place, False) for place in (*heads, *range(end, piece.end - 4)))
        if reader.number(whole, ip + 6) % 0x4000 == 0:
            yield from ((place, True) for place in (ip + 26, ip + 27))


# ---- The same packets in other files

def frames(whole):
    """Time and frame of each packet of the file."""
    for piece in reader.pieces_of(whole)[0]:
        if piece.packet:
            size = int.from_bytes(whole[piece.start + 20:piece.start + 24], "little")
            yield piece.packet.time, whole[piece.start + HEAD:piece.start + HEAD + size]


def classic(packets):
    """Classic pcap in nanoseconds with these packets, `(TIME, FRAME)`."""
    heads = (struct.pack("<IIII", time // SECOND, time % SECOND, len(frame), len(frame)) for time, frame in packets)
    return struct.pack("<IHHIIII", 0xA1B23C4D, 2, 4, 0, 0, 65535, 1) + b"".join(
        head + frame for head, (_, frame) in zip(heads, packets))


def parted(whole):
    """Pairs of cases, which have to come to the same: of one file, and of two with its packets."""
    pieces = reader.pieces_of(whole)[0]
    begin = pieces[2].end
    packets = list(frames(whole))
    for at, piece in enumerate(pieces[2:]):
        row, other = ROWS[at % len(ROWS)], ROWS[(at + 5) % len(ROWS)]
        files = ("a", whole[:piece.end]), ("b", whole[:begin] + whole[piece.end:])
        yield Case("one file", row, ("two", whole)), Case(f"parted at {piece.end}", row, *files)
        yield (Case(f"two sections, parted at {piece.end}", row, ("two", files[0][1] + files[1][1])),
               Case(f"parted at {piece.end}, from a pipe", row, *files, piped=True))
        files = ("a", classic(packets[:at])), ("b", classic(packets[at:]))
        yield (Case("classic pcap", other, ("two", classic(packets))),
               Case(f"parted after packet {at}", other, *files))


def doubled(whole):
    """The file with each packet twice at once."""
    pieces = reader.pieces_of(whole)[0]
    return b"".join(whole[piece.start:piece.end] * (2 if piece.packet else 1) for piece in pieces)


# ---- The sweep

def strip(line):
    """A line with the numbers of packet and datagram in front, without the latter."""
    words = line.split(" ")
    return " ".join(words[:4] + words[5:])


def difference(came, wanted):
    """Where two results first differ."""
    if came[0] != wanted[0]:
        return f"status {came[0]}, and not {wanted[0]}"
    for name, one, other in zip(("output", "error"), came[1:], wanted[1:]):
        for got, expected in zip(one.splitlines() + ["no line"], other.splitlines() + ["no line"]):
            if got != expected:
                return f"{name} '{got[:120]}', and not '{expected[:120]}'"
    return "the ends of lines"


def findings_of(text):
    """The lines of a text but for the summary of an audit."""
    begin, _, _ = text.partition("audited ")
    return begin


class Sweep:
    """The cases that were run, and what was found."""

    def __init__(self, program, seed, room):
        self.program, self.seed, self.room = os.path.abspath(program), seed, room
        self.cases = self.findings = 0
        with open(f"{TAPS}/two.pcapng", "rb") as file:
            self.whole = file.read()

    def tell(self, case, why):
        self.findings += 1
        if self.findings <= 10:
            print(f"taps: {case.words}, {case.what}: {why}")

    def judge(self, cases):
        """Runs cases, and holds each against the models."""
        for case in cases:
            case.read()
        lines_of = shown(self.program, self.room, sorted({it[4] for case in cases for it in case.datagrams}))
        with ThreadPoolExecutor(os.cpu_count()) as pool:
            list(pool.map(lambda case: case.run(self.program, self.room), cases))
        self.cases += len(cases)
        for case in cases:
            wanted = case.wanted(lines_of)
            if case.came != wanted:
                self.tell(case, difference(case.came, wanted))
            if case.objects != case.came:
                self.tell(case, f"with --json {difference(case.objects, case.came)}")
        return cases

    def judge_all(self, what, rows, data):
        """What comes of a file by each of these rows."""
        cases = self.judge([Case(what, row, ("two", data)) for row in rows])
        return {case.words: case.came for case in cases}

    def cut(self):
        """Where the file is cut, a beginning is printed."""
        whole = self.judge_all("the whole", ROWS, self.whole)
        for case in self.judge(list(cuts(self.whole, self.seed))):
            if len(case.files) == 1 and not whole[case.words][1].startswith(findings_of(case.came[1])):
                self.tell(case, "what is printed is no beginning")

    def change(self):
        """Where a byte is changed, what stands in the blocks before it is printed as ever."""
        made = list(changes(self.whole, self.seed))
        starts = [piece.start for piece in reader.pieces_of(self.whole)[0]]
        before = {}
        for place, case in made:
            start = max(start for start in starts if start <= place)
            case.before = before.setdefault((start, case.words), Case(f"cut after {start} bytes", case.row,
                                                                      ("two", self.whole[:start])))
        self.judge(list(before.values()))
        for case in self.judge([case for _, case in made]):
            if not case.came[1].startswith(findings_of(case.before.came[1])):
                self.tell(case, "what is printed begins otherwise")

    def leave(self):
        """Bytes that nobody looks at change nothing."""
        whole = self.judge_all("the whole", ROWS, self.whole)
        made = []
        for at, (place, is_of_copies) in enumerate(unseen(self.whole)):
            row = ROWS[at % len(ROWS)]
            row = ALL if is_of_copies and "dedup" in row[1] else row
            data = changed(self.whole, place, 1 << at % 8)
            made.append(Case(f"byte {place} changed, at which nobody looks", row, ("two", data)))
        for case in self.judge(made):
            if case.came != whole[case.words]:
                self.tell(case, difference(case.came, whole[case.words]))

    def lines(self, *asked):
        """The lines of the file, with packets and endpoints, by each of these options: without their own numbers, and
        without those of the event in fragments, which may have one of either tap."""
        rows = [(" ".join([ALL[0], *(f"--{name} {text}" for name, (text, _) in options.items())]),
                 ALL[1] | {name: value for name, (_, value) in options.items()}) for options in asked]
        cases = self.judge([Case("the whole", row, ("two", self.whole)) for row in rows])
        return [[strip(line) for line in case.came[1].splitlines() if " 1234.8001 " not in line] for case in cases]

    def part(self):
        """Interfaces, VLANs and spans of time part the lines."""
        odd = lambda why: self.tell(Case("the whole", ALL), why)
        tap = lambda number: {"interface": (str(number), [number])}
        whole, zero, one, vlan = self.lines({}, tap(0), tap(1), {"vlan": ("5", [5])})
        if sorted(zero + one) != sorted(whole) or set(zero) & set(one) or vlan != one:
            odd("interfaces do not part the lines")
        times = sorted({time + by for time, _ in frames(self.whole) for by in (0, 1)})
        texts = [(model.time_text(time), time) for time in times]
        before = self.lines(*({"until": text} for text in texts))
        after = self.lines(*({"from": text} for text in texts))
        for at, (text, _) in enumerate(texts):
            if before[at] + after[at] != whole:
                odd(f"{text} does not part the lines")
        pairs = [(at, at + 5) for at in range(0, len(times) - 5, 3)]
        spans = self.lines(*({"from": texts[first], "until": texts[last]} for first, last in pairs))
        for (first, last), lines in zip(pairs, spans):
            if lines != [line for line in before[last] if line in after[first]]:
                odd(f"{texts[first][0]} to {texts[last][0]} is no span of the lines")

    def pair(self):
        """Files that are parted, and packets that come twice at once."""
        pairs = list(parted(self.whole))
        self.judge([case for pair in pairs for case in pair])
        for one, two in pairs:
            if one.came != two.came:
                self.tell(two, difference(two.came, one.came))
        rows = [(f"recording --endpoints --dedup {ms}", {"endpoints": True, "dedup": ms}) for ms in (1, 60000)]
        once = self.judge_all("the whole", rows, self.whole)
        for words, came in self.judge_all("each packet twice", rows, doubled(self.whole)).items():
            if came[:2] != once[words][:2]:
                self.tell(Case("each packet twice", (words, {})), difference(came, once[words]))

    def miss(self):
        """What is not there is told before the first line; a folder is where its turn comes."""
        path, folder = os.path.join(self.room, "two"), os.path.join(self.room, "folder")
        nowhere = f"{path}0"
        os.mkdir(folder)
        with open(path, "wb") as file:
            file.write(self.whole)
        for words, _ in ROWS:
            whole = findings_of(run([self.program, *words.split(" "), path])[1])
            for names, bad in (((path, nowhere), nowhere), ((nowhere, path), nowhere), ((path, folder), folder),
                               ((folder, path), folder)):
                self.cases += 1
                status, text, error = run([self.program, *words.split(" "), *names])
                # What falls due after the last datagram is not told where more was to come.
                is_begun = whole.startswith(text) and (text == whole or "audit" in words)
                is_right = is_begun if names == (path, folder) else text == ""
                if status != 4 or error != f"cannot read {bad}\n" or not is_right:
                    self.tell(Case(" ".join(names), (words, {})), f"status {status}, '{error}', {len(text)} bytes")


def run(words):
    ended = subprocess.run(words, stdin=subprocess.DEVNULL, capture_output=True, text=True, check=False)
    return ended.returncode, ended.stdout, ended.stderr


def main():
    with tempfile.TemporaryDirectory() as room:
        sweep = Sweep(sys.argv[1], "".join(sys.argv[2:]), room)
        written = subprocess.run([sys.executable, f"{TAPS}/write.py"], capture_output=True, check=True).stdout
        if written != sweep.whole:
            sweep.tell(Case("examples/taps/two.pcapng", ALL), "it is not what write.py writes")
        for step in (sweep.cut, sweep.change, sweep.leave, sweep.part, sweep.pair, sweep.miss):
            step()
    if sweep.findings == 0:
        print(f"taps: {sweep.cases} cases, no finding")
    return int(sweep.findings > 0)


if __name__ == "__main__":
    sys.exit(main())
