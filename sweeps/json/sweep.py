#!/usr/bin/env python3
"""json: the lines of the commands, plain and as JSON objects.

sweep.py PROGRAM makes those of the calls of `sweeps/cases` that print lines, and more, with `--json` and without. Each plain line has to have one object, in order, under one key each. From each object the plain
line is made again (plain.py); of a value only its numbers and texts are compared. The status has to be the same. Where
Python has the package `jsonschema`, each object has to fit docs/json-lines.schema.json.
"""
import json
import os
import re
import subprocess
import sys
import tempfile

HERE = os.path.dirname(os.path.abspath(__file__))
TOP = f"{HERE}/../.."
sys.path[:0] = [HERE, f"{TOP}/sweeps/cases"]
from plain import PLAIN, origin
from room import furnish, read_cases

try:
    import jsonschema
except ImportError:
    jsonschema = None


def unique(pairs):
    """An object whose keys differ."""
    made = dict(pairs)
    if len(made) != len(pairs):
        raise ValueError("a key comes twice")
    return made


class Number(str):
    """A number by its digits."""


def scalars(value):
    """The numbers and texts of a value in order, by their texts; names are not among them."""
    if isinstance(value, dict):
        return [text for part in value.values() for text in scalars(part)]
    if isinstance(value, list):
        return [text for part in value for text in scalars(part)]
    return [str(value)]


def told(text):
    """Those of a plain value line."""
    return re.findall(r"-?[0-9][0-9.e+-]*", text)


def is_value(line, plain):
    """Whether a value's object and its plain line tell the same numbers, and the same fault."""
    if "fault" in line:
        return plain.endswith(f"fault {line['fault']} at {line['at']}")
    wanted = [text for it in scalars(line["value"]) for text in told(it)]
    return all(text in plain for text in wanted)


def is_same(command, line, plain):
    """Whether an object of a command tells the plain line."""
    if next(iter(line)) != "kind":
        return False
    if line["kind"] == "value":
        return plain.startswith(f"{origin(line)}{line['datagram']} value") and is_value(line, plain)
    return PLAIN[command](line) == plain


class Sweep:
    def __init__(self, program):
        self.program = os.path.abspath(program)
        self.lines = self.findings = self.cases = 0
        self.schema = None
        if jsonschema:
            with open(f"{TOP}/docs/json-lines.schema.json", encoding="utf8") as file:
                self.schema = jsonschema.Draft202012Validator(json.load(file))

    def tell(self, words, what):
        self.findings += 1
        print(f"json: {' '.join(words)}: {what}")

    def run(self, room, words):
        ended = subprocess.run([self.program, *words], cwd=room, capture_output=True, timeout=60)
        return ended.returncode, ended.stdout.decode("utf8").splitlines(), ended.stderr

    def judge(self, room, command, *words):
        self.cases += 1
        plain, objects = self.run(room, [command, *words]), self.run(room, [command, "--json", *words])
        call = [command, *words]
        if (plain[0], plain[2]) != (objects[0], objects[2]):
            return self.tell(call, f"status {objects[0]}, and plain {plain[0]}")
        if len(plain[1]) != len(objects[1]):
            return self.tell(call, f"{len(objects[1])} objects, and {len(plain[1])} lines")
        for one, other in zip(plain[1], objects[1]):
            self.lines += 1
            self.judge_line(call, command, one, other)
        return None

    def judge_line(self, call, command, plain, text):
        try:
            line = json.loads(text, object_pairs_hook=unique, parse_int=Number, parse_float=Number)
        except ValueError as fault:
            return self.tell(call, f"{text[:100]}: {fault}")
        why = ""
        try:
            fits = is_same(command, line, plain)
        except (KeyError, TypeError) as fault:
            fits, why = False, f" ({fault!r})"
        if not fits:
            return self.tell(call, f"{text[:160]}, and plain {plain[:160]}{why}")
        if self.schema:
            for fault in self.schema.iter_errors(json.loads(text)):
                return self.tell(call, f"{text[:160]}: {fault.message[:160]}")
        return None


# Further calls, which are no cases.
MORE = [
    "recording --frames --endpoints --whole --types examples/speed.toml examples/whole.pcap",
    "recording --frames --endpoints --whole --types examples/types.toml examples/route.pcap",
    "recording --endpoints --whole examples/cut.pcap",
    "audit --frames examples/audit.pcap",
    "audit --ports 30509 --group examples/taps/one.pcapng",
    "audit --frames --rules examples/rules/known.toml examples/audit.pcap",
    "audit --group --rules examples/rules/strict.toml examples/audit.pcap",
    "audit --rules examples/rules/cycles.toml examples/audit.pcap",
    "services --from 1700000018.5 examples/audit.pcap",
    "stats --service 1111.8001,ffff examples/audit.pcap",
    "stats --dedup 5 examples/taps/two.pcapng",
    "stats --ports 30509 examples/route.pcap",
    "run --lines examples/runs/two.toml examples/runs/reboot.txt",
    "run --lines examples/runs/two.toml examples/runs/old_answer.txt",
]


def calls():
    """The words of the cases that print lines, and read no standard input; and more."""
    for line in [*read_cases(), *MORE]:
        words = line.split(" ")
        if words[0] in PLAIN and not {"--json", "-", "--expect", "--begins"} & set(words):
            yield words


def main():
    sweep = Sweep(sys.argv[1])
    with tempfile.TemporaryDirectory() as room:
        furnish(room)
        for words in calls():
            sweep.judge(room, *words)
    told_by = "no finding" if not sweep.findings else f"{sweep.findings} findings"
    print(f"json: {sweep.cases} calls, {sweep.lines} lines: {told_by}")
    sys.exit(1 if sweep.findings else 0)


if __name__ == "__main__":
    main()
