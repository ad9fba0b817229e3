"""The sweep `stats`: what the built program prints of recordings, beside what the model tells of them, byte for byte.

    sweep.py PROGRAM [--seed SEED] [--count COUNT] [SORT..]

SORT is `drawn`, `spread`, `calm`, `rough` or `crowds`. A recording of which the two differ is kept in the system's
temporary folder.

`sweeps/run stats` calls `someipctl stats` on recordings, and compares what it prints and its exit status with what is
expected. It needs Python 3, and nothing beside its standard library. What is expected is told by
`sweeps/stats/figures.py`, which was written from FORMATS, AUDIT and PROTOCOL and not from the sources. Of each P50 and P99
that is told it is looked whether it is as near to the exact value as FORMATS says. With `--json`, which is drawn as other
options are, each object is read, and its plain line compared too.

Recordings: what they are; what is expected
  COUNT `drawn`: as the sweep `audit` draws them, a quarter of them in IPv4 fragments, some with times that are missing or
    fall; what the model tells
  COUNT `spread`: of calls and events with latencies and cycles of all lengths, from 0 to hours; what the model tells
  COUNT `calm`: of nodes in which nothing goes wrong: as they are, as a port that mirrors both directions records them,
    with `--dedup 5`, as a tap has them that sees one direction, or with the sessions of each sender's events counted
    together, with `--sessions sender`; what the model tells
  COUNT `rough`: of nodes that begin anew, refuse and answer late, with datagrams that are lost, repeated, swapped or late,
    a quarter of them in fragments; what the model tells
  10 `crowds`: each table of the figures at its limit, and the books of the audit that gaps and reboots need; what the model
    tells, and `full NAME`. One has a gap of which no event counts
"""
import argparse
import collections
import json
import random
import subprocess
import sys
import tempfile
from pathlib import Path

sys.path.insert(0, str(Path(__file__).resolve().parents[1] / "json"))
import figures
import drawn
import draws
import limits
import runs
import wire
from plain import PLAIN

WORLDS = 20
SORTS = ["drawn", "spread", "calm", "rough", "crowds"]
# What has to come somewhere.
SHOWN = ("method", "event", "discovery", "errors", "unanswered", "gaps", "reboots", "latency", "cycle", "an hour",
         "a told value below the exact one", "a row of gaps alone", "no row")


class Sweep:
    def __init__(self, program, seed, folder):
        self.program, self.seed, self.folder = program, seed, Path(folder)
        self.counts, self.shown = collections.Counter(), set()
        self.rows = self.objects = self.differences = 0

    def generator(self, *words):
        return random.Random(" ".join(map(str, (self.seed, "stats", *words))))

    def printed(self, words, data):
        """What the program prints of a recording, what it tells on standard error, and its exit status."""
        path = self.folder / "recording"
        path.write_bytes(data)
        done = subprocess.run([self.program, "stats", *words, str(path)], capture_output=True, check=False)
        return done.stdout.decode("utf8", "replace"), done.stderr.decode("utf8", "replace"), done.returncode

    def judge(self, sort, name, data, words, records, more=(), full=()):
        """Compares what is printed of a recording with what the model tells of its datagrams. `more` are words that choose
        packets, and `full` the books that come to their limit."""
        asked = figures.asked_of(words)
        told = figures.Figures(records, asked, full)
        expected = told.text()
        got, error, status = self.printed([*words, *more], data)
        self.counts[sort] += 1
        self.note(told)
        fault = f"status {status}" if status else f"'{error.strip()}'" if not is_usual(error) else None
        if got == expected and asked.is_json:
            fault = fault or self.objects_differ(got, told)
        if got != expected or fault:
            kept = Path(tempfile.gettempdir()) / f"someipctl-stats-{sort}-{name}"
            kept.write_bytes(data)
            pairs = zip(expected.splitlines() + ["-"], got.splitlines() + ["-"])
            first = next((pair for pair in pairs if pair[0] != pair[1]), ("the same", fault))
            self.tell(f"{' '.join([*words, *more, str(kept)])}: expected '{first[0]}', got '{first[1]}'")

    def tell(self, what):
        self.differences += 1
        print(f"stats: {what}")

    def objects_differ(self, text, told):
        """Where the objects do not tell the plain lines: the first that does not."""
        told.asked = told.asked._replace(is_json=False)
        for line, plain in zip(text.splitlines(), told.text().splitlines()):
            self.objects += 1
            if PLAIN["stats"](json.loads(line)) != plain:
                return line
        return None

    def note(self, told):
        """Notes what a recording showed, and looks at each quantile."""
        rows = list(told.rows())
        self.rows += len(rows)
        self.shown.update(words[0] for words, _ in rows)
        self.shown.update(name for _, row in rows for name, value in row.members() if value not in (0, (None,) * 4))
        alone = [row for _, row in rows if getattr(row, "gaps", 0) and not row.count + row.bytes]
        self.shown.update(["a row of gaps alone"] if alone else [])
        self.shown.update([] if rows else ["no row"])
        for times in (row.times for _, row in rows if getattr(row, "times", None)):
            self.note_times(times)

    def note_times(self, times):
        """What is told is at most the exact value, at least the least, and near: less by at most a 32nd of itself."""
        _, *told, _ = figures.spread_of(times)
        for percent, value in zip((50, 99), told):
            exact = figures.ranked(times, percent)
            bounded = min(exact, max(2**32 - 1, min(times)))
            self.shown.update(["a told value below the exact one"] if value < exact else [])
            self.shown.update(["an hour"] if exact >= 2**32 else [])
            if not min(times) <= value <= exact or 32 * (bounded - value) > value:
                self.tell(f"{value} is told of {exact}")

    # ---- The sorts of recordings

    def drawn(self, count):
        for number in range(count):
            some = self.generator("drawn", number)
            records = draws.Draws(some).records()
            if number % 4 == 3:
                packets, records = drawn.fragmented(some, records)
                data = wire.pcap(packets, some.choice("<>"), some.random() < 0.5)
                records = [of_file(record, data) for record in records]
            elif number % 4 == 2:
                data = wire.pcapng([draws.untimed(some, record) for record in records])
                records = wire.records_of(data)
            else:
                data = wire.pcap(records, some.choice("<>"), some.random() < 0.5)
                records = wire.records_of(data)
            self.judge("drawn", number, data, drawn.words_of(some, records), records)

    def spread(self, count):
        for number in range(count):
            some = self.generator("spread", number)
            data = wire.pcap(drawn.spread(some), nanoseconds=some.random() < 0.5)
            records = wire.records_of(data)
            self.judge("spread", number, data, drawn.words_of(some, records), records)

    def worlds(self, sort, count):
        """The recordings of so many worlds, each with a generator for what is done to it."""
        for number in range(0, count, WORLDS):
            some = self.generator(sort, number)
            run = runs.Run(some, self.program, self.folder, min(WORLDS, count - number), sort == "rough")
            for at, records in enumerate(run.recordings(), number):
                yield at, some, records

    def calm(self, count):
        for number, some, records in self.worlds("calm", count):
            words, more = drawn.words_of(some, records), []
            packets = records
            if number % 4 == 1:
                packets, more = drawn.mirrored(some, records), ["--dedup", "5"]
            elif number % 4 == 2:
                packets = records = runs.one_sided(records)
            elif number % 4 == 3:
                packets = records = runs.counted_together(records)
                words += [] if "--sessions" in words else ["--sessions", "sender"]
            self.judge("calm", number, wire.pcap(packets, nanoseconds=True), words, records, more)

    def rough(self, count):
        for number, some, records in self.worlds("rough", count):
            packets = records = runs.disturbed(some, records)
            if number % 4 == 3:
                packets, records = drawn.fragmented(some, records)
            data = wire.pcap(packets, nanoseconds=True)
            self.judge("rough", number, data, drawn.words_of(some, records), records)

    def crowds(self, _):
        for name, (make, known, words, full) in limits.CROWDS.items():
            self.judge("crowds", name, wire.pcap(make()), words, known(), full=full)


def of_file(record, data):
    """A datagram with its time as the file has it, which may count in microseconds."""
    unit = 1 if data[:4] in (b"\xa1\xb2\x3c\x4d", b"\x4d\x3c\xb2\xa1") else 1000
    return record._replace(time=record.time // unit * unit)


def is_usual(error):
    """Whether nothing is told on standard error but which packets gave no datagram."""
    return not error or error.startswith("recording: left out ") and error.count("\n") == 1


def main():
    parser = argparse.ArgumentParser()
    parser.add_argument("program")
    parser.add_argument("--seed", default="1")
    parser.add_argument("--count", type=int, default=200)
    parser.add_argument("sorts", nargs="*")
    words = parser.parse_intermixed_args()
    sorts = words.sorts or SORTS
    with tempfile.TemporaryDirectory() as folder:
        sweep = Sweep(words.program, words.seed, folder)
        for sort in sorts:
            getattr(sweep, sort)(words.count)
    lacking = [what for what in SHOWN if what not in sweep.shown] if sorts == SORTS else []
    if lacking:
        print(f"stats: nothing showed {', '.join(lacking)}")
    if lacking or sweep.differences:
        return 1
    counts = ", ".join(f"{count} {name}" for name, count in sweep.counts.items())
    print(f"stats: {counts}: {sweep.rows} rows, {sweep.objects} objects, no difference")
    return 0


if __name__ == "__main__":
    sys.exit(main())
