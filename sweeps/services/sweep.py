"""The sweep `services`: what the built program prints of recordings, beside what the model tells of them, byte for byte.

    sweep.py PROGRAM [--seed SEED] [--count COUNT]

`sweeps/run services` calls `someipctl services` on recordings, and compares what it prints with what is expected. It
needs Python 3, and nothing beside its standard library. What is expected is told by `sweeps/services/intervals.py`,
which was written from FORMATS and AUDIT and not from the sources.

Recordings: what they are; what is expected
  COUNT `rough`: of nodes that offer, stop, move, subscribe, renew, refuse and begin anew; datagrams are lost, repeated,
    swapped or late; what the model tells
  COUNT `drawn`: of drawn datagrams, which need make no sense, with drawn options; what the model tells
  2 `crowds`: of one offer or subscription more than there is room for; `full NAME` once, and a line for each other
"""
import argparse
import collections
import random
import subprocess
import sys
import tempfile
from pathlib import Path

import intervals
import crowds
import draws
import runs
import wire

WORLDS = 20
ROOM = 65536
CROWDS = {"offers": crowds.offers, "subscriptions": crowds.receivers}
WHY = ("open", "stopped", "expired", "reboot", "moved", "refused", "offer")


def words_of(some):
    """The words of options of a call."""
    words = []
    if some.random() < 0.3:
        words.append("--json")
    if some.random() < 0.2:
        words += ["--service", some.choice(["1111", "2222", "1111,3333"])]
    if some.random() < 0.2:
        words += ["--address", some.choice(["192.168.0.1", "192.168.0.2,192.168.0.3", "10.0.0.1"])]
    if some.random() < 0.2:
        words += ["--from", some.choice(["0", "1700000000.5", "1700000001", "1700000002.000000001"])]
    if some.random() < 0.2:
        words += ["--until", some.choice(["1700000000.5", "1700000002", "1700000010.25", "1800000000"])]
    return words


class Sweep:
    def __init__(self, program, seed, folder):
        self.program, self.seed, self.folder = program, seed, Path(folder)
        self.counts, self.reasons = collections.Counter(), collections.Counter()
        self.lines, self.differences = 0, 0

    def generator(self, *words):
        return random.Random(" ".join(map(str, (self.seed, "services", *words))))

    def judge(self, sort, number, data, words):
        (got, status), expected = self.printed(words, data), intervals.told(data, intervals.asked_of(words))
        self.counts[sort] += 1
        self.lines += len(expected.splitlines())
        self.reasons.update(line.rpartition(" ")[2] for line in expected.splitlines())
        if got != expected or status:
            self.differences += 1
            kept = Path(tempfile.gettempdir()) / f"someipctl-services-{sort}-{number}"
            kept.write_bytes(data)
            pairs = zip(expected.splitlines() + ["-"], got.splitlines() + ["-"])
            first = next((pair for pair in pairs if pair[0] != pair[1]), ("the same", f"status {status}"))
            print(f"services: {' '.join([*words, str(kept)])}: expected '{first[0]}', got '{first[1]}'")

    def printed(self, words, data):
        """What the program prints of a recording, and its exit status."""
        path = self.folder / "recording"
        path.write_bytes(data)
        done = subprocess.run([self.program, "services", *words, str(path)], capture_output=True, check=False)
        return done.stdout.decode("utf8", "replace"), done.returncode

    def crowds(self):
        for name, make in CROWDS.items():
            got, status = self.printed([], wire.pcap(list(make())))
            lines = got.splitlines()
            self.counts["crowds"] += 1
            if lines.count(f"full {name}") != 1 or len(set(lines)) != ROOM + 1 or len(lines) != ROOM + 1 or status:
                self.differences += 1
                print(f"services: {name}: {len(lines)} lines, status {status}")

    def drawn(self, count):
        for number in range(count):
            some = self.generator("drawn", number)
            self.judge("drawn", number, draws.drawn(some)[0], words_of(some))

    def rough(self, count):
        for number in range(0, count, WORLDS):
            some = self.generator("rough", number)
            run = runs.Run(some, self.program, self.folder, min(WORLDS, count - number), True)
            for at, records in enumerate(run.recordings(), number):
                data = wire.pcap(runs.disturbed(some, records), nanoseconds=True)
                self.judge("rough", at, data, words_of(some))


def main():
    parser = argparse.ArgumentParser()
    parser.add_argument("program")
    parser.add_argument("--seed", default="1")
    parser.add_argument("--count", type=int, default=500)
    words = parser.parse_args()
    with tempfile.TemporaryDirectory() as folder:
        sweep = Sweep(words.program, words.seed, folder)
        sweep.drawn(words.count)
        sweep.rough(words.count)
        sweep.crowds()
    lacking = [why for why in WHY if why not in sweep.reasons]
    if lacking:
        print(f"services: nothing ended as {', '.join(lacking)}")
    if lacking or sweep.differences:
        return 1
    counts = ", ".join(f"{count} {name}" for name, count in sweep.counts.items())
    print(f"services: {counts}: {sweep.lines} intervals, no difference")
    return 0


if __name__ == "__main__":
    sys.exit(main())
