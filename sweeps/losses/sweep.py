"""The sweep `losses`: what the built program audits of drawn networks that lose events, and of the same without loss.

    sweep.py PROGRAM [--seed SEED] [--count COUNT]
    sweep.py --model [--seed SEED] [--count COUNT]

`sweeps/run losses` calls `someipctl audit` on recordings of networks: one to three services of one or two servers, now and
then one over TCP alone, one to five receivers, subscriptions that are renewed, stopped and left to expire, and events in
cycles of 10 ms to 5 s. It needs Python 3, and nothing beside its standard library. `--model` asks the model of the sweep
`audit` in place of the program.

Each network is recorded by three taps: of all traffic, on the cable of one server, and on that of one client. Where it
loses events, each that went to a receiver on that cable has to be told as `event gap`, once, at its time, and nothing
else. Where it loses none, nothing is told. `sweeps/losses/networks.py` knows what was lost, and says which losses it draws.

  the example: `examples/losses.pcap`, as `sweeps/losses/story.py` writes it; `examples/losses.txt`
"""
import argparse
import os
import random
import subprocess
import sys
import tempfile
from pathlib import Path

import networks
import story
import model
import wire

KEPT = Path(os.environ.get("TMPDIR", "/tmp")) / "someipctl-losses"
EXAMPLES = Path(__file__).resolve().parents[2] / "examples"


class Sweep:
    def __init__(self, program, seed, folder):
        self.program, self.seed, self.folder = program, seed, Path(folder)
        self.lost, self.told, self.recordings, self.differences = 0, 0, 0, 0
        self.cycles, self.receivers, self.runs = set(), set(), set()

    def printed(self, data):
        """What the program prints of a recording, and its exit status; or what the model tells."""
        if self.program is None:
            audit = model.Audit(wire.records_of(data), model.Rules())
            return audit.text(), int(audit.fails())
        path = self.folder / "recording"
        path.write_bytes(data)
        done = subprocess.run([self.program, "audit", str(path)], capture_output=True, check=False)
        return done.stdout.decode("utf8", "replace"), done.returncode

    def judge(self, name, data, expected, fails):
        """Compares what is printed of a recording, and the exit status, with what is expected, and keeps what differs."""
        got, status = self.printed(data)
        self.recordings += 1
        if got == expected and status == int(fails):
            return
        self.differences += 1
        KEPT.mkdir(parents=True, exist_ok=True)
        path = KEPT / f"{name}.pcap"
        path.write_bytes(data)
        path.with_suffix(".expected").write_text(expected)
        path.with_suffix(".got").write_text(got)
        pairs = zip(expected.splitlines() + ["-"], got.splitlines() + ["-"])
        first = next((pair for pair in pairs if pair[0] != pair[1]), ("the same", f"status {status}"))
        print(f"losses: {path}: expected '{first[0]}', got '{first[1]}'")

    def network(self, number):
        network = networks.Network(random.Random(f"{self.seed} losses {number}"))
        lost = network.lost_events()
        self.lost += len(lost)
        self.runs.update(one.count for one in network.lost)
        self.cycles.update(network.cycles[one.cycle].millis for one in network.lost)
        self.receivers.update(len(network.cycles[one.cycle].copies[one.first]) for one in network.lost)
        for tap in network.taps():
            seen = network.seen_by(tap, lost)
            lines, count = network.findings(seen)
            self.told += count
            self.judge(f"{number}-{tap.name}", network.recording(seen), networks.told(len(seen), lines), bool(lines))
            seen = network.seen_by(tap, ())
            self.judge(f"{number}-{tap.name}-whole", network.recording(seen), networks.told(len(seen), []), False)

    def example(self):
        """The example, which stands as its script writes it, with what is told of it."""
        data, expected = (EXAMPLES / "losses.pcap").read_bytes(), (EXAMPLES / "losses.txt").read_text()
        if data != wire.pcap(story.story()) or model.audited(data, model.Rules()) != expected:
            print("losses: examples/losses.pcap, or losses.txt there, is not what story.py and the model make")
            self.differences += 1
        self.judge("example", data, expected, True)

    def missed(self):
        """Which cycles, numbers of receivers and of events in a row no loss had."""
        cycles = {cycle for _, drawn in networks.SPANS for cycle in drawn} - self.cycles
        found = [f"a cycle of {cycle} ms" for cycle in sorted(cycles)]
        found += [f"{count} receivers" for count in range(1, 6) if count not in self.receivers]
        return found + [f"{count} events in a row" for count in sorted(set(networks.RUNS) - self.runs)]


def main():
    parser = argparse.ArgumentParser()
    parser.add_argument("program", nargs="?")
    parser.add_argument("--model", action="store_true")
    parser.add_argument("--seed", default="1")
    parser.add_argument("--count", type=int, default=1000)
    words = parser.parse_args()
    if (words.program is None) != words.model:
        parser.error("a program, or --model")
    with tempfile.TemporaryDirectory() as folder:
        sweep = Sweep(words.program, words.seed, folder)
        sweep.example()
        for number in range(words.count):
            sweep.network(number)
    lacking = sweep.missed()
    if lacking:
        print(f"losses: nothing was lost of {', '.join(lacking)}")
    if lacking or sweep.differences:
        return 1
    print(f"losses: 1 example, {words.count} networks: {sweep.lost} lost events, told {sweep.told} times by 3 taps, "
          "none without loss, no finding")
    return 0


if __name__ == "__main__":
    sys.exit(main())
