"""The sweep `audit`: what the built program prints of recordings, beside what the model tells of them, byte for byte.

    sweep.py PROGRAM [--seed SEED] [--count COUNT] [SORT..]

SORT is `calm`, `rough`, `drawn`, `ruled`, `renewed` or `crowds`. A recording of which the two differ is kept, with both texts.

`sweeps/run audit` calls `someipctl audit` on recordings, and compares what it prints, byte for byte, and its exit
status with what is expected. It needs Python 3, and nothing beside its standard library. What is expected is told by
a model, `sweeps/audit/model.py`, that was written from AUDIT and PROTOCOL and not from the sources. It has no books:
it makes the list of all that was seen, and looks back over that for each finding.

Recordings: what they are; what is expected
  1000 `calm`: of nodes: drawn setups of two or three nodes, with a TTL of offers above twice the cyclic delay, and
    drawn calls, events, Subscribes, StopSubscribes and StopOffers, some with payloads that go in segments. All clocks
    are ticked together, each datagram is delivered at once, and each request is answered in time, by a RESPONSE with
    code 00. Each is tried three times: as it is, as a port that mirrors both directions records it, with `--dedup 5`,
    and with the sessions of each sender's events counted together, with `--sessions sender`; no finding. And once as a
    tap sees it that has one direction alone; what the model tells
  1000 `rough`: of nodes too, which also begin anew, ask for eventgroups that there are not, offer for a second, and
    answer late or never. Then datagrams of the recording are lost, repeated, swapped or late; what the model tells
  1000 `drawn`: of drawn datagrams, which need make no sense: messages of Service Discovery, calls, events, segments,
    with bytes that are cut or changed, over few addresses and IDs, so that keys meet; with times that go back, stand
    still or are not there, with packets that are no datagrams, and with drawn options; what the model tells
  1000 `ruled`: drawn as those, with drawn rules: of services and methods, with times of answers, kinds that are allowed
    and kinds of which only so many may come; what the model tells, and the exit status
  1000 `renewed`: of subscriptions that are renewed, and begin, move and end now and then, beside events that skip
    sessions; offers and Subscribes are over UDP, over TCP alone, of IPv6 alone, or name no endpoint; what the model tells
  13 `crowds`: a table of an audit comes to its limit of 65,536 keys, one for each table but `cycles`; and calls that
    were answered fill theirs, in one that goes on while they are known, and in one that goes on when they no longer
    are; `full NAME` at the first thing that finds no room, and nothing else
  the example: `examples/audit.pcap`, as `sweeps/audit/story.py` writes it; `examples/audit.txt`

The nodes of a run are parted into twenty *worlds*, each of which hears nothing of the others and gives a recording.
What nodes do is taken from the trace of `someipctl run`, which is called again for each round of deliveries.
"""
import argparse
import collections
import os
import random
import subprocess
import sys
import tempfile
from pathlib import Path

import wire
import crowds
import draws
import model
import runs
import story

KEPT = Path(os.environ.get("TMPDIR", "/tmp")) / "someipctl-audit"
EXAMPLES = Path(__file__).resolve().parents[2] / "examples"
WORLDS = 20
SORTS = ["calm", "rough", "drawn", "ruled", "renewed", "crowds"]
UNJUDGED = ("not looked at ", "no Offer ", "one way ")
WEIGHED = ("allowed ", " at most ")


# Which packets give no datagram, the part `taps` looks at.
LEFT_OUT = "\nleft out "


def without_left_out(text):
    """A text without the line of packets that gave no datagram."""
    before, line, behind = text.partition(LEFT_OUT)
    return before + "\n" + behind.partition("\n")[2] if line else text


class Sweep:
    def __init__(self, program, seed, folder):
        self.program, self.seed, self.folder = program, seed, Path(folder)
        self.counts, self.kinds = collections.Counter(), collections.Counter()
        self.calm_types = set()
        self.unjudged, self.weighed, self.groups = set(), set(), 0
        self.differences = 0

    def generator(self, *words):
        """The generator of draws of this name."""
        return random.Random(" ".join(map(str, (self.seed, *words))))

    def printed(self, words, path):
        """What the program prints of a recording, and its exit status."""
        done = subprocess.run([self.program, "audit", *words, str(path)], capture_output=True, check=False)
        return done.stdout.decode("utf8", "replace"), done.returncode

    def judge(self, sort, name, data, words, expected, fails=None):
        """Compares what is printed of a recording, and the exit status, with what is expected: 1 where it fails, and
        without rules where anything is told."""
        path = self.folder / "recording"
        path.write_bytes(data)
        got, status = self.printed(words, path)
        if LEFT_OUT not in expected:
            got = without_left_out(got)
        lines = expected.splitlines()
        at = next(at for at, line in enumerate(lines) if line.startswith("audited "))
        summary, findings = lines[at + 1:], int(lines[at].split(" ")[-2])
        self.counts[sort] += 1
        self.counts["datagrams"] += int(lines[at].split(" ")[1])
        counted = [line.rpartition(" ") for line in summary]
        self.kinds.update({kind: int(number) for kind, _, number in counted if kind in model.KINDS})
        self.weighed.update(word for line in summary for word in WEIGHED if word in line)
        self.groups += sum(line.endswith(" more") for line in summary)
        self.unjudged.update(line.split(" ")[0] for line in summary if line.startswith(UNJUDGED))
        if got != expected or status != int(findings > 0 if fails is None else fails):
            self.keep(f"{sort}-{name}", data, words, expected, got, status)

    def keep(self, name, data, words, expected, got, status):
        """Tells a difference, and keeps what shows it."""
        self.differences += 1
        KEPT.mkdir(parents=True, exist_ok=True)
        path = KEPT / f"{name}.pcap"
        path.write_bytes(data)
        path.with_suffix(".expected").write_text(expected)
        path.with_suffix(".got").write_text(got)
        pairs = zip(expected.splitlines() + ["-"], got.splitlines() + ["-"])
        first = next((pair for pair in pairs if pair[0] != pair[1]), ("the same", f"status {status}"))
        print(f"audit: {' '.join([*words, str(path)])}: expected '{first[0]}', got '{first[1]}'")

    # ---- The sorts of recordings

    def drawn(self, count):
        for number in range(count):
            data, words = draws.drawn(self.generator("drawn", number))
            expected = model.audited(data, model.rules_of(words)[0])
            self.judge("drawn", number, data, words, expected)

    def renewed(self, count):
        for number in range(count):
            data, words = draws.drawn(self.generator("renewed", number), draws.Renewals)
            self.judge("renewed", number, data, words, model.audited(data, model.rules_of(words)[0]))

    def ruled(self, count):
        """Drawn recordings, with drawn rules."""
        path = self.folder / "rules.toml"
        for number in range(count):
            some = self.generator("ruled", number)
            data, words = draws.drawn(some)
            path.write_text(draws.Draws(some).bench())
            words += ["--rules", str(path)]
            audit = model.Audit(wire.records_of(data), model.rules_of(words)[0])
            self.judge("ruled", number, data, words, audit.text(), audit.fails())

    def worlds(self, sort, count):
        """The recordings of so many worlds, each with a generator for what is done to it."""
        for number in range(0, count, WORLDS):
            some = self.generator(sort, number)
            run = runs.Run(some, self.program, self.folder, min(WORLDS, count - number), sort == "rough")
            for at, records in enumerate(run.recordings(), number):
                yield at, some, records

    def calm(self, count):
        """Nothing is to be told of calm worlds."""
        for number, some, records in self.worlds("calm", count):
            words = some.choice(([], ["--settle-ms", "1"]))
            messages = [header for record in records for _, header, _ in wire.messages_of(record.payload)[0]]
            self.calm_types.update(header.kind for header in messages)
            audited = f"audited {len(records)} datagrams, {len(messages)} messages, 0 findings\n"
            expected = audited + model.unjudged_of(records)
            self.judge("calm", number, wire.pcap(records, nanoseconds=True), words, expected)
            both = runs.mirrored(some, records)
            copies = f"left out {len(both) - len(records)} copies\n" if len(both) > len(records) else ""
            twice = wire.pcap(both, nanoseconds=True)
            self.judge("mirrored", number, twice, words + ["--dedup", "5"], audited + copies + model.unjudged_of(records))
            together = wire.pcap(runs.counted_together(records), nanoseconds=True)
            self.judge("counted together", number, together, words + ["--sessions", "sender"], expected)
            one_sided = wire.pcap(runs.one_sided(records), nanoseconds=True)
            self.judge("one-sided", number, one_sided, words, model.audited(one_sided, model.rules_of(words)[0]))

    def rough(self, count):
        for number, some, records in self.worlds("rough", count):
            words = some.choice(([], ["--settle-ms", "1"], ["--settle-ms", "1", "--answer-ms", "500"]))
            words = words + some.choice(([], ["--overtake-ms", "0"], ["--overtake-ms", "1000"])) + some.choice(([], ["--group"]))
            data = wire.pcap(runs.disturbed(some, records), nanoseconds=True)
            self.judge("rough", number, data, words, model.audited(data, model.rules_of(words)[0]))

    def crowds(self, _):
        for name, (table, make, number) in crowds.CROWDS.items():
            records = make()
            self.judge("crowds", name, wire.pcap(records), [], crowds.told(table, records, number))

    def example(self):
        """The example, which stands as its script writes it, with what is told of it."""
        data, expected = (EXAMPLES / "audit.pcap").read_bytes(), (EXAMPLES / "audit.txt").read_text()
        if data != wire.pcap(story.STORY) or model.audited(data, model.Rules()) != expected:
            print("audit: examples/audit.pcap, or audit.txt there, is not what story.py and the model make")
            self.differences += 1
        self.judge("examples", "story", data, [], expected)

    def summary(self):
        counts = ", ".join(f"{count} {name}" for name, count in self.counts.items() if name != "datagrams")
        told = sum(self.kinds.values())
        return f"audit: {counts}: {self.counts['datagrams']} datagrams, {told} findings, no difference"


def missed(sweep, sorts):
    """What did not come, where all sorts were tried: kinds of findings, and types of messages in calm worlds."""
    if len(sorts) < len(SORTS):
        return []
    types = [wire.REQUEST, wire.ONEWAY, wire.NOTIFICATION, wire.RESPONSE, wire.NOTIFICATION | wire.TP]
    kinds = [kind for kind in model.KINDS if kind not in sweep.kinds]
    kinds += [words.strip() for words in UNJUDGED if words.split(" ")[0] not in sweep.unjudged]
    kinds += [] if sweep.groups else ["a group"]
    kinds += [f"'{word}'" for word in WEIGHED if word not in sweep.weighed]
    return kinds + [f"type {kind:02x} in a calm world" for kind in types if kind not in sweep.calm_types]


def main():
    parser = argparse.ArgumentParser()
    parser.add_argument("program")
    parser.add_argument("--seed", default="1")
    parser.add_argument("--count", type=int, default=1000)
    parser.add_argument("sorts", nargs="*")
    words = parser.parse_intermixed_args()
    sorts = words.sorts or SORTS
    with tempfile.TemporaryDirectory() as folder:
        sweep = Sweep(words.program, words.seed, folder)
        sweep.example()
        for sort in sorts:
            getattr(sweep, sort)(words.count)
    lacking = missed(sweep, sorts)
    if lacking:
        print(f"audit: nothing showed {', '.join(lacking)}")
    if lacking or sweep.differences:
        return 1
    print(sweep.summary())
    return 0


if __name__ == "__main__":
    sys.exit(main())
