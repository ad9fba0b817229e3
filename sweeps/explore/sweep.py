"""The sweep `explore`: searches that are drawn, beside an enumeration by the pages alone, over the program's own `run`.

    sweep.py PROGRAM [--count COUNT] [--first SEED]

Each search is drawn from its seed: a setup of examples/runs, steps that all schedules begin with, moves, a goal, and
limits. The model tries the schedules one by one, shorter ones first, each by a call of `run`, and judges its trace by
its words. The answer of `explore`, its status and its count have to be those of the model.

One more search judges 100,000 schedules in 10 MB of address space, of which the program takes half before the first:
so no schedule may leave as much as 50 bytes.
"""
import argparse
import concurrent.futures
import os
import random
import re
import resource
import subprocess
import sys
import tempfile
from pathlib import Path

ROOT = Path(__file__).resolve().parents[2]
RUNS = ROOT / "examples" / "runs"
COUNT = 40
# The most schedules that the model tries for one search.
ROOM = 400
# How many schedules the long search judges, and in how much memory.
MANY = 100_000
KILOBYTES = 10_000

KNOWN = ["tick a 10", "deliver 1 b"]
SUBSCRIBED = [*KNOWN, "subscribe b 1111.0001 0001", "deliver 2 a", "deliver 3 b"]
CALLED = [*KNOWN, "call b 1111.0001 0421 01", "deliver 2 a"]
BEGINNINGS = [[], KNOWN, SUBSCRIBED, CALLED, [*CALLED, "restart a 10", "tick a 10"]]
ANSWER = "111104210000000900020001" + "01018000ff"
MOVES = [
    "tick a 10", "tick b 2000", "deliver * *", "deliver * b", "deliver * a", "deliver 1 b", "deliver 2 a",
    "call b 1111.0001 0421 aa*3000", "call b 1111.0001 0421 01", "oneway b 1111.0001 0422 0A",
    "answer a * 00 02", "error a * 01 -", "answer a 1 00 bb*1500", "subscribe b 1111.0001 0001",
    "unsubscribe b 1111.0001 0001", "publish a 1111.0001 8001 2a", "publish a 1111.0001 8001 00*8",
    "publish_to a 1111.0001 0001 192.168.0.2:40001 8001 2b", "restart a 10", "restart b 20", "stop_offer a 1111.0001",
]
LIES = [f"inject c 30509 192.168.0.2:40001 {ANSWER}", "inject c 30490 239.0.0.1:30490 ff*20"]
GOALS = [
    "b known", "b gone", "b answer", "b timeout", "b event", "b subscribed", "b unsubscribed", "b reboot", "a request",
    "a request 2", "a accepted", "b dropped", "b dropped NotPending", "b dropped NotSubscribed", "b refused", "b",
    "a refused UnknownToken", "a sent 4", "b sent",
]
HELD = ["a request", "b subscribed", "b known", "b call", "a sent", "b event"]


class Setup:
    """The names, addresses and liars of a setup, in order."""

    def __init__(self, name):
        self.path = RUNS / name
        common, *nodes = self.path.read_text().split("[[node]]")
        self.group = re.search(r'^group = "(.*)"', common, re.M)[1]
        self.nodes = [(re.search(r'^name = "(.*)"', n, re.M)[1], re.search(r'^address = "(.*)"', n, re.M)[1],
                       "\nliar = true" in n) for n in nodes]


class Search:
    """A search that is drawn from a seed."""

    def __init__(self, seed):
        draw = random.Random(seed)
        self.setup = Setup("liars.toml" if seed % 3 == 0 else "two.toml")
        self.beginning = draw.choice(BEGINNINGS)
        pool = MOVES + (LIES if seed % 3 == 0 else [])
        self.moves = draw.sample(pool, draw.choice([2, 3, 3, 4]))
        self.goal = draw.choice(GOALS)
        self.once = draw.sample(HELD, draw.choice([0, 0, 0, 1, 2]))
        self.never = draw.sample(HELD, draw.choice([0, 0, 0, 1]))
        self.longest = draw.choice([2, 3, 3])
        self.most = draw.choice([None, None, None, 1, 3, 17, 60])


def spelled(line):
    """A step, in one spelling."""
    words = line.split(" ")
    if words[0] in ("call", "oneway", "answer", "error", "publish", "publish_to", "inject"):
        word = words[-1].lower()
        if "*" in word:
            byte, count = word.split("*")
            word = byte * int(count) or "-"
        words[-1] = word
    return " ".join(words)


class Model:
    """What the pages say of a search."""

    def __init__(self, program, search):
        self.program, self.search, self.tried = program, search, 0

    def trace(self, steps):
        """The lines of a run, each as its step and its words; None where a step is bad."""
        self.tried += 1
        if self.tried > ROOM:
            raise OverflowError
        words = [self.program, "run", str(self.search.setup.path), "/dev/stdin"]
        done = subprocess.run(words, input="\n".join(steps) + "\n", capture_output=True, text=True, check=False)
        if done.returncode:
            assert done.returncode == 1 and re.match(r"step \d+: ", done.stderr), done.stderr
            return None
        return [(int(line.split(" ")[0]), line.split(" ")[1:]) for line in done.stdout.splitlines()[:-1]]

    def stands_for(self, move, steps, trace):
        """The steps for which a move stands."""
        words = move.split(" ")
        sent = [told[4].split(":")[0] for _, told in trace if told[1] == "sent"]
        nodes = self.search.setup.nodes
        if words[:2] == ["deliver", "*"] and words[2] == "*":
            return [f"deliver {number} {name}" for number, to in enumerate(sent, 1) for name, address, liar in nodes
                    if not liar and to in (address, self.search.setup.group)]
        if words[:2] == ["deliver", "*"]:
            return [f"deliver {number} {words[2]}" for number in range(1, len(sent) + 1)]
        if words[0] in ("answer", "error") and words[2] == "*":
            life = max([i for i, step in enumerate(steps, 1) if step.split(" ")[:2] == ["restart", words[1]]], default=0)
            tokens = [told[2] for step, told in trace
                      if told[:2] == [words[1], "request"] and told[2] != "-" and step > life]
            return [" ".join([words[0], words[1], token, *words[3:]]) for token in tokens]
        return [move]

    def reaches(self, trace):
        """Whether a trace reaches the goal."""
        def has(told, words):
            words = words.split(" ")
            return told[:len(words)] == words
        search, before = self.search, []
        for step, told in trace:
            if (step > len(search.beginning) and has(told, search.goal)
                    and all(any(has(t, words) for t in before) for words in search.once)
                    and not any(has(t, words) for t in before for words in search.never)):
                return True
            before.append(told)
        return False

    def answer(self):
        """The text that `explore` prints, in one spelling, and its status."""
        judged, level, most = 0, [self.search.beginning], self.search.most or 10_000_000
        for length in range(self.search.longest + 1):
            longer = []
            for steps in level:
                trace = self.trace(steps)
                if trace is None:
                    continue
                if judged == most:
                    return [f"none of up to {length - 1} steps, stopped after {most} schedules"], 1
                judged += 1
                if self.reaches(trace):
                    done = len(self.search.beginning)
                    return [*map(spelled, steps[:done]), f"# judged {judged} schedules", *map(spelled, steps[done:])], 1
                if length < self.search.longest:
                    for move in self.search.moves:
                        longer += [[*steps, step] for step in self.stands_for(move, steps, trace)]
            level = longer
        return [f"none within {self.search.longest} steps, {judged} schedules"], 0


def asked(program, search, room):
    """What `explore` prints, in one spelling, and its status."""
    after, moves = Path(room, "after"), Path(room, "moves")
    after.write_text("".join(f"{step}\n" for step in search.beginning))
    moves.write_text("# Moves.\n\n" + "".join(f"{move}\n" for move in search.moves))
    words = [program, "explore", "--after", str(after), "--steps", str(search.longest)]
    words += ["--most", str(search.most)] if search.most else []
    # It judges less than a million, so nothing is told, and nothing changes.
    words += ["--progress"] if search.longest % 2 else []
    words += [word for text in search.once for word in ("--once", text)]
    words += [word for text in search.never for word in ("--never", text)]
    done = subprocess.run([*words, str(search.setup.path), str(moves), search.goal], capture_output=True, text=True,
                          check=False)
    return [line if line.startswith(("#", "none")) else spelled(line) for line in done.stdout.splitlines()], \
        done.returncode, done.stderr


def tried(program, seed):
    """Judges a search: how many schedules its model tried, its kind of answer, and what is wrong."""
    search = Search(seed)
    model = Model(program, search)
    try:
        text, status = model.answer()
    except OverflowError:
        return 0, None, None
    with tempfile.TemporaryDirectory() as room:
        told, ended, error = asked(program, search, room)
    kind = {True: "found", False: "stopped" if "stopped" in text[0] else "none"}[text[0].split(" ")[0] != "none"]
    if (told, ended, error) == (text, status, ""):
        return model.tried, kind, None
    return model.tried, kind, f"search {seed}: {told} with status {ended} {error.strip()}, not {text} with {status}"


def is_long_search_bounded(program):
    """Whether the memory of a search does not grow with its schedules."""
    def limit():
        resource.setrlimit(resource.RLIMIT_AS, (KILOBYTES * 1024, KILOBYTES * 1024))

    with tempfile.TemporaryDirectory() as room:
        moves = Path(room, "moves")
        moves.write_text("\n".join(move for move in MOVES if "restart" not in move) + "\n")
        words = [program, "explore", "--most", str(MANY), str(RUNS / "two.toml"), str(moves), "b event ff"]
        done = subprocess.run(words, capture_output=True, text=True, check=False, preexec_fn=limit)
    return re.fullmatch(f"none of up to . steps, stopped after {MANY} schedules\n", done.stdout) is not None


def main():
    parser = argparse.ArgumentParser()
    parser.add_argument("program")
    parser.add_argument("--count", type=int, default=COUNT)
    parser.add_argument("--first", type=int, default=1)
    words = parser.parse_args()
    seeds = range(words.first, words.first + words.count)
    with concurrent.futures.ThreadPoolExecutor(os.cpu_count()) as pool:
        all_of = list(pool.map(lambda seed: tried(words.program, seed), seeds))
    findings = [wrong for _, _, wrong in all_of if wrong]
    findings += [] if is_long_search_bounded(words.program) else [f"no search of {MANY} schedules in {KILOBYTES} KB"]
    kinds = [kind for _, kind, _ in all_of if kind]
    findings += [f"no search is {kind}" for kind in ("found", "none", "stopped") if kind not in kinds]
    counts = ", ".join(f"{kinds.count(kind)} {kind}" for kind in ("found", "none", "stopped"))
    told = {0: "no finding", 1: "1 finding"}.get(len(findings), f"{len(findings)} findings")
    print("\n".join([f"explore: {counts}, {sum(count for count, _, _ in all_of)} schedules, {told}", *findings]))
    return int(bool(findings))


if __name__ == "__main__":
    sys.exit(main())
