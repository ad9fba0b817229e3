"""The sweeps `schedules` and `liars`: schedules that are drawn and run by the built program, and judged by its traces.

    sweep.py PROGRAM schedules|liars [--count COUNT]
    sweep.py PROGRAM NUMBER|liars-NUMBER

The second prints the lines of one schedule, and what is wrong with it after them.
"""
import argparse
import concurrent.futures
import os
import subprocess
import sys
from pathlib import Path

import judge
from draws import Lines, World
from told import Setup, Step, Trace

RUNS = Path(__file__).resolve().parents[2] / "examples" / "runs"
ROUNDS, STEPS_OF_ROUND = 10, 5
# The setup of a sweep, what one of its schedules is called, and how many are drawn.
SWEEPS = {"schedules": ("two.toml", "schedule", 1000), "liars": ("liars.toml", "liars", 400)}


class NoTrace(Exception):
    """The program gives no trace: what it says of that."""


def traced(program, setup, lines):
    """The trace of a run of these lines."""
    words = [program, "run", "--lines", str(setup.path), "/dev/stdin"]
    done = subprocess.run(words, input="\n".join(lines) + "\n", capture_output=True, text=True, check=False)
    if done.returncode or done.stderr:
        raise NoTrace(f"status {done.returncode}: {done.stderr.strip()}")
    return Trace(done.stdout)


class Schedule:
    """The schedule of a seed, and what its run gave."""

    def __init__(self, program, setup, seed):
        self.program, self.setup, self.seed = program, setup, seed
        self.world = World(setup, self.is_quiet())
        self.drawn = Lines(setup, seed, self.world)
        self.steps, self.trace, self.sent = [], None, []

    def is_quiet(self):
        """Whether all that liars send is lost."""
        return self.seed % 4 == 0

    def draw(self):
        """Draws the steps, round by round: with regard to the lines that the rounds before gave, for which these are
        run."""
        for _ in range(ROUNDS):
            for _ in range(STEPS_OF_ROUND):
                self.steps.append(Step(self.drawn.draw()))
                self.world.take_step(self.steps[-1])
            self.trace = traced(self.program, self.setup, [step.text for step in self.steps])
            self.world.take_lines(self.trace.lines)
        self.sent = self.trace.sent()

    def judge(self):
        """Judges the run, and gives what it reaches."""
        reached = judge.reached_by(self)
        judge.judge_lines(self.setup, self)
        judge.judge_promises(self.setup, self, reached)
        if self.setup.has_liar() and self.is_quiet():
            lines = judge.text_without_liars(self.setup, self)
            judge.judge_silence(self.setup, self, traced(self.program, self.setup, lines))
        return reached


def tried(schedule):
    """Draws and judges a schedule: what it reaches, and what is wrong with it, if something is."""
    try:
        schedule.draw()
        return schedule.judge(), None
    except (judge.Wrong, NoTrace) as wrong:
        return set(), wrong


def sweep(program, name, count):
    """Draws and judges the first schedules of a sweep."""
    file, one, usual = SWEEPS[name]
    setup, count = Setup(RUNS / file), count or usual
    schedules = [Schedule(program, setup, seed) for seed in range(1, count + 1)]
    reached, findings = set(), []
    with concurrent.futures.ThreadPoolExecutor(os.cpu_count()) as pool:
        for schedule, (more, wrong) in zip(schedules, pool.map(tried, schedules)):
            reached |= more
            findings += [f"{one} {schedule.seed}: {wrong}"] if wrong else []
    findings += [f"{name}: none has {missed}" for missed in sorted(judge.wanted(setup) - reached)]
    told = {0: "no finding", 1: "1 finding"}.get(len(findings), f"{len(findings)} findings")
    print("\n".join([f"{name}: {count} of {ROUNDS * STEPS_OF_ROUND} steps, {told}", *findings]))
    return int(bool(findings))


def show(program, word):
    """Prints the lines of one schedule."""
    number = word.removeprefix("liars-")
    file = SWEEPS["schedules" if number == word else "liars"][0]
    schedule = Schedule(program, Setup(RUNS / file), int(number))
    _, wrong = tried(schedule)
    print("\n".join([step.text for step in schedule.steps] + ([f"# {wrong}"] if wrong else [])))
    return int(bool(wrong))


def main():
    parser = argparse.ArgumentParser()
    parser.add_argument("program")
    parser.add_argument("what")
    parser.add_argument("--count", type=int)
    words = parser.parse_args()
    if words.what in SWEEPS:
        return sweep(words.program, words.what, words.count)
    return show(words.program, words.what)


if __name__ == "__main__":
    sys.exit(main())
