"""The sweep `traces`: what a node gives for datagrams, moments and calls, beside traces that were written by the pages.

    sweep.py PROGRAM

Each folder has a setup: one node, and liars, who send it any bytes from any ports of their addresses. That of the folder
`two` is the one of two nodes in examples/runs. Each schedule has its trace beside it, byte for byte. Runs that would be
long as texts are made here: so many requests and calls that one more has no place, and the longest datagram of a liar.
"""
import concurrent.futures
import os
import subprocess
import sys
import tempfile
from pathlib import Path

HERE = Path(__file__).resolve().parent
TWO = HERE.parents[1] / "examples" / "runs" / "two.toml"

# How many requests, and how many calls, may wait for their answers.
PLACES = 1024
# The most bytes of a datagram.
LONGEST = 65507

SERVER, CLIENT = "192.168.0.1:30509", "192.168.0.2:40001"
REQUEST = "11110421000000080102000101010000"
# Its ERROR of the code 04, NOT_READY.
NOT_READY = "11110421000000080102000101018104"


def requests():
    """A request comes once more than there are places: it is handed up each time, and then gets an ERROR."""
    steps = [f"inject p2 40001 {SERVER} {REQUEST}", *["deliver 1 a"] * (PLACES + 1)]
    told = [f"{n + 1} a request {n} 1111.0001 0421 -" for n in range(1, PLACES + 1)]
    return HERE / "server" / "setup.toml", steps, [
        f"1 p2 sent 1 {CLIENT} {SERVER} {REQUEST}", *told, f"{PLACES + 2} a sent 2 {SERVER} {CLIENT} {NOT_READY}",
    ]


def calls():
    """A call more than there are places is refused."""
    offer = ("ffff8100000000300000000101010200c000000000000010010000101111000101000003000000000000000c00090400c0a80001"
             "0011772d")
    trace = [f"1 a sent 1 192.168.0.1:30490 239.0.0.1:30490 {offer}", f"2 b known 1111.0001 {SERVER}"]
    for n in range(1, PLACES + 1):
        trace += [f"{n + 2} b call 1111.0421 {n:04x}", f"{n + 2} b sent {n + 1} {CLIENT} {SERVER} 11110421000000080102{n:04x}01010000"]
    steps = ["tick a 10", "deliver 1 b", *["call b 1111.0001 0421 -"] * (PLACES + 1)]
    return TWO, steps, [*trace, f"{PLACES + 3} b refused Busy"]


def longest():
    """A liar sends as many bytes as a datagram may have."""
    steps = [f"inject p2 1 {SERVER} 00*{LONGEST}"]
    return HERE / "server" / "setup.toml", steps, [f"1 p2 sent 1 192.168.0.2:1 {SERVER} {'00' * LONGEST}"]


def said_of(program, setup, schedule):
    """The exit status of a run, and what comes on standard output and on standard error."""
    done = subprocess.run([program, "run", setup, schedule], stdin=subprocess.DEVNULL, capture_output=True, text=True,
                          check=False)
    return done.returncode, done.stdout, done.stderr


def is_run(program, schedule):
    """A schedule of a folder has the trace beside it."""
    setup = TWO if schedule.parent.name == "two" else schedule.with_name("setup.toml")
    return said_of(program, setup, schedule) == (0, schedule.with_suffix(".trace").read_text(), "")


def is_long_run(program, make):
    """A schedule that is made has the trace that is made with it, and its reuse is clean."""
    setup, steps, trace = make()
    with tempfile.NamedTemporaryFile("w") as schedule:
        schedule.write("\n".join(steps))
        schedule.flush()
        return said_of(program, setup, schedule.name) == (0, "\n".join([*trace, "reuse clean", ""]), "")


def main():
    program = os.path.abspath(sys.argv[1])
    schedules = sorted(HERE.glob("*/*.txt"))
    long_runs = (requests, calls, longest)
    with concurrent.futures.ThreadPoolExecutor(os.cpu_count()) as pool:
        right = [*pool.map(lambda it: is_run(program, it), schedules), *pool.map(lambda it: is_long_run(program, it), long_runs)]
    names = [*(str(it.relative_to(HERE)) for it in schedules), *(it.__name__ for it in long_runs)]
    wrong = [name for name, is_right in zip(names, right) if not is_right]
    for name in wrong:
        print(f"traces: {name}: another trace")
    if not wrong:
        print(f"traces: {len(schedules)} schedules, {len(long_runs)} long runs, no finding")
    return 1 if wrong else 0


if __name__ == "__main__":
    sys.exit(main())
