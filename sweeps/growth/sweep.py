"""growth: what an audit costs where a book is full, or `stats` where a table is, beside half of it.

Each recording of `books.py` fills one book of `audit`, or one table of `stats`, with its limit of keys, and hits it as
often where a hit concerns many of them. The same is made with half as many keys and hits. The one may cost 2.3 times the
instructions of the other, as `valgrind --tool=callgrind` counts them. Where that is not there, user time is compared, with
3.2 times. What is to be told of each key has to be.
Run by `sweeps/run growth`: sweep.py PROGRAM [BOOK..]; with words these books are tried, or `all`, and their costs printed.
"""
import concurrent.futures
import os
import re
import resource
import shutil
import subprocess
import sys
import tempfile

import books
import wire

LIMIT = int(os.environ.get("GROWTH_LIMIT", "65536"))
MOST, MOST_BY_TIME = 2.3, 3.2
VALGRIND = shutil.which("valgrind")


def instructions(call):
    """The instructions of a call."""
    run = subprocess.run([VALGRIND, "--tool=callgrind", "--callgrind-out-file=/dev/null", *call],
                         stdout=subprocess.DEVNULL, stderr=subprocess.PIPE, text=True, check=False)
    counted = re.search(r"Collected : (\d+)", run.stderr)
    if run.returncode not in (0, 1) or not counted:
        raise RuntimeError(f"status {run.returncode}: {run.stderr[-300:]}")
    return int(counted[1])


def user_time(call):
    """The least user time of three calls, in seconds."""
    times = []
    for _ in range(3):
        before = resource.getrusage(resource.RUSAGE_CHILDREN).ru_utime
        run = subprocess.run(call, stdout=subprocess.DEVNULL, stderr=subprocess.PIPE, check=False)
        if run.returncode not in (0, 1):
            raise RuntimeError(f"status {run.returncode}: {run.stderr[-300:]}")
        times.append(resource.getrusage(resource.RUSAGE_CHILDREN).ru_utime - before)
    return min(times)


def look_at(call, name, keys):
    """Raises an error where what is to be told of each key is told of fewer."""
    kind = books.TOLD.get(name) or books.FIGURES.get(name)
    if kind is None:
        return
    run = subprocess.run(call, stdout=subprocess.PIPE, stderr=subprocess.DEVNULL, text=True, check=False)
    form = rf"^(?:method|event|discovery) .* {kind} (\d+)\b" if name in books.FIGURES else rf"^{kind} (\d+)$"
    if sum(map(int, re.findall(form, run.stdout, re.M))) < keys * 15 // 16:
        raise RuntimeError(f"{name}: of {keys} keys too few show {kind}")


def cost(program, room, name, keys):
    path = os.path.join(room, f"{name.replace(' ', '-')}.{keys}")
    with open(path, "wb") as out:
        out.write(wire.pcap(books.BOOKS[name](keys), nanoseconds=True))
    call = [program, "stats" if name in books.FIGURES else "audit", path]
    if name in books.RULES:
        with open(path + ".toml", "w", encoding="utf8") as out:
            out.write(books.RULES[name])
        call[2:2] = ["--rules", path + ".toml"]
    look_at(call, name, keys)
    found = instructions(call) if VALGRIND else user_time(call)
    os.remove(path)
    return found


def tried(program, names):
    """Each book with what half of its limit costs, and the whole."""
    sides = [(name, keys) for name in names for keys in (LIMIT // 2, LIMIT)]
    at_once = (os.cpu_count() or 1) if VALGRIND else 1
    with tempfile.TemporaryDirectory() as room, concurrent.futures.ThreadPoolExecutor(at_once) as pool:
        costs = list(pool.map(lambda side: cost(program, room, *side), sides))
    return zip(names, costs[::2], costs[1::2])


def main():
    program, *asked = sys.argv[1:]
    names = list(books.BOOKS) if asked in ([], ["all"]) else asked
    most, findings = MOST if VALGRIND else MOST_BY_TIME, 0
    for name, half, whole in tried(program, names):
        if asked:
            print(f"growth: {name}: {half} and {whole}, {whole / half:.2f} times")
        elif whole > most * half:
            findings += 1
            print(f"growth: {name}: {half} and {whole}, {whole / half:.2f} times")
    if findings:
        sys.exit(1)
    skipped = "" if VALGRIND else ", skipped: instructions, as there is no valgrind"
    print(f"growth: {len(names)} books, no finding{skipped}")


if __name__ == "__main__":
    main()
