#!/usr/bin/env python3
"""packets: recordings of several files, interfaces, VLANs, copies and fragments, beside a model of the way in.

sweep.py PROGRAM [--seed WORD] [--count N] draws recordings and words of `recording`, and holds what the program prints,
tells and ends with against `model.py`, which was written from docs/FORMATS.md alone.
"""
import argparse
import os
import random
import subprocess
import sys
import tempfile

import draws
import model


def run(program, words, files):
    """The status and the texts of a call over these files, which lie in a folder of their own."""
    with tempfile.TemporaryDirectory() as folder:
        names = []
        for index, data in enumerate(files):
            names.append(f"{index}.pcap")
            with open(os.path.join(folder, names[-1]), "wb") as file:
                file.write(data)
        ended = subprocess.run([os.path.abspath(program), "recording", *words, *names], cwd=folder,
                               stdin=subprocess.DEVNULL, capture_output=True, timeout=60)
        return ended.returncode, ended.stdout.decode(), ended.stderr.decode()


def main():
    parser = argparse.ArgumentParser()
    parser.add_argument("program")
    parser.add_argument("--seed", default="way in")
    parser.add_argument("--count", type=int, default=1500)
    asked = parser.parse_args()
    findings = 0
    told = {}
    for number in range(asked.count):
        chance = random.Random(f"{asked.seed} {number}")
        words, options = draws.options(chance)
        packets, files = draws.recording(chance)
        wanted = model.shown(packets, options, len(files))
        found = run(asked.program, words, files)
        for word in model.kinds(wanted):
            told[word] = told.get(word, 0) + 1
        if found != wanted:
            findings += 1
            print(f"packets: case {number}: recording {' '.join(words)}: got {found!r}, wanted {wanted!r}")
            if findings == 5:
                break
    missing = [word for word in model.KINDS if not told.get(word)]
    for word in missing:
        print(f"packets: no case tells '{word}'")
    if findings or missing:
        return 1
    print(f"packets: {asked.count} cases, no finding")
    return 0


if __name__ == "__main__":
    sys.exit(main())
