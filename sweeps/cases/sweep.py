#!/usr/bin/env python3
"""cases: commands with what they print.

sweep.py PROGRAM calls the built program on the words of each line of the file `cases`, between which stands one space
each, in a folder with the files of `data` and `examples`. All calls have one standard input, examples/one.pcap, which
the first of them that reads it takes whole.

The file `expected` has what each has to print: a line `> ` with the words, then what comes on standard output and on
standard error, in the order in which it comes, and a line `= ` with the exit status. It is written from the rules of
the pages, never from what the program prints. A call that takes longer than a minute is a finding.
"""
import difflib
import os
import re
import subprocess
import sys
import tempfile

from room import HERE, furnish, read_cases

SECONDS = 60
MOST_LINES = 20


def read_expected():
    """What each case has to print, with its words and its status."""
    with open(f"{HERE}/expected", "rb") as file:
        return re.findall(rb"^> .*?\n= \d+\n", file.read(), re.M | re.S)


def come(program, line, room, given):
    """What the call of a line prints, with its words and its status."""
    words = [program, *line.split(" ")]
    how = {"cwd": room, "stdin": given, "stdout": subprocess.PIPE, "stderr": subprocess.STDOUT, "timeout": SECONDS}
    try:
        ended = subprocess.run(words, **how)
    except subprocess.TimeoutExpired as late:
        return b"> %s\n%s= none within %d s\n" % (line.encode(), late.stdout or b"", SECONDS)
    return b"> %s\n%s= %d\n" % (line.encode(), ended.stdout, ended.returncode)


def lines_of(text):
    """The lines of a text, as texts that show each byte."""
    return [line.decode("utf8", "backslashreplace") for line in text.split(b"\n")]


def tell(line, wanted, came):
    """Prints the words of a case that differs, and what differs."""
    print(f"cases: {line}")
    told = list(difflib.unified_diff(lines_of(wanted), lines_of(came), "expected", "came", lineterm="", n=1))
    print("\n".join(told[:MOST_LINES]))


def main():
    program = os.path.abspath(sys.argv[1])
    lines, expected, findings = read_cases(), read_expected(), 0
    if len(lines) != len(expected):
        findings += 1
        print(f"cases: {len(lines)} cases, and {len(expected)} texts that are expected")
    with tempfile.TemporaryDirectory() as room:
        furnish(room)
        with open(f"{room}/examples/one.pcap", "rb") as given:
            for line, wanted in zip(lines, expected):
                came = come(program, line, room, given)
                if came != wanted:
                    findings += 1
                    tell(line, wanted, came)
    print(f"cases: {len(lines)} cases, " + (f"{findings} findings" if findings else "no finding"))
    sys.exit(1 if findings else 0)


if __name__ == "__main__":
    main()
