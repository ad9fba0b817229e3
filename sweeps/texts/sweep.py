"""texts: what the built program says of texts, by rows, most of which are not quite right.

sweep.py PROGRAM tries the rows of each file beside it.

Setups, types files, files of rules, schedules, moves and goals of searches, texts of shapes, payloads, recordings, and
words that come to no command are refused. A setup is run over a schedule without steps; most rows change one place of the
worked setup, and those of `in_order` put fault after fault into a setup with every key (but `liar`, which a row adds), so
that each is told before all that stand there already. A types file shows a request, whose value is told where the file
has a table.
Schedules of one step, and of none, are right, and run as such.

Captures are read, and services are chosen of one. Messages of recordings are put together from their segments. A value
that the vectors expect is encoded from its text, and what that writes is told by the same text. Each front of the text is
read, or is refused where it ends; and with a space behind it the text is refused there.
"""
import concurrent.futures
import os
import subprocess
import sys
import tempfile
from pathlib import Path

from captures import captures
from payloads import FAULTS, TAGGED_FAULTS, bad_shapes, deep_shapes
from printed import fronts_of, printed_values
from recordings import recordings
from rules_files import rules
from schedule_rows import ELSEWHERE, NO_STEPS, STEPS, schedules
from searches import searches
from setups import setups
from types_files import types
from wholes import whole_messages
from words import HELP, USAGE, values

EXAMPLES = Path(__file__).resolve().parents[2] / "examples"
SETUP = EXAMPLES / "runs" / "two.toml"
CALM = EXAMPLES / "one.pcap"

# A request of the service 0, and the line that shows it.
CAPTURE = "00000000 00000009 00000001 01010000 07\n"
SHOWN = ("1 message 0000.0000 length 9 client 0000 session 0001 interface 01 type REQUEST code 00 payload 07\n")


def run(program, words, name="someipctl"):
    """The exit status, and what comes on standard output and on standard error."""
    done = subprocess.run([name, *words], executable=program, stdin=subprocess.DEVNULL, capture_output=True, text=True,
                          check=False)
    return done.returncode, done.stdout, done.stderr


def said_of(program, data, words, *more):
    """What the program says of a file with these bytes, whose path stands between words."""
    with tempfile.NamedTemporaryFile() as file:
        file.write(data)
        file.flush()
        return run(program, [*words, file.name, *more])


def is_setup(program, text, wanted):
    """A setup is run over a schedule without steps, or refused."""
    said = said_of(program, text.encode(), ["run"], "/dev/null")
    return said == ((0, "reuse clean\n", "") if wanted == "ok" else (1, "", f"setup: {wanted}\n"))


def is_types(program, data, wanted):
    """A types file is refused; or where it has tables they tell the request's value or its fault, and else none is told."""
    with tempfile.NamedTemporaryFile("w") as capture:
        capture.write(CAPTURE)
        capture.flush()
        status, shown, error = said_of(program, data, ["show", "--types"], capture.name)
    if wanted == "empty":
        return (status, shown, error) == (0, SHOWN, "")
    if wanted == "tables":
        value = shown.removeprefix(SHOWN)
        is_fault = value.startswith("1 value fault ")
        return (status, error) == (is_fault, "") and len(value) < len(shown) and value.startswith("1 value ")
    return (status, shown, error) == (1, "", f"types: {wanted}\n")


def is_rules(program, text, wanted):
    """A file of rules is refused, or taken by an audit of a recording without findings."""
    said = said_of(program, text.encode(), ["audit", "--rules"], str(CALM))
    return said[::2] == (0, "") if wanted == "ok" else said == (1, "", f"rules: {wanted}\n")


def is_schedule(program, data, bad_line):
    """A schedule is refused by its first bad line."""
    return said_of(program, data, ["run", str(SETUP)]) == (1, "", f"line {bad_line}: bad step\n")


def is_step(program, data):
    """A schedule is read as one step, which is at no node of the setup."""
    with tempfile.NamedTemporaryFile("w") as setup:
        setup.write(ELSEWHERE)
        setup.flush()
        return said_of(program, data, ["run", setup.name]) == (1, "", "step 1: UnknownNode\n")


def is_no_step(program, data):
    """A schedule is read as one without steps."""
    return said_of(program, data, ["run", str(SETUP)]) == (0, "reuse clean\n", "")


def is_search(program, setup, options, moves, goal, told):
    """A search is refused before anything is tried."""
    words = ["explore", *options, str(SETUP.with_name(setup))]
    return said_of(program, moves, words, goal) == (1, "", f"{told}\n")


def is_bad_shape(program, text, place):
    return run(program, ["payload", text, "00"]) == (1, "", f"bad shape at {place}\n")


def is_shape(program, text):
    """A text is that of a shape, though of one that payloads cannot have."""
    status, shown, error = run(program, ["payload", text, "-"])
    return (status, error) == (1, "") and shown.startswith("fault ")


def is_fault(program, shape, digits, fault):
    return run(program, ["payload", shape, digits]) == (1, f"fault {fault}\n", "")


def encoded(program, shape, text):
    return run(program, ["encode", "--", shape, text])


def is_refused_at_end(program, shape, front):
    """A front of a text of a value is a text of another one, or is refused where it ends."""
    status, shown, error = encoded(program, shape, front)
    return error in ("", f"bad value at {len(front.encode())}\n") and (status == 1) == (shown == "" or shown.startswith("fault"))


def is_printed(program, shape, text, can_be_written):
    """A value is encoded from its text, and told by it again; the text goes on nowhere, and its fronts do."""
    status, digits, error = encoded(program, shape, text)
    if not can_be_written:
        return (status, digits, error) == (1, "fault TooLong at 0\n", "")
    digits = digits.removesuffix("\n")
    whole = f"value {text}\nused {len(digits) // 2} of {len(digits) // 2}\n"
    return ((status, error) == (0, "") and run(program, ["payload", shape, digits]) == (0, whole, "")
            and encoded(program, shape, text + " ") == (1, "", f"bad value at {len(text.encode())}\n")
            and all(is_refused_at_end(program, shape, front) for front in fronts_of(text)))


def is_of_whole_lines(text):
    """A text ends with the end of its last line, and no empty line stands there."""
    return text.endswith("\n") and not text.endswith("\n\n")


def is_help(program, words, part):
    name, *words = words.split("|")
    status, shown, error = run(program, words, name)
    return (status, error) == (0, "") and part in shown and is_of_whole_lines(shown)


def is_usage(program, words, part):
    name, *words = words.split("|")
    status, shown, error = run(program, words, name)
    return (status, shown) == (2, "") and part in error and is_of_whole_lines(error)


def is_value(program, words, status, told):
    return run(program, words.split("|")) == (status, "", told)


def is_recorded(program, words, data, status, shown, told):
    return said_of(program, data, words) == (status, shown, told)


def is_whole(program, words, data, types, status, shown):
    with tempfile.NamedTemporaryFile("w") as file:
        file.write(types)
        file.flush()
        return said_of(program, data, [*words, "--types", file.name]) == (status, shown, "")


PARTS = {
    "setup": (is_setup, setups()),
    "types file": (is_types, types()),
    "file of rules": (is_rules, rules()),
    "schedule": (is_schedule, schedules()),
    "step": (is_step, [(text,) for text in STEPS]),
    "no step": (is_no_step, [(text,) for text in NO_STEPS]),
    "search": (is_search, tuple(searches())),
    "shape": (is_bad_shape, bad_shapes()),
    "deep shape": (is_shape, [(text,) for text in deep_shapes()]),
    "payload": (is_fault, (*FAULTS, *TAGGED_FAULTS)),
    "printed value": (is_printed, printed_values()),
    "help": (is_help, HELP),
    "usage": (is_usage, USAGE),
    "value": (is_value, tuple(values())),
    "recording": (is_recorded, tuple(recordings())),
    "capture": (is_recorded, tuple(captures())),
    "whole message": (is_whole, tuple(whole_messages())),
}


def main():
    program = os.path.abspath(sys.argv[1])
    rows = [(kind, is_right, *row) for kind, (is_right, of_kind) in PARTS.items() for row in of_kind]
    with concurrent.futures.ThreadPoolExecutor(os.cpu_count()) as pool:
        right = list(pool.map(lambda row: row[1](program, *row[2:]), rows))
    findings = [row for row, is_right in zip(rows, right) if not is_right]
    for kind, _, *row in findings:
        print(f"texts: {kind}: not so: {row}")
    if not findings:
        counts = ", ".join(f"{len(of_kind)} of {kind}" for kind, (_, of_kind) in PARTS.items())
        print(f"texts: {counts}: no finding")
    return int(bool(findings))


if __name__ == "__main__":
    sys.exit(main())
