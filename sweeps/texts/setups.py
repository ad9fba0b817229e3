"""Setups that are not quite right, by rows.

A row says what is replaced, by what, and `ok` or the error that the setup then has, after `- `, `+ ` and `= `; an empty
line ends it. In `one_change` each row changes the worked setup; in `in_order` each goes on from what those
before it left, so that each fault stands there with all that are told after it.
"""
from pathlib import Path

ROOM = Path(__file__).resolve().parent
SHARED = 'group = "239.0.0.1"\n'

# What stands after what nodes share: the list of nodes, between the last key of those and the first of a node.
LISTS = (
    ("", "Missing node"),
    ("node = []\n", "OutOfRange node"),
    ("node = 1\n", "WrongKind node"),
    ("[node]\n", "WrongKind node"),
    ("node = [{}, 1]\n", "WrongKind node"),
    ("node = [{}]\n", "Missing name"),
    ('[[node]]\n[[node]]\nname = "A"\n', "Missing name"),
    ("call_timeout = 0\n", "OutOfRange call_timeout"),
    ("call_timeout = 0\nnode = []\n", "OutOfRange call_timeout"),
    ("call_timeout = 1\nnode = []\n", "OutOfRange node"),
    ("node = [{ name = 1 }, 1]\n", "WrongKind node"),
)


def rows_of(path):
    """The rows of a file: what is replaced, by what, and what comes of it."""
    for row in path.read_text().rstrip("\n").split("\n\n"):
        change, wanted = row.split("\n= ", 1)
        old, new = change.split("\n+ ", 1)
        assert old.startswith("- "), row
        yield old[2:], new, wanted


def replaced(text, old, new):
    assert old in text, old
    return text.replace(old, new, 1)


def one_change_each():
    """Each row by itself, in a text that the worked setup is, or for wants one with its nodes the other way round."""
    for path in sorted((ROOM / "one_change").iterdir()):
        text = (ROOM / ("swapped.toml" if path.stem == "wants" else "worked.toml")).read_text()
        for old, new, wanted in rows_of(path):
            yield replaced(text, old, new), wanted


def in_order():
    """All rows, one after the other, in a setup with every key: first the kind of faults that is told last."""
    text = (ROOM / "full.toml").read_text()
    yield text, "ok"
    for path in sorted((ROOM / "in_order").iterdir()):
        for old, new, wanted in rows_of(path):
            text = replaced(text, old, new)
            yield text, wanted


def of_nodes(count):
    """A setup of so many nodes."""
    return SHARED + "".join(f'[[node]]\nname = "n{number}"\naddress = "10.0.0.{number}"\nclient_id = 1\nclient_port = 1\n'
                            for number in range(count))


def lists_of_nodes():
    for rest, wanted in LISTS:
        yield SHARED + rest, wanted
    for count in range(66):
        wanted = {0: "Missing node", 65: "OutOfRange node"}.get(count, "ok")
        yield of_nodes(count), wanted


def setups():
    """The text of each, and `ok` or the error that it has."""
    return [*one_change_each(), *in_order(), *lists_of_nodes()]
