"""The rules: the lines of `rules.tsv`, and the wrong bodies that name them."""
import os, re
from .places import FOLDERS, files, places, text

COLUMNS = ["id", "page", "rule", "definition", "tests", "function"]


class Rule:
    """A line of `rules.tsv`, with its number there."""

    def __init__(self, number, cells):
        self.number = number
        self.id, self.page, self.text, definition, tests, function = cells
        self.untold = definition if definition.startswith("none") else ""
        self.definitions = [] if self.untold else places(definition)
        self.tests, self.functions = places(tests), places(function)

    def names(self, cell):
        """The names of one of its cells, as (file, name)."""
        return [(place.file, name) for place in cell for name in place.names]


def read_rules():
    """The rules, and the numbers of the lines that are none."""
    lines = text("docs/rules.tsv").split("\n")
    rules, odd = [], [] if lines[0].split("\t") == COLUMNS else [1]
    for number, line in enumerate(lines[1:], 2):
        cells = line.split("\t")
        if len(cells) == len(COLUMNS):
            rules.append(Rule(number, cells))
        elif line:
            odd.append(number)
    return rules, odd


def wrong_bodies():
    """The wrong bodies, by path: the IDs of the rules that each one's first line names."""
    found = {}
    for folder in FOLDERS:
        for path in files(f"crates/*/{folder}/**/*.edit"):
            head = re.match(r"# rule: (.*)\n", text(path))
            found[path] = head[1].split(", ") if head else []
    return found


def short(path):
    """A wrong body as `CRATE/FOLDER/NAME`."""
    return os.path.relpath(path, "crates").removesuffix(".edit")
