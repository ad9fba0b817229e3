"""Where things stand: the folders of the repository, and how a cell of `rules.tsv` names files and names."""
import glob, os, re

TOP = os.path.dirname(os.path.dirname(os.path.dirname(os.path.abspath(__file__))))
CASES = "sweeps/cases/cases"
# The gate tries the wrong bodies of the first, `./wrong-bodies` those of both.
FOLDERS = ("must-fail", "wrong-bodies")
_texts = {}


def text(path):
    """The text of a file of the repository, or nothing where there is no such file."""
    if path not in _texts:
        full = f"{TOP}/{path}"
        _texts[path] = open(full, encoding="utf8").read() if os.path.isfile(full) else ""
    return _texts[path]


def files(pattern):
    """The paths, from the top of the repository, of the files that a pattern of `glob` fits."""
    found = glob.glob(f"{TOP}/{pattern}", recursive=True)
    return sorted(os.path.relpath(path, TOP) for path in found if os.path.isfile(path))


def all_files():
    """The paths of all files, but for what is built."""
    for folder, folders, names in os.walk(TOP):
        folders[:] = sorted(name for name in folders if name not in (".git", "out", "__pycache__"))
        yield from (os.path.relpath(os.path.join(folder, name), TOP) for name in sorted(names))


def line_of(path, pattern):
    """The number of the first line of a file that a pattern is found in, or 0."""
    found = re.search(pattern, text(path), re.M)
    return text(path).count("\n", 0, found.start()) + 1 if found else 0


def is_test_crate(crate):
    """Whether a crate only tries others."""
    return bool(re.search(r"(?:^|_)tests(?:_|$)", crate))


def case_pattern(case):
    """The pattern of the line of `cases` that a case is: `..` stands for the setup or schedule of two nodes."""
    return "^" + re.escape(case).replace(re.escape(" .."), r" examples/runs/two\.(?:toml|txt)") + "$"


class Place:
    """One part of a cell: its kind (``''``, ``law``, ``computed law``, ``case``, ``sweep``, ``script``, ``none``), a
    file as the cell names it, and the names in it. Of ``case``, ``script`` and ``none`` the file is all that follows."""

    def __init__(self, part):
        found = re.match(r"(computed law|law|case|sweep|script|none:) ", part)
        self.kind = found[1].rstrip(":") if found else ""
        rest = part[found.end() :] if found else part
        if self.kind in ("case", "script", "none"):
            self.file, self.names = rest, []
        else:
            self.file, _, names = rest.partition(": ")
            self.names = names.split(", ") if names else []

    def path(self, folder):
        """The path from the top of the repository, where files stand in this folder of their crate."""
        crate, _, file = self.file.partition("/")
        return f"crates/{crate}/{folder}/{file}"


def places(cell):
    """The parts of a cell, which stand between semicolons."""
    return [Place(part) for part in cell.split("; ")] if cell else []
