"""What the sources of the crates say: the definitions of `specs/`, the functions of `src/` with their contracts, and
which definitions each of them cites."""
import re
from .places import files, is_test_crate, text

DECLARED = re.compile(
    r"^( *)(?:(?:[a-z]+ )*(?:abbrev|unfoldable|record|data) (?:[a-z]+ )*)?pub (?:(?:abbrev|record|data|unfoldable) )?(\w+)(?=[ :({]|$)"
)
USED = re.compile(r"^\s*(?:ghost )?use Rattle\.(\w+)\.specs\.([\w.]+?)(?:\.\{([^}]*)\}|(?: .*)? as (\w+))?;?$")
FUNCTION = re.compile(r"^( *)(?:pub(?:\([^)]*\))? |unsafe |const |async |extern \"[^\"]*\" )*fn (\w+)")
NAME = re.compile(r"[^\W\d]\w*(?:\.[^\W\d]\w*)*")


class Cited:
    """The definitions that a text of a file may name: those of the file itself, and those that it uses."""

    def __init__(self, path, own):
        self.names, self.modules = dict(own), {}
        for line in text(path).split("\n"):
            found = USED.match(line)
            if found:
                file = f"{found[1]}/{found[2].replace('.', '/')}.antt"
                if found[4]:
                    self.modules[found[4]] = file
                for word in (found[3] or "").split(", "):
                    name, _, alias = word.partition(" as ")
                    self.names.setdefault(alias or name, (file, name))

    def of(self, body):
        """The definitions that a text names, as (file, name)."""
        found = set()
        for word in NAME.findall(body):
            parts = word.split(".")
            if parts[0] in self.names:
                found.add(self.names[parts[0]])
            if len(parts) > 1 and parts[0] in self.modules:
                found.add((self.modules[parts[0]], parts[1]))
        return found


class Definition:
    """A definition of a file of `specs/`: its line, and its text without comments."""

    def __init__(self, path, file, name, line, body):
        self.path, self.file, self.name, self.line, self.body = path, file, name, line, body
        self.cites = set()


def definitions_of(path):
    """The definitions of a file. Fields of a record belong to the record."""
    crate, _, file = path.removeprefix("crates/").partition("/specs/")
    lines, heads = text(path).split("\n"), []
    for at, line in enumerate(lines):
        found = DECLARED.match(line)
        if found and not line.lstrip().startswith("pub mod "):
            in_record = heads and len(found[1]) > heads[-1][2] and lines[heads[-1][0]].endswith(" where")
            if not in_record or re.search(r"\b(?:abbrev|record|data) ", line):
                heads.append((at, found[2], len(found[1])))
    told = []
    for (at, name, _), end in zip(heads, [head[0] for head in heads[1:]] + [len(lines)]):
        body = "\n".join(line.split("-- ")[0] for line in lines[at:end])
        told.append(Definition(path, f"{crate}/{file}", name, at + 1, body))
    cited = Cited(path, {it.name: (it.file, it.name) for it in told})
    for it in told:
        it.cites = cited.of(it.body) - {(it.file, it.name)}
    return told


class Function:
    """A function of a file of `src/`: its line, its contract, and whether it is a law, which gives and changes nothing."""

    def __init__(self, path, name, line, contract, is_law):
        self.path, self.name, self.line, self.contract, self.is_law = path, name, line, contract, is_law
        crate, _, file = path.removeprefix("crates/").partition("/src/")
        self.crate, self.file, self.cites = crate, f"{crate}/{file}", set()


def contract_at(lines, at, indent):
    """The head of the function whose `fn` stands on a line, and its clauses."""
    head, clauses = [], []
    for number in range(at, len(lines)):
        line = lines[number]
        is_body = line in (indent + "{", indent + "{}")
        if is_body or not clauses and number > at and line.startswith(indent + ")") and line.endswith(("{", "{}")):
            break
        if clauses or re.match(r"\s+(?:ensures|requires)\b", line):
            clauses.append(line.split("// ")[0])
        else:
            head.append(line)
        if line.endswith(";") and is_last(lines, number, indent) or not clauses and line.endswith(("{", "{}", ";")):
            break
    return "\n".join(head), "\n".join(clauses)


def is_last(lines, number, indent):
    """Whether what follows a line does not go on with the function above it."""
    return number + 1 == len(lines) or not lines[number + 1].startswith(indent + "    ")


def ghosts_of(lines):
    """For each line the `ghost` clauses that stand above it in its `impl`."""
    told, is_open = [], False
    for line in lines:
        if line[:1] not in ("", " "):
            ghosts = ""
        is_open = is_open or bool(re.match(r"    ghost (?!use )", line))
        if is_open:
            ghosts += line + "\n"
            is_open = not line.endswith(";")
        told.append(ghosts)
    return told


def functions_of(path):
    """The functions of a file, with the definitions that their contracts cite. The contract of a function of a trait
    stands at the trait, and the `ghost` clauses of the `impl` say what its words mean there."""
    lines, told, cited = text(path).split("\n"), [], Cited(path, {})
    ghosts = ghosts_of(lines)
    for at, line in enumerate(lines):
        found = FUNCTION.match(line)
        if found:
            head, clauses = contract_at(lines, at, found[1])
            is_law = bool(clauses) and "->" not in head and "&mut" not in head
            it = Function(path, found[2], at + 1, clauses or ghosts[at], is_law)
            it.cites = cited.of(it.contract)
            told.append(it)
    return told


class Sources:
    """All definitions, by (file, name), and all functions."""

    def __init__(self):
        self.definitions = {}
        for path in files("crates/*/specs/**/*.antt"):
            for it in definitions_of(path):
                self.definitions.setdefault((it.file, it.name), it)
        self.functions = [it for path in files("crates/*/src/**/*.rt") for it in functions_of(path)]
        self.citing, self.through = {}, {}
        for it in self.functions:
            for key in it.cites:
                self.citing.setdefault(key, []).append(it)
        for it in self.definitions.values():
            for key in it.cites:
                self.through.setdefault(key, []).append((it.file, it.name))

    def direct(self, key):
        """The functions, but for laws and tests, whose contract cites a definition."""
        return [it for it in self.citing.get(key, []) if not it.is_law and not is_test_crate(it.crate)]

    def one_step(self, key):
        """Those whose contract cites a definition that cites it."""
        return [it for other in self.through.get(key, []) for it in self.direct(other)]

    def found_for(self, rule, most=8):
        """The functions of a rule: those whose contract cites one of its definitions, or a definition that does. Where
        these are too many to say anything, those that cite one directly; of these, where they are too many, those of
        the crates of the definitions; and else none."""
        keys = rule.names(rule.definitions)
        crates = {file.split("/")[0] for file, _ in keys}
        direct = {it: None for key in keys for it in self.direct(key)}
        both = direct | {it: None for key in keys for it in self.one_step(key)}
        near = [it for it in direct if it.crate in crates]
        return next((list(found) for found in (both, direct, near) if 0 < len(found) <= most), [])
