"""All that touches a name: a definition, a function, a rule, a test or a wrong body."""
import re
from .links import anchors_at
from .places import CASES, all_files, case_pattern, files, is_test_crate, line_of, text
from .rules import read_rules, short, wrong_bodies
from .sources import Sources

DECLARED = r"^\s*(?:pub(?:\([^)]*\))? )?(?:unsafe |const |async )*(?:enum|struct|trait|type|const|static|mod) {}\b"
# Groups in the order in which they are printed.
GROUPS = [
    "declared", "definitions that cite it", "functions whose contract cites it",
    "functions whose contract cites it through one definition", "laws", "proofs that spell it", "rules", "wrong bodies",
    "tests", "cases", "sweeps", "pages",
]


class Touched:
    """What was found of a name, by group."""

    def __init__(self, name):
        self.name, self.sources, self.groups = name, Sources(), {group: [] for group in GROUPS}
        self.rules = read_rules()[0]

    def add(self, group, path, line, what=""):
        entry = f"{path}:{line}" + (f": {what}" if what else "")
        if entry not in self.groups[group]:
            self.groups[group].append(entry)

    def add_function(self, group, it):
        """Adds a function to a group, but a law and a test to their own."""
        self.add("laws" if it.is_law else "tests" if is_test_crate(it.crate) else group, it.path, it.line, it.name)

    def look(self):
        self.look_at_declarations()
        for key in [key for key in self.sources.definitions if key[1] == self.name]:
            self.look_at_definition(key)
        self.look_at_rules()
        self.look_at_wrong_bodies()
        self.look_at_texts()

    def look_at_declarations(self):
        for it in self.sources.definitions.values():
            if it.name == self.name:
                self.add("declared", it.path, it.line, "a definition")
        for it in self.sources.functions:
            if it.name == self.name:
                self.add("declared", it.path, it.line, "a law" if it.is_law else "a function")
        for path in files("crates/*/src/**/*.rt"):
            line = line_of(path, DECLARED.format(re.escape(self.name))) if self.name in text(path) else 0
            if line:
                self.add("declared", path, line)

    def look_at_definition(self, key):
        for other in self.sources.through.get(key, []):
            it = self.sources.definitions.get(other)
            if it:
                self.add("definitions that cite it", it.path, it.line, it.name)
            for function in self.sources.citing.get(other, []):
                if key not in function.cites:
                    self.add_function("functions whose contract cites it through one definition", function)
        for function in self.sources.citing.get(key, []):
            self.add_function("functions whose contract cites it", function)

    def is_named_by(self, rule):
        """Whether a rule has the name for its ID, or in one of its cells."""
        cells = rule.definitions + rule.tests + rule.functions
        return rule.id == self.name or any(self.name in place.names for place in cells)

    def look_at_rules(self):
        for rule in self.rules:
            if self.is_named_by(rule):
                self.add("rules", "docs/rules.tsv", rule.number, f"{rule.id}: {rule.text}")
            if rule.id == self.name:
                self.look_at_rule(rule)

    def look_at_rule(self, rule):
        page, _, place = rule.page.partition("#")
        self.add("pages", f"docs/{page}", anchors_at(f"docs/{page}").get(place, 0), f"#{place}")
        for key in rule.names(rule.definitions):
            it = self.sources.definitions.get(key)
            if it:
                self.add("declared", it.path, it.line, it.name)
        for it in self.sources.found_for(rule):
            self.add_function("functions whose contract cites it", it)
        for file, name in rule.names(rule.functions):
            path = file.replace("/", "/src/", 1)
            self.add("functions whose contract cites it", f"crates/{path}", line_of(f"crates/{path}", rf"\b(?:fn|enum|struct|type) {name}\b"), f"{name}, by the sixth column")
        for place in rule.tests:
            self.look_at_test(rule, place)

    def look_at_test(self, rule, place):
        if place.kind == "case":
            self.add("cases", CASES, line_of(CASES, case_pattern(place.file)), place.file)
        elif place.kind == "none":
            self.add("tests", "docs/rules.tsv", rule.number, f"none: {place.file}")
        elif place.kind == "script":
            self.add("sweeps", place.file, 1)
        elif place.kind == "sweep" and "." not in place.file:
            self.add("sweeps", "sweeps/run", line_of("sweeps/run", "^parts="), place.file)
        elif place.kind == "sweep":
            for name in place.names or [""]:
                self.add("sweeps", f"sweeps/{place.file}", line_of(f"sweeps/{place.file}", rf"^(?:def )?{name}\b") if name else 1, name)
        else:
            for name in place.names:
                path = place.path("src")
                self.add("laws" if "law" in place.kind else "tests", path, line_of(path, rf"\b(?:fn|const) {name}\b"), name)

    def look_at_wrong_bodies(self):
        ids = {rule.id for rule in self.rules if self.is_named_by(rule)}
        functions = [it for it in self.sources.functions if it.name == self.name]
        for path, named in wrong_bodies().items():
            if short(path).split("/")[-1] == self.name:
                self.look_at_wrong_body(path, named)
            elif ids.intersection(named):
                self.add("wrong bodies", path, 1, ", ".join(named))
            elif any(changes(path, it, self.sources) for it in functions):
                self.add("wrong bodies", path, 1, f"it changes {self.name}")

    def look_at_wrong_body(self, path, named):
        self.add("declared", path, 1, "a wrong body")
        for it in self.sources.functions:
            if changes(path, it, self.sources):
                self.add("declared", it.path, it.line, f"{it.name}, which it changes")
        for rule in self.rules:
            if rule.id in named:
                self.add("rules", "docs/rules.tsv", rule.number, f"{rule.id}: {rule.text}")

    def look_at_texts(self):
        """Finds where proofs, sweeps, pages and tests spell the name."""
        word = re.compile(rf"(?<![\w]){re.escape(self.name)}(?![\w])")
        kinds = [("proofs that spell it", r"crates/[^/]*/proofs/.*\.antt$"), ("sweeps", r"sweeps/"), ("pages", r".*\.md$")]
        kinds += [("tests", r"crates/(?:\w*_)?tests(?:_\w*)?/src/.*\.rt$")]
        for path in all_files():
            for group, pattern in kinds:
                if re.match(pattern, path) and self.name in text(path):
                    found = word.search(text(path))
                    if found:
                        self.add(group, path, text(path).count("\n", 0, found.start()) + 1)

    def told(self):
        """The lines that tell it, each group under its name."""
        for group, entries in self.groups.items():
            if entries:
                yield f"{group}:"
                yield from (f"  {entry}" for entry in entries)


def changes(path, function, sources):
    """Whether a wrong body changes a line of a function."""
    crate, file = path.split("/")[1], ""
    starts = [it.line for it in sources.functions if it.path == function.path]
    for word, rest in re.findall(r"^(file|old): (.*)$", text(path), re.M):
        if word == "file":
            file = f"crates/{crate}/{rest}"
        elif file == function.path and rest in text(file):
            line = text(file).count("\n", 0, text(file).index(rest)) + 1
            if max((start for start in starts if start <= line), default=0) == function.line:
                return True
    return False


def all_of(name):
    """The lines that tell all that touches a name."""
    touched = Touched(name)
    touched.look()
    return list(touched.told())
