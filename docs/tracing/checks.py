"""What the check looks at: rules, wrong bodies, links and counts of sweeps."""
import os, re
from .links import anchors_at, link_faults
from .places import CASES, TOP, case_pattern, line_of, text
from .rules import read_rules, wrong_bodies
from .sources import Sources

MOST_WORDS, MOST_UNTRIED = 20, 25
ITEM = r"\b(?:fn|enum|struct|trait|type|const|static) {}\b"


def definition_faults(rule, sources):
    """Which definitions of a rule are not where it says."""
    for place in rule.definitions:
        if place.kind or not text(place.path("specs")):
            yield f"no file {place.file} of specs/"
        else:
            yield from (f"no definition {name} in {place.file}" for name in place.names if (place.file, name) not in sources.definitions)
            if not place.names:
                yield f"no definition is named of {place.file}"
    if not rule.definitions and not rule.untold:
        yield "no definition"
    if rule.untold and not rule.functions:
        yield "no contract says it, and no function is named"


def function_faults(rule, sources):
    """Which functions of the sixth column are not there, or are found without it."""
    if not rule.functions:
        return
    found = {(it.file, it.name) for it in sources.found_for(rule)}
    for file, name in rule.names(rule.functions):
        crate, _, path = file.partition("/")
        if not re.search(ITEM.format(name), text(f"crates/{crate}/src/{path}")):
            yield f"no function {name} in {file}"
        elif (file, name) in found:
            yield f"{name} in {file} is found by its contract, and can be left out"


def parts_of_sweeps():
    """The parts that `sweeps/run` knows."""
    return re.search(r'^parts="([^"]*)"', text("sweeps/run"), re.M)[1].split()


def sweep_faults(place):
    """A sweep is a part of `sweeps/run`, or a file of sweeps/ and, in Python, what stands at its left edge."""
    if "." not in place.file:
        if place.file not in parts_of_sweeps():
            yield f"no part {place.file} of sweeps/run"
    elif not text(f"sweeps/{place.file}"):
        yield f"no file {place.file} of sweeps/"
    for name in place.names:
        if not re.search(rf"^(?:{name} =|def {name}\b)", text(f"sweeps/{place.file}"), re.M):
            yield f"no {name} in sweeps/{place.file}"


def test_faults(rule, sources):
    """Which tests, laws, cases, sweeps and scripts of a rule are not there."""
    laws = {(it.file, it.name) for it in sources.functions if it.is_law}
    for place in rule.tests:
        if place.kind == "case" and not line_of(CASES, case_pattern(place.file)):
            yield f"no case {place.file}"
        elif place.kind == "script" and not os.access(f"{TOP}/{place.file}", os.X_OK):
            yield f"no script {place.file}"
        elif place.kind == "sweep":
            yield from sweep_faults(place)
        elif place.kind in ("law", "computed law"):
            yield from (f"no law {name} in {place.file}" for name in place.names if (place.file, name) not in laws)
        elif place.kind == "" and not (place.names and text(place.path("src"))):
            yield f"no test is named by {place.file}"
        elif place.kind == "":
            yield from (f"no test {name} in {place.file}" for name in place.names if not re.search(ITEM.format(name), text(place.path("src"))))
    if not rule.tests or rule.untold and is_untried(rule):
        yield "nothing tries it"


def is_untried(rule):
    """Whether nothing but the proof tries a rule."""
    return all(place.kind == "none" for place in rule.tests)


def rule_faults(rules, odd):
    """What is not so in `rules.tsv`."""
    sources, seen = Sources(), {}
    faults = [f"docs/rules.tsv:{number}: no line of six columns" for number in odd]
    for rule in rules:
        told = [*definition_faults(rule, sources), *function_faults(rule, sources), *test_faults(rule, sources)]
        page, _, place = rule.page.partition("#")
        if place not in anchors_at(f"docs/{page}"):
            told.append(f"no heading {rule.page}")
        if len(rule.text.replace(" (*own*)", "").split()) > MOST_WORDS:
            told.append(f"the rule has more than {MOST_WORDS} words")
        if not re.fullmatch(r"[a-z0-9]+(-[a-z0-9]+)*", rule.id):
            told.append("the ID is no words with hyphens")
        if rule.id in seen:
            told.append(f"the ID is that of line {seen[rule.id]} too")
        seen[rule.id] = rule.number
        faults += [f"docs/rules.tsv:{rule.number}: {rule.id}: {why}" for why in told]
    untried = [rule.id for rule in rules if is_untried(rule)]
    if len(untried) > MOST_UNTRIED:
        faults.append(f"docs/rules.tsv: {len(untried)} rules that nothing tries: {', '.join(untried)}")
    return faults


def wrong_body_faults(rules):
    """Which wrong bodies name no rule, or one that is not there."""
    known = {rule.id for rule in rules}
    for path, ids in wrong_bodies().items():
        if not ids:
            yield f"{path}:1: no line '# rule: ID'"
        yield from (f"{path}:1: no rule {name}" for name in ids if name not in known)


def count_faults():
    """Where sweeps/counts has no line of a part, or more."""
    lines = [line for line in text("sweeps/counts").split("\n") if line and not line.startswith("#")]
    told = [line.partition(":")[0] for line in lines]
    if sorted(told) != sorted(parts_of_sweeps()):
        yield f"sweeps/counts: it has lines of {' '.join(told)}, and sweeps/run the parts {' '.join(parts_of_sweeps())}"


def faults():
    """All that is not so."""
    rules, odd = read_rules()
    return rule_faults(rules, odd) + list(wrong_body_faults(rules)) + list(count_faults()) + link_faults()
