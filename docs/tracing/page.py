"""The table of all rules as one page of HTML."""
import html, os, re, subprocess
from .places import TOP
from .rules import read_rules, short, wrong_bodies
from .sources import Sources

STYLE = """
body { font: 14px/1.4 system-ui, sans-serif; margin: 1.5em; color: #1a1a1a; }
h1 { font-size: 1.4em; } dt { font-weight: bold; } dd { margin: 0 0 .4em 1.5em; } p, dl { max-width: 60em; }
table { border-collapse: collapse; width: 100%; }
th { position: sticky; top: 0; background: #24425c; color: #fff; text-align: left; }
th, td { padding: .35em .5em; vertical-align: top; border-bottom: 1px solid #ccd; }
td.page { background: #e7edf3; font-weight: bold; } tr:target td { background: #fff6d8; }
code { font-size: 12px; overflow-wrap: anywhere; } .id { color: #555; } .at { color: #777; }
td { width: 18%; } td:first-child { width: 24%; }
"""

COLUMNS = {
    "rule": """its ID, by which wrong bodies name it, and what it says, under the heading of the page in docs/ that
    explains it. (*own*) marks a rule of this project's profile, which the standard leaves open; all rules of AUDIT, and
    those of texts and runs, are so without the mark.""",
    "definitions": """the names in specs/ that say the rule for the prover, with file and line. 'none' says why there is
    none; of 'tested alone' no contract says the rule.""",
    "functions": """the functions in src/ whose proved contract cites one of the definitions, or a definition that does;
    where these are more than eight, those that cite one directly, if these are fewer. Below a line stand those that
    contracts do not lead to so, or lead to among too many: they are named by hand.""",
    "wrong bodies": """changes of a function that break the rule, which the prover has to refuse: those of must-fail/ in
    the gate, those of wrong-bodies/ by ./wrong-bodies. Where none stands the proof alone holds the function to the
    rule, and no change was written that shows it.""",
    "tests": """what tries the rule on running code. A plain name is a test function, or a table of rows that one tries.
    A law is a proved statement of the definitions, for all values; a computed one is a worked example. A case is a call
    of the program whose output the gate compares. A sweep is a table, a file or a part of sweeps/run, and a script one
    that ./check runs. 'none' says that nothing but the proof tries it, or what is left to a reader.""",
}


def commit():
    """The commit that the page is made of, and whether the files differ from it."""
    git = ["git", "-C", TOP]
    name = subprocess.run([*git, "log", "-1", "--format=%H of %cs"], capture_output=True, text=True).stdout.strip()
    changed = subprocess.run([*git, "status", "--porcelain"], capture_output=True, text=True).stdout.strip()
    return (name or "no commit") + (", with changes that are not committed" if changed else "")


def shown(told):
    """A sentence, with what stands in it between backticks as code."""
    return re.sub(r"`([^`]*)`", r"<code>\1</code>", html.escape(told))


def listed(entries):
    """The entries of a cell."""
    return "<br>".join(entries)


def named(name, path, line):
    """A name with where it stands."""
    where = f"{path}:{line}" if line else path
    return f'<code>{html.escape(name)}</code> <code class="at">{html.escape(where)}</code>'


def definition_cell(rule, sources):
    """The definitions of a rule."""
    if rule.untold:
        return html.escape(rule.untold)
    found = [sources.definitions[key] for key in rule.names(rule.definitions) if key in sources.definitions]
    return listed(named(it.name, it.path.removeprefix("crates/"), it.line) for it in found)


def function_cell(rule, sources):
    """The functions of a rule: those found by their contracts, and below a line those named by hand."""
    by_contract = [named(it.name, it.path.removeprefix("crates/"), it.line) for it in sources.found_for(rule)]
    by_hand = []
    for file, name in rule.names(rule.functions):
        crate, _, path = file.partition("/")
        line = next((it.line for it in sources.functions if it.file == file and it.name == name), 0)
        by_hand.append(named(name, f"{crate}/src/{path}", line))
    if not by_contract and not by_hand:
        return "none: laws say it, among the tests"
    return listed(by_contract) + ("<hr>" if by_contract and by_hand else "") + listed(by_hand)


def test_cell(rule):
    """The tests of a rule."""
    entries = []
    for place in rule.tests:
        kind = f"{place.kind}: " if place.kind == "none" else f"{place.kind} " if place.kind else ""
        body = html.escape(place.file) if place.kind == "none" else f'<code>{html.escape(place.file)}</code>'
        names = ", ".join(f"<code>{html.escape(name)}</code>" for name in place.names)
        entries.append(f"{kind}{names} {body}" if names else kind + body)
    return listed(entries)


def rows(rules, sources):
    """The rows of the table: for each heading of a page one with it, and one for each rule."""
    bodies, page = {}, None
    for path, ids in wrong_bodies().items():
        for name in ids:
            bodies.setdefault(name, []).append(f"<code>{html.escape(short(path))}</code>")
    for rule in rules:
        if rule.page != page:
            page = rule.page
            yield f'<tr><td class="page" colspan="{len(COLUMNS)}">docs/{html.escape(page)}</td></tr>'
        first = f'<span class="id">{html.escape(rule.id)}</span><br>{shown(rule.text)}'
        cells = [first, definition_cell(rule, sources), function_cell(rule, sources), listed(bodies.get(rule.id, [])), test_cell(rule)]
        yield f'<tr id="{html.escape(rule.id)}">' + "".join(f"<td>{cell}</td>" for cell in cells) + "</tr>"


def page():
    """The whole page."""
    rules, sources = read_rules()[0], Sources()
    told = "".join(f"<dt>{name}</dt><dd>{html.escape(what)}</dd>" for name, what in COLUMNS.items())
    head = "".join(f"<th>{name}</th>" for name in COLUMNS)
    return f"""<!DOCTYPE html>
<html lang="en"><head><meta charset="utf-8"><title>Rules and what holds them</title><style>{STYLE}</style></head>
<body><h1>Rules and what holds them</h1>
<p>{len(rules)} rules of <code>docs/rules.tsv</code>, made by <code>docs/trace --html</code> of commit {html.escape(commit())}.</p>
<dl>{told}</dl>
<table><thead><tr>{head}</tr></thead><tbody>
{os.linesep.join(rows(rules, sources))}
</tbody></table></body></html>
"""
