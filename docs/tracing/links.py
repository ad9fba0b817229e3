"""Links of the pages: whether what each one leads to is there."""
import os, re
from .places import TOP, all_files, text

LINK = re.compile(r"!?\[(?:[^\[\]]|\[[^\]]*\])*\]\(\s*<?([^()\s<>]*(?:\([^()]*\)[^()\s<>]*)?)>?(?:\s+\"[^\"]*\")?\s*\)")
REFERENCE = re.compile(r"^ {0,3}\[[^\]]+\]:\s+<?([^\s>]+)>?")
TAG = re.compile(r"<(?:img|a)\b[^>]*?\b(?:src|href)=\"([^\"]*)\"")
ANCHOR = re.compile(r"<a\b[^>]*?\b(?:id|name)=\"([^\"]*)\"")
SOURCE = re.compile(r"`([\w./-]*\w\.(?:antt|rt|edit))`")
PAGE = re.compile(r"\bdocs/[\w./-]*\w\.(?:md|tsv|svg)\b")


def prose(path):
    """The lines of a page with their numbers, but for those in fences."""
    is_code = False
    for number, line in enumerate(text(path).split("\n"), 1):
        if re.match(r"\s*(?:```|~~~)", line):
            is_code = not is_code
        elif not is_code:
            yield number, line


def anchor(heading):
    """The anchor that GitHub makes of a heading."""
    shown = re.sub(r"!?\[([^\]]*)\]\([^)]*\)", r"\1", heading.strip().rstrip("#").strip())
    return re.sub(r"[^\w\- ]", "", shown.lower()).replace(" ", "-")


def anchors_at(path):
    """The anchors of a page, those of its headings and its own, each with its line."""
    found, seen = {}, {}
    for number, line in prose(path):
        heading = re.match(r"#{1,6}\s+(.*)", line)
        if heading:
            name = anchor(heading[1])
            found[f"{name}-{seen[name]}" if name in seen else name] = number
            seen[name] = seen.get(name, 0) + 1
        found.update((name, number) for name in ANCHOR.findall(line))
    return found


def leads(page, target, known):
    """Why a link of a page leads nowhere, or nothing."""
    if re.match(r"[a-z][a-z0-9+.-]*:", target):
        return None
    path, _, place = target.partition("#")
    to = os.path.normpath(os.path.join(os.path.dirname(page), path)) if path else page
    if to.startswith("..") or not os.path.exists(f"{TOP}/{to}") or not os.path.isdir(f"{TOP}/{to}") and to not in known:
        return f"no file {path}"
    if place and to.endswith(".md") and place not in anchors_at(to):
        return f"no heading {target}"
    return None


def link_faults():
    """What links of pages lead nowhere, and which sources the pages and pages the files name that are not there."""
    known, faults = set(all_files()), []
    for page in sorted(path for path in known if path.endswith(".md")):
        for number, line in prose(page):
            plain = re.sub(r"(`+)(?:(?!\1).)*\1", lambda code: re.sub(r"[\[\]()<>]", "x", code[0]), line)
            faults += [f"{page}:{number}: no file {name}" for name in SOURCE.findall(line)
                       if not any(f"/{path}".endswith(f"/{name}") for path in known)]
            for target in LINK.findall(plain) + REFERENCE.findall(plain) + TAG.findall(plain):
                why = leads(page, target, known)
                if why:
                    faults.append(f"{page}:{number}: {why}")
    return faults + named_pages(known)


def named_pages(known):
    """The pages of docs/ that any file names and that are not there."""
    faults = []
    for path in sorted(known):
        if re.search(r"\.(?:md|rt|antt|sh|py|h|c|toml|txt|tsv|edit)$", path) or "." not in os.path.basename(path):
            try:
                lines = text(path).split("\n")
            except UnicodeDecodeError:
                continue
            for number, line in enumerate(lines, 1):
                faults += [f"{path}:{number}: no page {name}" for name in PAGE.findall(line) if name not in known]
    return faults
