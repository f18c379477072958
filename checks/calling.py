#!/usr/bin/env python3
"""Writes docs/calling.md from the sources: of each call that stands in bold in docs/library.md its signature, what it asks and what it
ensures, shortened, and the modules of the words that these cite.

    calling.py           writes the page
    calling.py --check   tells whether it is as it would be written, and ends with 1 where it isn't
"""

import re
import sys
from pathlib import Path

TOP = Path(__file__).resolve().parent.parent
PAGE = TOP / "docs/calling.md"
LONGEST = 150
HEAD = """# The calls, from the sources

This page is made by `checks/calling.py` from the sources: each call that stands in bold in
[library.md](library.md), in its order there, with its signature, what it asks and what it ensures. A clause that
is long is cut at `…`, and stands as a whole in its file. `old` and `new` are the values before and after a call, and `now` is that of what it only
looks at. A word is defined in the file of `specs/` that its module names: `nv_calls.specs.writes.Writes` is
`crates/nv_calls/specs/writes/Writes.antt`.
"""


def named_calls():
    """The calls that library.md has in bold, once each; those of a device stand in its own page."""
    text = (TOP / "docs/library.md").read_text().split("\n## A device of one's own")[0]
    seen = dict.fromkeys(re.findall(r"\*\*`((?:[A-Z]\w*::)?[a-z]\w*)`\*\*", text))
    return [name for name in seen]


def sources():
    """Each file of the library's sources, by its path."""
    for line in (TOP / "crates.txt").read_text().splitlines():
        if line and not line.startswith("#") and not line.split(":")[0].endswith("_tests"):
            for file in sorted((TOP / "crates" / line.split(":")[0] / "src").glob("*.rt")):
                yield file


def owners(lines):
    """For each line the type or the trait in whose block it stands, if it does."""
    owner = None
    for line in lines:
        head = re.match(r"(?:pub )?(?:impl|trait)\b(?:<.*?>)? ?(.*)", line)
        if head and not line.startswith(" "):
            name = head[1].split(" for ")[-1].lstrip("<> ")
            owner = re.match(r"\w*", re.sub(r"^.*> (?=\w+<)", "", name))[0]
        yield owner
        if line.startswith("}"):
            owner = None


def block_end(text, start):
    """Behind the brace that closes the one at `start`."""
    depth = 0
    for i in range(start, len(text)):
        depth += {"{": 1, "}": -1}.get(text[i], 0)
        if not depth:
            return i + 1
    return len(text)


def parts_of(text):
    """The signature of a function, and its clauses: keyword, name, text."""
    first = re.search(r"\n\s*(?:requires|ensures|where)\b|\s*[{;]", text)
    signature, at, clauses = text[: first.start()], first.start(), []
    while True:
        clause = re.compile(r"(?:\s|//[^\n]*\n)*(requires|ensures)(\*?) ?(\w*) ?\{").match(text, at)
        if not clause:
            return signature, clauses
        end = block_end(text, clause.end() - 1)
        clauses.append((clause[1] + clause[2], clause[3], text[clause.end() : end - 1].strip()))
        at = end


def find(call):
    """Where a call stands: its file, the lines of its comment, its signature and its clauses."""
    owner, _, name = call.rpartition("::")
    for file in sources():
        lines = file.read_text().split("\n")
        for i, (line, of) in enumerate(zip(lines, owners(lines))):
            public = re.match(rf"\s*pub fn {name}\b", line) or owner and re.match(rf"    fn {name}\b", line)
            if public and (of or "") == owner:
                about = i
                while lines[about - 1].strip().startswith("///"):
                    about -= 1
                comment = " ".join(line.strip()[3:].strip() for line in lines[about:i])
                signature, clauses = parts_of("\n".join(lines[i:]))
                return file, comment, signature, clauses
    raise SystemExit(f"no crate has {call}")


def modules(file):
    """The module of each word that a file brings in for its clauses."""
    found = {}
    for path, names in re.findall(r"^ *ghost use Rattle\.([\w.]+)\.\{(.*)\};", file.read_text(), re.M):
        for name in names.split(", "):
            found[name.split(" as ")[-1]] = path
    return found


def short(text):
    text = " ".join(text.split())
    return text if len(text) <= LONGEST else text[:LONGEST].rsplit(" ", 1)[0] + " …"


def rows(clauses, keyword):
    for kind, name, text in clauses:
        if kind.rstrip("*") == keyword:
            yield f"| {keyword if not name else f'{keyword} {name}'} | `{short(text)}` |".replace("||", "\\|\\|")


def section(call):
    file, comment, signature, clauses = find(call)
    yield f"## `{call}`"
    yield ""
    first = re.match(r".*?[.:](?= |$)", comment)
    yield from fill(f"`{file.relative_to(TOP)}`: {first[0] if first else comment}")
    yield ""
    yield "```"
    indent = len(signature) - len(signature.lstrip(" "))
    yield from (line[indent:] for line in signature.rstrip().split("\n"))
    yield "```"
    yield ""
    asked, ensured = list(rows(clauses, "requires")), list(rows(clauses, "ensures"))
    if not asked:
        yield "It asks nothing."
        yield ""
    if asked or ensured:
        yield "| Clause | |"
        yield "|---|---|"
        yield from asked + ensured
        yield ""
    known = modules(file)
    used = dict.fromkeys(re.findall(r"\b[A-Za-z_]\w*\b", " ".join(short(text) for _, _, text in clauses)))
    cited = {}
    for word in used:
        if word in known and known[word].startswith("nv_"):
            cited.setdefault(known[word], []).append(f"`{word}`")
    if cited:
        yield from fill("Words: " + "; ".join(f"{', '.join(words)} of {module}" for module, words in cited.items()) + ".")
        yield ""


def fill(text):
    sys.path.insert(0, str(TOP / "checks"))
    from docs import filled

    return filled(text)


def page():
    lines = []
    for part in HEAD.split("\n\n"):
        lines += [part.strip(), ""] if part.startswith("#") else [*fill(" ".join(part.split())), ""]
    for call in named_calls():
        lines += section(call)
    return "\n".join(lines).rstrip() + "\n"


def main():
    written = page()
    if sys.argv[1:] == ["--check"]:
        sys.exit(0 if PAGE.exists() and PAGE.read_text() == written else "docs/calling.md: checks/calling.py would write it another way")
    PAGE.write_text(written)


if __name__ == "__main__":
    main()
