#!/usr/bin/env python3
"""Looks at the pages that a person reads, and builds nothing.

- README.md has at most 140 lines, of at most 100 characters; those of the pages of docs/, examples/ and bench/ have at most 110. What
  can't be broken may be longer: a row of a table, a line of a block of code, a word with what it hangs on.
- Each link leads to a file that is there, and to a heading of it. Each file or folder of this repository that stands in backticks is there.
- The Rust of README.md and of docs/library.md is the examples': each of its lines stands in the sources of crates/nv_example, nv_four or
  nv_keys, or in those of the part over a file.
- docs/calling.md is what calling.py makes of the sources.
- Each function, type or trait that README.md's table and the first table of docs/promises.md name is public in some crate.
- The files that docs/trusted.md lists in its table begin with a line that says `Trusted edge`, and no others do.
- The pictures are what docs/pictures/make.py draws.

Closes with 'N passed, M failed', and fails where one fails.

    docs.py              all of this
    docs.py --fill FILE  writes the paragraphs and the items of a page anew, in lines of at most 110 characters
"""

import re
import subprocess
import sys
from pathlib import Path

TOP = Path(__file__).resolve().parent.parent
WIDTH = 110
PAGES = [TOP / "README.md", *sorted((TOP / "docs").glob("*.md")), TOP / "examples/README.md", TOP / "bench/README.md"]
MARK = "Trusted edge"


def words_of(text):
    """The words of a text; what stands in backticks is one with what it hangs on, and what would make an item of a line with the word before."""
    words = []
    for word in re.findall(r"(?:`[^`]*`|[^\s`])+", text):
        if words and re.fullmatch(r"[-*+>|]|#+|\d+[.)]", word):
            words[-1] += " " + word
        else:
            words.append(word)
    return words


def filled(text, first="", rest="", width=WIDTH):
    """A text in lines of so many characters, the first with something before it, and the others too."""
    lines, line = [], first
    for number, word in enumerate(words_of(text)):
        if number and len(line) + 1 + len(word) > width:
            lines.append(line)
            line = rest + word
        else:
            line += word if not number else " " + word
    return [*lines, line]


def split_blocks(text):
    """The lines of a page, each with whether it stands in a block of code."""
    fenced = False
    for line in text.split("\n"):
        if line.startswith("```"):
            fenced = not fenced
            yield line, True
        else:
            yield line, fenced or line.startswith("    ")


def refilled(text):
    """A page whose paragraphs and items stand in full lines; headings, tables and code are as they were."""
    out, held, lead = [], [], ("", "")

    def flush():
        if held:
            out.extend(filled(" ".join(held), *lead))
            held.clear()

    fenced = False
    for line in text.split("\n"):
        item = re.match(r"( *)([-*]|\d+\.) +", line)
        if line.startswith("```"):
            flush()
            fenced = not fenced
            out.append(line)
        elif fenced or not line.strip() or re.match(r"[#|\[!]", line) and not held or line.startswith("|"):
            flush()
            out.append(line)
        elif item and not (item[1].startswith("    ") and not held):
            flush()
            lead = (item[0], " " * len(item[0]))
            held.append(line[len(item[0]) :].strip())
        elif line.startswith("> "):
            if not held:
                lead = ("> ", "> ")
            held.append(line[2:].strip())
        elif line.startswith("    ") and not held:
            out.append(line)
        else:
            if not held:
                lead = ("", "")
            held.append(line.strip())
    flush()
    return "\n".join(out)


def too_long(page):
    most = 100 if page.name == "README.md" and page.parent == TOP else WIDTH
    long = []
    for number, (line, is_code) in enumerate(split_blocks(page.read_text()), 1):
        unbroken = most == WIDTH and (is_code or line.startswith("|"))
        if len(line) > most and not unbroken and len(words_of(line)) > 2:
            long.append(number)
    if long:
        yield f"{len(long)} lines of more than {most} characters, the first of them line {long[0]}"
    if most == 100 and page.read_text().count("\n") > 140:
        yield "more than 140 lines"


def slug(heading):
    """The name by which a link leads to a heading."""
    return re.sub(r"[^\w\- ]", "", heading.lower()).replace(" ", "-")


def headings(page):
    return {slug(line.lstrip("#").strip()) for line, is_code in split_blocks(page.read_text()) if line.startswith("#") and not is_code}


def bad_links(page):
    text = "\n".join(line for line, is_code in split_blocks(page.read_text()) if not is_code)
    targets = re.findall(r"\]\(([^)\s]+)\)", text) + re.findall(r"^\[[^\]]+\]: (\S+)$", text, re.M)
    for label in re.findall(r"\]\[([^\]]+)\]", text):
        if f"\n[{label}]: " not in text:
            yield f"[{label}] leads nowhere"
    for target in targets:
        if re.match(r"https?:", target):
            continue
        path, _, name = target.partition("#")
        file = (page.parent / path).resolve() if path else page
        if not file.exists():
            yield f"{target}: no such file"
        elif name and name not in headings(file):
            yield f"{target}: no such heading"


def missing_files(page):
    for name in re.findall(r"`((?:crates|docs|checks|bench|examples|\.ci)/[\w./-]+)`", page.read_text()):
        if "/out/" not in name and not (TOP / name).exists():
            yield f"{name}: no such file"


def foreign_code(page):
    """Lines of Rust that the example doesn't have, but for comments."""
    sources = [file for name in ("nv_example", "nv_four", "nv_keys") for file in (TOP / "crates" / name / "src").glob("*.rt")]
    sources += [TOP / "crates/nv_pmem/src/file_part.rt", TOP / "crates/nv_board_tests/src/vectored.rt"]
    known = {line.strip() for file in sources for line in file.read_text().split("\n")}
    for block in re.findall(r"^```(?:rust)?\n(.*?)^```", page.read_text(), re.M | re.S):
        if "let " not in block and "fn " not in block:
            continue
        for line in block.split("\n"):
            if line.strip() not in known and not line.strip().startswith("//"):
                yield f"no example has the line {line.strip()!r}"


def unknown_names(page):
    """Names of the first table of contracts that no crate has."""
    public = set()
    for file in (TOP / "crates").glob("*/src/**/*.rt"):
        public |= set(re.findall(r"\b(?:fn|struct|enum|trait) (\w+)", file.read_text()))
    table = page.read_text().split("| Promise | Contract |", 1)[-1].split("\n\n", 1)[0]
    for row in table.split("\n")[2:]:
        for name in re.findall(r"`([\w:]+)`", row.rsplit("|", 2)[1]):
            if not set(name.split("::")) <= public:
                yield f"no crate has {name}"


def edges(page):
    """Files that are listed and not marked, or marked and not listed."""
    table = page.read_text().split("| File |", 1)[1].split("\n\n", 1)[0]
    listed = set(re.findall(r"`(crates/[^`]+\.rt)`", table))
    marked = {str(file.relative_to(TOP)) for file in (TOP / "crates").glob("*/src/*.rt") if MARK in file.read_text().split("\n", 1)[0]}
    for name in sorted(listed - marked):
        yield f"{name} isn't marked"
    for name in sorted(marked - listed):
        yield f"{name} isn't listed"


def drawn():
    made = subprocess.run([sys.executable, TOP / "docs/pictures/make.py", "--check"], stdout=subprocess.PIPE, text=True)
    yield from made.stdout.splitlines() if made.returncode else []


def made_anew():
    made = subprocess.run([sys.executable, TOP / "checks/calling.py", "--check"], stderr=subprocess.PIPE, text=True)
    yield from made.stderr.splitlines()[-1:] if made.returncode else []


def cases():
    for page in PAGES:
        yield page, "lines", too_long(page)
        yield page, "links", bad_links(page)
        yield page, "files", missing_files(page)
    for name in "README.md", "docs/library.md":
        yield TOP / name, "the examples' code", foreign_code(TOP / name)
    for name in "README.md", "docs/promises.md":
        yield TOP / name, "names of contracts", unknown_names(TOP / name)
    yield TOP / "docs/trusted.md", "marked files", edges(TOP / "docs/trusted.md")
    yield TOP / "docs/pictures/make.py", "pictures", drawn()
    yield TOP / "docs/calling.md", "the sources", made_anew()


def main():
    if sys.argv[1:2] == ["--fill"]:
        for name in sys.argv[2:]:
            page = Path(name)
            page.write_text(refilled(page.read_text()))
        return
    passed = failed = 0
    for page, what, wrong in cases():
        wrong = list(wrong)
        passed, failed = (passed, failed + 1) if wrong else (passed + 1, failed)
        for one in wrong:
            print(f"{page.relative_to(TOP)}, {what}: {one}")
    print(f"{passed} passed, {failed} failed")
    sys.exit(failed > 0)


if __name__ == "__main__":
    main()
