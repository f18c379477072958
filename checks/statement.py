#!/usr/bin/env python3
"""Counts how long the statement of a public call is: the definitions of the crates' specs/ that its contract reaches, and their lines.

A line of a definition counts if it is neither empty nor a comment. A Rust type that a definition names counts for nothing, and so does
what the kit defines.

    statement.py                 nv_top's `nv_main`, by crate and by file
    statement.py CRATE FUNCTION  another call's
    statement.py --names         the definitions too, each with its lines
    statement.py --without WORD..  all but what is reached through these definitions alone
"""

import re
import sys
from collections import defaultdict
from pathlib import Path

TOP = Path(__file__).resolve().parent.parent
WORD = re.compile(r"[^\s(){}\[\],;:`]+")
HEAD = re.compile(r"^(?:abbrev |unfoldable )?(?:pub )?(?:record |data )?(?:pub )?(\S+) ?(?:[:({]|$)")


class File:
    """A file of specs: what its names stand for, and its definitions, each a list of lines."""

    def __init__(self, module, text):
        self.module, self.names, self.aliases, self.definitions = module, {}, {}, {}
        for path, rest in re.findall(r"^use (Rattle\.[\w.]+?)(?:\.\{(.*?)\})?(?: as \w+)?$", text, re.M):
            for item in filter(None, (rest or "").split(", ")):
                name, _, other = item.partition(" as ")
                self.names[other or name] = (path, name)
        for path, other in re.findall(r"^use (Rattle\.[\w.]+) as (\w+)$", text, re.M):
            self.aliases[other] = path
        name = None
        for line in text.split("\n"):
            if not line.strip() or line.lstrip().startswith("--") or line.startswith("use "):
                continue
            if not line[0].isspace():
                head = re.match(r"^(?:abbrev |unfoldable |pub |record |data )*([^\s:(]+)", line)
                name = head.group(1) if head else name
            self.definitions.setdefault(name, []).append(line)

    def meant(self, text):
        """The definitions that a text names: (module, name)."""
        found = set()
        for word in WORD.findall(text):
            for piece in {word, word.split(".")[0]}:
                if piece in self.definitions:
                    found.add((self.module, piece))
                elif piece in self.names:
                    found.add(self.names[piece])
            head, _, rest = word.partition(".")
            if head in self.aliases and rest:
                found.add((self.aliases[head], rest.split(".")[0]))
        return found


def read_specs():
    files = {}
    for path in TOP.glob("crates/*/specs/**/*.antt"):
        crate = path.relative_to(TOP / "crates").parts[0]
        parts = path.with_suffix("").relative_to(TOP / "crates" / crate / "specs").parts
        module = ".".join(["Rattle", crate, "specs", *parts])
        files[module] = File(module, path.read_text())
    # a constructor stands in the definition of its type
    for one in files.values():
        for name, lines in list(one.definitions.items()):
            if re.match(r"^(?:pub )?data ", lines[0]):
                for line in lines[1:]:
                    made = re.match(r"^\s+(\w+) :", line)
                    if made:
                        one.definitions.setdefault(made.group(1), name)
    return files


def contract_of(crate, function):
    """The names that a call's file uses, and the text of its clauses."""
    for path in (TOP / "crates" / crate / "src").glob("*.rt"):
        text = path.read_text()
        start = re.search(rf"^pub fn {function}\b", text, re.M)
        if start:
            clauses = text[start.start():]
            clauses = clauses[: clauses.index("\n{")]
            used = "\n".join("use " + line for line in re.findall(r"^ghost use (.*);$", text, re.M))
            body = "\n".join(line for line in clauses.split("\n") if not line.strip().startswith("//"))
            return File("", used), body
    sys.exit(f"no public function {function} in crates/{crate}/src")


def reached(files, first, left_out):
    seen, todo = {}, list(first)
    while todo:
        module, name = todo.pop()
        one = files.get(module)
        if one is None or name not in one.definitions or name in left_out:
            continue
        lines = one.definitions[name]
        if isinstance(lines, str):
            name, lines = lines, one.definitions[lines]
        if (module, name) in seen:
            continue
        seen[module, name] = len(lines)
        todo.extend(one.meant("\n".join(lines)))
    return seen


def main(words):
    left_out = set()
    if "--without" in words:
        at = words.index("--without")
        words, left_out = words[:at], set(words[at + 1:])
    names = "--names" in words
    words = [word for word in words if word != "--names"]
    crate, function = words if len(words) == 2 else ("nv_top", "nv_main")
    files = read_specs()
    used, body = contract_of(crate, function)
    seen = reached(files, used.meant(body), left_out)
    by_crate, by_file = defaultdict(lambda: [0, 0]), defaultdict(lambda: [0, 0])
    for (module, name), lines in seen.items():
        for table, key in ((by_crate, module.split(".")[1]), (by_file, module)):
            table[key][0] += 1
            table[key][1] += lines
    clauses = len([line for line in body.split("\n") if line.strip()])
    print(f"{crate}::{function}: {len(seen)} definitions of {sum(seen.values())} lines, and {clauses} lines of its own")
    for crate, (count, lines) in sorted(by_crate.items(), key=lambda one: -one[1][1]):
        print(f"  {crate:14} {count:5} {lines:6}")
        if names:
            for module, (count, lines) in sorted(by_file.items(), key=lambda one: -one[1][1]):
                if module.split(".")[1] == crate:
                    print(f"    {module.split('specs.')[1]:40} {count:5} {lines:6}")
                    for (where, name), size in sorted(seen.items()):
                        if where == module:
                            print(f"      {name:44} {size:4}")


if __name__ == "__main__":
    main(sys.argv[1:])
