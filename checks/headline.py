#!/usr/bin/env python3
"""Counts and lists the definitions that somebody reads who wants to trust the law `headline`, or a session's contract.

Usage: headline.py [list|write]
From a statement's definitions it follows each name of a definition's text, by the imports of its module, to where it is defined
in `specs/`. Compares what it finds with the block of docs/MODEL.md, says if they differ, and ends with status 1 then. `write`
writes that block; `list` prints each definition."""
import collections
import functools
import pathlib
import re
import sys

TOP = pathlib.Path(__file__).resolve().parent.parent
PAGE = TOP / "docs/MODEL.md"
# The law `headline`, what ties it to the code (the contract of `drive`, which is that of `act` for each action), and where lists
# of actions begin; and the contract of `serve_local`.
HEADLINE = (("heap_trail", "Headline", "Headline"), ("heap_trail", "Machine", "MayDrive"), ("heap_trail", "Machine", "opening_machine"))
SESSION = (("session_text", "Endings", "EndsSession"), ("session_text", "Session", "IsSession"))
BLOCK = re.compile(r"(?:^    .*\n)+", re.MULTILINE)
# How a definition begins, and what it is called.
HEAD = re.compile(r"(?:(?:abbrev|unfoldable|pub|record|data|inline) )+([\w'◌≡-]+)")
USE = re.compile(r"(?:pub )?use Rattle\.(\w+)\.specs\.([\w.]+?)(?:\.\{(.*)\})?(?: as (\w+))?")
NAME = re.compile(r"[^\W\d][\w']*(?:-[\w']+)*")


class Module:
    """A module of specs: its definitions, each with its lines, and where the names come from that it imports."""

    def __init__(self, path):
        self.definitions, self.imports, self.modules = {}, {}, {}
        block, current = [], None
        for line in path.read_text().split("\n"):
            if not line:
                block, current = [], None
            elif line.startswith(("use ", "pub use ")):
                self.imported(line)
            elif line.startswith("--"):
                block, current = ([*block, line], None) if current is None else ([line], None)
            else:
                head = HEAD.match(line)
                first = NAME.match(line)
                if head and not line.startswith("pub mod"):
                    current = head[1]
                    self.definitions[current] = [*block, line]
                    block = []
                elif not line.startswith(" ") and first and first[0] in self.definitions:
                    current = first[0]
                    self.definitions[current].append(line)
                elif current:
                    self.definitions[current].append(line)

    def imported(self, line):
        """Notes the names, or the module, that a line imports."""
        found = USE.fullmatch(line)
        if not found:
            return
        crate, module, names, other = found.groups()
        if names is None:
            self.modules[other or module.split(".")[-1]] = (crate, module)
        for name in (names or "").split(", "):
            if name:
                self.imports[name.split(" as ")[-1]] = (crate, module, name.split(" as ")[0])


def modules():
    """Returns the modules of all specs, by crate and name."""
    found = {}
    for path in sorted(TOP.glob("crates/*/specs/**/*.antt")):
        crate, _, *rest = path.relative_to(TOP / "crates").with_suffix("").parts
        found[crate, ".".join(rest)] = Module(path)
    return found


def home(found, crate, module, name):
    """Returns where a name stands that is imported from a module, which may pass on another crate's, or None."""
    at = found.get((crate, module))
    if at:
        if name in at.definitions:
            return crate, module, name
        return home(found, *at.imports[name]) if name in at.imports else None
    lib = found.get((crate, "Lib"))
    first, *rest = module.split(".")
    if lib and first in lib.modules and lib.modules[first] != (crate, module):
        crate, module = lib.modules[first]
        return home(found, crate, ".".join([module, *rest]), name)
    return None


def named(found, definition):
    """Yields the definitions that the text of one names."""
    crate, module, name = definition
    at = found[crate, module]
    text = "\n".join(line for line in at.definitions[name] if not line.startswith("--"))
    for word in set(NAME.findall(text)):
        to = (crate, module, word) if word in at.definitions else None
        if word in at.imports and not to:
            to = home(found, *at.imports[word])
        if to:
            yield to


def reached(found, roots):
    """Returns the definitions that some lead to, each by crate, module and name."""
    seen, wait = set(roots), list(roots)
    while wait:
        new = set(named(found, wait.pop())) - seen
        seen |= new
        wait += new
    return seen


def in_order(things, below):
    """Returns things, each after those that stand below it, and by name."""

    @functools.cache
    def depth(thing):
        return 1 + max((depth(other) for other in below[thing] if other != thing), default=0)

    return sorted(things, key=lambda thing: (depth(thing), thing))


def reading(found, definitions):
    """Yields a line for each crate with its modules in reading order."""
    crates, modules_of, below = collections.defaultdict(set), collections.defaultdict(set), collections.defaultdict(set)
    for each in reached(found, definitions):
        for crate, module, _ in named(found, each):
            crates[each[0]].add(crate)
            below[each[:2]].add((crate, module))
    for crate, module, _ in definitions:
        modules_of[crate].add((crate, module))
    for crate in in_order(modules_of, crates):
        yield f"{crate}: {', '.join(module for _, module in in_order(modules_of[crate], below))}"


def size(found, definitions):
    """Returns how large some definitions are, in words."""
    lines = sum(len(found[crate, module].definitions[name]) for crate, module, name in definitions)
    return f"{len(definitions)} definitions in {len({each[:2] for each in definitions})} modules, {lines:,} lines"


def block(found):
    """Returns the lines of the page's block."""
    headline, session = reached(found, HEADLINE), reached(found, SESSION)
    names = [path for path in TOP.glob("crates/*/specs/**/*.antt") if path.stem not in ("Lib", "Functions")]
    lines = sum(path.read_text().count("\n") for path in names)
    yield f"all of specs/: some {round(len(names), -1)} modules, {round(lines, -3):,} lines"
    yield f"the headline: {size(found, headline)}"
    yield from (f"  {line}" for line in reading(found, headline))
    yield f"a session: {size(found, session)}; without those above {size(found, session - headline)}"
    yield from (f"  {line}" for line in reading(found, session - headline))


def main(words):
    """Returns the exit status."""
    found = modules()
    if words == ["list"]:
        for each in sorted(reached(found, (*HEADLINE, *SESSION))):
            print(*each)
        return 0
    wanted = "".join(f"    {line}\n" for line in block(found))
    text = PAGE.read_text()
    was = BLOCK.search(text)
    if words == ["write"]:
        PAGE.write_text(text[: was.start()] + wanted + text[was.end() :])
    elif was[0] != wanted:
        print(f"docs/MODEL.md has another block than the sources (python3 checks/headline.py write):\n{wanted}", end="")
        return 1
    return 0


if __name__ == "__main__":
    sys.exit(main(sys.argv[1:]))
