#!/usr/bin/env python3
"""Looks whether each path and each name of docs/MAP.md is there, and whether its lists name each place.

In the table a path is followed by the names that stand in it. Below the table a path may lack its beginning. A file that names
all members of a kind, such as all events, has a case for each: it is a place of a new member, which the list of that kind has to
name. Prints a line for each that is missing, and ends with status 1 if there is one; prints nothing where all is well."""
import functools
import pathlib
import re
import sys

TOP = pathlib.Path(__file__).resolve().parent.parent
PATH = re.compile(r"[\w.-]+(/[\w.-]+)+/?|[\w-]+\.(antt|rt|py|md|sh)|checks/model")
ELSEWHERE = ("edits/", "checks/", "examples/", "bench/")
# The members of a kind: those of an enum, by its file and name, or words, with the lists of MAP that name where a new one goes.
HELP = TOP / "checks/sessions/questions/help.expected"
LINES = "Add a session line"
KINDS = (
    (("Add an event", LINES), "heap_step/src/lib.rt", "Event"),
    (("Add an event", LINES), "heap_step/src/lib.rt", "Undo"),
    ((LINES,), "heap_trail/src/lib.rt", "Action"),
    (("Add a question",), "question_grammar/src/question.rt", "Question"),
    (("Add a refusal",), "heap_class/src/lib.rt", "Refusal"),
)
# Files that tell of all members, but get no case for a new one: tests, examples, and documents of something else.
NO_PLACES = {
    "checks/map.py",
    "crates/heap_tests/src/calls/drive.rt",
    "crates/heap_trail/specs/DumpExamples.antt",
    "docs/MAP.md",
    "docs/RELIABILITY.md",
}
FOLDERS = "crates", "checks", "clients", "completions", "docs", "man", "bench"


@functools.cache
def files():
    """Returns the paths of all files and folders of the repository, from the top."""
    found = []
    for path in TOP.rglob("*"):
        part = path.relative_to(TOP)
        if not {".git", "out", "__pycache__"} & set(part.parts):
            found.append(part.as_posix())
    return found


def text_of(path):
    """Returns the text of a file, or those of the files of a folder."""
    paths = sorted(path.rglob("*")) if path.is_dir() else [path]
    return "\n".join(each.read_text() for each in paths if each.is_file() and each.suffix in (".antt", ".rt", ".py", ".session", ".edit"))


def missing_of_row(row):
    """Yields what a row of the table names and what isn't there."""
    text, where = "", TOP
    for word in re.findall(r"`([^`]+)`", row):
        if PATH.fullmatch(word) or word not in text and (TOP / "crates" / word).is_dir():
            where = TOP / word if word.startswith(ELSEWHERE) else TOP / "crates" / word
            if not where.exists():
                yield f"no file {word}"
            text = text_of(where) if where.exists() else ""
        elif not re.search(rf"(?<!\w){re.escape(word)}(?!\w)", text):
            yield f"{word} doesn't stand in {where.relative_to(TOP)}"


def missing_below(text, paths):
    """Yields the paths below the table that no file or folder ends with."""
    for word in re.findall(r"`([^`\s]+)`", text):
        if PATH.fullmatch(word) and "NAME" not in word and "METHOD" not in word:
            part = word.rstrip("/")
            if not any(path == part or path.endswith("/" + part) for path in paths):
                yield f"no path ends with {word}"


def variants(path, enum):
    """Returns the names of the variants of an enum."""
    body = re.search(rf"^pub enum {enum}\b[^{{]*\{{(.*?)^\}}", (TOP / "crates" / path).read_text(), re.MULTILINE | re.DOTALL)[1]
    return re.findall(r"^    ([A-Z]\w+)", body, re.MULTILINE)


def kinds():
    """Yields the members of each kind, with the lists that have their places."""
    yield from ((variants(path, enum), lists) for lists, path, enum in KINDS)
    words = [row.split()[1] for row in HELP.read_text().split("\nok\n")[0].split("\n")]
    first, last = words.index("end"), words.index("status")
    yield words[:first], (LINES,)
    yield words[first + 1 : last + 1], ("Add a question",)
    yield ["workers", "idle", "roll", "stay"], ("Add an option",)


def unnamed(text):
    """Yields the places of new members that no list names."""
    parts = {part.split("\n")[0]: part for part in text.split("\n## ")[1:]}
    named = {path: set(re.findall(r"[A-Za-z0-9]+", (TOP / path).read_text(errors="replace"))) for path in sources()}
    for members, lists in kinds():
        places = "".join(parts[name] for name in lists)
        for path, words in named.items():
            if set(members) <= words and path not in NO_PLACES and pathlib.Path(path).stem not in places:
                yield f"{lists[0]}: {path} names all of {members[0]} to {members[-1]}, and isn't listed"


def sources():
    """Yields the paths of the files in which something may have to be added."""
    for path in files():
        where = pathlib.Path(path)
        if where.parts[0] in FOLDERS and not "must-fail" in where.parts and (TOP / path).is_file():
            yield path


def main():
    """Returns the exit status."""
    lines = (TOP / "docs/MAP.md").read_text().split("\n")
    rows = [line for line in lines if line.startswith("| ")]
    found = [f"{row.split(' | ')[0][2:]}: {each}" for row in rows[1:] for each in missing_of_row(row)]
    below = "\n".join(line for line in lines if not line.startswith("|"))
    found += [*missing_below(below, files()), *unnamed(below)]
    for line in found:
        print(f"docs/MAP.md: {line}")
    if len(rows) < 20:
        found.append("few rows")
        print(f"docs/MAP.md: only {len(rows)} rows")
    return 1 if found else 0


if __name__ == "__main__":
    sys.exit(main())
