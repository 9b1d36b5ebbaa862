#!/usr/bin/env python3
"""Runs the hunts of docs/HUNT.md on the built program and on the model, and compares what comes with what it says.

Usage: checks/hunt.py [PROGRAM ..]
Each hunt explores a file. In its blocks a line after `> ` is given to `heapdbg explore`; the lines below it are the answer that
a terminal must show, where `..` stands for any lines. Elsewhere the same answer must come without headings and columns. A hunt
has at most ten questions, and each id and place in one of them stands in an answer above it. Prints a line for each difference
and ends with status 1 if there is one."""
import os
import pathlib
import re
import subprocess
import sys

TOP = pathlib.Path(__file__).resolve().parent.parent
sys.path[:0] = [str(TOP / "checks/model"), str(TOP / "checks/program")]

from machine import Machine  # noqa: E402
from questions import Asking  # noqa: E402
from terminal_cases import typed  # noqa: E402

SECONDS = 20
KEEP = 4096
QUESTIONS = 10


def asked_of(text):
    """Returns the lines that a text gives, each with the lines that it must be answered. A line that isn't indented ends them."""
    asked, rows = [], None
    for line in text.split("\n"):
        if line.startswith("    > "):
            rows = []
            asked.append((line[6:].encode(), rows))
        elif not line.startswith("    "):
            rows = None
        elif rows is not None:
            rows.append(line[4:].encode())
    return asked


def hunts():
    """Returns for each hunt of HUNT the name of its file, and the lines to give, each with the lines that it must be answered."""
    found = []
    for part in (TOP / "docs/HUNT.md").read_text().split("\n## "):
        if asked := asked_of(part):
            found.append((re.search(r"^    bin/heapdbg explore --from examples/(\w+)\.session$", part, re.MULTILINE)[1], asked))
    return found


# How many words the rows of some questions have in replies, where a terminal shows a class behind them.
WORDS = {b"show": 4, b"path": 3}


def rows_of(line, shown):
    """Returns the answer of HUNT to a line, without heading and columns, and without the classes that replies leave out."""
    rows = [row.split() if row.startswith(b"  ") else [row] for row in shown]
    if rows and len(rows[0]) > 1 and all(word.isupper() for word in rows[0]):
        del rows[0]
    count = WORDS.get(line.split()[0])
    return [b" ".join(row if len(row) == 1 else [b"row", *row[:count]]) for row in rows]


def fits(line, came, wanted):
    """Returns whether lines are those of HUNT that answer a line, without its headings and columns."""
    return has_parts(came, rows_of(line, wanted))


def has_parts(came, wanted):
    """Returns whether lines are these, where `..` stands for any lines."""
    parts = b"\n".join(b".." if line.split() == [b".."] else line for line in wanted).split(b"\n..\n")
    return re.fullmatch(b"\n(?:.*\n)*?".join(map(re.escape, parts)), b"\n".join(came)) is not None


def of_model(lines):
    """Returns what the model answers to each line."""
    session = Asking(Machine(keep=KEEP))
    return [session.answer(line) for line in lines]


def of_program(program, lines, answers, *words):
    """Returns what a program answers to each line, cut as the model's answers are long."""
    text = b"".join(line + b"\n" for line in lines)
    ran = subprocess.run([program, "explore", "--keep", str(KEEP), *words], input=text, capture_output=True, timeout=SECONDS)
    came, at = [], 0
    for answer in answers:
        count = answer.count(b"\n")
        end = at
        for _ in range(count):
            end = ran.stdout.find(b"\n", end) + 1 or len(ran.stdout)
        came.append(ran.stdout[at:end])
        at = end
    return came


def shown_by(program, path, asked):
    """Returns what a terminal shows after each question about a file."""
    shown, _ = typed(program, ["explore", "--quiet", "1", "--from", str(path)], [*(line + b"\n" for line, _ in asked), b"\x04"])
    return [answer.split(b"\n")[:-1] for answer in re.split(rb"heapdbg \d+> \|", shown)[1:-1]]


def from_nowhere(asked):
    """Yields (line, word) for each id and each place in a line that no answer above shows."""
    above = set()
    for line, wanted in asked:
        for word in line.replace(b".", b" ").split():
            if word.startswith((b"0x", b"@")) and word.lstrip(b"@") not in above:
                yield line, word
        above |= {word for row in wanted for word in row.split()}


def differences(programs, name, asked):
    """Yields a line for each answer in a hunt that isn't what it must be."""
    path = TOP / f"examples/{name}.session"
    story = [line for line in path.read_bytes().split(b"\n") if line]
    lines = [*story, *(line for line, _ in asked)]
    answers = of_model(lines)
    first = ("--from", str(path))
    if len(asked) > QUESTIONS:
        yield f"{name}: {len(asked)} questions"
    for line, word in from_nowhere(asked):
        yield f"{name}: {line!r} has {word!r}, which no answer above has"
    for each in programs:
        if of_program(each, lines[len(story) :], answers[len(story) :], *first) != answers[len(story) :]:
            yield f"{each}: another answer after --from"
        shown = shown_by(each, path, asked)
        if len(shown) != len(asked):
            yield f"{each}: a terminal shows {len(shown)} answers"
        for (line, wanted), answer in zip(asked, shown):
            if not has_parts(answer, wanted):
                yield f"{each}: after {line!r} a terminal shows {answer!r:.300}"
    for who, came in [("the model", answers), *((each, of_program(each, lines, answers)) for each in programs)]:
        for line, answer in zip(story, came):
            if not answer.startswith(b"ok"):
                yield f"{who}: {line!r} is answered {answer!r:.100}"
        for (line, wanted), answer in zip(asked, came[len(story) :]):
            if not fits(line, answer.split(b"\n")[:-1], wanted):
                yield f"{who}: {line!r} is answered {answer!r:.300}"


def main(programs):
    """Returns the exit status: 0 if every answer is that of HUNT."""
    found = []
    for name, asked in hunts():
        found += differences([os.path.abspath(program) for program in programs], name, asked)
        ran = subprocess.run([sys.executable, TOP / f"examples/{name}.py"], capture_output=True, timeout=SECONDS)
        if ran.stdout != (TOP / f"examples/{name}.session").read_bytes():
            found.append(f"examples/{name}.py prints another session than examples/{name}.session")
    print("\n".join(found), end="\n" if found else "")
    return 1 if found else 0


if __name__ == "__main__":
    sys.exit(main(sys.argv[1:]))
