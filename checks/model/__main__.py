"""Runs the built program on sessions drawn at random, and compares what comes with what the model answers, byte by byte.

Usage: checks/model PROGRAM ..      runs the programs
       checks/model show SESSION    prints the lines of a session, to be given to a program
Prints a line for each session that a program answers otherwise, with the first line where it does, and for each thing that
the sessions have to meet and don't, and ends with status 1 if there is one. Prints nothing where all is well.

The model is a program of its own: it was written from the description of the product, keeps whole states in a list, and
shares nothing with the code that is proved."""
import concurrent.futures
import os
import pathlib
import subprocess
import sys
import tempfile

from asks import LEAST, WANTED, AskingDraw
from draws import Draw
from sights import Sights

# The most seconds that a run may take.
SECONDS = 60
TIME = 0x0102030405060708

# Sessions: what is drawn, with which arguments, how many of them, and the settings.
SESSIONS = {
    "mixed": (Draw.play, (1500,), 8, {"regions": 4, "keep": 12}),
    "short": (Draw.play, (1500,), 4, {"regions": 4, "keep": 12, "ids": 4, "time": TIME}),
    "one": (Draw.play, (1000,), 3, {"regions": 3, "mutators": 1, "keep": 1}),
    "few": (Draw.play, (1000,), 3, {"regions": 5, "mutators": 3, "keep": 3}),
    "long": (Draw.play, (600, 30), 6, {"regions": 3, "keep": 3000}),
    "tight": (Draw.play, (600, 15), 4, {"regions": 1, "mutators": 1, "keep": 3000}),
    "filled": (Draw.fill, (3,), 6, {"regions": 6, "mutators": 16, "keep": 40, "time": TIME}),
    "filled-short": (Draw.fill, (3,), 6, {"regions": 6, "mutators": 16, "keep": 40, "ids": 4}),
    "spread": (Draw.spread, (1500,), 6, {"regions": 40, "mutators": 6, "keep": 100}),
    "spoken": (Draw.speak, (600,), 2, {"regions": 2, "keep": 50}),
    "limits": (Draw.reach_limits, (), 1, {"regions": 256, "mutators": 16, "keep": 65536}),
    "asked": (AskingDraw.play, (1500,), 18, {"regions": 5, "keep": 40}),
    "asked-short": (AskingDraw.play, (1000,), 4, {"regions": 4, "keep": 300, "ids": 4}),
    "wide": (Draw.play, (1500,), 2, {"regions": 4, "keep": 12, "wide": 1}),
    "wide-limits": (Draw.reach_limits, (), 1, {"regions": 300, "mutators": 16, "keep": 70000, "wide": 1}),
    "asked-wide": (AskingDraw.play, (1000,), 2, {"regions": 4, "keep": 300, "wide": 1}),
    "large": (Draw.play, (1200, 200), 4, {"regions": 9, "keep": 60, "wide": 1, "area": 6}),
    "large-short": (Draw.play, (1000,), 2, {"regions": 7, "keep": 12, "wide": 1, "area": 4, "ids": 4}),
    "largest": (Draw.reach_largest, (), 1, {"regions": 2054, "keep": 100, "wide": 1, "area": 2051}),
    "asked-large": (AskingDraw.play, (800,), 3, {"regions": 8, "keep": 200, "wide": 1, "area": 5}),
    "asked-more": (AskingDraw.play, (1500,), 8, {"regions": 5, "keep": 40}),
    "asked-large-more": (AskingDraw.play, (800,), 2, {"regions": 8, "keep": 200, "wide": 1, "area": 5}),
}
NAMES = [f"{name}-{number}" for name, (_, _, count, _) in SESSIONS.items() for number in range(1, count + 1)]
# The sessions with questions, which go to `explore`.
ASKED = ("asked", "asked-short", "asked-wide", "asked-large", "asked-more", "asked-large-more")
# How sessions end: what comes after the last line, how it is answered, and the status and standard error of the program. The last
# one has as many letters as make a line too long.
ENDS = (
    (b"", b"", 0, b""),
    (b"end\nclear 0 0\nmark", b"", 0, b""),
    (b"clear 0 0", b"bad cut\n", 1, b"heapdbg: cut\n"),
    (b"a", b"bad long\n", 1, b"heapdbg: long\n"),
)


def drawn(name):
    """Returns the session of a name, drawn."""
    kind, _, number = name.rpartition("-")
    draws, arguments, _, settings = SESSIONS[kind]
    draw = (AskingDraw if kind in ASKED else Draw)(NAMES.index(name), **settings)
    draws(draw, *arguments)
    return draw


def given(draw, end):
    """Returns the text of a session."""
    return b"".join(line + b"\n" for line, _ in draw.lines) + end


def difference(lines, came):
    """Returns where the answers that came leave those to some lines."""
    at = 0
    for number, (line, wanted) in enumerate(lines, 1):
        got = came[at : at + len(wanted)]
        if got != wanted:
            rest = came[at:].split(b"\n")
            pairs = zip(rest, wanted.split(b"\n"))
            one, other = next((pair for pair in pairs if pair[0] != pair[1]), (rest[-1], b"nothing"))
            return f"line {number}, {line!r:.100}, is answered {one!r:.100}, and must be {other!r:.100}"
        at += len(wanted)
    return f"more is answered than must be: {came[at : at + 100]!r}"


def checked(name, programs):
    """Returns a line for each program that answers a session otherwise, and what the session met."""
    draw = drawn(name)
    end, last, *wanted = ENDS[NAMES.index(name) % len(ENDS)]
    if last == b"bad long\n":
        end *= draw.machine.limits.longest_line + 1
    lines = [*draw.lines, (end, last)]
    words = [f"--{option}={value}" for option, value in draw.settings.items()]
    found = []
    asks = isinstance(draw, AskingDraw)
    for program in programs:
        with tempfile.TemporaryDirectory() as folder:
            how = {"input": given(draw, end), "capture_output": True, "timeout": SECONDS, "cwd": folder}
            ran = subprocess.run([program, "explore" if asks else "run", *words], **how)
            made = {path.name: path.read_bytes() for path in pathlib.Path(folder).iterdir()}
        if ran.stdout != b"".join(answer for _, answer in lines):
            found.append(f"{program}, session {name}: {difference(lines, ran.stdout)}")
        elif [ran.returncode, ran.stderr] != wanted:
            found.append(f"{program}, session {name}: status {ran.returncode}, {ran.stderr!r:.100}, and must be {wanted}")
        elif made != (draw.session.files if asks else {}):
            found.append(f"{program}, session {name}: makes other files, among {sorted(made)}")
    return found, draw.machine.sights


def main(words):
    """Returns the exit status."""
    if words[:1] == ["show"] and words[1:] and words[1] in NAMES:
        sys.stdout.buffer.write(given(drawn(words[1]), b""))
        return 0
    if not words or words[0] == "show":
        print(f"usage: checks/model PROGRAM .. | show SESSION\nsessions: {' '.join(NAMES)}")
        return 2
    programs = [os.path.abspath(word) for word in words]
    sights, found = Sights(), []
    with concurrent.futures.ProcessPoolExecutor() as workers:
        for lines, met in workers.map(checked, NAMES, [programs] * len(NAMES)):
            found += lines
            sights.add(met)
    found += [f"the sessions lack {line}" for line in sights.lacking()]
    for word, answers in WANTED.items():
        lacking = [answer for answer in answers if sights.met[f"{word}: {answer}"] < LEAST]
        found += [f"the sessions lack {word} answered {answer}" for answer in lacking]
    print("\n".join(found), end="\n" if found else "")
    return 1 if found else 0


if __name__ == "__main__":
    sys.exit(main(sys.argv[1:]))
