#!/usr/bin/env python3
"""Compares the plain program with the model of `checks/model`: `check.py [COUNT [SEED]]`.

Draws COUNT sessions (5 if it isn't given) of each kind that has no questions, from SEED on, gives them to the program, and
runs those of `checks/sessions/cases`. Prints a line for each that is answered otherwise, and ends with status 1 if there is one."""
import concurrent.futures
import importlib.util
import os
import pathlib
import subprocess
import sys
import tempfile

TOP = pathlib.Path(__file__).resolve().parent.parent.parent
sys.path += [str(TOP / "bench"), str(TOP / "checks/model")]
SPEC = importlib.util.spec_from_file_location("model", TOP / "checks/model/__main__.py")
model = importlib.util.module_from_spec(SPEC)
SPEC.loader.exec_module(model)

from draws import Draw
from ratio import plain

# The kinds of which one session is enough, as each is the same.
SAME = ("limits",)
SECONDS = 60


def ran(program, words, text):
    """Returns what the program does with a session."""
    done = subprocess.run([program, "run", *words], input=text, capture_output=True, timeout=SECONDS)
    return done.stdout, [done.returncode, done.stderr]


def checked(kind, seed, program):
    """Returns a line if the program answers a drawn session otherwise, else None."""
    draws, arguments, _, settings = model.SESSIONS[kind]
    draw = Draw(seed, **settings)
    draws(draw, *arguments)
    end, last, *wanted = model.ENDS[seed % len(model.ENDS)]
    lines = [*draw.lines, (end, last)]
    words = [f"--{option}={value}" for option, value in draw.settings.items()]
    answers, status = ran(program, words, model.given(draw, end))
    if answers != b"".join(answer for _, answer in lines):
        return f"{kind}, seed {seed}: {model.difference(lines, answers)}"
    return None if status == wanted else f"{kind}, seed {seed}: {status}, and must be {wanted}"


def case_faults(program):
    """Returns a line for each case that the program answers otherwise."""
    for session in sorted((TOP / "checks/sessions/cases").glob("*.session")):
        words = session.with_suffix(".args")
        answers, _ = ran(program, words.read_text().split() if words.exists() else [], session.read_bytes())
        if answers != session.with_suffix(".expected").read_bytes():
            yield f"{session.name} is answered otherwise"


def main(count=5, first=1):
    """Returns the exit status."""
    with tempfile.TemporaryDirectory() as folder:
        program = plain(pathlib.Path(folder))
        found = list(case_faults(program))
        kinds = [kind for kind in model.SESSIONS if kind not in model.ASKED]
        jobs = [(kind, seed) for kind in kinds for seed in range(first, first + (1 if kind in SAME else count))]
        with concurrent.futures.ProcessPoolExecutor(max(1, os.cpu_count() // 2)) as workers:
            found += [line for line in workers.map(checked, *zip(*jobs), [program] * len(jobs)) if line]
    print("\n".join(found), end="\n" if found else "")
    return 1 if found else 0


if __name__ == "__main__":
    sys.exit(main(*map(int, sys.argv[1:])))
