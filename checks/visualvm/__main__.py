"""Opens dumps of the built program with VisualVM's own library, and compares what that shows with the program's answers:
`checks/visualvm PROGRAM`.

Compares the overview, the number and the bytes of the objects of each class, the bytes and the retained size of each object, and
its way to the nearest root. Dumps that were changed must be shown otherwise, and dumps that lack what VIEWERS asks for must fail as
it says. Prints a line for each thing that is otherwise, and ends with status 1 if there is one. Where VisualVM or Java isn't
installed, it only says so, in one line."""
import functools
import os
import pathlib
import shutil
import subprocess
import sys
import tempfile

from answers import Answers
from scenes import changed, exceptions, lacking, numbers_told, scenes

LIBRARY = pathlib.Path("/usr/share/visualvm/visualvm/modules/org-graalvm-visualvm-lib-jfluid-heap.jar")
READER = pathlib.Path(__file__).with_name("Reader.java")
# The seconds that a program may take.
LIMIT = 300
# How many lines are reported that a dump shows, or lacks.
REPORTED = 3


def is_installed():
    """Tells whether VisualVM's library and Java are there."""
    return LIBRARY.exists() and all(map(shutil.which, ("java", "javac")))


def shown(dumps):
    """Returns the lines that the reader prints of each dump."""
    ran = subprocess.run(["java", "-cp", LIBRARY, READER, *dumps], capture_output=True, text=True, timeout=LIMIT)
    parts = ran.stdout.split("file ")[1:]
    if ran.returncode or len(parts) != len(dumps):
        raise SystemExit(f"the reader of dumps ends with status {ran.returncode}: {ran.stderr}")
    return {dump: part.splitlines()[1:] for dump, part in zip(dumps, parts)}


def saved(program, scene, folder):
    """Saves the dump that a scene leaves. Returns its file."""
    file = folder / f"{scene.name}.hprof"
    words = [program, "save", "--questions", "1", *scene.options, "--ids", scene.ids, "--out", str(file)]
    ran = subprocess.run(words, input=scene.lines, capture_output=True, timeout=LIMIT)
    bad = [line for line in ran.stdout.splitlines() if not line.startswith((b"ok", b"saved"))]
    if ran.returncode or bad or not ran.stdout.endswith(b"saved %d\n" % file.stat().st_size):
        raise SystemExit(f"{scene.name}: the program ends with status {ran.returncode}, {bad[:1]}, {ran.stderr}")
    return file


def written(file, dump):
    """Writes a dump to a file, and returns the file."""
    file.write_bytes(dump)
    return file


def differences(wanted, came):
    """Yields how the lines that came differ from those that are wanted, in whatever order both are."""
    for word, lines in (("doesn't show", set(wanted) - set(came)), ("shows", set(came) - set(wanted))):
        yield from (f"{word} {line!r}" for line in sorted(lines)[:REPORTED])
        if len(lines) > REPORTED:
            yield f"{word} {len(lines) - REPORTED} more such lines"
    if len(came) != len(set(came)):
        yield "shows a line twice"


def likeness(what, wanted, came):
    """Yields that a dump with a change is shown as if it hadn't, if so."""
    if not list(differences(wanted, came)):
        yield f"doesn't show {what}"


def absence(told, came):
    """Yields that a line that a document tells doesn't come, if so."""
    if told not in came:
        yield f"doesn't show {told!r}, as SESSIONS says"


def successes(faults, came):
    """Yields which parts of a dump don't fail as they must, with the words that are said of them."""
    for part, words in faults:
        if not any(line.startswith(f"fault {part} ") and words in line for line in came):
            yield f"{part} doesn't fail with {words!r}"


def looks(program, folder):
    """Yields dumps, each with a function that finds what is wrong with the lines that are shown of it."""
    told = numbers_told()
    for scene in scenes():
        file, wanted = saved(program, scene, folder), Answers(program, scene, folder).lines()
        yield file, functools.partial(differences, wanted)
        if scene.name in told:
            yield file, functools.partial(absence, told[scene.name])
    yield from changes(program, folder)
    for scene, faults in lacking():
        yield saved(program, scene, folder), functools.partial(successes, faults)
    scene, others = exceptions()
    wanted = Answers(program, scene, folder).lines()
    # The program must answer what stands for each line that VisualVM shows otherwise.
    yield saved(program, scene, folder), functools.partial(differences, [others.pop(line, line) for line in wanted])
    if others:
        raise SystemExit(f"{scene.name}: the program doesn't answer {list(others)}")


def changes(program, folder):
    """Yields changed dumps of the first scene, as `looks` does."""
    scene = scenes()[0]
    dump, wanted = saved(program, scene, folder).read_bytes(), Answers(program, scene, folder).lines()
    for number, (what, other) in enumerate(changed(dump)):
        yield written(folder / f"changed{number}.hprof", other), functools.partial(likeness, what, wanted)


def main(program):
    """Returns the exit status."""
    if not is_installed():
        print("no VisualVM, or no javac, is installed (apt-get install visualvm): no dump was opened with its library")
        return 0
    with tempfile.TemporaryDirectory() as name:
        looked = list(looks(program, pathlib.Path(name)))
        lines = shown(list(dict.fromkeys(file for file, _ in looked)))
    found = [f"VisualVM, {file.name}: {fault}" for file, faults in looked for fault in faults(lines[file])]
    for fault in found:
        print(fault)
    return 1 if found else 0


if __name__ == "__main__":
    sys.exit(main(os.path.abspath(sys.argv[1])))
