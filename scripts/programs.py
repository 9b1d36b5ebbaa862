"""Builds the programs of `bench/*.rt.txt` and `checks/*.rt.txt`, each as one more crate of a copy of this repository."""
import pathlib
import shutil
import subprocess

TOP = pathlib.Path(__file__).resolve().parent.parent
HEAP = """heap_lock heap_history heap_trail heap_pins heap_step heap_world hprof_text heap_mark heap_sweep heap_region heap_class
atomic_table"""
# Picks the heap's ghost members, for the function that opens a heap.
PICKS = """use Rattle.{name}.proofs.done.Given as goal

abbrev pub ghosts-{opener} : goal.ghosts-{opener}
ghosts-{opener} g a = record {{ config = a.blank.config; tables = a.blank.tables; ledger = a.blank.ledger; rolls = a.blank.rolls }}
"""


def built(folder, source, opener, libraries, words):
    """Builds a source `NAME.rt.txt` in FOLDER over what checks here kept, unless the program is there already. Returns its path.

    Its function `done` calls `opener`, which opens a heap. It uses these libraries beside those of a heap. The first run is
    given the words."""
    folder, name = pathlib.Path(folder), source.name.removesuffix(".rt.txt")
    crate = folder / "crates" / name
    program = crate / "out" / name
    if not program.exists():
        shutil.copytree(TOP / "crates", crate.parent, dirs_exist_ok=True)
        shutil.copy(TOP / "HANDLES", folder)
        line = f"{name}: {libraries} {' '.join(HEAP.split())}\n"
        (folder / "crates.txt").write_text((TOP / "crates.txt").read_text() + line)
        (crate / "src").mkdir(parents=True, exist_ok=True)
        shutil.copy(source, crate / "src/main.rt")
        picks = crate / "proofs/done"
        picks.mkdir(parents=True, exist_ok=True)
        (picks / "Invariants.antt").write_text(PICKS.format(name=name, opener=opener))
        subprocess.run(["rt", "run", "--", *words], cwd=crate, check=True)
    return program
