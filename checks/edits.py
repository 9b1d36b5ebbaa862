#!/usr/bin/env python3
"""Looks after the must-fail edits: wrong bodies that the prover has to refuse.

Usage: checks/edits.py fit                  checks that each edit can be applied, in crates/*/must-fail/ and in edits/
       checks/edits.py try [CRATE[/EDIT] ..] has the prover refuse edits of edits/: all, or those of a crate, or single ones

`try` works in copies of this tree, over the libraries that `make test` or `make prove` left here, three crates at a time. It puts
edits of different functions into one copy and has these functions checked at once. An edit that changes a contract, a definition
or a constant goes into a copy alone, and the whole crate is checked: a function that calls the edited one may refuse it, and the
edit is let through only where all functions are proved. The environment's CHECK is the command that checks, run in the crate's
folder: `scripts/over_built.py` where it isn't set."""
import concurrent.futures
import os
import pathlib
import re
import shutil
import subprocess
import sys
import tempfile
import time

TOP = pathlib.Path(__file__).resolve().parent.parent
sys.path.append(str(TOP / "scripts"))

import over_built  # noqa: E402

CHECK = os.environ["CHECK"].split() if "CHECK" in os.environ else [sys.executable, over_built.__file__]
PROVERS = 3
# The most edits that are checked at once.
ROUND = 40
REFUSED, BAD, LET_THROUGH, UNCLEAR = "refused", "BAD EDIT", "LET THROUGH", "NO VERDICT"
FUNCTION = re.compile(r"^( *)(?:pub(?:\(\w+\))? )?(?:const |unsafe )*fn (\w+)", re.MULTILINE)
OWNER = re.compile(r"^(?:pub(?:\(\w+\))? )?(?:impl|trait)\b.*", re.MULTILINE)
# An error that only says that a proof cites a name which the edit took away, or what such an error leads to. A long one says that a
# record has no field in its second line.
LOST_NAME = re.compile(r"has no field|: record `[^`]*` \(nearest: |is not a field of record|is not in scope|has no `|was not admitted|which was rejected|: module `[^`]*`$")
# What is said of a function that is proved: `fn NAME: proved`, or `fn NAME: proved, may wait`.
PROVED = re.compile(r"fn \S+: proved(, .*)?$")
PLACE = re.compile(r"(?:\./)?(src/\S+?):(\d+):\d+: error\[")


class Edit:
    """An edit, with the lines that it changes, and the functions whose bodies it changes: none where it changes more than bodies."""

    def __init__(self, path, crate):
        self.path, self.crate, self.name = path, crate, f"{crate}/{path.stem}"
        self.pairs, self.functions, self.lines = [], set(), set()
        file = old = None
        for line in path.read_text().splitlines():
            key, _, text = line.partition(": ")
            if key == "file":
                file = text
            elif key == "old":
                old = text
            elif key in ("new", "new:"):
                self.pairs.append((file, old, text))
                old = None

    def place(self, texts):
        """Finds what the edit changes in the texts of its crate's files."""
        only_bodies = True
        for file, old, new in self.pairs:
            at = texts[file].find(old)
            self.lines.add((file, texts[file].count("\n", 0, at) + 1))
            function, in_body = function_at(file, texts[file], at)
            if function:
                self.functions.add(function)
            only_bodies &= in_body or old in new or old.startswith("use ")
        if not only_bodies:
            self.functions.clear()

    def misfit(self, texts):
        """Applies the edit to the texts of a crate's files. Returns why it can't be applied; None where it can."""
        for file, old, new in self.pairs:
            if file is None or old is None:
                return "a 'new' comes before its 'old'"
            if file not in texts:
                return f"there is no file {file}"
            if texts[file].count(old) != 1:
                return f"the file has this text {texts[file].count(old)} times: {old}"
            texts[file] = texts[file].replace(old, new)
        return None if self.pairs else "it changes nothing"


def module_of(file):
    """Returns the path of the module whose source this is, below its crate."""
    parts = list(pathlib.PurePath(file).with_suffix("").parts[1:])
    return parts[:-1] if parts[-1] in ("lib", "main", "mod") else parts


def owner_of(text, at):
    """Returns what a check calls the impl or the trait of a method: `Word+Sums` of `Word<'a, Sums>`, or `RingIterator`."""
    head = re.split(r" where |{", [it[0] for it in OWNER.finditer(text, 0, at)][-1].replace("->", ""))[0].rstrip()
    own = None if " for " in head else re.search(r"<([^<>]*)>$", head)
    # A parameter's name is a single letter.
    given = [it for it in re.findall(r"[\w']+", own[1] if own else "") if re.fullmatch(r"\w\w+", it)]
    while head != (less := re.sub(r"<[^<>]*>", "", head)):
        head = less
    words = re.split(r" for | ", head.replace("pub ", ""))[1:]
    return "+".join(["".join(reversed([it.rpartition("::")[2] for it in words])), *given])


def function_at(file, text, at):
    """Returns the function in which a part of a file begins, if there is one, and whether it begins in its body or its
    proof. A method is named by its type or its trait, and another function by its module."""
    if file.startswith("proofs/"):
        parts = pathlib.PurePath(file).parts[1:-1]
        parts = parts[-2:] if parts[-2:-1] and parts[-2][0].isupper() else parts
        return ("::".join(parts) if parts else None), bool(parts)
    heads = [it for it in FUNCTION.finditer(text) if it.start() <= at]
    if not file.startswith("src/") or not heads:
        return None, False
    head = heads[-1]
    indent = head[1]
    if at > text.find(f"\n{indent}}}\n", head.start()):
        return None, False
    body = re.compile(rf"\{{\n|^{indent}\{{", re.MULTILINE).search(text, head.start())
    above = [owner_of(text, head.start())] if indent else module_of(file)
    return "::".join([*above, head[2]]), body is not None and at >= body.start()


def texts_of(folder):
    """Returns the texts of a crate's files that an edit may change, by their paths in the crate."""
    parts = [folder / part for part in ("src", "specs", "proofs")]
    return {str(it.relative_to(folder)): it.read_text() for part in parts for it in part.rglob("*") if it.is_file()}


def fit():
    """Prints each edit that can't be applied. Returns whether there is none."""
    edits = [Edit(it, it.parts[-3]) for it in TOP.glob("crates/*/must-fail/*.edit")]
    edits += [Edit(it, it.parts[-2]) for it in TOP.glob("edits/*/*.edit")]
    bad = 0
    for crate in sorted({edit.crate for edit in edits}):
        texts = texts_of(TOP / "crates" / crate)
        for edit in sorted((it for it in edits if it.crate == crate), key=lambda it: it.path):
            why = edit.misfit(dict(texts))
            bad += why is not None
            if why:
                print(f"{edit.path.relative_to(TOP)}: {why}")
    return not bad


def rounds_of(edits):
    """Returns the edits in rounds, such that no two edits of a round change one function. An edit of more than bodies goes alone."""
    rounds = []
    for edit in edits:
        free = (it for it in rounds if len(it) < ROUND and edit.functions and it[0].functions
                and not any(edit.functions & other.functions for other in it))
        found = next(free, None)
        if found is None:
            rounds.append(found := [])
        found.append(edit)
    return rounds


def check(folder, edits):
    """Checks a copy of a crate with these edits in it. Returns the lines that were said."""
    texts = texts_of(folder)
    edited = dict(texts)
    for edit in edits:
        edit.misfit(edited)
    flags = [word for edit in edits for function in sorted(edit.functions) for word in ("--only", function)]
    changed = [file for file in texts if texts[file] != edited[file]]
    for file in changed:
        (folder / file).write_text(edited[file])
    how = {"stdin": subprocess.DEVNULL, "stdout": subprocess.PIPE, "stderr": subprocess.STDOUT, "text": True}
    ran = subprocess.run([*CHECK, *flags], cwd=folder, **how)
    for file in changed:
        (folder / file).write_text(texts[file])
    return ran.stdout.splitlines()


def told_of(function, said):
    """Returns the lines of a check that are about a function and its closures, and the errors in their proofs."""
    above, _, name = function.rpartition("::")
    path, above = re.escape(function), re.escape(above)
    own = re.compile(rf"fn \w+::(\S+::)?({path}|({above}::)?fn::({above}::)?{name}::\S+): ")
    proof = re.compile(rf"\./proofs/(\S+/)?{path.replace('::', '/')}/\S+ error: ")
    return [it for it in said if own.match(it)], [it for it in said if proof.match(it)]


def verdict(functions, said):
    """Returns what a check says of these functions, or of all if there are none, and its words for it."""
    told = [told_of(function, said) for function in sorted(functions)]
    states = [it for lines, _ in told for it in lines] if functions else [it for it in said if it.startswith("fn ")]
    errors = [it for _, lines in told for it in lines] if functions else [it for it in said if ": error: " in it]
    goals = [it for it in states if "did not prove" in it] + [it for it in errors if not LOST_NAME.search(it)]
    if goals:
        return REFUSED, goals[0]
    if errors:
        return BAD, f"a proof cites a name that the edit took away: {errors[0]}"
    unproved = [it for it in states if not PROVED.match(it)]
    if states and not unproved:
        return LET_THROUGH, states[0] if functions else f"all {len(states)} functions are proved"
    return UNCLEAR, (unproved or said[-1:] or ["nothing was said"])[0]


def prover_fates(edits, said):
    """Returns the verdicts of a round that reached the prover, and a round for each edit of which it says nothing."""
    found = {edit: verdict(edit.functions, said) for edit in edits}
    unclear = [edit for edit in edits if found[edit][0] == UNCLEAR]
    if len(edits) == 1 and unclear:
        return {edits[0]: verdict((), said)}, []
    return found, [[edit] for edit in unclear]


def compiler_fates(edits, said):
    """Returns the verdicts of a round that didn't reach the prover, and the other edits, in rounds."""
    words = next((line for line in said if "error" in line), said[-1] if said else "nothing was said")
    if len(edits) == 1:
        return {edits[0]: (BAD if "error[" in words else UNCLEAR, words)}, []
    places = {(it[1], int(it[2])): line for line in said if (it := PLACE.match(line))}
    bad = {edit: (BAD, places[at.pop()]) for edit in edits if (at := edit.lines & set(places))}
    rest = [edit for edit in edits if edit not in bad]
    return bad, [part for part in ([rest] if bad else [rest[::2], rest[1::2]]) if part]


def parted(texts, edits):
    """Returns the edits that can be applied one after another to these texts, and those that can't be beside them."""
    together, apart = [], []
    for edit in edits:
        edited = dict(texts)
        if edit.misfit(edited):
            apart.append(edit)
        else:
            texts = edited
            together.append(edit)
    return together, apart


def try_round(folder, edits):
    """Returns the verdict of each edit of a round."""
    together, apart = parted(texts_of(folder), edits)
    said = check(folder, together)
    reached = any(line.startswith(("fn ", "only=", "logic=")) for line in said)
    found, rounds = (prover_fates if reached else compiler_fates)(together, said)
    for each in [*rounds, *([apart] if apart else [])]:
        found |= try_round(folder, each)
    return found


def try_crate(crate, edits):
    """Tries these edits of a crate in a copy of this tree. Prints the verdicts, and returns whether all were refused."""
    start = time.monotonic()
    with tempfile.TemporaryDirectory(prefix="edits-") as name:
        scratch = pathlib.Path(name)
        for file in ("crates.txt", "HANDLES"):
            shutil.copy(TOP / file, scratch)
        shutil.copytree(TOP / "crates", scratch / "crates", ignore=shutil.ignore_patterns("must-fail", "out"))
        folder, refused = scratch / "crates" / crate, 0
        texts = texts_of(folder)
        bad = {edit: why for edit in edits if (why := edit.misfit(dict(texts)))}
        for edit, why in bad.items():
            print(f"{edit.name}: {BAD}: {why}", flush=True)
        fitting = [edit for edit in edits if edit not in bad]
        for edit in fitting:
            edit.place(texts)
        for each in rounds_of(fitting):
            for edit, (kind, words) in try_round(folder, each).items():
                print(f"{edit.name}: {kind}: {words[:300]}", flush=True)
                refused += kind == REFUSED
    print(f"{crate}: {refused} of {len(edits)} edits refused, in {time.monotonic() - start:.0f} s", flush=True)
    return refused == len(edits)


def try_all(words):
    """Tries the edits that these words name, or all. Returns the exit status."""
    edits = [Edit(it, it.parts[-2]) for it in sorted(TOP.glob("edits/*/*.edit"))]
    unknown = set(words) - {edit.crate for edit in edits} - {edit.name for edit in edits}
    if unknown:
        print(f"edits/ has no {', '.join(sorted(unknown))}")
        return 2
    chosen = [edit for edit in edits if not words or edit.crate in words or edit.name in words]
    by_crate = {}
    for edit in chosen:
        by_crate.setdefault(edit.crate, []).append(edit)
    missing = [] if "CHECK" in os.environ else over_built.lacking(by_crate)
    if missing:
        print(over_built.NEEDS.format(", ".join(missing)))
        return 2
    with concurrent.futures.ThreadPoolExecutor(PROVERS) as pool:
        return 0 if all(list(pool.map(try_crate, by_crate, by_crate.values()))) else 1


def main(words):
    """Returns the exit status: 0 where all is well."""
    if words == ["fit"]:
        return 0 if fit() else 1
    if words[:1] == ["try"]:
        return try_all(words[1:])
    print(__doc__)
    return 2


if __name__ == "__main__":
    sys.exit(main(sys.argv[1:]))
