#!/usr/bin/env python3
"""Counts what there should be little of, each with its limit: `house.py`. `house.py list` also prints what is counted, and
`house.py fit`, which `make test` runs, only what is above its limit.

It goes by the text of the sources alone, so what it lists is to be looked at. Ends with status 1 if a count is above its limit,
which is what there was when the limit was set: lower it when the count falls."""
import collections
import pathlib
import re
import sys

from lemma_names import LEMMA, OF_FUNCTIONS, GIVEN, shared_names

TOP = pathlib.Path(__file__).resolve().parent.parent
CRATES = sorted(path.parent.parent for path in TOP.glob("crates/*/src/*") if path.name in ("lib.rt", "main.rt"))
# Crates that no other one uses: tests, and an example.
TESTS = "heap_tests", "hprof_tests", "dominator_tests"
PROGRAMS = *TESTS, "embed_example"
# A public function up to its body, which is empty if it is a law.
PUBLIC = re.compile(r"(?ms)^( *)pub (?:const )?fn (\w+).*?(?:^\1(\{\}?)$| \{$)")
MODULE = re.compile(r"Rattle\.(\w+)\.specs\.((?:\w+\.)*\w+)")
# How a function begins, up to where its parameters do; how a clause of a contract begins; and how a definition does.
FUNCTION = re.compile(r"( *)(?:pub(?:\([a-z]+\))? )?(?:const )?(?:unsafe )?fn (\w+)")
CLAUSE = re.compile(r" *(?:ensures|requires|invariant|decreases)\b")
DEFINITION = re.compile(r"(?m)^(?:(?:abbrev|unfoldable|pub|record|data|inline) )+([\w'-]+) ")
# Words that docs/STYLE.md, which names one of them, has others for; and where they are looked for.
BANNED = re.compile(r"want of memory|finds? no memory|\bso many\b|\bby lot\b|can't be had|wants_memory")
TEXTS = "README.md", "CHANGES.md", "docs/*.md", "clients/**/*.md", "clients/**/*.py", "checks/**/*.py", "bench/**/*.py", "scripts/*", "man/*"
STATEMENT = re.compile(r"(?m)^(?:pub )?([A-Za-z_][\w'-]*) : (.{40,}(?:\n +.*)*)")
IMPORT = re.compile(r"(?m)^ *(?:ghost )?use Rattle[^{;\n]*\{([^}]*)\};?$")


def texts(folder, pattern):
    """Returns the texts of the files of a folder, by path."""
    return {path: path.read_text() for path in sorted(folder.glob(pattern))}


CODE = {crate.name: texts(crate, "src/**/*.rt") for crate in CRATES}
SPECS = {crate.name: texts(crate, "specs/**/*.antt") for crate in CRATES}
PROOFS = {crate.name: texts(crate, "proofs/**/*.antt") for crate in CRATES}


def words_of(texts):
    """Returns all words of texts."""
    return {word for text in texts for word in re.findall(r"\w+", text)}


def unshared_functions():
    """Yields public functions that no other crate and no document names, but for laws, whose bodies are empty."""
    words = {name: words_of(files.values()) for name, files in CODE.items()}
    told = words_of([(TOP / "README.md").read_text(), *texts(TOP / "docs", "*.md").values()])
    for name, files in CODE.items():
        if name in PROGRAMS:
            continue
        others = told.union(*(found for other, found in words.items() if other != name))
        for path, text in files.items():
            for function in PUBLIC.finditer(text):
                if function[2] not in others and function[3] != "{}":
                    yield f"{path.relative_to(TOP / 'crates')} {function[2]}"


def twin_lemmas():
    """Returns lemmas whose statements are the same but for names of up to three letters."""
    found = collections.defaultdict(list)
    for files in PROOFS.values():
        for path, text in files.items():
            if path.name != "Answers.antt":
                for name, statement in STATEMENT.findall(text):
                    names = {}
                    shape = re.sub(r"\b[a-z][\w']{0,2}\b", lambda word: names.setdefault(word[0], f"v{len(names)}"), statement)
                    found[shape].append(f"{path.relative_to(TOP / 'crates')} {name}")
    return [" = ".join(where) for where in found.values() if len(where) > 1]


def names_of_one_word():
    """Yields names in proofs that are one word, which hardly says what a lemma says."""
    for files in PROOFS.values():
        for path, text in files.items():
            for name in LEMMA.findall(text):
                if re.fullmatch(r"[a-z]+", name) and not (path.name in OF_FUNCTIONS and GIVEN.match(name)):
                    yield f"{path.relative_to(TOP / 'crates')} {name}"


def modules_without_head():
    """Returns modules of specs to which no contract leads, and whose heads don't say that they are for proofs alone."""
    modules = {f"{name} {path.relative_to(TOP / 'crates' / name / 'specs').with_suffix('')}".replace("/", "."): text
               for name, files in SPECS.items() for path, text in files.items() if path.name != "Lib.antt"}
    ahead = [text for files in CODE.values() for text in files.values()]
    reached = set()
    while ahead:
        text = ahead.pop()
        for crate, module in MODULE.findall(text):
            found = f"{crate} {module}"
            if found in modules and found not in reached:
                reached.add(found)
                ahead.append(modules[found])
    return [name for name, text in modules.items() if name not in reached and not text.startswith("-- For proofs:")]


def words_with_two_meanings():
    """Returns entries of the glossary that number their meanings."""
    return re.findall(r"(?m)^- (\*\*\w.*?\*\*.*?)\(1\)", (TOP / "docs/GLOSSARY.md").read_text())


def large_crates():
    """Yields crates of more than 100 functions or 1,500 lines of code, without tests and the page's text."""
    for name, files in CODE.items():
        code = [text for path, text in files.items() if path.name not in ("tests.rt", "page_text.rt")]
        functions = sum(len(re.findall(r"(?m)^ *(?:pub(?:\(crate\))? )?(?:const )?fn ", text)) for text in code)
        lines = sum(line.strip() != "" and not line.lstrip().startswith(("//", "ghost", "ensures", "requires", "invariant"))
                    for text in code for line in text.split("\n"))
        if name not in PROGRAMS and (functions > 100 or lines > 1_500):
            yield f"{name}: {functions} functions, {lines} lines"


def banned_words():
    """Yields words in code and documents that docs/STYLE.md has others for."""
    files = [path for pattern in TEXTS for path in TOP.glob(pattern) if path.is_file() and path.name not in ("STYLE.md", "house.py")]
    found = {path: path.read_text() for path in files}
    for crate in (*CODE.values(), *SPECS.values(), *PROOFS.values()):
        found |= crate
    for path, text in found.items():
        for words in BANNED.findall(text):
            yield f"{path.relative_to(TOP)} {words}"


def long_clauses():
    """Yields lines of contracts with more than 100 columns."""
    for files in CODE.values():
        for path, text in files.items():
            depth = 0
            for number, line in enumerate(text.split("\n"), 1):
                if depth or CLAUSE.match(line):
                    depth = max(0, depth + line.count("{") - line.count("}"))
                    if len(line) > 100:
                        yield f"{path.relative_to(TOP / 'crates')}:{number}"


def functions():
    """Yields the functions that have a body: path, name, and lines, from the first of its signature to the last of its body."""
    for name, files in CODE.items():
        for path, text in files.items():
            lines = text.split("\n")
            for at, line in enumerate(lines):
                if (head := FUNCTION.match(line)) and (last := last_line(lines, at, head[1])):
                    yield path, head[2], lines[at : last + 1]


def last_line(lines, at, indent):
    """Returns the last line of a function that begins at a line, or None if it has no body of several lines."""
    opened = False
    for place in range(at, len(lines)):
        line = lines[place]
        opened = opened or line == indent + "{" or line.endswith(" {") and not CLAUSE.match(line)
        if line == indent + "}":
            return place
        if line == indent + "{}" or not opened and line.endswith((";", "}") if place == at else ";"):
            return None
    return None


def long_functions():
    """Yields functions with more than 40 lines, their clauses included, without tests."""
    for path, name, lines in functions():
        if len(lines) > 40 and path.name != "tests.rt" and not set(TESTS) & set(path.parts):
            yield f"{path.relative_to(TOP / 'crates')} {name}: {len(lines)} lines"


def parameters_of_tests():
    """Yields functions of tests with more than seven parameters."""
    for path, name, lines in functions():
        if set(TESTS) & set(path.parts):
            head = re.match(r"[^(]*\((.*?)\)\s*(?:->|\{|where|$)", " ".join(lines).strip())
            count = len(re.findall(r"\b\w+: ", head[1])) if head else 0
            if count > 7:
                yield f"{path.relative_to(TOP / 'crates')} {name}: {count} parameters"


def shared_definitions():
    """Yields names of definitions that stand in the specs of several crates."""
    crates = collections.defaultdict(set)
    for name, files in SPECS.items():
        for text in files.values():
            for word in DEFINITION.findall(re.sub(r"(?m)^(?:pub )?(?:use|mod) .*", "", text)):
                crates[word].add(name)
    return [f"{word}: {' '.join(sorted(found))}" for word, found in sorted(crates.items()) if len(found) > 1]


def broken_wraps():
    """Yields lines of comments behind which a line begins whose first word would have stood there within 90 columns."""
    for files in (*CODE.values(), *SPECS.values(), *PROOFS.values()):
        for path, text in files.items():
            mark = r" *//[/!]? " if path.suffix == ".rt" else r" *-- "
            lines = text.split("\n")
            for number, (line, after) in enumerate(zip(lines, lines[1:]), 1):
                if re.match(mark + r"\S.*[^.:;?!) ]$", line) and (word := re.match(mark + r"([\w`'(\"][^ ]*)", after)):
                    if len(line) + 1 + len(word[1]) <= 90:
                        yield f"{path.relative_to(TOP / 'crates')}:{number}"


def unused_of(names, text):
    """Yields those of these imported names that don't stand in a text. `◌` is where an operator takes something."""
    words = {word.split(".")[0] for word in re.split(r"[\s()\[\]{},;]+", text)}
    for name in names:
        parts = [part for part in name.split("◌") if part]
        # `do` takes `>>=` unsaid. What stands before its argument needs no space there.
        if name in ("◌>>=◌", "[]") or name.endswith("◌") and not name.startswith("◌"):
            used = "←" in text or parts[0] in text
        else:
            used = words.issuperset(parts)
        if not used:
            yield name


def needless_imports():
    """Yields files with names that they import for clauses, definitions or proofs, and that stand nowhere else in them."""
    for files in (*CODE.values(), *SPECS.values(), *PROOFS.values()):
        for path, text in files.items():
            rest = re.sub(r"//.*" if path.suffix == ".rt" else r"--.*", "", IMPORT.sub("", text))
            names = [name.strip() for found in IMPORT.findall(text) for name in found.split(",")]
            if found := list(unused_of([name.split(" as ")[-1] for name in names if name], rest)):
                yield f"{path.relative_to(TOP / 'crates')}: {', '.join(found)}"


# What is counted, and the most of it.
COUNTS = {
    unshared_functions: 19,
    twin_lemmas: 7,
    shared_names: 99,
    names_of_one_word: 0,
    modules_without_head: 0,
    words_with_two_meanings: 0,
    large_crates: 9,
    banned_words: 0,
    long_clauses: 0,
    long_functions: 6,
    parameters_of_tests: 0,
    shared_definitions: 118,
    broken_wraps: 0,
    needless_imports: 0,
}


def main(words):
    """Returns the exit status."""
    status = 0
    for count, most in COUNTS.items():
        found = list(count())
        if words != ["fit"] or len(found) > most:
            print(f"{len(found)} of at most {most}: {count.__name__.replace('_', ' ')}")
        if words == ["list"]:
            print(*(f"    {each}" for each in found), sep="\n")
        status |= len(found) > most
    return status


if __name__ == "__main__":
    sys.exit(main(sys.argv[1:]))
