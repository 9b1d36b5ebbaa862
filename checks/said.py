#!/usr/bin/env python3
"""Looks whether the documents say what their readers once missed, and no other check can see.

What the program does there is tested elsewhere. Prints a line for each thing that a document doesn't say, and ends with status 1
if there is one; prints nothing where all is well."""
import pathlib
import re
import sys

TOP = pathlib.Path(__file__).resolve().parent.parent
# What each document has to say, and by which words: a pattern of its text with single spaces.
SAID = {
    "README.md": {
        "how long make build takes": r"make build # [^#]*\d+ processor minutes",
        "what make build needs": r"need the Rattle kit [^.]* make, Python 3, and \d+ GB",
        "what make install installs": r"make install # installs them .*?, with a manual page, documents, examples and clients",
    },
    "docs/SESSIONS.md": {
        "how an id is read": r"An ID in a question is `0x` and exactly 8 digits, in lower case; any other form is a bad command",
        "which bytes a comment may have": r"A \*comment\* is .{,80} no answer, whatever bytes it has",
        "whether pins counts empty pieces": r"PIECES doesn't count empty pieces",
        "which lines help lists": r"\| `help` \|[^|]*`dump -` and comments have no row",
        "what --from reports of a cut line": r"reported as `heapdbg: PATH:LINE: the last line has no end`",
        "what --from reports of a long line": r"reported as `\.\. the line is too long`",
        "that a question makes no entry": r"A question holds the lock .{,120} It makes no entry",
        "what collect costs the past": r"`collect` takes a step for each object .{,200} forget its oldest retained step",
        "the order of histogram's rows": r"rows with equally many bytes come by class number, then by kind",
        "the order of growth's rows": r"classes come by number, then arrays by kind",
        "how large a picture is": r"less than 2 MB",
    },
    "docs/HUNT.md": {"what collect costs the past": r"`collect` runs a cycle at once\. It takes a step for each object that it reaches"},
    "docs/VIEWERS.md": {"which version of VisualVM was tried": r"that of VisualVM [\d.]+ was tried"},
}


def unsaid():
    """Yields what documents don't say."""
    for document, things in SAID.items():
        text = " ".join((TOP / document).read_text().split())
        yield from (f"{document} doesn't say {thing}" for thing, words in things.items() if not re.search(words, text))


def main():
    """Returns the exit status."""
    found = list(unsaid())
    print("\n".join(found), end="\n" if found else "")
    return 1 if found else 0


if __name__ == "__main__":
    sys.exit(main())
