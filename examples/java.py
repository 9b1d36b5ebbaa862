#!/usr/bin/env python3
"""Prints a session that a viewer of Java heaps can show whole: `java.py < SESSION`.

It prints java.session, and then the given session, which must not define those classes itself. Numbers of classes and places in
that session are raised so that they come after those of java.session. A class without a super gets the super java/lang/Object,
and an array class `[NAME;` of objects gets its name in Java."""
import pathlib
import sys

FIRST = pathlib.Path(__file__).with_name("java.session").read_text()
COUNT = FIRST.count("\n")
# The word of a line that is a class or a place, by the line's keyword.
NUMBERS = {"class": 2, "new": 3, "newarray": 3, "open": 1}


def moved(line):
    """Returns a line, with its numbers as they are after the first lines."""
    words = line.split()
    at = NUMBERS.get(words[0], len(words)) if words else 0
    if at < len(words) and words[at].isdigit():
        words[at] = str(int(words[at]) + COUNT)
    elif words[:1] == ["class"] and words[2:3] == ["-"]:
        words[2] = "0"
    elif words[:1] == ["array"] and words[-1].startswith("[") and words[-1].endswith(";") and words[-1][1] not in "[L":
        words[-1] = f"[L{words[-1][1:]}"
    return " ".join(words)


print(FIRST, end="")
for each in sys.stdin:
    print(moved(each))
