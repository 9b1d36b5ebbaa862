#!/usr/bin/env python3
"""Puts the functions of each source file in the order of STYLE.md: an entry first, and below it what it calls.

`order.py` writes the files; `order.py fit` only names those that are in another order, and ends with status 1 if there are any.
Functions change places with each other alone: types, impls and all else stay where they are. An entry is a function that other
files can name, one that only impls call, or a test; entries stay in the order in which they stand."""
import pathlib
import re
import sys

TOP = pathlib.Path(__file__).resolve().parent.parent
# The page's text is one long constant.
LEFT_OUT = TOP / "crates/heap_page/src/page_text.rt"
ITEM = re.compile(r"(pub(\([a-z]+\))? )?(const|enum|extern|fn|ghost|impl|macro_rules!|mod|static|struct|trait|type|unsafe|use)\b|macro_rules!")
SENTENCE = re.compile(r"(pub(\([a-z]+\))? )?(const (?!fn\b)|(ghost|mod|static|type|use)\b)")
FUNCTION = re.compile(r"(?P<pub>pub(?:\([a-z]+\))? )?(?:const )?(?:unsafe )?fn (?P<name>\w+)")
CALLED = re.compile(r"(?<![\w.:])(\w+)(?=\s*(?:\(|::<|[,)]))")


class Item:
    """An item of a file: the blank lines and comments before it, and its lines."""

    def __init__(self, before, first):
        self.before, self.lines = before, [first]
        self.function = FUNCTION.match(first)

    def ends(self):
        """Tells whether the newest line is its last."""
        line = self.lines[-1]
        if line.startswith(("}", "]", ")")) and line.endswith(("}", ";")) or line == "{}":
            return True
        alone = len(self.lines) == 1 and line.endswith("}") and line.count("{") == line.count("}")
        return alone or (line.endswith(";") and bool(SENTENCE.match(self.lines[0])))

    @property
    def name(self):
        """The name of a function."""
        return self.function["name"]

    @property
    def is_test(self):
        """Whether a function is a test."""
        return any(line.startswith(("#[test]", "#[cfg(test)]")) for line in self.before)

    def calls(self, names):
        """Returns the functions of the file that a function names, in the order in which it first names them."""
        code = "\n".join(line for line in self.lines if not line.lstrip().startswith("//"))
        found = dict.fromkeys(m[1] for m in CALLED.finditer(code))
        return [name for name in found if name in names and name != self.name]


def items_of(text):
    """Returns the items of a file, and the lines after the last."""
    items, before, item, attribute = [], [], None, False
    for line in text.split("\n"):
        if item:
            item.lines.append(line)
        elif not attribute and ITEM.match(line):
            item, before = Item(before, line), []
        else:
            before.append(line)
            attribute = (attribute or line.startswith("#[")) and not line.endswith("]")
        if item and item.ends():
            items.append(item)
            item = None
    assert item is None, item.lines[0]
    return items, before


def ordered(functions):
    """Returns the functions of a file in order."""
    names = {each.name: each for each in functions}
    called = {name for each in functions for name in each.calls(names)}
    entries = [each for each in functions if not each.is_test and (each.function["pub"] or each.name not in called)]
    found = {}

    def visit(each):
        if each.name not in found:
            found[each.name] = each
            for name in each.calls(names):
                if names[name] not in entries and not names[name].is_test:
                    visit(names[name])

    for each in [*entries, *[each for each in functions if each.is_test], *functions]:
        visit(each)
    return list(found.values())


def in_order(text):
    """Returns the text of a file with its functions in order."""
    items, behind = items_of(text)
    functions = [item for item in items if item.function]
    after = iter(ordered(functions))
    lines = []
    for item in items:
        blank = next(number for number, line in enumerate([*item.before, "."]) if line)
        shown = next(after) if item.function else item
        lines += item.before[:blank] + [line for number, line in enumerate(shown.before) if line or any(shown.before[:number])] + shown.lines
    return "\n".join(lines + behind)


def main(writes):
    """Returns the exit status."""
    status = 0
    for file in sorted(TOP.glob("crates/*/src/**/*.rt")):
        text = file.read_text()
        if file == LEFT_OUT or (wanted := in_order(text)) == text:
            continue
        assert sorted(wanted.split("\n")) == sorted(text.split("\n")), file
        if writes:
            file.write_text(wanted)
        else:
            print(f"{file.relative_to(TOP)}: the functions are in another order than `scripts/order.py` puts them in")
            status = 1
    return status


if __name__ == "__main__":
    sys.exit(main(sys.argv[1:] != ["fit"]))
