"""Sessions at random with questions among their lines."""
from re import findall

from draws import Draw
from heap import FIRST_OBJECT, REGION_WORDS, REGISTERS
from questions import FILE_FORMS, FILES, FORMS, QUESTIONS, Asking, field_names

# What questions have to be answered, and how often at least: refusals by number, others by the words after `ok`.
ABOUT_MOMENTS = ("ok", "ok without AT", "no 22", "no 23", "no 24")
ABOUT_A_MOMENT = (*ABOUT_MOMENTS, "ok by at")
BETWEEN_PLACES = ("ok without AT", "ok up to a place", "no 24")
UP_TO_A_PLACE = (*BETWEEN_PLACES, "ok by at")
BY_NAME = ("ok by name", "bad by name")
WANTED = {
    "histogram": ABOUT_A_MOMENT,
    "garbage": ABOUT_A_MOMENT,
    "growth": (*ABOUT_MOMENTS, "ok by a place's name", "ok alone by at"),
    "kept": ("ok nothing", "ok some", *ABOUT_MOMENTS[1:], "ok alone by at"),
    "diff": ("ok nothing", "ok some", *ABOUT_MOMENTS[1:], "ok alone by at"),
    "path": (*ABOUT_A_MOMENT, "no 27", "no 28"),
    "paths": ("ok one", "ok several", "ok all", *ABOUT_A_MOMENT[1:], "no 27", "no 28", "bad"),
    "retained": ("ok nothing", "ok itself", "ok more", "ok without AT", "no 22", "no 23", "no 24", "no 28"),
    "dominators": (
        *("ok nothing", "ok some", "ok some of them", "ok nothing below", "ok some below", "ok some of them below"),
        *("ok without AT", "no 22", "no 23", "no 27", "no 28"),
    ),
    "dominator": ("ok nothing", "ok some", "ok without AT", "no 23", "no 27", "no 28"),
    "referrers": (*ABOUT_A_MOMENT, "no 28"),
    "registers": ABOUT_A_MOMENT,
    "classes": ABOUT_A_MOMENT,
    "objects": (*ABOUT_A_MOMENT, "ok of class", "ok by value", *BY_NAME, "no 2", "no 9"),
    "values": ("ok nothing", "ok some", "ok several", "ok without AT", *BY_NAME, "no 2", "no 9", "no 22", "no 23", "no 24"),
    "show": ("ok", "ok no slot", "ok some slots", "ok along", "ok below", *ABOUT_A_MOMENT[1:], "no 9", "no 10", "no 28", "bad"),
    "born": ("ok place", "ok older", *UP_TO_A_PLACE, "no 28"),
    "wrote": ("ok place", "ok older", *UP_TO_A_PLACE, *BY_NAME, "no 9", "no 28"),
    "watch": ("ok nothing", "ok some", *UP_TO_A_PLACE, *BY_NAME, "no 9", "no 28"),
    "writes": ("ok nothing", "ok some", *BETWEEN_PLACES[1:], *BY_NAME, "no 2", "no 9"),
    "when": ("ok place", "ok never", "ok count place", "ok count never", *BETWEEN_PLACES[1:], *BY_NAME, "no 2", "no 9"),
    "dropped": ("ok place", "ok older", "ok reached", *UP_TO_A_PLACE, "no 28"),
    "history": ("ok", "ok by a place's name", *UP_TO_A_PLACE),
    "life": ("ok nothing", "ok some", "ok several"),
    "cycles": ("ok nothing", "ok some", "ok several"),
    "pins": ("ok",),
    "cells": ("ok",),
    "regions": ABOUT_A_MOMENT,
    "status": ("ok",),
    "collect": ("ok",),
    "rewind": ("ok place", "ok by a place's name", "no 24"),
    "class": (*BY_NAME, "no 2", "no 4", "no 5"),
    "new": (*BY_NAME, "no 7", "no 10"),
    "newarray": (*BY_NAME, "no 7", "no 10"),
    "load": (*BY_NAME, "ok null by name"),
    "store": (*BY_NAME, "no 10"),
    "put": (*BY_NAME, "no 10", "no 11"),
    "open": ("ok", "ok without AT", "ok by at", "no 24", "no 25", "bad"),
    "at": ("ok place", "ok by a place's name", "no 24", "bad"),
    "name": ("ok place", "bad"),
    "forward": ("ok place", "ok by a place's name", "no 24", "no 29"),
    "write": (*ABOUT_A_MOMENT, "no 31", "bad"),
    "draw": ("no 31", "no 22", "no 23", "no 24"),
    "help": ("ok", "bad"),
    "comment": ("nothing",),
}
LEAST = 3
# The events that name a class or a field, beside `new`.
BY_NAMES = (b"class", b"newarray", b"load", b"store", b"put")
# How often lines are asked.
WEIGHTS = dict.fromkeys(QUESTIONS | FILES, 2) | dict.fromkeys(BY_NAMES, 1)
WEIGHTS |= {b"show": 6, b"watch": 4, b"writes": 4, b"help": 2, b"name": 6, b"at": 4, b"dominators": 4}
# The questions about the steps up to a place.
PAST = (b"born", b"wrote", b"watch", b"writes", b"when", b"dropped", b"history")


def sorts(word, form, words, left_out, at, last, rows):
    """Yields of what sorts an answer is, by its question, form and words, whether a moment was left out, the place that questions are
    about then, the words of its last line, and how many rows stand before that."""
    if left_out and last[0] == "ok":
        yield "ok without AT"
        if at is not None:
            yield "ok alone by at" if form == "" and word in (b"growth", b"kept", b"diff") else "ok by at"
    if any(str(each).startswith("@") and str(each)[1:2].isalpha() for each in words) and last[0] == "ok":
        yield "ok by a place's name"
    if word in PAST and any(str(each).startswith("@") for each in words) and last[0] == "ok":
        yield "ok up to a place"
    if any(sort in "cksf" and not str(each).isdigit() for sort, each in zip(form, words)) and last[0] in ("ok", "bad"):
        yield f"{last[0]} by name"
        if word == b"load" and last[1] == "null":
            yield "ok null by name"
    if word == b"show" and last[0] == "ok" and any("." in str(each) for each in words):
        yield "ok along"
    if word == b"retained" and last[0] == "ok":
        yield "ok " + {"0": "nothing", "1": "itself"}.get(last[1], "more")
    elif word == b"objects" and "c" in form and last[0] == "ok" and last[1] != "0":
        yield "ok by value" if "v" in form else "ok of class"
    elif word in (b"values", b"life", b"cycles") and last[0] == "ok":
        yield "ok " + {"0": "nothing", "1": "some"}.get(last[1], "several")
    elif word in (b"watch", b"writes", b"kept", b"diff", b"dominators", b"dominator") and last[0] == "ok":
        below = " below" if word == b"dominators" and "i" in form else ""
        yield ("ok nothing" if last[1] == "0" else "ok some") + below
        if word == b"dominators" and form.endswith("n") and last[1] != "0":
            yield "ok some of them" + below
    elif word == b"paths" and last[0] == "ok":
        yield "ok one" if last[1] == "1" else "ok several"
        if int(last[1]) < int(words[-1]):
            yield "ok all"
    elif word == b"when" and "#" in form and last[0] == "ok":
        yield f"ok count {last[1]}"
    elif word == b"show" and form.endswith("e") and last[0] == "ok":
        yield "ok below"
    elif word == b"show" and form.endswith("nn") and last[0] == "ok":
        yield "ok some slots" if rows else "ok no slot"
    else:
        yield " ".join(last[:2]) if last[0] == "no" or last[1:2] in (["place"], ["older"], ["reached"], ["never"]) else last[0]


class AskingDraw(Draw):
    """A session at random, a third of whose lines are questions."""

    def __init__(self, seed, **settings):
        super().__init__(seed, **settings)
        self.session = Asking(self.machine, files={})
        self.seen = []

    def moment(self):
        """Returns a word for a moment: mostly the current state, an open pin or a retained place."""
        lots = self.lots
        what = lots.weighed({"-": 4, "pin": 3, "place": 3})
        if what == "-":
            return "-"
        if what == "pin":
            return self.pin()
        return self.retained_place()

    def place_with_name(self):
        """Returns a word for a place that has a name, or for none."""
        names = self.session.noted.names
        return "@" + self.lots.pick([*(word.decode() for word in names), "nowhere"])

    def retained_place(self):
        """Returns a word for a place: mostly a retained one."""
        lots, machine = self.lots, self.machine
        if self.session.noted.names and lots.once_in(3):
            return self.place_with_name()
        if lots.once_in(6):
            return "@{}".format(lots.pick([max(0, machine.place - machine.retained - 1), machine.place + 1]))
        return f"@{machine.place - lots.below(machine.retained + 1)}"

    def identifier(self):
        """Returns a word for an object: mostly one that is there, or was; else one of no object."""
        lots = self.lots
        there = [word for word, _ in self.state.objects()]
        self.seen = [*self.seen, *there[-3:]][-60:]
        word = lots.pick(there or [0])
        if self.seen and lots.once_in(4):
            word = lots.pick(self.seen)
        if lots.once_in(12):
            word = lots.pick([0, 8, word + 8, FIRST_OBJECT + 8 * REGION_WORDS * len(self.state.regions), (1 << 32) - 8])
        return f"0x{word:08x}" if lots.below(24) else lots.pick([word, f"0x{word:x}0", f"0x{word:08X}", f"{word:08x}"])

    def asked_class(self):
        """Returns a word for a class, mostly for one that is there: its number, or its name."""
        lots, classes = self.lots, self.state.classes
        if classes and lots.once_in(3):
            return lots.pick([*(each.name.decode() for each in classes), "absent"])
        return lots.near(lots.below(len(classes) or 1), 70)

    def asked_slot(self):
        """Returns a word for a slot: its number, or the name of a field of some class."""
        lots, classes = self.lots, self.state.classes
        if lots.once_in(3):
            return lots.pick([*(name for of in range(len(classes)) for name in field_names(classes, of)), "absent"])
        return lots.near(lots.below(8), 70)

    def shown_object(self):
        """Returns a word for an object: often that with the most slots, if these are many."""
        slots, longest = max(((len(thing.words), word) for word, thing in self.state.objects()), default=(0, 0))
        return f"0x{longest:08x}" if slots > 1024 and self.lots.once_in(2) else self.identifier()

    def object_along(self):
        """Returns a word for an object, often with fields behind it, most of which lead on."""
        lots, there = self.lots, dict(self.state.objects())
        parts = [str(self.shown_object())]
        here = int(parts[0], 16)
        for _ in range(lots.pick([0, 0, 1, 2, 3])):
            thing = there.get(here)
            slots = [slot for slot, word in enumerate(thing.words) if word in there] if thing else []
            if not slots or lots.once_in(12):
                return ".".join([*parts, lots.pick(["absent", "0", "1", "7", ""])] if lots.once_in(4) else parts)
            slot = lots.pick(slots)
            names = field_names(self.state.classes, thing.what[1]) if thing.what[0] == "instance" and lots.once_in(2) else []
            parts.append(names[slot] if slot < len(names) else str(slot))
            here = thing.words[slot]
        return ".".join(parts)

    def register_with_fields(self):
        """Returns a mutator, one of its registers, and the names of fields: mostly those of the object that the register names."""
        lots, there = self.lots, dict(self.state.objects())
        things = [(index, there.get(word)) for index, word in enumerate(self.state.registers)]
        named = [(index, field_names(self.state.classes, thing.what[1])) for index, thing in things if thing and thing.what[0] == "instance"]
        if not named or lots.once_in(12):
            return lots.below(self.mutators + 1), lots.below(REGISTERS + 1), ["next", "v"]
        index, names = lots.pick(named)
        return *divmod(index, REGISTERS), names

    def event_words(self, word):
        """Returns the words of an event that names a class or a field."""
        lots = self.lots
        if word == b"class":
            names = [each.name.decode() for each in self.state.classes]
            return [self.name(), lots.pick([*names, *names, "absent", "-"]), *lots.pick([self.fields(), self.fields(), ["v"]])]
        if word == b"newarray":
            names = [each.name.decode() for each in self.state.classes if each.is_array or lots.once_in(3)]
            return [lots.near(self.mutator(), 70), lots.near(lots.below(REGISTERS), 70), lots.pick([*names, "absent"]), self.length()]
        m, r, names = self.register_with_fields()
        name = lots.pick([*names, *names, *names, "absent"])
        if word == b"load":
            return [m, lots.near(lots.below(REGISTERS), 70), r, name]
        return [m, r, name, lots.near(lots.below(REGISTERS), 70) if word == b"store" else lots.pick([0, 1, 7, 256, 1 << 40])]

    def asked_index(self):
        """Returns a number for the first slot that is shown, or for how many: a small one, or one near how many some object has."""
        lots = self.lots
        lengths = sorted(len(thing.words) for _, thing in self.state.objects())
        usual = lots.pick([lots.below(4), max(0, lots.pick([0, *lengths[-3:]]) - lots.below(4))])
        return lots.near(usual, 70)

    def help_words(self):
        """Returns the words after `help`: none, the word of a line, `formats`, or words that name no line."""
        return self.lots.pick([[], [self.lots.pick([*FORMS, *FILE_FORMS])], ["formats"], ["helping"], ["path", "-"]])

    def new_path(self):
        """Returns a word for a path: mostly one by which a file can be made."""
        files = self.session.files
        return self.lots.pick([*[f"{len(files)}.hprof"] * 5, f"@{len(files)}", *self.taken_paths()])

    def taken_paths(self):
        """Returns words for paths by which no file can be made."""
        return ["no/such/folder", *list(self.session.files)[-2:]]

    def held_word(self):
        """Returns a word for a value of a slot."""
        held = [str(word) for _, thing in self.state.objects() for word in thing.words[-1:]]
        return self.lots.pick(["null", "0", "7", self.identifier(), *held[-9:]])

    def way_on(self):
        """Returns a word for a way forward: a number of steps, or a place. Mostly as many steps are undone."""
        lots, machine = self.lots, self.machine
        ahead = [word.decode() for word, place in self.session.noted.names.items() if machine.place < place <= machine.place + len(machine.undone)]
        if ahead and lots.once_in(3):
            return "@" + lots.pick(ahead)
        count = lots.below(len(machine.undone) + 2)
        if lots.once_in(2):
            return lots.near(count, 70)
        return f"@{max(0, machine.place - 1 - lots.below(3)) if lots.once_in(6) else machine.place + count}"

    def ask(self):
        """Asks a question, or for help."""
        word = self.lots.weighed(WEIGHTS)
        if self.machine.undone and self.lots.once_in(2):
            word = b"forward"
        draws = {"a": self.moment, "i": self.identifier, "c": self.asked_class, "s": self.asked_slot, "v": self.held_word}
        draws["p"] = lambda: self.lots.pick(["-", self.retained_place()])
        draws["k"] = lambda: self.lots.pick([*(each.name.decode() for each in self.state.classes), "absent"])
        draws["r"] = lambda: self.retained_place() if self.lots.once_in(3) else f"@{max(0, self.machine.place + 1 - self.lots.below(5))}"
        draws["w"] = self.way_on
        draws["d"] = lambda: self.lots.pick(["a", "b", "c-1", "start", "Z" * 64, "Z" * 65, "7", "-", "a/b", "_a"])
        draws["n"] = lambda: self.lots.near(self.lots.below(8), 70)
        draws["m"] = lambda: self.lots.near(self.lots.pick([0, 1, 1, 2, 2, 3, 5, 9, 256, 257]), 70)
        draws["#"] = lambda: "count"
        draws["t"] = self.new_path if word == b"write" else lambda: self.lots.pick(self.taken_paths())
        if word == b"open":
            draws["p"] = self.place_with_name
        if word == b"at":
            draws["p"] = lambda: "-" if self.lots.once_in(4) else self.retained_place()
        if word == b"show":
            draws |= {"o": self.object_along, "n": self.asked_index, "e": lambda: self.lots.pick([0, 1, 1, 2, 2, 3, 8, 9])}
        form = "" if word == b"help" else self.lots.pick((QUESTIONS | FILES)[word].split("|"))
        parts = findall(r"\??.", form)
        kept = [part for part in parts if part[0] != "?" or not self.lots.once_in(4)]
        if form == "?a?a" and self.lots.once_in(4):
            kept = []
        form = "".join(part[-1] for part in kept)
        left_out = any(parts.count(part) > kept.count(part) for part in ("?a", "?p"))
        if word in BY_NAMES:
            words = self.event_words(word)
        else:
            words = self.help_words() if word == b"help" else [draws[sort]() for sort in form]
        at = self.session.noted.at
        accepted = self.say(word.decode(), *words)
        *rows, last, _ = self.lines[-1][1].split(b"\n")
        for sort in sorts(word, form, words, left_out, at, last.decode().split(), len(rows)):
            self.machine.sights.met[f"{word.decode()}: {sort}"] += 1
        return accepted

    def comment(self):
        """Says a comment, which has no answer."""
        self.say_bytes(self.lots.pick([b"#", b"# x", b"  #histogram -", b"#\r", b"# \xc3\xa4\t\x00", b"#" * 4096]))
        self.machine.sights.met["comment: nothing"] += self.lines[-1][1] == b""
        return False

    def turn(self):
        if self.lots.once_in(40):
            return self.comment()
        return self.ask() if self.lots.once_in(3) else super().turn()
