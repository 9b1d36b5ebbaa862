"""What seeded sessions have to meet, so that one that goes through proves something."""
from collections import Counter

from dump import SEGMENT, segments
from heap import REFUSALS, Refused
from machine import Machine

# How often each has to be met at least, and then how often it has to be undone by a rewind.
STEPS = {
    "a class defined": (150, 30),
    "an object in a fresh region": (150, 30),
    "an object in a region in use": (1500, 300),
    "an object beyond region 32, in use": (50, 10),
    "an object of more than 1,024 slots": (50, 10),
    "a register written or a value read": (1500, 300),
    "a value written": (500, 100),
    "a reference written, nothing logged": (500, 100),
    "a reference written, logged and marked already": (100, 20),
    "a reference written, logged and not yet marked": (50, 10),
    "a cycle begun": (100, 20),
    "an instance looked at, 0 pushed": (300, 50),
    "an instance looked at, 1 pushed": (60, 10),
    "an instance looked at, 2 pushed": (40, 8),
    "an array looked at, 0 pushed": (60, 10),
    "an array looked at, 1 pushed": (40, 8),
    "an array looked at, 2 pushed": (40, 8),
    "an entry drained, 0 pushed": (100, 20),
    "an entry drained, 1 pushed": (40, 8),
    "a cycle ended, something logged": (40, 6),
    "a cycle ended, nothing logged": (20, 3),
    "a region swept of some": (100, 20),
    "a region swept of none": (50, 10),
    "a region swept of all": (60, 10),
    "a large object swept": (15, 3),
    "a region made again with cells of another size": (20, 0),
}
# How often each has to be met at least.
OTHERS = {
    **{f"refused {number}": 20 for number in REFUSALS if number not in (3, 6)},
    "refused 3": 2,
    "refused 6": 3,
    "a finish refused, something gray": 20,
    "a finish refused, something not drained": 20,
    "a class named as one that was undone": 20,
    "a rewind of nothing": 10,
    "a rewind of one": 50,
    "a rewind of more than 12": 30,
    "a rewind of all that is retained": 30,
    "a rewind over the end of a cycle": 10,
    "a bad command": 300,
    "a line without words": 20,
    **{f"ids of {ids} bytes, a segment begun by {tag:02x}": 3 for ids in (4, 8) for tag in (0x20, 0x05, 0x21, 0x22, 0x23, 0xFF)},
    **{f"ids of {ids} bytes, a segment of one long sub-record": 3 for ids in (4, 8)},
    "a full segment": 1,
    "a dump without segments": 3,
    "a dump beside dead objects": 10,
    "a dump while a cycle runs": 10,
}
# What a pin goes through before its last piece is given, or before it is told to be lost.
PINS = {
    "on a past place": 20,
    "beside another at its place": 10,
    "a value written": 50,
    "a reference written": 50,
    "a region swept of some": 20,
    "a region swept of all": 20,
    "a large object swept": 3,
    "a region made again": 10,
    "an object in a cell of its image": 10,
    "a rewind to its place": 8,
    "a rewind to a place after it": 20,
    "a rewind once something was overwritten": 20,
    "its place no longer retained": 20,
    "a step between two of its pieces": 50,
    "lost": 20,
    "lost after a piece": 5,
}
# The steps after which a pin has to keep something, and what is noted of it then.
OVERWRITING = ("a value written", "a reference written", "a region swept of some", "a region swept of all", "a large object swept")
OVERWRITTEN = "something overwritten"
WORDS = (
    "class array new newarray newprim load store put move clear snap mark drain finish sweep rewind open piece dump close"
).split()


def sight_of_store(before, event):
    """Returns what a store comes to."""
    _, m, target, slot, _ = event
    word = before.object_of(before.registers[before.register(m, target)]).words[slot]
    if not before.marking or not word:
        return "a reference written, nothing logged"
    return "a reference written, logged and " + ("marked already" if before.object_of(word).mark else "not yet marked")


def sight_of_object(before, after, word):
    """Returns what a new object comes to."""
    number, _ = after.place_of(word)
    if number in after.area:
        return "an object of more than 1,024 slots"
    if before.regions[number] is None:
        return "an object in a fresh region"
    return "an object beyond region 32, in use" if number >= 32 else "an object in a region in use"


def sight_of(event, answer, before, after):
    """Returns what an accepted step comes to."""
    word = event[0]
    if word in ("class", "array"):
        return "a class defined"
    if word in ("new", "newarray", "newprim"):
        return sight_of_object(before, after, answer[1])
    if word == "put":
        return "a value written"
    if word == "store":
        return sight_of_store(before, event)
    if word == "snap":
        return "a cycle begun"
    if word == "mark":
        sort = before.object_of(before.gray[-1]).what[0]
        return f"an {'instance' if sort == 'instance' else 'array'} looked at, {min(answer[1], 2)} pushed"
    if word == "drain":
        return f"an entry drained, {answer[1]} pushed"
    if word == "finish":
        return "a cycle ended, " + ("something logged" if before.log else "nothing logged")
    if word == "sweep" and event[1] in before.area and answer[2]:
        return "a large object swept"
    if word == "sweep":
        return "a region swept of " + ("all" if answer[2] else "some" if answer[1] else "none")
    return "a register written or a value read"


class Sights:
    """What was met, what of it was undone, and what pins went through."""

    def __init__(self):
        self.met = Counter()
        self.undone = Counter()
        self.pinned = Counter()
        self.words = Counter()

    def add(self, other):
        """Adds what another session met."""
        for name in ("met", "undone", "pinned", "words"):
            getattr(self, name).update(getattr(other, name))

    def lacking(self):
        """Yields a line for each thing that wasn't met often enough."""
        for name, (met, undone) in STEPS.items():
            if self.met[name] < met or self.undone[name] < undone:
                yield f"{name}: {self.met[name]} times, undone {self.undone[name]} times; must be {met} and {undone}"
        for counted, wanted in ((self.met, OTHERS), (self.pinned, PINS)):
            what = "a pin with " if counted is self.pinned else ""
            for name, least in wanted.items():
                if counted[name] < least:
                    yield f"{what}{name}: {counted[name]} times; must be {least}"
        for word in WORDS:
            for spacing in ("plain", "odd"):
                if self.words[word, spacing] < 10:
                    yield f"{word} accepted in a line of {spacing} spacing: {self.words[word, spacing]} times; must be 10"


class WatchedMachine(Machine):
    """A machine that notes what it meets."""

    def __init__(self, **settings):
        super().__init__(**settings)
        self.sights = Sights()
        # What the retained steps came to, and what each open pin went through.
        self.past = []
        self.lots = {}
        # The sizes of the cells that each region had last, and the names of classes that were undone.
        self.sizes = {}
        self.undone_names = []

    def refusing(self, call, *arguments):
        """Makes a call, and notes if it is refused."""
        try:
            return call(*arguments)
        except Refused as refused:
            met = self.sights.met
            met[f"refused {refused.number}"] += 1
            if refused.number == 18:
                met["a finish refused, something gray"] += refused.facts[0] > 0
                met["a finish refused, something not drained"] += refused.facts[1] > 0
            raise

    def readable(self):
        """Yields the pins that aren't lost, each with what it went through."""
        for number, pin in self.pins.items():
            if not pin.lost:
                yield pin, self.lots[number]

    # ---- steps

    def step(self, event):
        before = self.state
        answer = self.refusing(super().step, event)
        sight = sight_of(event, answer, before, self.state)
        self.sights.met[sight] += 1
        self.past = [*self.past, sight][-self.keep :]
        self.sights.met["a class named as one that was undone"] += event[0] in ("class", "array") and event[1] in self.undone_names
        made = answer[1] if event[0] in ("new", "newarray", "newprim") else 0
        remade = made and self.is_remade(made, before)
        for pin, lots in self.readable():
            if sight.startswith(OVERWRITING):
                lots |= {sight.partition(",")[0], OVERWRITTEN}
            if remade:
                lots.add("a region made again")
            if made and is_in_image(pin.state, self.state, made):
                lots.add("an object in a cell of its image")
            if pin.given:
                lots.add("a step after a piece")
            if pin.place < self.place - self.retained:
                lots.add("its place no longer retained")
        return answer

    def is_remade(self, made, before):
        """Returns whether an object was made in an empty region that had objects before."""
        number, _ = self.state.place_of(made)
        if before.regions[number]:
            return False
        size = self.state.regions[number].cell_size
        had = self.sizes.get(number)
        self.sizes[number] = size
        self.sights.met["a region made again with cells of another size"] += had not in (None, size)
        return had is not None

    def rewind(self, count):
        before = self.state
        place = self.refusing(super().rewind, count)
        self.undone_names += [each.name for each in before.classes[len(self.state.classes) :]]
        kept = len(self.past) - count
        undone, self.past = self.past[kept:], self.past[:kept]
        self.sights.undone.update(undone)
        met = self.sights.met
        met["a rewind of nothing"] += count == 0
        met["a rewind of one"] += count == 1
        met["a rewind of more than 12"] += count > 12
        met["a rewind of all that is retained"] += count > 0 and self.retained == 0
        met["a rewind over the end of a cycle"] += any(sight.startswith("a cycle ended") for sight in undone)
        for pin, lots in self.readable():
            if count:
                lots.add("a rewind to its place" if pin.place == place else "a rewind to a place after it")
            if count and OVERWRITTEN in lots:
                lots.add("a rewind once something was overwritten")
        return place

    # ---- pins

    def open(self, at=None):
        number, at = self.refusing(super().open, at)
        self.lots[number] = set()
        if at < self.place:
            self.lots[number].add("on a past place")
        if any(pin.place == at and pin is not self.pins[number] for pin, _ in self.readable()):
            self.lots[number].add("beside another at its place")
        return number, at

    def piece(self, number):
        pin = self.pins.get(number)
        given = pin.given if pin else 0
        if pin and pin.lost:
            self.sights.pinned["lost"] += 1
            self.sights.pinned["lost after a piece"] += given > 0
        piece, last = self.refusing(super().piece, number)
        if "a step after a piece" in self.lots[number]:
            self.lots[number].add("a step between two of its pieces")
        if last and given < pin.given:
            self.sights.pinned.update(self.lots[number])
            self.note_dump(pin.state)
        return piece, last

    def note_dump(self, state):
        """Notes the whole dump of a state."""
        met, ids = self.sights.met, self.ids
        bodies = segments(state, ids)
        for body in bodies[1:]:
            met[f"ids of {ids} bytes, a segment begun by {body[0][0]:02x}"] += 1
        met[f"ids of {ids} bytes, a segment of one long sub-record"] += sum(len(body[0]) > SEGMENT for body in bodies)
        met["a full segment"] += sum(sum(map(len, body)) == SEGMENT for body in bodies)
        met["a dump without segments"] += not bodies
        met["a dump beside dead objects"] += any(not thing.live for _, thing in state.objects())
        met["a dump while a cycle runs"] += state.marking

    def close(self, number):
        self.refusing(super().close, number)
        del self.lots[number]


def is_in_image(old, new, word):
    """Returns whether a new object stands in a cell where a live object of an old state stood."""
    number, cell = new.place_of(word)
    region = old.regions[number]
    if not region or region.cell_size != new.regions[number].cell_size:
        return False
    return cell in region.objects and region.objects[cell].live

