"""Sessions at random, each line drawn with an eye on the state that the model is in."""
from heap import KINDS, MOST_ELEMENTS, MOST_ELEMENTS_WITH_AREA, REGION_WORDS, REGISTERS
from lots import Lots
from session import FORMS, Bad, Session, command_of
from sights import WatchedMachine

NODE, ARRAY, FORK = "class Node - next:object v:long", "array [Node;", "class Fork 0 left:object size:int right:object"
WORDS = ["class", *(word.decode() for word in FORMS if word != b"end")]
LETTERS = "ABCDEFGHIJKLMNOPQRSTUVWXYZ"
# Lines that are no commands, and lines without words.
BAD_LINES = [
    *(b"", b" ", b"   \r", b"\r", b"\r\r", b"\t", b"clear 0 0\t", b"clear\t0 0", b"clear 0 0\x80", b"clear 0 0\x00", b"clear 0 0\x7f"),
    *(b"foo", b"Clear 0 0", b"clear0 0", b"clear 0", b"clear 0 0 0", b"clear 0 -", b"clear 0 +1", b"clear 0 0x0", b"clear 0 1.", b"-", b"0"),
    *(b"clear 0 " + b"0" * 20, b"clear 0 " + b"0" * 21, b"clear 0 18446744073709551615", b"clear 0 18446744073709551616"),
    *(b"clear 0 99999999999999999999", b"put 0 0 0 -1", b"put 0 0 1 00000000000000000007", b"put 0 0 1 000000000000000000007"),
    *(b"class", b"class A", b"class A x", b"class A - x", b"class A - x:", b"class A - :int", b"class A - x:y:int", b"class A - x: int"),
    *(b"class A 99 x:foo", b"class A 99 x:int", b"class A - x:Int", b"class a:b -", b"class - -", b"class A+ -", b"array", b"array A B"),
    *(b"array a:b", b"array -", b"newprim 0 0 Long 3", b"newprim 0 0 object 3", b"newprim 0 0 3 long", b"newprim 0 0 long", b"new 0 0"),
    *(b"newarray 0 0 0", b"snap 0", b"mark -", b"drain drain", b"finish 1", b"sweep", b"sweep -", b"sweep 0 0", b"rewind", b"rewind -"),
    *(b"open", b"open x", b"open 0 0", b"piece", b"piece -", b"piece 1 0", b"dump", b"dump x", b"dump - -", b"close", b"close -", b"end 0"),
    *(b"open @", b"open @-", b"open @@0", b"open 0@", b"open @0 0", b"dump @0", b"close @1", b"piece @1", b"rewind @0"),
    *(b"END", b"e", b"en", b"ends", b"mark\r0", b"ma\rrk", b"a" * 4096, b"clear 0 0" + b" " * 4087, b"sweep " + b"1" * 4090),
]


class Draw:
    """A session at random. Its lines are given one after another to the model; `lines` has each with its answer."""

    def __init__(self, seed, **settings):
        self.lots = Lots(seed)
        self.settings = settings
        self.machine = WatchedMachine(**settings)
        self.session = Session(self.machine)
        self.lines = []

    @property
    def state(self):
        return self.machine.state

    @property
    def mutators(self):
        return len(self.state.registers) // REGISTERS

    # ---- lines

    def say_bytes(self, line):
        """Gives the model a line, and returns whether it was accepted."""
        answer = self.session.answer(line)
        self.lines.append((line, answer))
        met = self.machine.sights.met
        met["a bad command"] += answer == b"bad command\n"
        met["a line without words"] += not answer and not self.session.ended
        accepted = answer.rpartition(b"\n")[0].rpartition(b"\n")[2].startswith(b"ok")
        if accepted:
            words = line.split()
            spacing = "plain" if line == b" ".join(words) else "odd"
            self.machine.sights.words[words[0].decode(), spacing] += 1
        return accepted

    def say(self, *words):
        """Gives the model a line of some words, now and then with more spaces, leading zeros and a CR."""
        lots = self.lots
        texts = [str(word).encode() for word in words]
        if lots.once_in(12):
            texts = [b"0" * lots.below(3) + text if text.isdigit() and len(text) < 17 else text for text in texts]
        line = b" ".join(texts)
        if lots.once_in(8):
            line = lots.pick([b"", b" ", b"   "]) + lots.pick([b" ", b"  "]).join(texts) + lots.pick([b"", b" ", b"\r", b" \r"])
        return self.say_bytes(line)

    def say_bad(self):
        """Gives the model a line that is mostly no command: one of the list, or a good line with a mistake."""
        lots = self.lots
        line = lots.pick(BAD_LINES)
        if lots.once_in(2) and self.lines:
            words = lots.pick(self.lines)[0].split() or [b"end", b"0"]
            place = lots.below(len(words))
            mistake = lots.below(5)
            if mistake == 0:
                del words[place]
            elif mistake == 1:
                words.insert(place, lots.pick([b"0", b"-", b"x:int", b":"]))
            elif mistake == 2:
                words[place] = words[place][:-1] + bytes([lots.below(256)])
            elif mistake == 3:
                words[place] = words[place].upper()
            else:
                words[place] = lots.pick([b"18446744073709551616", b"-", b"+0", b"0x1", b"x:y:int"])
            line = b" ".join(words).replace(b"\n", b"")
        try:
            ends = command_of(line) == ("end",)
        except Bad:
            ends = False
        if not ends and len(line) <= self.machine.limits.longest_line:
            self.say_bytes(line)

    # ---- numbers

    def mutator(self):
        return self.lots.near(self.lots.below(self.mutators), self.mutators + 1)

    def register(self):
        return self.lots.near(self.lots.below(4), REGISTERS + 1)

    def full_register(self):
        """Returns the mutator and the number of a register that isn't null, if there is one."""
        full = [index for index, word in enumerate(self.state.registers) if word]
        if not full or self.lots.once_in(10):
            return self.mutator(), self.register()
        return divmod(self.lots.pick(full), REGISTERS)

    def slot(self, m, r, is_reference):
        """Returns a slot of the object in a register, mostly one of references or one of values."""
        lots, registers = self.lots, self.state.registers
        index = REGISTERS * m + r
        if r >= REGISTERS or index >= len(registers) or not registers[index]:
            return lots.near(0, 6)
        kinds = self.state.kinds_of(self.state.object_of(registers[index]))
        fitting = [slot for slot, kind in enumerate(kinds) if (kind == "object") == is_reference]
        if not fitting or lots.once_in(10):
            return lots.near(lots.below(len(kinds) + 2), 66)
        return lots.pick(fitting)

    def value(self, m, r, slot):
        """Returns a value for a slot, mostly one that its kind can have."""
        lots, registers = self.lots, self.state.registers
        index = REGISTERS * m + r
        bits = 64
        if r < REGISTERS and index < len(registers) and registers[index]:
            kinds = self.state.kinds_of(self.state.object_of(registers[index]))
            bits = KINDS[kinds[slot]][1] if slot < len(kinds) and KINDS[kinds[slot]][1] else 64
        limit = 1 << bits
        return min(lots.pick([lots.next() % limit, lots.next() % limit, lots.below(2), limit - 1, limit]), 2**64 - 1)

    def length(self):
        if self.state.area and self.lots.once_in(6):
            return self.large_length()
        return self.lots.below(self.lots.pick([4, 6, 6, 20, 20, 70, 300, MOST_ELEMENTS + 60, MOST_ELEMENTS + 60]))

    def large_length(self):
        """Returns a length of more than 1,024, mostly of so few regions that the area has them, or a limit."""
        lots = self.lots
        regions = 1 + lots.below(len(self.state.area))
        return lots.near(REGION_WORDS * regions + lots.pick([-1, 0, 1, 1 + lots.below(900)]), 9000)

    def class_number(self, is_array):
        """Returns the number of a class, mostly one of arrays or one of instances."""
        fitting = [number for number, each in enumerate(self.state.classes) if each.is_array == is_array]
        if not fitting or self.lots.once_in(10):
            return self.lots.near(0, len(self.state.classes) + 1)
        return self.lots.pick(fitting)

    # ---- events

    def name(self):
        """Returns a name that is at times taken, and at times no name."""
        lots = self.lots
        if lots.once_in(12):
            return lots.pick(["a+b", "a-b", "a:b", "x" * 64, "x" * 65, "é".encode().hex() + "!", "_$/[;.", "0"])
        if self.machine.undone_names and lots.once_in(2):
            return lots.pick(self.machine.undone_names).decode()
        return lots.pick(LETTERS) + (str(lots.below(10)) if lots.once_in(3) else "")

    def define(self):
        """Defines a class."""
        lots = self.lots
        if lots.once_in(4):
            return self.say("array", self.name())
        sup = lots.pick(["-", "-", self.class_number(False)])
        return self.say("class", self.name(), sup, *self.fields())

    def make(self):
        """Makes an object or a class."""
        lots = self.lots
        m, r = self.mutator(), self.register()
        what = lots.weighed({"class": 4, "new": 12, "newarray": 6, "newprim": 4})
        if what == "class":
            return self.define()
        if what == "new":
            return self.say("new", m, r, self.class_number(False))
        if what == "newarray":
            return self.say("newarray", m, r, self.class_number(True), self.length())
        return self.say("newprim", m, r, lots.pick(list(KINDS)), self.length())

    def access(self):
        """Reads or writes slots and registers."""
        lots = self.lots
        m, r = self.full_register()
        other = self.register()
        what = lots.weighed({"load": 4, "store": 6, "put": 4, "move": 2, "clear": 1})
        if what == "load":
            return self.say("load", m, other, r, self.slot(m, r, lots.once_in(2)))
        if what == "store":
            return self.say("store", m, r, self.slot(m, r, True), other)
        if what == "put":
            slot = self.slot(m, r, False)
            return self.say("put", m, r, slot, self.value(m, r, slot))
        if what == "move":
            return self.say("move", self.mutator(), other, m, r)
        return self.say("clear", m, r)

    def link(self):
        """Makes an object that names what register 1 of a mutator named and a new node, and puts it there."""
        lots = self.lots
        m = lots.below(self.mutators)
        self.say("new", m, 2, 0)
        first, second = 0, 2
        if lots.once_in(2):
            self.say("new", m, 0, lots.pick([0, 2]))
        else:
            first, second = lots.below(10), lots.below(10)
            self.say("newarray", m, 0, 1, 10)
        self.say("store", m, 0, first, 1)
        self.say("store", m, 0, second, 2)
        self.say("move", m, 1, m, 0)
        self.say("clear", m, 2)

    def cut(self):
        """Begins a cycle if none runs, and overwrites a reference."""
        m = self.lots.below(self.mutators)
        self.say("snap")
        self.say("store", m, 1, self.slot(m, 1, True), self.lots.pick([0, 3]))

    def collect(self):
        """Does what the marker or the sweeper would do next, and now and then anything that they might."""
        lots, state = self.lots, self.state
        pending = [number for number, region in enumerate(state.regions) if region and region.pending]
        if lots.once_in(8):
            word = lots.pick(["snap", "mark", "drain", "finish", "sweep"])
            return self.say(word, lots.near(0, len(state.regions) + 1)) if word == "sweep" else self.say(word)
        if pending and lots.once_in(3):
            return self.say("sweep", lots.pick(pending))
        if state.gray:
            return self.say("mark")
        if state.drained < len(state.log):
            return self.say("drain")
        return self.say("finish" if state.marking else "snap")

    def event(self):
        """Takes an event. While a cycle runs, mostly one that brings it on."""
        lots = self.lots
        if self.state.marking:
            return lots.weighed({self.make: 1, self.access: 2, self.collect: 6})()
        return lots.weighed({self.make: 4, self.access: 3, self.collect: 2})()

    # ---- rewinds and pins

    def rewind(self):
        """Rewinds to a near place, to that of a pin, or to any."""
        lots, retained = self.lots, self.machine.retained
        if self.machine.pins and lots.once_in(4):
            ago = self.machine.place - lots.pick(list(self.machine.pins.values())).place
            return self.say("rewind", max(0, ago) + lots.below(2))
        depth = lots.pick([0, 1, 1, lots.below(6), lots.below(retained + 2), retained if lots.once_in(3) else 2])
        return self.say("rewind", lots.near(depth, 14))

    def open(self):
        """Opens a pin on the current place, a past one, or one that isn't retained."""
        lots, machine = self.lots, self.machine
        oldest = machine.place - machine.retained
        place = lots.pick([machine.place - min(machine.retained, lots.below(6)), oldest + lots.below(machine.retained + 1)])
        if lots.once_in(8):
            place = lots.pick([max(0, oldest - 1), machine.place + 1, lots.near(0, 100)])
        elif machine.pins and lots.once_in(2):
            place = lots.pick(list(machine.pins.values())).place
        return self.say("open", lots.pick(["-", place, place, f"@{place}"]))

    def pin(self):
        """Returns the number of a pin, mostly of an open one."""
        if not self.machine.pins or self.lots.once_in(10):
            return self.lots.near(self.machine.next_pin, self.machine.next_pin + 1)
        return self.lots.pick(list(self.machine.pins))

    def look(self):
        """Opens a pin, reads it on, or closes it."""
        lots, pins = self.lots, self.machine.pins
        if len(pins) >= self.machine.limits.pins and lots.once_in(3):
            done = [number for number, pin in pins.items() if pin.lost or pin.pieces and pin.given == len(pin.pieces)]
            if done:
                number = lots.pick(done)
                self.say("piece", number)
                return self.say("close", number)
        what = lots.weighed({"open": 5, "piece": 12, "dump": 3, "dump -": 1, "close": 1})
        if what == "open":
            return self.open()
        if what == "dump -":
            return self.say("dump", "-")
        return self.say(what, self.pin())

    # ---- turns

    def begin(self):
        """Defines nodes, arrays of them, and forks."""
        for line in (NODE, ARRAY, FORK):
            self.say(*line.split())

    def turn(self):
        """Takes a turn."""
        turns = {self.rewind: 5, self.look: 12, self.cut: 5, self.say_bad: 2, self.link: 20, self.event: 60}
        turn = self.lots.weighed(turns)
        if turn == self.link and self.state.marking:
            turn = self.event
        return turn()

    def reveal(self):
        """Has the whole state told, by a dump and by steps that are then undone: how the cycle ends, what sweeps take out, which
        cells are free in which order, and the pool."""
        before = self.machine.place
        self.say("dump", "-")
        while self.state.gray or self.state.drained < len(self.state.log):
            self.say(self.lots.pick(["mark", "drain"]))
        numbers = list(range(len(self.state.regions)))
        for _ in range(2):
            if self.lots.once_in(2):
                self.say("finish")
            for number in numbers if self.lots.once_in(2) else reversed(numbers):
                self.say("sweep", number)
        large = self.lots.pick([(3000, 1025), (1030, 2049), (2048,)]) if self.state.area else ()
        for length in (*large, *self.lots.pick([(1024, 256, 64, 16, 4), (5, 17, 65, 257, 0), (17, 1024, 3, 9, 65)])):
            while self.say("newprim", 0, 7, "long", length):
                pass
        self.say("rewind", self.machine.place - before)

    # ---- whole sessions

    def play(self, turns, reveals=0):
        """Takes `turns` turns, and has the state revealed after one in `reveals` of them, or after none if that is 0."""
        self.begin()
        for _ in range(turns):
            self.turn()
            if reveals and self.lots.once_in(reveals):
                self.reveal()

    def fill(self, rounds):
        """Defines up to 100 classes, fills all registers and writes slots in rounds, and dumps the heap now and then."""
        lots = self.lots
        self.say("dump", "-")
        for number in range(40 + lots.below(100)):
            self.say("class", f"c{number}", lots.pick(["-", "-", self.class_number(False)]), *self.fields())
            if lots.once_in(4):
                self.say("array", f"a{number}")
            if lots.once_in(8):
                self.say("dump", "-")
        for _ in range(rounds):
            self.say("newprim", 0, 0, "long", MOST_ELEMENTS)
            for register in range(1, len(self.state.registers)):
                self.make_in(*divmod(register, REGISTERS))
            for _ in range(600):
                self.access()
            self.say("dump", "-")
            for _ in range(60):
                self.event()
            self.say("dump", "-")

    def fields(self):
        """Returns up to six fields."""
        return [f"{self.name()}:{self.lots.pick(list(KINDS))}" for _ in range(self.lots.below(6))]

    def make_in(self, m, r):
        """Makes an object in a register."""
        lots = self.lots
        what = lots.weighed({"new": 8, "newarray": 3, "newprim": 3})
        if what == "newprim":
            return self.say(what, m, r, lots.pick(list(KINDS)), self.length())
        number = self.class_number(what == "newarray")
        return self.say(what, m, r, number, *([self.length()] if what == "newarray" else []))

    def spread(self, turns):
        """Makes arrays of all sizes in many regions, and has cycles take some of them."""
        lots = self.lots
        for _ in range(turns):
            if not self.state.marking and lots.below(4):
                for _ in range(8):
                    self.say("newprim", self.mutator(), lots.below(REGISTERS), lots.pick(list(KINDS)), self.length())
            elif lots.once_in(12):
                self.rewind()
            elif lots.once_in(12):
                self.look()
            else:
                self.collect()

    def speak(self, turns):
        """Says mostly lines that are no commands, over a small heap."""
        self.begin()
        for line in BAD_LINES:
            self.say_bytes(line)
        for _ in range(turns):
            self.lots.pick([self.say_bad, self.say_bad, self.turn])()

    def reach_limits(self):
        """Defines as many classes as there may be, and classes of as many slots, fills all regions, and opens all pins."""
        names = [f"f{number}:{kind}" for number, kind in enumerate(list(KINDS) * 8)]
        for count in (63, 64, 65, 72):
            self.say("class", f"wide{count}", "-", *names[:count])
        self.say("class", "one", "-", "x:int")
        if self.machine.limits.longest_line > 20_000:
            for count in (64, 65):
                self.say("class", f"long{count}", "-", *(f"{number:n>255}:int" for number in range(count)))
            self.say_bytes(b"a" * 32_768)
            self.say_bytes(b"clear 0 0" + b" " * 32_759)
        for more in (62, 63, 64):
            self.say("class", f"below{more}", 2, *names[:more])
        for name in ("y" * 64, "y" * 65, "z" * 255, "z" * 256, "<a>", "b|c", '"-"', "~!", "-"):
            self.say("class", name, "-", f"{name}:int")
            self.say("array", name)
        self.say("new", 0, 0, 1)
        self.say("dump", "-")
        number = 0
        while self.say("class", f"k{number}", "-") or number < 10:
            number += 1
        self.say("array", "late")
        self.say("class", "a+b", "-")
        self.say("rewind", 1)
        self.say("array", "late")
        self.say("array", "a+b")
        for length in (1025, 1024, 257, 256, 65, 64, 17, 16, 5, 4):
            for r in range(2):
                self.say("newprim", 0, r, self.lots.pick(["byte", "long"]), length)
        while self.say("newprim", 0, 1, "char", 300):
            pass
        pins = 1
        while self.say("open", "-"):
            pins += 1
        self.say("dump", 1)
        for pin in range(1, pins + 1):
            self.say("close", pin)
        self.say("dump", "-")

    def reach_largest(self):
        """Makes arrays of as many elements as there may be, where the area has room for one of them and a few regions more."""
        self.begin()
        for length in (MOST_ELEMENTS_WITH_AREA + 1, MOST_ELEMENTS_WITH_AREA, MOST_ELEMENTS_WITH_AREA - 1):
            self.say("newprim", 0, 0, "byte", length)
        self.say("put", 0, 0, MOST_ELEMENTS_WITH_AREA - 1, 255)
        self.say("put", 0, 0, MOST_ELEMENTS_WITH_AREA, 1)
        for length in (1025, 1024, 2049, 1025):
            self.say("newarray", 0, 1, 1, length)
        self.say("dump", "-")
        self.say("rewind", 4)
        self.say("newarray", 0, 1, 1, MOST_ELEMENTS_WITH_AREA)
        self.say("clear", 0, 0)
        for _ in range(2):
            self.collect_all()
        self.say("newarray", 0, 1, 1, MOST_ELEMENTS_WITH_AREA)
        self.say("store", 0, 1, MOST_ELEMENTS_WITH_AREA - 1, 1)
        self.collect_all()
        self.say("rewind", self.machine.place)

    def collect_all(self):
        """Takes a whole cycle, and sweeps what waits."""
        self.say("snap")
        while self.state.gray:
            self.say("mark")
        self.say("finish")
        for number, region in enumerate(self.state.regions):
            if region:
                self.say("sweep", number)
