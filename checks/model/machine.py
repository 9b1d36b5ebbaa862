"""The machine: a history of whole states, which a rewind cuts off, and pins on states of the past."""
from dump import pieces_of
from heap import NARROW, WIDE, State, applied, refuse_if


class Pin:
    """A pin: its place, the state there, how many pieces it gave, and why it is lost, if it is."""

    def __init__(self, place, state):
        self.place = place
        self.state = state
        self.given = 0
        self.lost = None
        self.pieces = None


class Machine:
    """The retained states, the current one last, and the open pins by their numbers."""

    def __init__(self, regions=16, mutators=2, keep=1024, time=0, ids=8, wide=0, area=0):
        self.keep = keep
        self.time = time
        self.ids = ids
        self.place = 0
        self.limits = WIDE if wide else NARROW
        self.states = [State(regions, mutators, self.limits, area)]
        # The events that led to all states but the oldest.
        self.events = []
        # The events that rewinds undid, the next one last.
        self.undone = []
        self.pins = {}
        self.next_pin = 1

    @property
    def state(self):
        """The current state."""
        return self.states[-1]

    @property
    def retained(self):
        """How many steps can be undone."""
        return len(self.states) - 1

    def step(self, event):
        """Takes a step, and returns its answer."""
        after, answer = applied(self.state, event)
        self.states = [*self.states, after][-(self.keep + 1) :]
        self.events = [*self.events, event][-self.keep :]
        self.undone = []
        self.place += 1
        return answer

    def rewind(self, count):
        """Undoes `count` steps, and returns the place."""
        refuse_if(count > self.retained, 21, count, self.retained)
        self.states = self.states[: len(self.states) - count]
        self.undone = [*self.undone, *reversed(self.events[len(self.events) - count :])]
        self.events = self.events[: len(self.events) - count]
        self.place -= count
        for pin in self.pins.values():
            if pin.place > self.place:
                pin.lost = pin.lost or "Rewound"
        return self.place

    def forward(self, count):
        """Takes `count` of the undone steps again, and returns the place."""
        refuse_if(count > len(self.undone), 29, count, len(self.undone))
        for _ in range(count):
            undone = self.undone
            self.step(undone[-1])
            self.undone = undone[:-1]
        return self.place

    def open(self, at=None):
        """Opens a pin on a place, or on the current one, and returns its number and its place."""
        at = self.place if at is None else at
        ago = self.place - at
        refuse_if(not 0 <= ago <= self.retained, 24)
        refuse_if(len(self.pins) >= self.limits.pins, 25)
        number = self.next_pin
        self.next_pin += 1
        self.pins[number] = Pin(at, self.states[len(self.states) - 1 - ago])
        return number, at

    def pin(self, number):
        """Returns an open pin."""
        refuse_if(number not in self.pins, 22)
        return self.pins[number]

    def piece(self, number):
        """Returns the next piece of a pin's dump, and whether it is the last."""
        pin = self.pin(number)
        refuse_if(pin.lost, 23, pin.lost)
        pin.pieces = pin.pieces or pieces_of(pin.state, self.time, self.ids)
        if pin.given == len(pin.pieces):
            return b"", True
        pin.given += 1
        return pin.pieces[pin.given - 1], pin.given == len(pin.pieces)

    def close(self, number):
        """Closes a pin."""
        self.pin(number)
        del self.pins[number]
