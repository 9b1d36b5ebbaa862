#!/usr/bin/env python3
"""Prints the session examples/services.session: a program that loses one of its services.

Services are kept in a table of eight slots. When a ninth is added, the program makes a table of sixteen, copies the first seven
slots of the old one, and forgets the last. Calls are counted in between, and a cycle runs after each 40 of them: the service that
wasn't copied is removed. The model of the checks says when a cycle is done."""
import pathlib
import sys

sys.path.insert(0, str(pathlib.Path(__file__).resolve().parent.parent / "checks" / "model"))

from machine import Machine  # noqa: E402
from session import Session as Model  # noqa: E402

TABLE, SERVICE, CALL, NEW = range(4)  # registers of mutator 0
SMALL, CALLS, ADDED_EVERY, CYCLE_EVERY = 8, 220, 12, 40
OPENING = f"""class app/Service - number:int calls:int
array [app/Service;
class app/Call - service:object time:int
newarray 0 0 1 {SMALL}"""


class Program:
    """The program: the lines that it said, and how many slots its table has and how many services."""

    def __init__(self):
        self.model = Model(Machine(keep=65_536))
        self.lines = []
        self.size, self.services, self.counts = SMALL, 0, {}
        for line in OPENING.split("\n"):
            self.say(line)

    def say(self, *words):
        """Says a line, which must be accepted."""
        line = " ".join(map(str, words))
        answer = self.model.answer(line.encode())
        assert answer.startswith(b"ok"), (line, answer)
        self.lines.append(line)

    def grow(self):
        """Makes a table twice as large, and copies the old one but for its last slot."""
        self.say("newarray", 0, NEW, 1, 2 * self.size)
        for slot in range(self.size - 1):
            self.say("load", 0, SERVICE, TABLE, slot)
            self.say("store", 0, NEW, slot, SERVICE)
        self.say("move", 0, TABLE, 0, NEW)
        self.say("clear", 0, NEW)
        self.size *= 2

    def add(self):
        """Adds a service."""
        if self.services == self.size:
            self.grow()
        self.say("new", 0, SERVICE, 0)
        self.say("put", 0, SERVICE, 0, self.services)
        self.say("store", 0, TABLE, self.services, SERVICE)
        self.counts[self.services] = 0
        self.services += 1

    def call(self, time):
        """Calls a service, and counts that. The program calls the lost one no more."""
        number = time * 5 % self.services
        if self.size > SMALL and number == SMALL - 1:
            number = 0
        self.counts[number] += 1
        self.say("load", 0, SERVICE, TABLE, number)
        self.say("new", 0, CALL, 2)
        self.say("store", 0, CALL, 0, SERVICE)
        self.say("put", 0, CALL, 1, time)
        self.say("put", 0, SERVICE, 1, self.counts[number])
        self.say("clear", 0, CALL)

    def collect(self):
        """Runs a whole cycle."""
        machine = self.model.machine
        self.say("snap")
        while machine.state.gray:
            self.say("mark")
        while machine.state.log:
            self.say("drain")
        self.say("finish")
        for number, region in enumerate(machine.state.regions):
            if region:
                self.say("sweep", number)


def main():
    program = Program()
    for time in range(CALLS):
        if time % ADDED_EVERY == 0 and program.services < SMALL + 3:
            program.add()
        program.call(time)
        if time % CYCLE_EVERY == CYCLE_EVERY - 1:
            program.collect()
    print("\n".join(program.lines))


if __name__ == "__main__":
    main()
