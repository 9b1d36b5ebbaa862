#!/usr/bin/env python3
"""Prints the session examples/orders.session: a shop that bills an order to the wrong customer.

Each order is for one of twelve customers. The shop looks its customer up, makes the order, and puts it at the head of a list. For an
express order, each 39th, it forgets to look up and takes the customer of the order before. After each 25 orders it ships all but the
newest five, and runs a cycle. The model of the checks says when it is done."""
import pathlib
import sys

sys.path.insert(0, str(pathlib.Path(__file__).resolve().parent.parent / "checks" / "model"))

from machine import Machine  # noqa: E402
from session import Session as Model  # noqa: E402

CUSTOMERS, LIST, CUSTOMER, ORDER, LAST = range(5)  # registers of mutator 0
COUNT, ORDERS, KEPT, EXPRESS = 12, 122, 5, 39
OPENING = f"""class shop/Customer - number:int orders:int
array [shop/Customer;
class shop/Order - number:int cents:int customer:object next:object
newarray 0 0 1 {COUNT}"""


class Shop:
    """The shop: the lines that it said."""

    def __init__(self):
        self.model = Model(Machine(keep=65_536))
        self.lines = []
        self.counts = [0] * COUNT
        for line in OPENING.split("\n"):
            self.say(line)

    def say(self, *words):
        """Says a line, which must be accepted."""
        line = " ".join(map(str, words))
        answer = self.model.answer(line.encode())
        assert answer.startswith(b"ok"), (line, answer)
        self.lines.append(line)

    def open(self):
        """Makes the customers."""
        for number in range(COUNT):
            self.say("new", 0, CUSTOMER, 0)
            self.say("put", 0, CUSTOMER, 0, number)
            self.say("store", 0, CUSTOMERS, number, CUSTOMER)

    def order(self, number):
        """Takes an order."""
        customer = number * 7 % COUNT
        if number % EXPRESS or number == 0:
            self.say("load", 0, CUSTOMER, CUSTOMERS, customer)
        self.say("new", 0, ORDER, 2)
        self.say("put", 0, ORDER, 0, number)
        self.say("put", 0, ORDER, 1, 100 + 37 * number % 900)
        self.say("store", 0, ORDER, 2, CUSTOMER)
        self.say("store", 0, ORDER, 3, LIST)
        self.say("move", 0, LIST, 0, ORDER)
        self.counts[customer] += 1
        self.say("put", 0, CUSTOMER, 1, self.counts[customer])
        self.say("clear", 0, ORDER)

    def ship(self):
        """Takes all orders but the newest from the list."""
        self.say("move", 0, LAST, 0, LIST)
        for _ in range(KEPT - 1):
            self.say("load", 0, LAST, LAST, 3)
        self.say("store", 0, LAST, 3, ORDER)
        self.say("clear", 0, LAST)

    def collect(self):
        """Runs a whole cycle."""
        machine = self.model.machine
        self.say("snap")
        while machine.state.gray:
            self.say("mark")
        while machine.state.log:
            self.say("drain")
        self.say("finish")
        for number, region in enumerate(machine.state.regions):
            if region:
                self.say("sweep", number)


def main():
    shop = Shop()
    shop.open()
    for number in range(ORDERS):
        shop.order(number)
        if number % 25 == 24:
            shop.ship()
            shop.collect()
    print("\n".join(shop.lines))


if __name__ == "__main__":
    main()
