#!/usr/bin/env python3
"""A small Lisp whose cells live in a recorded heap, with a leak in its interpreter: `lisp.py [FILE]`, or `lisp.py --port PORT`.

It runs a program of forty rounds, and records it to FILE (`lisp.session` if none is named), or to the heap of a `heapdbg serve
--questions 1`. Then it says what to type to find the leak. docs/RECORD.md has the hunt."""
import pathlib
import re
import sys

sys.path.insert(0, str(pathlib.Path(__file__).resolve().parent.parent / "clients/python"))

from heapdbg import Recorder  # noqa: E402

DEFINITIONS = """
(define range (lambda (n) (if (= n 0) nil (cons n (range (- n 1))))))
(define sum (lambda (list) (if (null? list) 0 (+ (car list) (sum (cdr list))))))
(define nth (lambda (list n) (if (= n 0) (car list) (nth (cdr list) (- n 1)))))
"""
ROUNDS = 40
# What each round evaluates, and what every fifth one does after that: it asks for more elements than its list has.
ROUND, BAD_ROUND = "(sum (range 4))", "(nth (range 2) 3)"
NEXT = """{where} has {lines:,} lines, of {operations:,} operations. Look at it by

    {explore}

and ask what grew between the two pins, which objects there are, and why one of them is alive:

    growth 1 2
    objects -
    path - ID"""


class LispError(Exception):
    """What a program in Lisp did wrong."""


class Cell:
    """A cell: an object of Python that the recorded heap has, too. A field names a cell or nil, which is None, or is a number."""

    def __init__(self, record, kind, **fields):
        self.record = record
        self.kind = kind
        vars(self).update(fields)
        record.alloc(self, f"lisp/{kind}", fields)

    def set(self, field, value):
        """Writes a field."""
        setattr(self, field, value)
        self.record.write(self, field, value)


class Lisp:
    """An interpreter. Its one root is the machine, which names the symbols, the globals and the calls that run."""

    def __init__(self, record):
        self.record = record
        self.symbols = {}
        with record.call():
            self.machine = self.cell("Machine", calls=None, globals=None, symbols=None)
            record.root(self.machine)
            self.machine.set("globals", self.cell("Env", names=None, values=None, outer=None))
        self.specials = {"if": self.choose, "lambda": self.closure, "define": self.define}
        self.builtins = {
            "+": lambda one, other: self.cell("Number", value=one.value + other.value),
            "-": lambda one, other: self.cell("Number", value=one.value - other.value),
            "=": lambda one, other: self.symbol("t") if one.value == other.value else None,
            "null?": lambda one: None if one else self.symbol("t"),
            "cons": self.cons,
            "car": lambda pair: self.pair(pair).car,
            "cdr": lambda pair: self.pair(pair).cdr,
        }

    # ---- cells

    def cell(self, kind, **fields):
        """Allocates a cell."""
        return Cell(self.record, kind, **fields)

    def cons(self, car, cdr):
        """Allocates a pair."""
        return self.cell("Pair", car=car, cdr=cdr)

    def pair(self, cell):
        """Returns a cell that must be a pair."""
        if cell is None or cell.kind != "Pair":
            raise LispError("this is no pair")
        return cell

    def list_of(self, cells):
        """Allocates a list."""
        made = None
        for cell in reversed(cells):
            made = self.cons(cell, made)
        return made

    def symbol(self, name):
        """Returns the symbol of a name. A new one is linked to those that the machine has."""
        if name not in self.symbols:
            with self.record.call():
                letters = self.record.alloc_values(("letters", name), "byte", len(name))
                for at, letter in enumerate(name.encode()):
                    self.record.write(letters, at, letter)
                symbol = self.symbols[name] = self.cell("Symbol", letters=letters, next=self.machine.symbols)
                symbol.name = name
                self.machine.set("symbols", symbol)
        return self.symbols[name]

    # ---- forms

    def read(self, words):
        """Reads a form from the front of words, which come last first."""
        word = words.pop()
        if word == "(":
            cells = []
            while words[-1] != ")":
                cells.append(self.read(words))
            words.pop()
            return self.list_of(cells)
        if word.isdigit():
            return self.cell("Number", value=int(word))
        return None if word == "nil" else self.symbol(word)

    def evaluate(self, form, env):
        """Returns the value of a form."""
        if form is None or form.kind == "Number":
            return form
        if form.kind == "Symbol":
            return self.value_of(form, env)
        name = getattr(form.car, "name", None)
        if name in self.specials:
            return self.specials[name](form.cdr, env)
        arguments = [self.evaluate(each, env) for each in members(form.cdr)]
        if name in self.builtins:
            return self.builtins[name](*arguments)
        return self.apply(self.evaluate(form.car, env), arguments)

    def apply(self, closure, arguments):
        """Calls a closure. The machine has the calls that run, so that an error can tell them."""
        with self.record.call() as call:
            env = self.cell("Env", names=closure.names, values=self.list_of(arguments), outer=closure.env)
            self.machine.set("calls", self.cell("Call", env=env, caller=self.machine.calls))
            value = self.evaluate(closure.body, env)
            self.machine.set("calls", self.machine.calls.caller)
            return call.returns(value)

    def value_of(self, symbol, env):
        """Returns the value of a symbol."""
        while env:
            for name, value in zip(members(env.names), members(env.values)):
                if name is symbol:
                    return value
            env = env.outer
        raise LispError(f"{symbol.name} is not defined")

    def choose(self, rest, env):
        """Evaluates `(if CONDITION THEN ELSE)`."""
        condition, then, other = members(rest)
        return self.evaluate(then if self.evaluate(condition, env) else other, env)

    def closure(self, rest, env):
        """Evaluates `(lambda NAMES BODY)`."""
        names, body = members(rest)
        return self.cell("Closure", names=names, body=body, env=env)

    def define(self, rest, env):
        """Evaluates `(define NAME FORM)`."""
        name, form = members(rest)
        value = self.evaluate(form, env)
        env = self.machine.globals
        env.set("names", self.cons(name, env.names))
        env.set("values", self.cons(value, env.values))
        return name

    def run(self, text):
        """Evaluates each form of a text, and returns what the last one's number is, or what went wrong."""
        words = re.findall(r"[()]|[^\s()]+", text)[::-1]
        told = None
        while words:
            with self.record.call():
                try:
                    told = getattr(self.evaluate(self.read(words), self.machine.globals), "value", None)
                except LispError as error:
                    told = f"error: {error}"
        return told


def members(pair):
    """Yields what a list has."""
    while pair:
        yield pair.car
        pair = pair.cdr


def rounds(record):
    """Runs the program, with a whole cycle and a pin in its middle and at its end."""
    lisp = Lisp(record)
    lisp.run(DEFINITIONS)
    for number in range(1, ROUNDS + 1):
        lisp.run(ROUND)
        if number % 5 == 0:
            lisp.run(BAD_ROUND)
        if number % (ROUNDS // 2) == 0:
            record.collect()
            record.pin()


def main(words):
    """Records the program, and says what to do next."""
    port = words[1] if words[:1] == ["--port"] else None
    path = words[0] if words and not port else "lisp.session"
    with Recorder.to_port(int(port)) if port else Recorder.to_file(path) as record:
        rounds(record)
    explore = f"heapdbg explore --port {port}" if port else f"heapdbg explore --regions 64 --from {path}"
    operations = sum(cost.times for cost in record.costs.values())
    print(NEXT.format(where="The heap" if port else path, lines=record.said, operations=operations, explore=explore))


if __name__ == "__main__":
    main(sys.argv[1:])
