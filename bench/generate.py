#!/usr/bin/env python3
"""Prints a session of many lines, the same for the same seed: `generate.py KIND COUNT [SEED]`.

KIND `first` mixes `new`, `put` and `rewind` over one class of two fields.
KIND `pairs` makes an object in a region that has room, and takes it back, again and again.
KIND `last` does the same after it filled every region but the last with objects of that size.
KIND `puts` writes the two fields of one object.
KIND `fields` asks again and again for a class of 583 fields in a shuffled order, which is refused as too many; `fields_nowhere`
asks for the same below a class that isn't there, so that the line is read and no name compared.
KIND `mixed` makes an object or an array now and then, and else stores, loads, puts, moves and clears.
KIND `mixed_full` is the same after 248 regions were filled by an array each.
KIND `marking` fills every region but the last with one list, and then begins a cycle and, again and again, cuts the list
after the marker, so that the barrier logs an unmarked object, drains, marks and walks on; and rewinds to where the cycle began.
KIND `cycles` fills every region but the last with nodes of two lists in turn, drops one of them, runs a whole cycle with a
store, sweeps every region, which copies half of its objects, and makes the dropped list again, and so on.
KIND `rewinds` makes objects and writes them, undoes a few steps now and then, and at times up to 20,000, which it repeats.
KIND `pinned` links nodes of 16 regions beside four pins, and now and then dumps the oldest, closes it and opens another."""
import random
import string
import sys


def first(count, rng):
    yield "class Point - x:int y:int"
    kept = 0
    for _ in range(count):
        pick = rng.random()
        if pick < 0.30:
            yield f"new {rng.randrange(2)} {rng.randrange(8)} 0"
            kept += 1
        elif pick < 0.90 or kept == 0:
            yield f"put 0 0 {rng.randrange(2)} {rng.randrange(1 << 32)}"
        else:
            yield f"rewind {rng.randrange(1, 4)}"


def made_and_taken_back(count):
    """Lines that make an object, which keeps a region in use, and then make and take back another as often as is asked."""
    yield "new 0 2 0"
    for _ in range(count // 2):
        yield "new 0 1 0"
        yield "rewind 1"


def pairs(count, rng):
    yield "class Point - x:int y:int"
    yield from made_and_taken_back(count)


def last(count, rng):
    yield "class Point - x:int y:int"
    for _ in range(255 * 256):
        yield "new 0 0 0"
    yield from made_and_taken_back(count)


def mixed(count, rng):
    yield "class Node - next:object v:long"
    yield "new 0 0 0"
    yield "newprim 0 1 int 10"
    for _ in range(count):
        pick = rng.random()
        mutator = rng.randrange(2)
        register = rng.randrange(2, 8)
        if pick < 0.0005:
            yield f"new {mutator} {register} 0"
        elif pick < 0.0007:
            yield f"newprim {mutator} {register} int {rng.randrange(16)}"
        elif pick < 0.25:
            yield f"store 0 0 0 {rng.choice((0, 2, 3, 4))}"
        elif pick < 0.50:
            yield f"put 0 0 1 {rng.randrange(1 << 64)}"
        elif pick < 0.75:
            yield f"load 0 {register} 0 {rng.randrange(2)}"
        elif pick < 0.90:
            yield f"move {mutator} {register} 0 {rng.randrange(2)}"
        else:
            yield f"clear {mutator} {register}"


def mixed_full(count, rng):
    for _ in range(248):
        yield "newprim 1 7 long 1024"
    yield from mixed(count, rng)


def node(head):
    """Lines that put a new node before the list that a register heads."""
    yield "new 0 0 0"
    yield f"store 0 0 0 {head}"
    yield f"move 0 {head} 0 0"


def marking(count, rng):
    yield "class Node - next:object v:long"
    for _ in range(255 * 256):
        yield from node(1)
    yield "clear 0 0"
    yield "new 0 2 0"
    yield "move 0 4 0 1"
    for _ in range(count // 902):
        yield "snap"
        for _ in range(180):
            yield "load 0 5 4 0"
            yield "store 0 4 0 2"
            yield "drain"
            yield "mark"
            yield "load 0 4 5 0"
        yield "rewind 901"


def cycles(count, rng):
    half = 255 * 128
    yield "class Node - next:object v:long"
    for _ in range(half):
        yield from node(1)
        yield from node(3)
    for _ in range(1 + count // (4 * half)):
        yield "clear 0 0"
        yield "clear 0 3"
        yield "snap"
        yield "new 0 2 0"
        yield "store 0 2 0 1"
        yield "store 0 2 0 2"
        yield from ["mark"] * half
        yield "drain"
        yield "clear 0 2"
        yield "finish"
        for region in range(256):
            yield f"sweep {region}"
        for _ in range(half):
            yield from node(3)


def puts(count, rng):
    yield "class Point - x:int y:int"
    yield "new 0 0 0"
    for _ in range(count):
        yield f"put 0 0 {rng.randrange(2)} {rng.randrange(1 << 32)}"


def rewinds(count, rng):
    yield "class Point - x:int y:int"
    yield "new 0 0 0"
    yield "new 1 0 0"
    # The steps that may be undone.
    done, said = [], 0
    while said < count:
        said += 1
        if said % 40_000 == 0:
            again = done[-rng.randrange(10_000, 20_000) :]
            yield f"rewind {len(again)}"
            yield from again
            said += len(again)
        elif done and rng.random() < 0.2:
            few = min(len(done), rng.randrange(1, 5))
            del done[-few:]
            yield f"rewind {few}"
        elif rng.random() < 0.4:
            done.append(f"new {rng.randrange(2)} 0 0")
            yield done[-1]
        else:
            done.append(f"put {rng.randrange(2)} 0 {rng.randrange(2)} {rng.randrange(1 << 32)}")
            yield done[-1]


def pinned(count, rng):
    yield "class Node - next:object v:long"
    for number in range(16):
        for _ in range(256):
            yield f"new {number // 8} {number % 8} 0"
    yield from ["open -"] * 4
    oldest = 1
    for number in range(count):
        if number % 20_000 == 19_999:
            yield f"dump {oldest}"
            yield f"close {oldest}"
            yield "open -"
            oldest += 1
        yield f"store {rng.randrange(2)} {rng.randrange(8)} 0 {rng.randrange(8)}"
    yield from [f"dump {pin}" for pin in range(oldest, oldest + 4)]


def class_of_fields(sup, rng):
    """A line for a class with as many fields of two letters as fit into 4,096 bytes."""
    names = [first + second for first in string.ascii_lowercase for second in string.ascii_lowercase][:583]
    rng.shuffle(names)
    return " ".join(["class", "A", sup] + [f"{name}:int" for name in names])


def fields(count, rng):
    line = class_of_fields("-", rng)
    for _ in range(count):
        yield line


def fields_nowhere(count, rng):
    line = class_of_fields("9", rng)
    for _ in range(count):
        yield line


def main():
    each_kind = (first, pairs, last, mixed, mixed_full, marking, cycles, puts, rewinds, pinned, fields, fields_nowhere)
    kinds = {kind.__name__: kind for kind in each_kind}
    kind, count = sys.argv[1], int(sys.argv[2])
    rng = random.Random(int(sys.argv[3]) if len(sys.argv) > 3 else 1)
    print("\n".join(kinds[kind](count, rng)))


if __name__ == "__main__":
    main()
