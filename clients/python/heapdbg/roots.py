"""The roots of a thread: a mutator's registers, and a shadow stack for those that find no room there."""
from __future__ import annotations

import heapq
from typing import Callable, Iterable, Optional

from .mirror import Known, way_to

# The registers of `root`, those of what a call has in hand, those that lines work with, that of the block of the shadow stack
# that was last used, and that of the array of all blocks.
ROOTS, LOCALS, WORK, BLOCK, SPINE = (0, 1), (2, 3), (4, 5), 6, 7
# How many elements the array of all blocks has, and a block.
BLOCKS, BLOCK_SIZE = 64, 256
# A spot of a root that is a register is its number; one in the shadow stack is its element, counted from here.
FIRST_ELEMENT = 8


class Roots:
    """The roots of mutator `m`. Lines are said by `tell`, and `shadow` returns the number of the class of the shadow stack."""

    def __init__(self, m: int, tell: Callable[[str], None], shadow: Callable[[], int]) -> None:
        self.m = m
        self.tell = tell
        self.shadow = shadow
        # What each register of WORK names, the one used last at the end.
        self.work: dict[int, Optional[Known]] = dict.fromkeys(WORK)
        self.at: dict[int, Known] = {}
        self.free: list[int] = []
        self.next = FIRST_ELEMENT
        # The block that BLOCK names, and how many there are.
        self.block = -1
        self.blocks = 0
        # What each running call has in hand, with its spot; that of the program comes first.
        self.calls: list[dict[Known, int]] = [{}]
        # What `root` made a root, with its spot, and how often.
        self.named: dict[Known, tuple[int, int]] = {}

    # ---- spots

    def new_spot(self, registers: Iterable[int]) -> int:
        """Returns a free spot: one of these registers, or else an element of the shadow stack."""
        for register in registers:
            if register not in self.at:
                return register
        if self.free:
            return heapq.heappop(self.free)
        if self.next == FIRST_ELEMENT + BLOCKS * BLOCK_SIZE:
            raise OverflowError(f"mutator {self.m} has {BLOCKS * BLOCK_SIZE} roots in its shadow stack, and no more")
        self.next += 1
        return self.next - 1

    def put(self, known: Known, spot: int, register: int) -> None:
        """Makes a root of an object that a register names."""
        if spot < FIRST_ELEMENT:
            self.tell(f"move {self.m} {spot} {self.m} {register}")
        else:
            self.tell(f"store {self.m} {BLOCK} {self.element(spot)} {register}")
        self.note(known, spot)

    def note(self, known: Known, spot: int) -> None:
        """Notes that a spot names an object."""
        self.at[spot] = known
        known.roots[self.m, spot] = None

    def take_away(self, spot: int) -> None:
        """Makes a spot null."""
        known = self.at.pop(spot)
        del known.roots[self.m, spot]
        if spot < FIRST_ELEMENT:
            self.tell(f"clear {self.m} {spot}")
        else:
            self.tell(f"store {self.m} {BLOCK} {self.element(spot)} {self.null()}")
            heapq.heappush(self.free, spot)

    def element(self, spot: int) -> int:
        """Returns the index of a spot in its block, once BLOCK names that."""
        block, index = divmod(spot - FIRST_ELEMENT, BLOCK_SIZE)
        while self.blocks <= block:
            self.add_block()
        if self.block != block:
            self.tell(f"load {self.m} {BLOCK} {SPINE} {block}")
            self.block = block
        return index

    def add_block(self) -> None:
        """Makes a block of the shadow stack."""
        if not self.blocks:
            self.tell(f"newarray {self.m} {SPINE} {self.shadow()} {BLOCKS}")
        self.tell(f"newarray {self.m} {BLOCK} {self.shadow()} {BLOCK_SIZE}")
        self.tell(f"store {self.m} {SPINE} {self.blocks} {BLOCK}")
        self.block = self.blocks
        self.blocks += 1

    # ---- registers

    def work_register(self, avoid: Optional[int] = None) -> int:
        """Returns the register of WORK that was used longest ago, but not the one to avoid."""
        return next(register for register in self.work if register != avoid)

    def works(self, register: int, known: Optional[Known]) -> None:
        """Notes what a register of WORK names now."""
        del self.work[register]
        self.work[register] = known

    def null(self, avoid: Optional[int] = None) -> int:
        """Returns a register of WORK that is null."""
        register = next((each for each, known in self.work.items() if known is None and each != avoid), None)
        if register is None:
            register = self.work_register(avoid)
            self.tell(f"clear {self.m} {register}")
            self.works(register, None)
        return register

    def register_of(self, known: Known) -> Optional[int]:
        """Returns a register that names an object already, or None."""
        for register, other in self.work.items():
            if other is known:
                return register
        for m, spot in known.roots:
            if m == self.m and spot < FIRST_ELEMENT:
                return spot
        return None

    def get(self, known: Known, avoid: Optional[int] = None) -> int:
        """Returns a register that names an object: one that does so already, or one of WORK, but not the one to avoid, to which
        it is loaded on a shortest way. Raises UnknownName if there is none."""
        register = self.register_of(known)
        if register is not None:
            return register
        way = way_to(known, [other for other in self.work.values() if other])
        register = self.register_of(way.first)
        work = register if register in self.work and register != avoid else self.work_register(avoid)
        if register is None:
            register = self.load_root(way.first, work)
        for slot, named in way.steps:
            self.tell(f"load {self.m} {work} {register} {slot}")
            register = work
            self.works(work, named)
        return register

    def load_root(self, known: Known, work: int) -> int:
        """Has a register of WORK name an object that only the shadow stack names, or another mutator. Returns the register."""
        m, spot = next((each for each in known.roots if each[0] == self.m), next(iter(known.roots)))
        if m == self.m:
            self.tell(f"load {self.m} {work} {BLOCK} {self.element(spot)}")
        elif spot < FIRST_ELEMENT:
            self.tell(f"move {self.m} {work} {m} {spot}")
        else:
            block, index = divmod(spot - FIRST_ELEMENT, BLOCK_SIZE)
            self.tell(f"move {self.m} {work} {m} {SPINE}")
            self.tell(f"load {self.m} {work} {work} {block}")
            self.tell(f"load {self.m} {work} {work} {index}")
        self.works(work, known)
        return work

    def rest(self) -> None:
        """Makes the registers null that lines work with, so that only roots are roots."""
        for register, known in list(self.work.items()):
            if known:
                self.tell(f"clear {self.m} {register}")
                self.work[register] = None
