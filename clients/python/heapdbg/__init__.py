"""A client of heapdbg: a session as Python calls, and a recorder of your program's objects.

A `Session` sends lines to a heapdbg, over a command's pipes, a socket or any pair of binary streams, and returns each reply as
a value. A refusal is raised as `Refused`, a session that ended as `Ended`, a line that can't be sent or isn't known as
`BadCommand`. Objects are their ids, as `ObjectId`; null is None. A moment of the heap is `Now()`, `Place(816)`, `Named("start")` or
`Pin(1)`. A `Recorder` writes what a program does with its objects as lines. Needs Python 3.9 and its standard library alone."""
from .connections import fetch
from .faults import BadCommand, Ended, LostFact, NotDoneFacts, NothingToRedoFacts, Refused, RegionFact, TooFarFacts
from .mirror import UnknownName
from .moments import Moment, Named, Now, Pin, PinAt, Place
from .recorder import Call, Cost, Recorder
from .rows import (
    Cells,
    ClassCount,
    ClassGrowth,
    ClassRow,
    Collected,
    Dominator,
    EndedCycle,
    Field,
    HeldPin,
    Holding,
    Life,
    ListedObject,
    LostPin,
    NullRegister,
    ObjectDifference,
    ObjectId,
    PastStep,
    Piece,
    RegionRow,
    Register,
    RegisterReference,
    RegisterStep,
    SlotChange,
    SlotDifference,
    SlotReference,
    SlotRow,
    SlotStep,
    SlotValue,
    SlotWrite,
    Swept,
    TreeRow,
    When,
)
from .session import Batch, Later, Session

__all__ = ["Session", "Batch", "Later", "Refused", "Ended", "BadCommand", "fetch"]
__all__ += ["NotDoneFacts", "RegionFact", "TooFarFacts", "LostFact", "NothingToRedoFacts"]
__all__ += ["Moment", "Now", "Place", "Named", "Pin", "PinAt", "ObjectId", "Swept", "Collected", "Piece"]
__all__ += ["Cells", "ClassCount", "ClassGrowth", "ClassRow", "Dominator", "Field", "HeldPin", "Holding", "LostPin", "ListedObject"]
__all__ += ["NullRegister", "Register", "PastStep", "RegisterReference", "RegisterStep", "SlotChange", "SlotReference", "SlotRow"]
__all__ += ["EndedCycle", "Life", "ObjectDifference", "RegionRow", "SlotDifference", "SlotStep", "SlotValue", "SlotWrite", "TreeRow"]
__all__ += ["When"]
__all__ += ["Recorder", "Call", "Cost", "UnknownName"]
