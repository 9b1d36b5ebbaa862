"""What differs from the place that is compared with, as the page lists it below the objects.

Each function yields what is done, what is seen, and what has to be."""
from clicks import FROM, NEWEST, STORY, TO, at_place, explored, opened, row
from paged import Heap

CELLS = "[...document.querySelectorAll('#diffs tbody tr')].map((r) => [...r.cells].map((c) => c.textContent))"
NOTE = "document.querySelector('#diffs .sub small').textContent"
REST = "document.querySelector('#diffs .empty')?.textContent"
CLASS, LISTED = "server/Session", 200


def without_made(rows):
    """Returns the rows that the list has to have."""
    return [words for words in rows if words[1] != "made"]


def compared(tab, base, place):
    """Compares a place with another."""
    tab.value(f"heapdbg.go({base})")
    at_place(tab, base)
    tab.key("b")
    at_place(tab, base, base)
    tab.value(f"heapdbg.go({place})")
    at_place(tab, place, base)


def between(tab, told):
    """What differs between the ends of the two cycles: of all objects, and of those of a class."""
    rows = without_made(told[f"diff @{FROM} @{TO}"][0])
    yield "no list before two places are compared", tab.value("document.getElementById('diffs').childElementCount"), 0
    compared(tab, FROM, TO)
    tab.wait(f"{NOTE} === '{len(rows):,}'")
    shown = tab.value(CELLS)
    yield "the objects that differ", [cells[0] for cells in shown], [words[0] for words in rows[:LISTED]]
    yield "their words", [cells[2:] for cells in shown], [words[2:] for words in rows[:LISTED]]
    yield "which are gone", [cells[0] for cells in shown if cells[1:] == ["gone"]], [words[0] for words in rows[:LISTED] if words[1] == "gone"]
    yield "how many are left out", tab.value(REST), f"and {len(rows) - LISTED:,} more" if len(rows) > LISTED else None
    tab.click_on(f"({row('classes', CLASS)}).cells[0]")
    of = {words[0] for words in told[f"objects @{TO}"][0] if words[1] == CLASS}
    some = [words for words in rows if words[0] in of and words[1] != "gone"]
    tab.wait(f"{NOTE} === '{len(some):,}'")
    yield "those of a class", [cells[0] for cells in tab.value(CELLS)], [words[0] for words in some[:LISTED]]
    tab.click_on(f"({row('classes', CLASS)}).cells[0]")
    tab.wait(f"{NOTE} === '{len(rows):,}'")
    tab.key("b")
    at_place(tab, TO)
    tab.wait("document.getElementById('diffs').childElementCount === 0")
    yield "no list any longer", tab.value("document.getElementById('diffs').childElementCount"), 0


def back(tab, told):
    """The same from a place to one before it, picked by a key."""
    rows = without_made(told[f"diff @{NEWEST} @{FROM}"][0])
    compared(tab, NEWEST, FROM)
    tab.wait(f"{NOTE} === '{len(rows):,}'")
    yield "the words of both", [cells[2:] for cells in tab.value(CELLS)], [words[2:] for words in rows[:LISTED]]
    first = next(words[0] for words in rows if words[1] != "gone")
    tab.value(f"({row('diffs', first)}).focus()")
    tab.key("Enter")
    tab.wait(f"heapdbg.S.sel === '{first}'")
    yield "the object that a key picks", tab.value("heapdbg.S.sel"), first


def all_of(program):
    """All of these."""
    told = explored(program, [f"diff @{FROM} @{TO}", f"diff @{NEWEST} @{FROM}", f"objects @{TO}"])
    with Heap(program, STORY.read_bytes()) as heap:
        tab = opened(heap)
        try:
            for part in (between, back):
                yield from part(tab, told)
            yield "complaints of the browser", tab.faults(), []
        finally:
            tab.close()
