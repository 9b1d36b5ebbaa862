"""The slots of large objects on the page: a thousand at a time.

Each function yields what is done, what is seen, and what has to be."""
from clicks import at_place, opened
from paged import Heap

# A node, an array of references and one of bytes, in a heap with an area; and the first step of what is written there.
LINES = b"""class Node - next:object v:long
array [Node;
new 0 0 0
newarray 0 1 1 2500
newprim 0 2 byte 2500
store 0 1 0 0
store 0 1 2400 0
put 0 2 2499 65
"""
NODE, ARRAY, BYTES = "0x10000000", "0x10008000", "0x1000e000"
AREA = ("--wide", "1", "--regions", "16", "--area", "12")
AT_A_TIME, LENGTH = 1000, 2500
NEWEST = 8
ROWS = "document.querySelectorAll('#insp table.fields tbody tr')"
CELLS = f"[...{ROWS}[{{}}].cells].map((c) => c.textContent)"
LINES_OF_BYTES = "document.querySelectorAll('#insp .bytes > div')"
MORE = "document.querySelector('#insp [data-row=\"more slots\"]')"
LEFT = f"({MORE} ? {MORE}.textContent : '')"


def elements(tab, heap):
    """The elements of an array: of a thousand, then of two thousand, then of all."""
    tab.value(f"heapdbg.pick('{ARRAY}')")
    tab.wait(f"{ROWS}.length > 0")
    yield "the first elements", tab.value(f"[{ROWS}.length, {LEFT}]"), [AT_A_TIME, "… 1,500 more"]
    tab.wait(f"{ROWS}[0].cells[3].textContent !== ''")
    yield "one of them", tab.value(CELLS.format(0)), ["0", "object", f"{NODE} Node", "@6"]
    yield "the last of them", tab.value(CELLS.format(999))[:3], ["999", "object", "null"]
    yield "what stands for them all", tab.value("document.querySelector('#insp .head').textContent.includes('2,500 elements')"), True
    tab.click_on(MORE)
    tab.wait(f"{ROWS}.length > {AT_A_TIME}")
    yield "the next elements", tab.value(f"[{ROWS}.length, {LEFT}]"), [2 * AT_A_TIME, "… 500 more"]
    yield "the first of these", tab.value(CELLS.format(1000))[:3], ["1000", "object", "null"]
    heap.say("store 0 1 1999 0")
    at_place(tab, NEWEST + 1)
    tab.wait(f"{ROWS}.length > 1999 && {ROWS}[1999].cells[2].textContent !== 'null'")
    yield "an element that was written meanwhile", tab.value(f"[{ROWS}.length, {LEFT}]"), [2 * AT_A_TIME, "… 500 more"]
    yield "its value", tab.value(CELLS.format(1999))[:3], ["1999", "object", f"{NODE} Node"]
    yield "the step that wrote it isn't asked for", tab.value(CELLS.format(1999))[3], ""
    tab.value(f"{ROWS}[1999].scrollIntoView()")
    tab.wait(f"{ROWS}[1999].cells[3].textContent !== ''")
    yield "the step once it can be seen", tab.value(CELLS.format(1999))[3], f"@{NEWEST + 1}"
    tab.value(f"{MORE}.focus()")
    tab.key("Enter")
    tab.wait(f"{ROWS}.length > {2 * AT_A_TIME}")
    yield "all elements, by a key", tab.value(f"[{ROWS}.length, {LEFT}]"), [LENGTH, ""]
    yield "one of the last", tab.value(CELLS.format(2400))[:3], ["2400", "object", f"{NODE} Node"]


def others(tab):
    """The slots of another object, and of the array again; and at a place."""
    tab.value(f"heapdbg.pick('{NODE}')")
    tab.wait(f"{ROWS}.length === 2")
    yield "the fields of a node", tab.value(f"[{ROWS}[0].cells[0].textContent, {ROWS}[1].cells[0].textContent, {LEFT}]"), ["next", "v", ""]
    tab.value(f"heapdbg.pick('{ARRAY}')")
    tab.wait(f"{ROWS}.length > 2")
    yield "the first elements again", tab.value(f"[{ROWS}.length, {LEFT}]"), [AT_A_TIME, "… 1,500 more"]
    tab.value("heapdbg.go(6)")
    at_place(tab, 6)
    tab.wait(f"{ROWS}[0].cells[3].textContent === '@6'")
    yield "those at a place", tab.value(f"[{ROWS}.length, {CELLS.format(0)}, {LEFT}]"), [
        AT_A_TIME, ["0", "object", f"{NODE} Node", "@6"], "… 1,500 more"]
    tab.click_on(MORE)
    tab.wait(f"{ROWS}.length > {AT_A_TIME}")
    yield "the next ones there", tab.value(f"[{ROWS}.length, {CELLS.format(1999)}]"), [2 * AT_A_TIME, ["1999", "object", "null", "@4"]]
    tab.key("l")
    at_place(tab, NEWEST + 1)


def octets(tab):
    """An array of bytes, eight in a line."""
    tab.value(f"heapdbg.pick('{BYTES}')")
    tab.wait(f"{LINES_OF_BYTES}.length > 0")
    yield "the first bytes", tab.value(f"[{LINES_OF_BYTES}.length, {LEFT}]"), [AT_A_TIME // 8, "… 1,500 more"]
    for count in (2 * AT_A_TIME, LENGTH):
        tab.click_on(MORE)
        tab.wait(f"{LINES_OF_BYTES}.length === {-(-count // 8)}")
    last = tab.value(f"{LINES_OF_BYTES}[{LENGTH // 8}].textContent")
    yield "the last bytes", (last.split(), tab.value(LEFT)), (["09c0", "00", "00", "00", "41", "···A"], "")
    told = tab.value("[...document.querySelectorAll('#steps .step')].map((e) => e.children[1].textContent)")
    yield "what a step wrote far behind", [text for text in told if text.startswith("put")], [f"put {BYTES}[2499] = 65 was 0"]


def all_of(program):
    """All of these."""
    with Heap(program, LINES, *AREA) as heap:
        tab = opened(heap)
        try:
            yield from elements(tab, heap)
            yield from others(tab)
            yield from octets(tab)
            yield "complaints of the browser", tab.faults(), []
        finally:
            tab.close()
