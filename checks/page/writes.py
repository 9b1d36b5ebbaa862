"""All writes of a field on the page: their marks on the time line, and their list.

Each function yields what is done, what is seen, and what has to be."""
from clicks import CLOSED, LEAKED, NEWEST, STORY, at_place, explored, opened
from paged import Heap, nodes

CELLS = "[...document.querySelectorAll('#writes tbody tr')].map((r) => [...r.cells].map((c) => c.textContent))"
NOTE = "document.querySelector('#writes .sub small').textContent"
FIELD = "[...document.querySelectorAll('#insp table.fields tbody tr')].find((r) => r.cells[0].textContent === '{}')"
BUTTON = "[...document.querySelectorAll('#writes button')].find((b) => b.textContent === '{}')"
# The colour of the time line where the mark of a place is, or would be.
POINT = """(() => {{ const canvas = document.getElementById('line'), {{ S }} = heapdbg, wide = canvas.getBoundingClientRect().width - 16,
    x = Math.round(8 + wide * ({} - S.oldest) / (S.place - S.oldest)),
    copy = new OffscreenCanvas(1, 1).getContext('2d', {{ willReadFrequently: true }});
    copy.drawImage(canvas, -x, -75);
    return [...copy.getImageData(0, 0, 1, 1).data]; }})()"""
# The colour of marks in a light page.
MARK = [0xC2, 0x18, 0x8F, 255]
# A place at which an object that is gone by now had the id of the one that leaked, and the number of its class and of its field.
PAST, ENTRY, SESSION = 700, 2, 1
# The session that was closed last.
OTHER = "0x10000440"
# Objects of a class one of whose fields was written more often than is listed.
MANY, LISTED = 300, 200


def mark(tab, place):
    """Returns where the mark of a place is in the window."""
    left, top, width, height = tab.box("document.getElementById('line')")
    oldest, newest = tab.value("[heapdbg.S.oldest, heapdbg.S.place]")
    return left + 8 + (width - 16) * (place - oldest) / (newest - oldest), top + height / 2


def listed(rows):
    """Returns the rows that the list has to have."""
    return [[f"@{int(place):,}", *words] for place, *words in reversed(rows)]


def wide(tab, place):
    """Waits until a mark is where a place is."""
    tab.wait(f"{POINT.format(place)}.join() === '{','.join(map(str, MARK))}'")


def questions():
    """Returns the questions whose answers the page has to show."""
    return [f"watch {LEAKED} 1", f"watch {OTHER} 1", f"writes {ENTRY} {SESSION}", "writes 3 1", "history 4096"]


def one(tab, told):
    """The writes of a field of the object that leaked: by a click on its row, and then by keys."""
    rows = told[f"watch {LEAKED} 1"][0]
    tab.value(f"heapdbg.pick('{LEAKED}')")
    tab.wait(FIELD.format("state"))
    yield "no mark before a field is picked", tab.value(POINT.format(CLOSED)) == MARK, False
    tab.click_on(f"({FIELD.format('state')}).cells[0]")
    tab.wait(f"{CELLS}.length > 0")
    yield "the writes of a field", tab.value(CELLS), listed(rows)
    yield "how many they are", tab.value(NOTE), str(len(rows))
    yield "the marks of its writes", [int(row[0]) for row in rows if tab.value(POINT.format(row[0])) != MARK], []
    yield "the row of the field", tab.value(f"({FIELD.format('state')}).classList.contains('on')"), True
    tab.mouse("mouseMoved", *mark(tab, CLOSED))
    place, old, new = rows[-1]
    yield "what is said of a mark", tab.value("document.getElementById('tip').textContent").splitlines()[:2], [
        f"@{int(place):,} {old} → {new}", f"server/Session.state of {LEAKED}"]
    tab.click(*mark(tab, CLOSED))
    at_place(tab, CLOSED)
    said = tab.value("document.getElementById('line').getAttribute('aria-valuetext')")
    yield "what is said of the shown place", said.split("\n")[0], f"@{CLOSED:,} {old} → {new}"
    tab.wait("document.querySelector('#writes tr.on') !== null")
    yield "the row of the shown place", tab.value("document.querySelector('#writes tr.on').textContent"), f"@{CLOSED:,}{old}{new}"
    tab.value(f"document.querySelector('#writes tbody tr').focus()")
    tab.key("Escape")
    yield "no list any longer", tab.value("document.querySelector('#writes').childElementCount"), 0
    yield "no mark any longer", tab.value(POINT.format(rows[0][0])) == MARK, False
    yield "where the focus is then", tab.value("document.activeElement.dataset.row"), "slot 1"
    tab.key("Enter")
    tab.wait(f"{CELLS}.length > 0")
    tab.key("Enter")
    yield "picked again by a key, and again", tab.value("[heapdbg.S.watch, document.querySelector('#writes').childElementCount]"), [None, 0]


def every(tab, told):
    """The writes of a field of all objects of a class, from the link of the step that wrote it last."""
    rows = told["writes 3 1"][0]
    tab.key("l")
    at_place(tab, NEWEST)
    tab.wait(f"({FIELD.format('state')}).cells[3].querySelector('a') !== null && document.getElementById('inspnote').textContent === ''")
    tab.click_on(f"({FIELD.format('state')}).cells[3].querySelector('a')")
    at_place(tab, CLOSED)
    tab.wait(f"{CELLS}.length > 0")
    tab.click_on(BUTTON.format("all objects of the class"))
    tab.wait(f"{CELLS}.length > 1")
    yield "the writes of a field of all objects of a class", tab.value(CELLS), listed(rows)
    yield "how many they are", tab.value(NOTE), f"{len(rows)}, newest first"
    wide(tab, rows[0][0])
    # (The mark of the shown place is below its handle.)
    yield "their marks", [int(row[0]) for row in rows if tab.value(POINT.format(row[0])) != MARK], [CLOSED]
    tab.click_on("document.querySelectorAll('#writes tbody tr')[3]")
    at_place(tab, int(rows[-4][0]))
    tab.key(",")
    at_place(tab, int(rows[-5][0]))
    tab.key(".")
    at_place(tab, int(rows[-4][0]))
    tab.key("l")
    at_place(tab, NEWEST)
    tab.value(f"heapdbg.pick('{OTHER}')")
    tab.wait(f"document.querySelector('#insp .head').textContent.includes('{OTHER}')")
    yield "another object of the class keeps them", tab.value(CELLS), listed(rows)
    tab.click_on(BUTTON.format("this object"))
    tab.wait(f"{CELLS}.length < {len(rows)}")
    yield "those of it alone", tab.value(CELLS), listed(told[f"watch {OTHER} 1"][0])
    tab.value("heapdbg.pick('0x10000000')")
    tab.wait("document.querySelector('#insp .head').textContent.includes('server/Cache')")
    yield "none of another object", tab.value("[heapdbg.S.watch, document.querySelector('#writes').childElementCount]"), [None, 0]


def gone(tab, told):
    """The writes of a field of an object that is gone, and whose id another object has."""
    made = [int(row[0]) for row in reversed(told["history 4096"][0]) if row[1:3] == ["new", LEAKED]]
    first, after = max(place for place in made if place <= PAST), min(place for place in made if place > PAST)
    rows = [[place, old, new] for place, id, old, new in told[f"writes {ENTRY} {SESSION}"][0] if id == LEAKED and first <= int(place) < after]
    tab.value(f"heapdbg.go({PAST})")
    at_place(tab, PAST)
    tab.value(f"heapdbg.pick('{LEAKED}')")
    tab.wait(FIELD.format("session"))
    tab.click_on(f"({FIELD.format('session')}).cells[0]")
    tab.wait(f"{CELLS}.length > 0")
    yield "the writes of a field of an object that is gone", tab.value(CELLS), listed(rows)
    tab.key("l")
    at_place(tab, NEWEST)
    tab.wait("document.querySelector('#insp .t').textContent === 'server/Session'")
    yield "no list of them beside another object", tab.value("document.querySelector('#writes').childElementCount"), 0
    yield "their marks beside it", [int(row[0]) for row in rows if tab.value(POINT.format(row[0])) != MARK], []
    tab.key("Escape")
    yield "no mark of theirs", [int(row[0]) for row in rows if tab.value(POINT.format(row[0])) == MARK], []


def many(program):
    """A field that was written more often than is listed, and once more while the page looks on."""
    with Heap(program, nodes(MANY)) as heap:
        tab = opened(heap)
        try:
            rows = heap.rows("writes 0 0")
            tab.value(f"heapdbg.pick('{rows[0][1]}')")
            tab.wait(FIELD.format("next"))
            tab.click_on(f"({FIELD.format('next')}).cells[0]")
            tab.wait(f"{CELLS}.length > 0")
            tab.click_on(BUTTON.format("all objects of the class"))
            tab.wait(f"{CELLS}.length === {LISTED}")
            yield "the newest of many writes", tab.value(CELLS), listed(rows[-LISTED:])
            yield "how many more there are", tab.value("document.querySelector('#writes .empty').textContent"), f"and {len(rows) - LISTED} older"
            heap.say("store 0 0 0 0")
            more = heap.rows("writes 0 0")
            yield "there is another write", len(more), len(rows) + 1
            tab.wait(f"{CELLS}[0][0] === '@{int(more[-1][0]):,}'")
            yield "the newest write", tab.value(CELLS), listed(more[-LISTED:])
            yield "complaints of the browser", tab.faults(), []
        finally:
            tab.close()


def all_of(program):
    """All of these."""
    told = explored(program, questions())
    with Heap(program, STORY.read_bytes()) as heap:
        tab = opened(heap)
        try:
            for part in (one, every, gone):
                yield from part(tab, told)
            yield "complaints of the browser", tab.faults(), []
        finally:
            tab.close()
    yield from many(program)
