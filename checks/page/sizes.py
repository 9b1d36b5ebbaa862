"""What objects dominate, on the page: the tree of those through which most is reached, and the sizes beside the objects of a class.

Each function yields what is done, what is seen, and what has to be."""
from clicks import CELLS, FROM, NEWEST, STORY, at_place, on_line, opened, row
from paged import Heap, nodes

TABLE, CLASS, NUMBER = "0x10002000", "server/Entry", 2
# How wide the widest bar is, in points.
WIDE = 44
# An object names a and b, both name an object that it doesn't name itself, and b also names what a register names; an array names
# more objects than are listed at a time.
SHAPE = b"""class Pair - a:object b:object
array [Pair;
new 0 0 0
new 0 1 0
new 0 2 0
new 0 3 0
new 0 4 0
store 0 0 0 1
store 0 0 1 2
store 0 1 0 3
store 0 2 0 3
store 0 2 1 4
clear 0 1
clear 0 2
clear 0 3
newarray 0 5 1 30
""" + b"".join(b"new 0 6 0\nstore 0 5 %d 6\n" % slot for slot in range(30)) + b"clear 0 6\n"
# How many objects are listed at a time.
TOGETHER = 20
LEVELS = "[...document.querySelectorAll('#tops tbody tr')].map((r) => [r.getAttribute('aria-level'), r.getAttribute('aria-expanded'), r.dataset.row])"
FOCUS = "document.activeElement.dataset.row"
BARS = "[...document.querySelectorAll('#tops tbody tr')].map((r) => parseFloat(r.querySelector('.bar i').style.width))"
# What stands beside the objects of the list, what beside those in sight, and the heading of it.
RETAINS = "Object.fromEntries([...document.querySelectorAll('#inst tbody tr')].map((r) => [r.dataset.row, r.cells[2].textContent]))"
SEEN = """(() => { const box = document.getElementById('inst').parentElement.getBoundingClientRect();
    return [...document.querySelectorAll('#inst tbody tr')].map((r) => [r, r.getBoundingClientRect()]).filter(([, b]) => b.bottom > box.top && b.top < box.bottom)
        .map(([r]) => [r.dataset.row, r.cells[2].textContent]); })()"""
HEAD = "[...document.querySelectorAll('#inst th button')].find((b) => b.textContent === 'Retains')"
# Counts from now on how often a word begins a question.
COUNT = """(() => {{ const own = window.fetch; window.counted = 0;
    window.fetch = (path, it) => {{ if (it && String(it.body).startsWith('{} ')) window.counted++; return own(path, it); }}; }})()"""


def below(asked, node, at):
    """Returns the rows that have to stand below an object."""
    return [[id, name, f"{int(objects):,}", f"{int(size):,}"] for id, objects, size, name in asked(f"dominators {at} {node}")]


def found_below(asked, node, at):
    """Returns the objects that have to stand below an object, by the immediate dominator of each object of the heap."""
    above = {words[0]: asked(f"dominator {at} {words[0]}") for words in asked(f"objects {at}")}
    return {id for id, rows in above.items() if rows and rows[0][0] == node}


def tree(tab, heap):
    """The tree of the heap of the leak, by clicks and by keys, now and at another place."""
    asked = heap.rows
    tops = [[id, name, f"{int(objects):,}", f"{int(size):,}"] for id, objects, size, name in asked(f"dominators @{NEWEST} 20")]
    wanted = below(asked, TABLE, f"@{NEWEST}")
    tab.wait("document.querySelectorAll('#tops tbody tr').length > 0 && heapdbg.S.tops.place === heapdbg.S.shown")
    tab.click_on(row("tops", TABLE) + ".querySelector('.twist')")
    tab.wait(f"document.querySelectorAll('#tops tbody tr').length === {len(tops) + len(wanted)}")
    yield "what an object dominates", tab.value(CELLS.format("tops")), [tops[0], *wanted, *tops[1:]]
    yield "no object is picked by that", tab.value("heapdbg.S.sel"), None
    whole = sum(int(words[1]) for words in asked(f"histogram @{NEWEST}"))
    sizes = [int(words[3].replace(",", "")) for words in [tops[0], *wanted, *tops[1:]]]
    yield "the bars", [round(found, 1) for found in tab.value(BARS)], [round(WIDE * size / whole, 1) for size in sizes]
    yield from keys(tab, asked, wanted)
    on_line(tab, FROM)
    at_place(tab, FROM)
    tab.wait(f"heapdbg.S.tops.place === {FROM} && heapdbg.S.kids.get('{TABLE}').place === {FROM}")
    past = below(asked, TABLE, f"@{FROM}")
    found = tab.value(CELLS.format("tops"))
    yield "the same at another place", [words for words in found if words in past], past
    tab.key("l")
    at_place(tab, NEWEST)


def keys(tab, asked, wanted):
    """The keys of the tree, from the row of the open object."""
    first = wanted[0][0]
    tab.value(f"({row('tops', TABLE)}).focus()")
    tab.key("ArrowRight")
    yield "right goes to what is below", tab.value(FOCUS), first
    tab.key("ArrowRight")
    tab.wait(f"heapdbg.S.kids.has('{first}')")
    more = below(asked, first, f"@{NEWEST}")
    tab.wait(f"({LEVELS}).filter((r) => r[0] === '3').length === {len(more)}")
    rows = [["3", "false" if int(words[2]) > 1 else None, words[0]] for words in more]
    yield "right opens", [words for words in tab.value(LEVELS) if words[0] == "3"], rows
    yield "the focus stays", tab.value(FOCUS), first
    tab.key("ArrowLeft")
    yield "left closes", tab.value(LEVELS)[1], ["2", "false", first]
    tab.key("ArrowLeft")
    yield "left goes to what is above", tab.value(FOCUS), TABLE
    yield "the place is the same", tab.value("heapdbg.S.at"), None


def shapes(program):
    """Objects that are dominated and not named, named and not dominated, and many that hang below an object."""
    with Heap(program, SHAPE) as heap:
        tab = opened(heap)
        try:
            at = f"@{heap.rows('status')[0][1]}"
            pair, array = (id for _, _, id, *_ in (heap.rows("registers -")[slot] for slot in (0, 5)))
            tab.wait("document.querySelectorAll('#tops tbody tr').length > 0")
            tab.click_on(row("tops", pair) + ".querySelector('.twist')")
            tab.wait(f"({LEVELS}).filter((r) => r[0] === '2').length === 3")
            yield "what is dominated and not named", {words[2] for words in tab.value(LEVELS) if words[0] == "2"}, found_below(heap.rows, pair, at)
            tab.click_on(row("tops", array) + ".querySelector('.twist')")
            tab.wait(f"document.querySelector('#tops tbody').textContent.includes('… {30 - TOGETHER} more objects')")
            known = [words[0] for words in below(heap.rows, array, at)]
            yield "all that hang below the array", set(known), found_below(heap.rows, array, at)
            yield "the first of many", [words[2] for words in tab.value(LEVELS) if words[2] in known], known[:TOGETHER]
            tab.click_on("[...document.querySelectorAll('#tops tbody tr')].find((r) => r.textContent.startsWith('…'))")
            tab.wait("!document.querySelector('#tops tbody').textContent.includes('more objects')")
            yield "all of them", [words[2] for words in tab.value(LEVELS) if words[2] in known], known
            yield "complaints of the browser", tab.faults(), []
        finally:
            tab.close()


def held(heap, at, number):
    """Returns what each object of a class dominates, in bytes, and what the page has to show for that, or what it shows of an object
    that no register reaches."""
    found = {}
    for id, *words in heap.rows(f"objects {at} {number}"):
        lost = words[-1] == "unreached"
        found[id] = "·" if lost else f"{sum(int(row[1]) for row in heap.rows(f'retained {at} {id}')):,}"
    return found


def beside(tab, heap):
    """What the objects of a class dominate, beside them: at the newest place and another, and sorted by it."""
    tab.click_on(row("classes", CLASS))
    for place in (FROM, NEWEST):
        if place == FROM:
            on_line(tab, FROM)
        else:
            tab.key("l")
        at_place(tab, place)
        tab.wait(f"({SEEN}).length > 3 && heapdbg.S.sizes.place === {place} && ({SEEN}).every((r) => heapdbg.S.sizes.of.has(r[0]) || r[1] === '·')")
        wanted = held(heap, f"@{place}", NUMBER)
        yield f"what the objects in sight dominate at {place}", [found for found in tab.value(SEEN) if wanted[found[0]] != found[1]], []
    tab.click_on(HEAD)
    order = sorted((0 if size == "·" else int(size.replace(",", "")) for size in wanted.values()), reverse=True)
    for name, expected in (("descending", order), ("ascending", order[::-1])):
        sizes = f"Object.values({RETAINS}).map((t) => t === '·' ? 0 : Number(t.replace(/,/g, '')))"
        tab.wait(f"({sizes}).join() === '{','.join(map(str, expected))}'")
        yield f"sorted by it, {name}", tab.value(RETAINS), wanted
        yield f"its heading, {name}", tab.value(f"({HEAD}).parentElement.getAttribute('aria-sort')"), name
        tab.click_on(HEAD)
    yield "how many sizes differ", len(set(order)) > 2, True
    tab.click_on(row("classes", CLASS))


def sparing(program):
    """A list of which a part can be seen: nothing is asked of the others."""
    with Heap(program, nodes(1000)) as heap:
        tab = opened(heap)
        try:
            tab.value(COUNT.format("retained"))
            tab.click_on(row("classes", "Node"))
            tab.wait("document.querySelectorAll('#inst tbody tr').length === 200")
            tab.wait(f"({SEEN}).every((r) => heapdbg.S.sizes.of.has(r[0]))")
            yield "how often it is asked what an object dominates", tab.value(f"window.counted <= ({SEEN}).length"), True
            before = tab.value("window.counted")
            tab.value("document.getElementById('inst').parentElement.scrollTop = 2000")
            tab.wait(f"heapdbg.S.sizes.of.size > {before} && ({SEEN}).every((r) => heapdbg.S.sizes.of.has(r[0]))")
            wanted = [[id, f"{sum(int(words[1]) for words in heap.rows(f'retained - {id}')):,}"] for id, _ in tab.value(SEEN)]
            yield "what is scrolled into sight", tab.value(SEEN), wanted
            yield "how often it is asked then", tab.value(f"window.counted <= {before} + ({SEEN}).length"), True
            yield "complaints of the browser", tab.faults(), []
        finally:
            tab.close()


def all_of(program):
    """All of these."""
    with Heap(program, STORY.read_bytes()) as heap:
        tab = opened(heap)
        try:
            yield from tree(tab, heap)
            yield from beside(tab, heap)
            yield "complaints of the browser", tab.faults(), []
        finally:
            tab.close()
    yield from shapes(program)
    yield from sparing(program)
