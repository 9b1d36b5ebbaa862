"""The page of heaps that are large or busy, in a browser.

Each function yields what is done, what is seen, and what has to be."""
import contextlib
import threading
import time

from clicks import CELLS, LEAKED, STORY, opened, row
from paged import Heap, nodes

# How long a click may take, in seconds, and how many lines a second change the busy heap.
AT_ONCE, RATE = 1, 100_000
# The objects of a heap whose regions are all full.
FULL = 65_536
# Objects of classes and arrays of several lengths, some of which no register names in the end; and what the page has to show of them.
MIXED = b"""class A - x:int y:byte z:long
new 0 0 0
new 0 1 0
newprim 0 1 byte 5
newprim 0 1 byte 9
newprim 0 2 int 3
newprim 0 3 long 100
newprim 0 3 int 7
newprim 0 4 byte 0
newprim 0 4 int 2
"""
MIXED_ROWS = [["long[]", "1", "800", "1"], ["int[]", "3", "48", "·"], ["A", "2", "26", "1"], ["byte[]", "3", "14", "2"]]
MIXED_LOST = "818"
# A class with the name of the arrays of bytes, and the bytes that no register reaches: one object of the class, and no array.
ALIKE = b"""class byte[] - x:long
newprim 0 0 byte 3
new 0 1 0
clear 0 1
"""
ALIKE_LOST = "8"
# Regions as the page is given them: all cells of 4,096 regions, whose classes and sizes differ.
MANY = """(() => {
  const rows = [], names = ["A", "B", "C"];
  for (let n = 0; n < 4096; n++) {
    const size = [4, 16, 64][n % 3];
    for (let k = 0; k < 1024 / size; k++)
      rows.push(`row 0x${(0x10000000 + n * 8192 + k * size * 8).toString(16)} ${names[(n + k) % 3]} ${size}${k % 5 ? "" : " unreached"}`);
  }
  names.forEach((name, i) => heapdbg.S.color.set(name, ["#4269d0", "#efb118", "#ff725c"][i]));
  heapdbg.S.regions = heapdbg.regionsOf(new TextEncoder().encode(rows.join("\\n") + "\\nok " + rows.length + "\\n")).regions;
  heapdbg.M.fresh = true;
  return rows.length;
})()"""
# Draws an object in a cell of three regions, and returns the regions that the map has, and what it says of the last.
LARGE = """(() => {
  const { S, M } = heapdbg, rows = ["row 0x10000000 A 4", "row 0x1000a000 B 3000 unreached"];
  S.regions = heapdbg.regionsOf(new TextEncoder().encode(rows.join("\\n") + "\\nok 2\\n")).regions;
  M.fresh = true;
  heapdbg.drawMap();
  return [M.list.map((g) => g.number), heapdbg.cellText({ g: M.list[3], cell: 0 }).split("\\n")];
})()"""
# Draws the map at a zoom, and returns how many regions were drawn, and how long that took.
DRAW = """(() => {{
  const {{ M }} = heapdbg;
  M.zoom = {0};
  M.x = M.w * .4;
  M.y = M.h * .6;
  const began = performance.now();
  heapdbg.drawMap();
  return [M.drawn, performance.now() - began];
}})()"""
# The middle of a cell, as the map has it, in the window.
SPOT = """(() => {{
  const {{ M, originOf }} = heapdbg, r = document.getElementById("map").getBoundingClientRect(), i = M.spot.get({0}), [x, y] = originOf(i),
    per = 1024 / M.lines, word = {1} * M.list[i].size;
  return [r.left + x + (word % per + M.list[i].size / 2) * M.unit * M.zoom, r.top + y + (Math.floor(word / per) + .5) * M.lh * M.zoom];
}})()"""
TIP = "document.getElementById('maptip').innerText"


def zoomed(tab, region, cell, words, picked=True):
    """Turns the wheel over a cell until it is large, and looks what the page says of it."""
    tab.key("0")
    for turns in range(60):
        x, y = tab.value(SPOT.format(region, cell))
        if tab.value("heapdbg.M.zoom >= heapdbg.M.most * .99"):
            break
        tab.wheel(x, y, -120)
        tab.wait(f"heapdbg.M.zoom > {1.2 ** turns:.3f}")
    tab.mouse("mouseMoved", x, y)
    said = tab.value(TIP)
    for word in words:
        yield f"region {region}, cell {cell}: {word}", word in said, True
    wide = tab.value(f"heapdbg.M.list.find((g) => g.number === {region}).size * heapdbg.M.unit * heapdbg.M.zoom")
    yield f"the cell {cell} of region {region} fills the map", wide > 80 and tab.value("heapdbg.M.drawn") < 8, True
    if not picked:
        return
    tab.click(x, y)
    tab.wait("document.querySelector('#insp .t') !== null")
    yield f"region {region}, cell {cell}, picked", tab.value("document.querySelector('#insp .t').textContent") in words, True
    for name in ("zoomout", "zoomall"):
        before = tab.value("heapdbg.M.zoom")
        tab.click_on(f"document.getElementById('{name}')")
        yield f"{name}", tab.value("heapdbg.M.zoom") < before, True
    yield "all regions again", tab.value("heapdbg.M.zoom"), 1


def empty(program):
    """A heap without anything, which then has a class and an object, and ends."""
    with Heap(program, b"") as heap:
        tab = opened(heap)
        try:
            yield "nothing", tab.value("['place', 'objects', 'state'].map((name) => document.getElementById(name).textContent)"), ["@0", "0", "live"]
            for line in ("class Node - next:object", "new 0 0 0"):
                heap.say(line)
            tab.wait("document.getElementById('place').textContent === '@2' && document.querySelector('#classes tbody tr') !== null")
            yield "the first object", [tab.value("heapdbg.M.list.length"), *tab.value(CELLS.format("classes"))[0][:2]], [1, "Node", "1"]
            tab.key("ArrowLeft")
            tab.wait("heapdbg.S.shown === 1")
            yield "no object", tab.value("document.querySelectorAll('#classes tbody tr').length"), 0
            tab.key("l")
            yield "complaints of the browser", tab.faults(), []
            heap.client.close()
            tab.wait("document.getElementById('state').textContent === 'no connection'")
            yield "the end", True, True
        finally:
            tab.close()


def mixed(program):
    """A heap of several kinds of objects, some of them unreached."""
    with Heap(program, MIXED) as heap:
        tab = opened(heap)
        try:
            yield "several kinds of objects", tab.value(CELLS.format("classes")), MIXED_ROWS
            yield "the bytes that no register reaches", tab.value("document.getElementById('lostb').textContent"), MIXED_LOST
            yield "complaints of the browser", tab.faults(), []
        finally:
            tab.close()
    with Heap(program, ALIKE, "--wide", "1") as heap:
        tab = opened(heap)
        try:
            yield "bytes beside a class with the name of arrays", tab.value("document.getElementById('lostb').textContent"), ALIKE_LOST
        finally:
            tab.close()


def few(program):
    """A heap of five regions, and then the same function that draws them with 4,096."""
    with Heap(program, STORY.read_bytes()) as heap:
        tab = opened(heap)
        try:
            yield from small(tab)
            yield from scrolled(tab, heap)
            yield from many(tab)
            yield from large(tab)
            yield "complaints of the browser", tab.faults(), []
        finally:
            tab.close()


def small(tab):
    """The map of the leak's heap."""
    yield "the regions of a small heap", tab.value("heapdbg.M.list.length"), 5
    yield from zoomed(tab, 0, 2, ["region 0", "cell 2", LEAKED, "server/Session", "reached"])
    yield from zoomed(tab, 1, 0, ["region 1", "cell 0", "[server/Entry;", "8 slots"])
    # A cell of byte[] that no register reaches, and a free one.
    yield from pointed(tab, 2, 0, ["byte[]", "0x10004000", "no register reaches it"])
    yield from pointed(tab, 1, 5, ["free", "0x10002280"])


def scrolled(tab, heap):
    """A list that isn't at its beginning when the heap goes on."""
    tab.wait("document.getElementById('steps').scrollHeight > 600")
    tab.value("document.getElementById('steps').scrollTop = 150")
    tab.wait("document.getElementById('steps').hasAttribute('data-far')")
    heap.say("put 0 0 1 7")
    tab.wait("document.querySelector('#steps .now .p').textContent === '@2,026'")
    yield "the steps after the heap went on", tab.value("document.getElementById('steps').scrollTop"), 150


def pointed(tab, region, cell, words):
    """What the page says of a cell below the pointer."""
    tab.mouse("mouseMoved", *tab.value(SPOT.format(region, cell)))
    said = tab.value(TIP)
    for word in words:
        yield f"region {region}, cell {cell}: {word}", word in said or said, True


def many(tab):
    """The map of 4,096 regions."""
    yield "the cells of 4,096 regions", tab.value(MANY), sum(1024 // (4, 16, 64)[n % 3] for n in range(4096))
    tab.value(DRAW.format(1))
    for zoom, most in ((1, 4500), (3, 1000), (10, 150), (100, 12), (600, 6)):
        drawn, took = tab.value(DRAW.format(zoom))
        yield f"regions drawn at zoom {zoom}", 0 < drawn <= most or drawn, True
        yield f"drawn soon at zoom {zoom}", took < 250 or took, True
    yield from zoomed(tab, 4000, 10, ["region 4000", "cell 10 of 16 words", "0x%x" % (0x10000000 + 4000 * 8192 + 10 * 16 * 8)], picked=False)
    tab.key("0")


def large(tab):
    """The map of an object that takes three regions."""
    numbers, said = tab.value(LARGE)
    yield "the regions of a large object", numbers, [0, 5, 6, 7]
    yield "where it is", said[:2], ["regions 5 to 7, one cell of 3072 words", "B"]
    yield "its id and slots", said[2].startswith("0x1000a000, 3,000 slots") or said, True


def full(program):
    """A heap of 256 full regions."""
    with Heap(program, nodes(FULL), "--regions", "256", keep=65_536) as heap:
        tab = opened(heap)
        try:
            yield "the objects of a full heap", tab.value("[heapdbg.M.list.length, document.getElementById('objects').textContent]"), [256, "65,536"]
            yield from zoomed(tab, 200, 77, ["region 200", "cell 77", "0x%x" % (0x10000000 + 200 * 8192 + 77 * 32), "Node", "2 slots"])
            yield "a click", quick(tab, row("classes", "Node"), "document.querySelectorAll('#inst tbody tr').length === 200"), True
            yield "an object", quick(tab, "document.querySelector('#inst tbody tr')", "document.querySelector('#insp .path') !== null", 5), True
            heap.say("put 0 1 1 7")
            tab.wait("heapdbg.S.shown === %s" % heap.rows("status")[0][1])
            yield "a full heap is followed", True, True
            yield "complaints of the browser", tab.faults(), []
        finally:
            tab.close()


def quick(tab, element, done, limit=AT_ONCE):
    """Clicks on an element, and returns whether something is soon so."""
    x, y = tab.middle(element)
    began = time.monotonic()
    tab.click(x, y)
    tab.wait(done)
    return time.monotonic() - began < limit or f"{time.monotonic() - began:.2f} s"


@contextlib.contextmanager
def changed(heap):
    """Has a client change a heap, RATE lines a second, until it is left. Gives a list of how many lines were done and a second's."""
    ended, done = threading.Event(), []
    part = b"".join(b"put 0 0 1 %d\n" % k if k % 50 else b"new 0 0 0\n" for k in range(1, RATE // 100))
    client = heap.server.client()

    def read():
        with contextlib.suppress(OSError):
            while come := client.recv(1 << 20):
                done.append(come.count(b"\n"))

    def write():
        next_at, count = time.monotonic(), 0
        while not ended.is_set():
            count += 1
            client.sendall(part + (b"snap\n" if count % 100 == 0 else b"put 0 0 1 0\n"))
            next_at += 0.01
            time.sleep(max(0, next_at - time.monotonic()))

    threads = [threading.Thread(target=act) for act in (read, write)]
    for thread in threads:
        thread.start()
    try:
        yield done
    finally:
        ended.set()
        threads[1].join()
        client.close()
        threads[0].join()


def busy(program):
    """A heap that changes all the time."""
    with Heap(program, nodes(1000), "--regions", "256", "--workers", "1", "--roll", "1", sessions=2) as heap, changed(heap) as done:
        tab = opened(heap)
        try:
            places, began, before = [], time.monotonic(), sum(done)
            for _ in range(6):
                places.append(tab.value("heapdbg.S.shown"))
                tab.wait(f"heapdbg.S.shown > {places[-1]}", 5)
            yield "live follows", places == sorted(set(places)), True
            yield "a class", quick(tab, row("classes", "Node"), "document.querySelectorAll('#inst tbody tr').length > 100"), True
            picked = "document.querySelector('#insp .t, #insp .empty') !== null && heapdbg.S.sel !== null"
            yield "an object", quick(tab, "document.querySelector('#inst tbody tr')", picked), True
            yield "colours by age", quick(tab, "document.getElementById('byage')", "heapdbg.S.by === 'age'"), True
            yield "a comparison", quick(tab, "document.getElementById('setbase')", "true"), True
            tab.click_on("document.getElementById('q')")
            tab.call("Input.insertText", text="status")
            asked = time.monotonic()
            tab.key("Enter")
            tab.wait("document.getElementById('log').innerText.includes('ok 8')")
            yield "a question", time.monotonic() - asked < AT_ONCE, True
            last = tab.value("heapdbg.S.shown")
            tab.wait(f"heapdbg.S.shown > {last} && heapdbg.S.at === null", 10)
            yield "live still follows", True, True
            rate = (sum(done) - before) / (time.monotonic() - began)
            yield "lines a second", rate > RATE / 4 or rate, True
            yield "complaints of the browser", tab.faults(), []
        finally:
            tab.close()
