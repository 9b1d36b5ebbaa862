"""The pictures of README and HUNT: what the page shows of the hunt, from the program."""
import struct
import zlib

from clicks import CLASS, CLOSED, FROM, LEAKED, TO, at_place, opened, row

INSPECTED = f"/@{CLOSED:,}/.test(document.getElementById('insp').innerText) && /retains [0-9]/.test(document.getElementById('insp').innerText)"

# Whether what each object of the list dominates is known, as far as the list can be seen without scrolling.
SIZED = "heapdbg.S.sizes.place === heapdbg.S.shown && ![...document.querySelectorAll('#inst tbody tr')].slice(0, 8).some((r) => r.cells[2].textContent === '…')"


def chunks(png):
    """Yields the chunks of a PNG: the name and the bytes of each."""
    at = 8
    while at < len(png):
        size, name = struct.unpack(">I4s", png[at : at + 8])
        yield name, png[at + 8 : at + 8 + size]
        at += 12 + size


def paeth(left, above, corner):
    """Returns the byte of three that is nearest to left + above - corner."""
    guess = left + above - corner
    return min((left, above, corner), key=lambda byte: abs(guess - byte))


def plain(kind, line, before, step):
    """Returns a line of a PNG without its filter."""
    for i in range(len(line)):
        left, corner = (line[i - step], before[i - step]) if i >= step else (0, 0)
        line[i] = line[i] + (0, left, before[i], (left + before[i]) // 2, paeth(left, before[i], corner))[kind] & 255
    return line


def smaller(png):
    """Returns a PNG with 3 bytes a point whose lines have no filter: a page of text is smaller so."""
    parts = list(chunks(png))
    head = dict(parts)[b"IHDR"]
    width, height, *form = struct.unpack(">II5B", head)
    if form != [8, 2, 0, 0, 0]:
        return png
    raw = zlib.decompress(b"".join(data for name, data in parts if name == b"IDAT"))
    before, lines = bytearray(3 * width), []
    for at in range(0, len(raw), 3 * width + 1):
        before = plain(raw[at], bytearray(raw[at + 1 : at + 3 * width + 1]), before, 3)
        lines.append(b"\0" + before)
    kept = [(b"IHDR", head), (b"IDAT", zlib.compress(b"".join(lines), 9)), (b"IEND", b"")]
    return png[:8] + b"".join(struct.pack(">I", len(data)) + name + data + struct.pack(">I", zlib.crc32(name + data)) for name, data in kept)


def taken(tab, path):
    """Leaves what a tab shows."""
    tab.mouse("mouseMoved", 2, 2)
    tab.picture(path)
    path.write_bytes(smaller(path.read_bytes()))


def take(heap, folder):
    """Leaves the pictures: the page as it is at first, with an object; what grew; an object that leaked; and the step that lost it."""
    tab = opened(heap, width=1400, height=800)
    try:
        tab.wait("heapdbg.S.samples.size > 60")
        tab.value(f"heapdbg.pick('{LEAKED}')")
        tab.wait(INSPECTED)
        taken(tab, folder / "page.png")
    finally:
        tab.close()
    tab = opened(heap, width=1400, height=730)
    try:
        tab.wait("heapdbg.S.samples.size > 60")
        tab.click_on("document.getElementById('cycles')")
        at_place(tab, TO, FROM)
        tab.click_on(row("classes", CLASS))
        tab.wait("document.querySelectorAll('#inst tbody tr').length === 12")
        tab.wait(SIZED)
        taken(tab, folder / "hunt-growth.png")
        tab.click_on(row("inst", LEAKED))
        tab.wait(INSPECTED)
        tab.click_on("document.getElementById('zoomcell')")
        taken(tab, folder / "hunt-object.png")
        tab.click_on("document.getElementById('zoomall')")
        tab.click_on(f"[...document.querySelectorAll('#insp a')].find((a) => a.textContent === '@{CLOSED:,}')")
        at_place(tab, CLOSED, FROM)
        tab.wait(f"document.getElementById('inspnote').textContent.endsWith('@{CLOSED:,}')")
        tab.wait(INSPECTED)
        tab.wait(SIZED)
        taken(tab, folder / "hunt-steps.png")
    finally:
        tab.close()
