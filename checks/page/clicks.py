"""The leak hunt on the page by clicks, beside what `explore` answers; the same by keys; and narrow windows.

Each function is given a tab that shows the heap of examples/leak.session, and yields what is done, what is seen, and what has to be."""
import pathlib
import subprocess
import tempfile

import browser
from paged import KEEP
from segments import Dump
from servers import LIMIT

TOP = pathlib.Path(__file__).resolve().parent.parent.parent
STORY = TOP / "examples/leak.session"
LEAKED, CLASS = "0x10000040", "server/Session"
# The ends of the two cycles, the step that closed the session that leaked, and the newest place.
FROM, TO, CLOSED, NEWEST = 816, 1637, 1507, 2025
# What registers held that the steps after it cleared, the newest step first.
AFTER = ((4, "0x10000900"), (3, "0x10000020"), (2, "0x10004e00"), (1, LEAKED))
ROWS = "[...document.querySelectorAll('#{} tbody tr')]"
# Whether an element is large enough to be used, and no part of it is beside the window.
INSIDE = """(() => {{ const r = document.getElementById('{}').getBoundingClientRect();
    return r.width > 100 && r.height > 10 && r.left >= 0 && r.right <= innerWidth; }})()"""
CELLS = ROWS + ".map((r) => [...r.cells].map((c) => c.textContent))"


def explored(program, lines):
    """Returns the rows that `explore` answers to each question about the heap of the leak."""
    words = [program, "explore", "--keep", str(KEEP), "--from", str(STORY)]
    text = "".join(line + "\n" for line in lines).encode()
    came = subprocess.run(words, input=text, capture_output=True, check=True, timeout=LIMIT).stdout.decode()
    found, rows = [], []
    for line in came.splitlines():
        if line.startswith("row "):
            rows.append(line.split()[1:])
        else:
            found.append((rows, line))
            rows = []
    return dict(zip(lines, found))


def opened(heap, **settings):
    """Returns a browser whose tab shows a heap."""
    tab = browser.Browser(browser.found(), **settings)
    tab.open(heap.address)
    tab.wait("document.documentElement.dataset.ready === '1'")
    return tab


def at_place(tab, place, base=None):
    """Waits until the page shows a place, compared with another or with none."""
    tab.wait(f"heapdbg.S.shown === {place} && heapdbg.S.base === {'null' if base is None else base}")
    tab.wait(f"document.getElementById('place').textContent === '@{place:,}'")


def on_line(tab, place):
    """Clicks on the time line at a place."""
    left, top, width, height = tab.box("document.getElementById('line')")
    oldest, newest = tab.value("[heapdbg.S.oldest, heapdbg.S.place]")
    tab.click(left + 8 + (width - 16) * (place - oldest) / (newest - oldest), top + height / 2)


def row(table, word):
    """Returns the script of the row that has a word."""
    return ROWS.format(table) + f".find((r) => r.textContent.includes('{word}'))"


def number(text):
    """Returns the number that the page shows so."""
    return 0 if text == "·" else int(text.replace(",", "").replace("+", "").replace("−", "-"))


def grown(told):
    """Returns the rows of the table of classes that answers make, of the heap at TO compared with FROM."""
    histogram, garbage, growth = (told[line][0] for line in (f"histogram @{TO}", f"garbage @{TO}", f"growth @{FROM} @{TO}"))
    lost = {name: int(objects) for objects, _, name in garbage}
    more = {name: (int(b) - int(a), int(d) - int(c)) for name, a, c, b, d in growth}
    return sorted([name, int(objects), int(size), lost.get(name, 0), *more.get(name, (0, 0))] for objects, size, name in histogram)


def topped(tab, told):
    """The objects through which most is reached, which are listed until a class is picked."""
    tab.wait("document.querySelectorAll('#tops tbody tr').length > 0")
    wanted = [[id, name, f"{int(objects):,}", f"{int(size):,}"] for id, objects, size, name in told[f"dominators @{NEWEST} 20"][0]]
    yield "through which most is reached", tab.value(CELLS.format("tops")), wanted
    tab.click_on(row("classes", CLASS))
    tab.wait("document.getElementById('tops').hidden")
    tab.click_on(row("classes", CLASS))
    tab.wait("!document.getElementById('tops').hidden")
    yield "the same once no class is picked", tab.value(CELLS.format("tops")), wanted


def hunt(tab, told):
    """The hunt, from the time line to the step that closed the session."""
    on_line(tab, FROM)
    at_place(tab, FROM)
    tab.click_on("document.getElementById('setbase')")
    at_place(tab, FROM, FROM)
    on_line(tab, TO)
    at_place(tab, TO, FROM)
    table = [[cells[0], *map(number, cells[1:])] for cells in tab.value(CELLS.format("classes"))]
    yield "the table of classes", sorted(table), grown(told)
    lost = told[f"garbage @{TO}"][1].split()[2]
    yield "the bytes that no register reaches", tab.value("document.getElementById('lostb').textContent"), f"{int(lost):,}"
    tab.click_on("[...document.querySelectorAll('#classes th button')].find((b) => b.textContent === 'Objects')")
    yield "the classes sorted by objects", [cells[1] for cells in tab.value(CELLS.format("classes"))], ["12", "12", "12", "1", "1"]
    tab.click_on(row("classes", CLASS))
    tab.wait(f"document.querySelectorAll('#inst tbody tr').length === {len(instances(told))}")
    listed = tab.value(CELLS.format("inst"))
    yield "the instances", sorted(cells[0] for cells in listed), sorted(instances(told))
    yield "when the leaked one was made", [cells[3] for cells in listed if cells[0] == LEAKED], ["@" + f"{int(told[f'born {LEAKED}'][1].split()[-1]):,}"]
    tab.click_on(row("inst", LEAKED))
    tab.wait(f"document.getElementById('insp').innerText.includes('@{CLOSED:,}')")
    yield from inspected(tab, told)
    tab.click_on(f"[...document.querySelectorAll('#insp a')].find((a) => a.textContent === '@{CLOSED:,}')")
    at_place(tab, CLOSED, FROM)
    yield "the step that closed it", steps(tab, ".now"), [f"@{CLOSED:,} put {LEAKED}.state = {told[f'show @{CLOSED} {LEAKED}'][0][1][3]} was 0"]
    yield "the steps after it", steps(tab, ".later"), [f"@{CLOSED + k:,} reg register {k + 1} of mutator 0 = null was {was}" for k, was in AFTER]
    for _ in range(2):
        tab.key("ArrowLeft", shift=True)
    at_place(tab, CLOSED - 20, FROM)
    yield "the steps after a request that ends well", steps(tab, ".later")[-3:], well(told)
    tab.key("ArrowRight", shift=True)
    tab.key("ArrowRight", shift=True)
    at_place(tab, CLOSED, FROM)


def steps(tab, kind):
    """Returns the texts of the steps of a kind that the page shows."""
    return tab.value(f"[...document.querySelectorAll('#steps {kind}')].map((r) => r.innerText.replace(/\\s+/g, ' ').trim())")


def well(told):
    """Returns the steps after the one that closed the session of the request before, the newest first: of 20 steps before CLOSED."""
    size, chain, register = told[f"show @{CLOSED - 17} 0x10000000"], told[f"show @{CLOSED - 18} 0x10002000"], told[f"registers @{CLOSED - 19}"]
    return [f"@1,490 put 0x10000000.size = {size[0][1][3]} was 12", f"@1,489 store 0x10002000[2] = {chain[0][2][3]} was 0x10000060",
            f"@1,488 reg register 6 of mutator 0 = {register[0][6][2]} was null"]


def instances(told):
    """Returns the ids of the sessions."""
    return [words[0] for words in told[f"objects @{TO}"][0] if words[1] == CLASS]


def inspected(tab, told):
    """What the page shows of the session that leaked."""
    fields = [cells[:3] for cells in tab.value("[...document.querySelectorAll('#insp table tbody tr')].map((r) => [...r.cells].map((c) => c.textContent))")]
    wanted = [[name, kind, value] for _, name, kind, value in told[f"show @{TO} {LEAKED}"][0]]
    yield "the fields", [[name, kind, value.split()[0]] for name, kind, value in fields], wanted
    _, objects, size = told[f"retained @{TO} {LEAKED}"][1].split()
    tab.wait("/[0-9]/.test(document.getElementById('retains').textContent)")
    yield "what it dominates", tab.value("document.getElementById('retains').textContent"), f"retains {objects} objects, {size} bytes"
    part = 100 * int(size) / int(told[f"histogram @{TO}"][1].split()[2])
    yield "the bar of what it dominates", round(float(tab.value("document.querySelector('#retains b').style.width")[:-1]), 2), round(part, 2)
    path, named = tab.value("[...document.querySelectorAll('#insp .path')].map((l) => [...l.querySelectorAll('.n')].map((n) => n.innerText))")
    first, *rest = told[f"path @{TO} {LEAKED}"][0]
    yield "the register of the path", path[0], f"register {first[1]} of mutator {first[0]}"
    yield "the path", [[word for word in line.split() if word.startswith("0x")] for line in path[1:]], [[first[2]], *([words[2]] for words in rest)]
    yield "the slots of the path", [line.split()[-1] for line in path[1:-1]], ["[3]", ".session"]
    yield "who names it", [line.split()[1] for line in named], [words[0] for words in told[f"referrers @{TO} {LEAKED}"][0]]


def saved(tab, program, heap):
    """Saves the dump of the shown place and of the heap as it is, and reads both."""
    for place, word in ((CLOSED, f"@{CLOSED}"), (heap.rows("status")[0][1], "-")):
        with tempfile.TemporaryDirectory() as name:
            file = tab.downloaded(pathlib.Path(name), lambda: tab.click_on("document.getElementById('save')"))
            text = file.read_bytes()
            yield f"the file's name at {word}", file.name, f"heap-{place}.hprof"
            yield f"the file's bytes at {word}", text == heap.dump(word), True
            yield f"the file's objects at {word}", f"{len(Dump(text).objects):,}", tab.value("document.getElementById('objects').textContent")
        tab.events.clear()
        tab.click_on("document.getElementById('golive')") if word != "-" else None
        tab.wait("heapdbg.S.at === null && heapdbg.S.shown === heapdbg.S.place")
    with tempfile.TemporaryDirectory() as name:
        words = [program, "save", "--keep", str(KEEP), "--out", f"{name}/own"]
        subprocess.run(words, input=STORY.read_bytes(), check=True, capture_output=True, timeout=LIMIT)
        yield "the file is what `save` writes", text == pathlib.Path(name, "own").read_bytes(), True


def keyed(tab):
    """The hunt by keys alone."""
    tab.key("b")
    tab.wait("heapdbg.S.base === null")
    tab.key("g")
    at_place(tab, TO, FROM)
    yield "growth by a key", tab.value(CELLS.format("classes"))[0][5], "+384"
    tab.value("document.querySelector('#classes tbody tr').focus()")
    tab.key("ArrowDown")
    yield "the focus moves", tab.value("document.activeElement.dataset.row"), "server/Entry"
    tab.key("ArrowDown")
    if not tab.value("heapdbg.S.klass"):
        tab.key("Enter")
    tab.wait("document.querySelectorAll('#inst tbody tr').length === 12")
    yield "the class is picked, and keeps the focus", tab.value("[heapdbg.S.klass, document.activeElement.dataset.row]"), [CLASS, CLASS]
    tab.value(f"({row('inst', LEAKED)}).focus()")
    tab.key("Enter")
    tab.wait(f"document.getElementById('insp').innerText.includes('@{CLOSED:,}')")
    tab.key("ArrowLeft")
    at_place(tab, TO - 1, FROM)
    tab.key("[")
    at_place(tab, FROM, FROM)
    tab.key("b")
    at_place(tab, FROM)
    tab.key("l")
    tab.wait("heapdbg.S.at === null && heapdbg.S.shown === heapdbg.S.place")
    tab.value("document.getElementById('map').focus()")
    for name in ("ArrowRight", "ArrowLeft", "Enter"):
        tab.key(name)
    yield "a cell by keys", tab.value("heapdbg.S.sel"), "0x10000020"
    tab.key("Backspace")
    yield "back", tab.value("heapdbg.S.sel"), LEAKED
    tab.key("z")
    yield "the cell by a key", tab.value("heapdbg.M.zoom") > 5, True
    tab.key("0")
    yield "all regions by a key", tab.value("heapdbg.M.zoom"), 1
    tab.key("?")
    yield "help", tab.value("document.getElementById('help').open"), True
    tab.click_on("document.querySelector('#help button')")


def asked(tab, heap):
    """A question, typed."""
    tab.click_on("document.getElementById('q')")
    tab.call("Input.insertText", text="growth @816 @1637")
    tab.key("Enter")
    tab.wait("document.getElementById('log').innerText.includes('ok 3')")
    yield "a question", tab.value("document.querySelector('#log .r').textContent"), heap.asked("growth @816 @1637").rstrip("\n")
    tab.key("Escape")
    yield "its answer is gone", tab.value("document.getElementById('log').hidden"), True


def narrow(tab):
    """Windows of several widths: nothing is wider, and all parts can be reached."""
    for width, height in ((1240, 800), (1000, 800), (680, 900), (400, 800)):
        tab.size(width, height)
        tab.wait(f"innerWidth === {width}")
        yield f"nothing is wider than {width} points", tab.value("document.documentElement.scrollWidth"), width
        for name in ("classes", "map", "steps", "insp", "q"):
            tab.wait(INSIDE.format(name))
            yield f"{name} at {width} points", True, True
        tab.click_on(row("classes", CLASS))
        tab.wait("document.querySelectorAll('#inst tbody tr').length > 11 || heapdbg.S.klass === null")
    tab.size(1600, 1000)


def questions():
    """Returns the questions whose answers the page has to show."""
    yield from (f"{line} @{TO}" for line in ("histogram", "garbage", "objects"))
    yield from (f"{word} @{TO} {LEAKED}" for word in ("show", "path", "referrers", "retained"))
    yield from (f"show @{CLOSED} {LEAKED}", f"show @{CLOSED - 17} 0x10000000", f"show @{CLOSED - 18} 0x10002000", f"registers @{CLOSED - 19}")
    yield from (f"growth @{FROM} @{TO}", f"born {LEAKED}", f"dominators @{NEWEST} 20")


def all_of(heap, program):
    """All of these."""
    told = explored(program, list(questions()))
    tab = opened(heap)
    try:
        yield "the first sight", tab.value(CELLS.format("classes") + ".map((r) => r[0] + ' ' + r[1])"), [
            "byte[] 32", "server/Entry 32", "server/Session 32", "[server/Entry; 1", "server/Cache 1"]
        yield from topped(tab, told)
        yield from hunt(tab, told)
        yield from saved(tab, program, heap)
        yield from keyed(tab)
        yield from asked(tab, heap)
        yield from narrow(tab)
        heap.say("put 0 0 1 7")
        tab.wait("document.getElementById('place').textContent === '@2,026'")
        yield "the page follows", True, True
        yield "complaints of the browser", tab.faults(), []
    finally:
        tab.close()
