#!/usr/bin/env python3
"""Measures the page of a served heap in Chromium: `page.py [PROGRAM]`. PROGRAM is `bin/heapdbg` if it isn't given.

The heap is a list of 65,000 nodes of two slots, with 65,536 retained steps. Prints how long it takes, in milliseconds, from the
navigation until the whole page has been drawn for the first time, from a click on the time line until the heap at that place is
shown, and from a click on an object of the list until it is shown; and the same for the answers that make up a look, without a
browser. Medians, each with its slowest. Says in one line if no browser is there. With CHECK=1 the status is 1 if the first two
medians are not below FIRST and MOVE."""
import http.client
import os
import pathlib
import statistics
import sys
import time

TOP = pathlib.Path(__file__).resolve().parent.parent
sys.path[:0] = [str(TOP / part) for part in ("checks", "checks/page", "checks/model")]

import browser  # noqa: E402
from paged import Heap, nodes  # noqa: E402

NODES, KEEP, TRIES = 65_000, 65_536, 9
FIRST, MOVE = 300, 100
LINES = ("status", "histogram -", "objects -", "cells", "classes -", "registers -", "pins", "history 400", "history 65536")
SHOWN = "performance.getEntriesByName('shown').length > 0 && document.documentElement.dataset.ready === '1'"


def told(name, times):
    """Prints a median and the slowest."""
    print(f"{name}: {statistics.median(times):.0f} ms, at most {max(times):.0f}")
    return statistics.median(times)


def answers(heap):
    """Measures what a look asks, one after another over one connection."""
    client = http.client.HTTPConnection("127.0.0.1", heap.port)
    for line in LINES:
        times = []
        for _ in range(TRIES):
            began = time.perf_counter()
            client.request("POST", "/ask", line, {"X-Heapdbg-Key": heap.key})
            size = len(client.getresponse().read())
            times.append(1000 * (time.perf_counter() - began))
        print(f"  {line}: {statistics.median(times):.1f} ms, {size:,} bytes")


def first_sights(tab, heap):
    """Returns how long the page took, opened again and again."""
    times = []
    for _ in range(TRIES):
        tab.open("about:blank")
        tab.open(heap.address)
        tab.wait(SHOWN)
        times.append(tab.value("performance.getEntriesByName('shown')[0].startTime"))
        time.sleep(0.5)
    return times


def moves(tab):
    """Returns how long it took until other places were shown."""
    left, top, width, height = tab.box("document.getElementById('line')")
    times = []
    tab.wait("heapdbg.S.whole")
    time.sleep(3)
    for turn in range(TRIES + 2):
        tab.click(left + width * (turn + 1) / (TRIES + 3), top + height / 2)
        tab.wait("heapdbg.S.took.place === heapdbg.S.at")
        times.append(tab.value("heapdbg.S.took.ms"))
        time.sleep(0.2)
    return times[2:]


def picks(tab):
    """Returns how long it took until objects that a click picked were shown."""
    times = []
    tab.value("document.querySelector('#classes tbody tr').click()")
    for turn in range(TRIES):
        times.append(tab.value(f"""(async () => {{ const began = performance.now();
            await heapdbg.pick(document.querySelectorAll('#inst tbody tr')[{turn + 3}].dataset.row); return performance.now() - began; }})()"""))
    return times


def main(program):
    """Returns the exit status."""
    path = browser.found()
    with Heap(program, nodes(NODES), "--regions", "256", keep=KEEP) as heap:
        print(f"answers about {NODES:,} objects:")
        answers(heap)
        if path is None:
            print("bench/page.py: no browser is here, so the page itself wasn't measured")
            return 0
        tab = browser.Browser(path)
        # The browser needn't keep what is sent: nobody asks for it.
        tab.call("Network.disable")
        try:
            first = told("the first sight of the page", first_sights(tab, heap))
            move = told("a move of the handle", moves(tab))
            told("an object picked", picks(tab))
        finally:
            tab.close()
    return int(os.environ.get("CHECK") == "1" and (first >= FIRST or move >= MOVE))


if __name__ == "__main__":
    sys.exit(main(os.path.abspath(sys.argv[1] if sys.argv[1:] else "bin/heapdbg")))
