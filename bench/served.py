#!/usr/bin/env python3
"""Measures a served heap: `served.py [PROGRAM]`. PROGRAM is `bin/heapdbg` if it isn't given.

Four clients send `put` lines to a heap of 20,000 nodes: alone, while cycles run one after another, and while dumps are fetched one
after another; prints the acts a second of all four. Then prints how many MB a second `fetch` takes of a heap of 60,000 nodes, `save` of
the session that makes it, without the session, and a copy of the file. Medians of five, in memory if TMPDIR=/dev/shm."""
import contextlib
import os
import pathlib
import shutil
import socket
import statistics
import subprocess
import sys
import tempfile
import threading
import time

TOP = pathlib.Path(__file__).resolve().parent.parent
sys.path.append(str(TOP / "checks"))

from servers import DumpServer  # noqa: E402

NODES, MANY_NODES, PUTS, RUNS = 20_000, 60_000, 150_000, 5
OPTIONS = ["--regions", "256", "--keep", "1"]


def made(nodes):
    """Returns the lines that make a list of nodes."""
    return b"class Node - next:object v:long\n" + b"new 0 0 0\nstore 0 0 0 1\nmove 0 1 0 0\n" * nodes


def told(port, lines):
    """Sends lines to a session and reads all replies."""
    with socket.create_connection(("127.0.0.1", port)) as client:
        sender = threading.Thread(target=client.sendall, args=(lines + b"end\n",))
        sender.start()
        while client.recv(1 << 20):
            pass
        sender.join()


@contextlib.contextmanager
def served(program, sessions, nodes):
    """Serves a heap with workers and dumps, on which one session has made the nodes. Gives its two ports."""
    with DumpServer(program, sessions, "--workers", "1", *OPTIONS, stdout=subprocess.DEVNULL, stderr=None) as server:
        server.waits()
        told(server.port, made(nodes))
        yield server.port, server.dumps
        server.run.wait()


def puts(program, port, folder):
    """Returns how many acts a second four clients do together."""
    lines = pathlib.Path(folder, "puts")
    lines.write_bytes(b"".join(b"put 0 0 1 %d\n" % number for number in range(PUTS)))
    start = time.monotonic()
    asks = [subprocess.Popen([program, "ask", "--port", str(port)], stdin=lines.open(), stdout=subprocess.DEVNULL) for _ in range(4)]
    for ask in asks:
        ask.wait()
    return 4 * PUTS / (time.monotonic() - start)


def again(act):
    """Begins a thread that does an act again and again. Returns what ends it."""
    ended = threading.Event()

    def repeat():
        while not ended.is_set():
            act()

    thread = threading.Thread(target=repeat)
    thread.start()

    def end():
        ended.set()
        thread.join()

    return end


def snap(client):
    """Begins a cycle, and gives the workers a moment."""
    client.sendall(b"snap\n")
    client.recv(100)
    time.sleep(0.01)


def fetched(program, port, path):
    """Fetches a dump. Returns how long that took."""
    start = time.monotonic()
    subprocess.run([program, "fetch", "--port", str(port), "--out", path], stdout=subprocess.DEVNULL, check=True)
    return time.monotonic() - start


def saved(program, path, words):
    """Returns how long a session of the nodes takes with these words."""
    start = time.monotonic()
    subprocess.run([program, *words, *OPTIONS], input=made(MANY_NODES), stdout=subprocess.DEVNULL, check=True)
    return time.monotonic() - start


def copied(path, other):
    """Copies a file. Returns how long that took."""
    start = time.monotonic()
    shutil.copyfile(path, other)
    return time.monotonic() - start


def acts(program, folder, beside):
    """Returns the median of how many acts a second four clients do together, while something else is done again and again with the
    client of a fifth session and the port for dumps."""
    found = []
    for _ in range(RUNS):
        with served(program, 6, NODES) as (port, dumps), socket.create_connection(("127.0.0.1", port)) as client:
            end = again(lambda: beside(client, dumps))
            found.append(puts(program, port, folder))
            end()
    return statistics.median(found)


def main(program):
    """Prints a line for each figure."""
    with tempfile.TemporaryDirectory() as folder:
        path = os.path.join(folder, "heap.hprof")
        print(f"four clients alone: {acts(program, folder, lambda client, port: time.sleep(0.1)):,.0f} acts a second")
        print(f"beside cycles: {acts(program, folder, lambda client, port: snap(client)):,.0f}")
        print(f"beside dumps: {acts(program, folder, lambda client, port: fetched(program, port, path)):,.0f}")
        with served(program, 2, MANY_NODES) as (port, dumps):
            times = [fetched(program, dumps, path) for _ in range(RUNS)]
            size = os.path.getsize(path)
            told(port, b"")
        without = statistics.median(saved(program, path, ["run"]) for _ in range(RUNS))
        saves = [saved(program, path, ["save", "--out", path]) - without for _ in range(RUNS)]
        copies = [copied(path, path + "2") for _ in range(RUNS)]
        told_all = (("fetch", times), ("save", saves), ("copy", copies))
        print(f"{size:,} bytes; " + ", ".join(f"{name} {size / statistics.median(found) / 1e6:,.0f} MB/s" for name, found in told_all))


if __name__ == "__main__":
    main(os.path.abspath(sys.argv[1]) if len(sys.argv) > 1 else str(TOP / "bin/heapdbg"))
