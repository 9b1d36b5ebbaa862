#!/usr/bin/env python3
"""Asks the page of a served heap, well and ill, and that of `explore --page`, and looks at the first in a browser: `checks/page
PROGRAM [PICTURES]`.

Prints a line for each difference and ends with status 1 if there is one. Where no browser is, says so in one line, and goes by the
requests alone. With a folder for PICTURES it leaves what the browser showed."""
import contextlib
import pathlib
import socket
import sys
import threading
import time

TOP = pathlib.Path(__file__).resolve().parent.parent.parent
sys.path[:0] = [str(TOP / part) for part in ("checks", "checks/page", "checks/model")]

import browser  # noqa: E402
import clicks  # noqa: E402
import colours  # noqa: E402
import differences  # noqa: E402
import loads  # noqa: E402
import sizes  # noqa: E402
import slots  # noqa: E402
import writes  # noqa: E402
from asking import body_of, dumped  # noqa: E402
from explored import explored  # noqa: E402
from paged import KEEP, Heap  # noqa: E402
from machine import Machine  # noqa: E402
from pictures import take  # noqa: E402
from questions import Asking  # noqa: E402

LEAK = (TOP / "examples/leak.session").read_bytes()
PAGE = (TOP / "crates/heap_page/page/page.html").read_bytes()
# What is asked of the heap that LEAK leaves: each question with an answer of several rows, and each refusal.
ASKED = """histogram -, histogram @816, garbage -, garbage @1637, growth @816 @1637, registers -, registers @816, classes -,
    referrers - 0x10000020, path - 0x10000040, retained 0x10002000, retained @816 0x10002000, show - 0x10000040, show @1500 0x10000040 1 1,
    show @1500 0x10000040, born 0x10000040, wrote 0x10000040 1, dropped 0x10000040, history 3, history 4096, pins, objects -,
    objects @816, cells, path - 0x10000001, histogram 7, histogram @99999, show - 0x10000600""".replace("\n    ", " ").split(", ")


def statuses(heap):
    """Yields what is done, the status that comes of it, and the one that has to."""
    own, key = f"127.0.0.1:{heap.port}", heap.key
    yield "the page", heap.status("GET", "/"), 200
    yield "the page by the name of this computer", heap.status("GET", "/", host=f"localhost:{heap.port}"), 200
    yield "another name of the host", heap.status("GET", "/", host=f"attacker.example:{heap.port}"), 403
    yield "another port of the host", heap.status("GET", "/", host="127.0.0.1:1"), 403
    yield "no port of the host", heap.status("GET", "/", host="127.0.0.1"), 403
    yield "another server", heap.status("GET", "http://attacker.example/", host=own), 403
    yield "another path", heap.status("GET", "/page"), 404
    yield "a query", heap.status("GET", "/?a"), 404
    yield "a question with the key", heap.status(body=b"pins", X_Heapdbg_Key=key), 200
    yield "a question with no key", heap.status(body=b"pins"), 401
    yield "a question with another key", heap.status(body=b"pins", X_Heapdbg_Key="0" * 32), 401
    yield "a question of another page", heap.status(body=b"pins", X_Heapdbg_Key=key, Origin="http://attacker.example"), 403
    yield "a question of a page without a name", heap.status(body=b"pins", X_Heapdbg_Key=key, Origin="null"), 403
    yield "a question of the page", heap.status(body=b"pins", X_Heapdbg_Key=key, Origin=f"http://{own}"), 200
    yield "a question by GET", heap.status("GET", X_Heapdbg_Key=key), 405
    yield "a preflight", heap.status("OPTIONS", Origin="http://attacker.example", Access_Control_Request_Method="POST"), 403
    yield "a long body", heap.status(body=b"a" * 5000, X_Heapdbg_Key=key), 413
    yield "a long head", heap.status(X_Long="a" * 20000), 431
    yield "a line of a session", int(heap.sent(b"put 0 0 1 7\r\n\r\n").split(b" ")[1]), 400
    yield "two hosts", int(heap.sent(f"GET / HTTP/1.1\r\nHost: {own}\r\nHost: {own}\r\nConnection: close\r\n\r\n".encode()).split(b" ")[1]) in (400, 403), True
    yield "the page's head alone", heap.status("HEAD", "/"), 200
    yield "a dump with no key", heap.status(path="/dump", body=b"-"), 401
    yield "a dump of a word that names no state", heap.status(path="/dump", body=b"@", X_Heapdbg_Key=key), 400
    yield "a dump of a place that isn't retained", heap.status(path="/dump", body=b"@99999", X_Heapdbg_Key=key), 409
    yield "a dump of a pin that isn't open", heap.status(path="/dump", body=b"7", X_Heapdbg_Key=key), 409
    yield "no host", int(heap.sent(b"GET / HTTP/1.1\r\nConnection: close\r\n\r\n").split(b" ")[1]) in (400, 403), True


def framed(heap):
    """Yields what comes of requests whose bodies have other frames, or none that fits."""
    start = f"POST /ask HTTP/1.1\r\nHost: 127.0.0.1:{heap.port}\r\nX-Heapdbg-Key: {heap.key}\r\n"

    def status(rest, head=start):
        return int(heap.sent((head + rest).encode()).split(b" ", 2)[1])

    yield "a body in parts", status("Connection: close\r\nTransfer-Encoding: chunked\r\n\r\n2\r\npi\r\n2\r\nns\r\n0\r\n\r\n"), 200
    yield "two lengths", status("Content-Length: 4\r\nContent-Length: 5\r\n\r\npins"), 400
    yield "a length and parts", status("Content-Length: 4\r\nTransfer-Encoding: chunked\r\n\r\n0\r\n\r\n"), 400
    yield "a coding that isn't known", status("Transfer-Encoding: gzip, chunked\r\n\r\n0\r\n\r\n"), 501
    yield "a body whose end can't be known", status("Transfer-Encoding: gzip\r\n\r\n"), 400
    yield "seventy fields", status("".join(f"X-{k}: a\r\n" for k in range(70)) + "\r\n"), 431
    yield "a zero byte in a field", status("X: \0\r\n\r\n"), 400
    yield "HTTP/1.0", status("Content-Length: 4\r\n\r\npins", start.replace("1.1", "1.0")), 200
    three = (heap.head(body=b"pins", X_Heapdbg_Key=heap.key).replace(b"close", b"keep-alive") + b"pins") * 2 + heap.head(body=b"status", X_Heapdbg_Key=heap.key) + b"status"
    came = heap.sent(three)
    yield "three requests at once", (came.count(b"HTTP/1.1 200"), came.count(b"\r\n\r\nok 0\n"), came.endswith(b"ok 8\n")), (3, 2, True)


def modelled():
    """Returns a session of the model over the heap that LEAK leaves."""
    session = Asking(Machine(keep=KEEP))
    for line in LEAK.splitlines():
        session.answer(line)
    return session


def answers(heap):
    """Yields what is asked, what comes, and what has to."""
    model = modelled()
    for line in ASKED:
        yield line, heap.asked(line), model.answer(line.encode()).decode()
    place = model.machine.place
    status = heap.asked("status").splitlines()
    yield "status", status[:2], [f"row place {place}", f"row retained {place}"]
    yield "the end of status", status[-2:], [f"row acts {LEAK.count(bytes([10]))}", "ok 8"]
    for word, at in (("-", place), (f"@{place}", place), ("@816", 816), ("@1637", 1637), ("@0", 0)):
        yield f"the dump of {word}", heap.dump(word) == dumped(model.machine, at), True
    before = heap.asked("history 3")
    for line in ("put 0 0 1 7", "rewind 3", "collect", "open -", "dump -", "class A -", "end", ""):
        yield f"{line} changes nothing", heap.asked(line), "bad command\n"
    yield "the state after these", heap.asked("history 3"), before
    page = heap.request("GET", "/").split(b"\r\n\r\n", 1)
    yield "the page's bytes", page[1] == PAGE, True
    yield "no leave for others", b"access-control" in page[0].lower(), False


def ports(program):
    """Yields what is answered at the port that a browser doesn't name, if this port can be had."""
    try:
        socket.create_server(("127.0.0.1", 80)).close()
    except OSError:
        return
    with Heap(program, b"", port=80) as heap:
        for host in ("127.0.0.1", "localhost", "127.0.0.1:80", "localhost:80"):
            yield f"the host {host} of port 80", heap.status("GET", "/", host=host), 200
            yield f"a question of http://{host}", heap.status(body=b"pins", X_Heapdbg_Key=heap.key, host=host, Origin=f"http://{host}"), 200
        for host in ("127.0.0.1:8080", "attacker.example"):
            yield f"the host {host} of port 80", heap.status("GET", "/", host=host), 403
            yield f"a question of http://{host} at port 80", heap.status(body=b"pins", X_Heapdbg_Key=heap.key, host="127.0.0.1", Origin=f"http://{host}"), 403


def is_open(client):
    """Tells whether the other side of a connection hasn't closed."""
    client.setblocking(False)
    try:
        return client.recv(1, socket.MSG_PEEK) != b""
    except BlockingIOError:
        return True
    except ConnectionError:
        return False


def waits(heap, count):
    """Returns how long the slowest of some questions took, in seconds."""
    found = []
    for _ in range(count):
        began = time.monotonic()
        heap.asked("pins")
        found.append(time.monotonic() - began)
    return max(found)


def crowds(heap):
    """Yields what many clients do that say nothing, or little: at most 16 are kept, and others are answered meanwhile."""
    idle = [heap.connect() for _ in range(40)]
    yield "forty silent clients", heap.asked("pins"), "ok 0\n"
    for one in idle:
        one.close()
    slow = [heap.connect() for _ in range(40)]
    head = heap.head(body=b"pins", X_Heapdbg_Key=heap.key) + b"pins"
    longest = 0
    for at in range(4):
        for one in slow:
            with contextlib.suppress(ConnectionError):
                one.sendall(head[at : at + 1])
        longest = max(longest, waits(heap, 10))
        time.sleep(1)
    yield "answers beside forty clients of a byte a second", longest < 1 or longest, True
    kept = [one for one in slow if is_open(one)]
    yield "how many slow clients are kept", 0 < len(kept) <= 16 or len(kept), True
    kept[-1].setblocking(True)
    kept[-1].sendall(head[4:])
    yield "a slow client that is kept is answered", body_of(kept[-1].makefile("rb").read()), b"ok 0\n"
    for one in slow:
        one.close()
    yield "a body that comes late", late(heap, head), b"ok 0\n"
    unread = heap.connect()
    unread.sendall((heap.head(body=b"history 4096", X_Heapdbg_Key=heap.key).replace(b"close", b"keep-alive") + b"history 4096") * 200)
    yield "answers beside a client that reads nothing", waits(heap, 20) < 1, True
    unread.close()


def late(heap, head):
    """Returns the body of the response to a request whose parts come with pauses."""
    with heap.connect() as client:
        for part in (head[:30], head[30:-3], head[-3:]):
            client.sendall(part)
            time.sleep(0.1)
        return body_of(client.makefile("rb").read())


def left(heap):
    """Yields whether a client that has been quiet for 20 seconds is disconnected, and not much earlier. Takes these seconds."""
    with heap.connect() as client:
        client.sendall(b"POST /ask HTTP/1.1\r\n")
        began = time.monotonic()
        client.settimeout(40)
        come = client.recv(1)
        yield "a client that went quiet is disconnected", (come, 19 < time.monotonic() - began < 30), (b"", True)


def until_late(cases):
    """Yields cases, and one more if something that was waited for didn't come."""
    try:
        yield from cases
    except TimeoutError as fault:
        yield "what was waited for", str(fault), "there in time"


def main(program, *pictures):
    """Returns whether all is well."""
    well = True
    with Heap(program, LEAK) as heap:
        cases = [*colours.all_of(PAGE.decode()), *statuses(heap), *framed(heap), *answers(heap), *crowds(heap)]
        # The client that goes quiet does so while a browser looks on.
        quiet = threading.Thread(target=lambda: cases.extend(left(heap)))
        quiet.start()
        if browser.found():
            cases += until_late(clicks.all_of(heap, program))
        else:
            print("checks/page: no browser is here, so no browser has looked at the page")
        quiet.join()
    cases += [*ports(program), *explored(program)]
    if browser.found():
        for folder in pictures:
            with Heap(program, LEAK) as heap:
                take(heap, pathlib.Path(folder))
        for load in (loads.empty, loads.mixed, loads.few, loads.full, loads.busy, writes.all_of, sizes.all_of, differences.all_of, slots.all_of):
            cases += until_late(load(program))
    for name, found, wanted in cases:
        if found != wanted:
            print(f"page: {name}: {found!r} instead of {wanted!r}")
            well = False
    return well


if __name__ == "__main__":
    sys.exit(not main(*sys.argv[1:]))
