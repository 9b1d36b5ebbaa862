#!/usr/bin/env python3
"""Serves hostile clients with the built program, and asks hostile servers.

Usage: checks/sockets.py [--step N] PROGRAM ..
A connection is closed after each N bytes, 1 if that isn't given. Nothing may hang: each wait has a limit. Prints a line for each
difference and ends with status 1 if there is one. Prints nothing where all is well."""
import concurrent.futures
import contextlib
import os
import pathlib
import select
import shutil
import socket
import struct
import subprocess
import sys
import tempfile
import threading
import time

TOP = pathlib.Path(__file__).resolve().parent.parent
sys.path.append(str(TOP / "clients/python"))

from heapdbg import Refused, Session  # noqa: E402
from ports import free_port  # noqa: E402
from servers import LIMIT, DumpServer, Server, all_of, exchanged, started  # noqa: E402

EXAMPLE = (TOP / "examples/point.session").read_bytes()
STEP = 1
RESET = struct.pack("ii", 1, 0)
ENDINGS = {"quit", "eof", "cut", "read", "write"}
PIN_LIMIT = b"heapdbg: dump PinLimit\n"


def replies(program, given):
    """Returns the output of a session of one's own."""
    ran = subprocess.run(["heapdbg", "run"], executable=program, input=given, capture_output=True, timeout=LIMIT)
    return ran.stdout


def ending(given):
    """Returns how a session ends whose input is these bytes, and how many of them are whole lines."""
    whole = given.rfind(b"\n") + 1
    return ("eof" if whole == len(given) else "cut"), whole


def closing_clients(program):
    """Yields how a client's session ends that closes at some byte of the example, and what another then has."""
    for length in range(0, len(EXAMPLE) + 1, STEP):
        given = EXAMPLE[:length]
        word, whole = ending(given)
        with Server(program, 2) as server:
            first = exchanged(server, given)
            second = exchanged(server, EXAMPLE)
            found = first, second, server.ended()
        before = replies(program, EXAMPLE[:whole])
        wanted = replies(program, given), replies(program, EXAMPLE[:whole] + EXAMPLE)[len(before) :], (0, [word, "eof"], b"")
        yield f"closes its writing side after {length} bytes", found, wanted


def resetting_clients(program):
    """Yields what another client has beside one that resets its connection at some byte of the example, with all answers unread."""
    for length in range(0, len(EXAMPLE) + 1, STEP):
        with Server(program, 2) as server:
            with server.client() as client:
                client.sendall(EXAMPLE[:length])
                client.setsockopt(socket.SOL_SOCKET, socket.SO_LINGER, RESET)
            answers = exchanged(server, b"clear 0 0\nend\n")
            status, words, error = server.ended()
        found = answers, status, words[1:], set(words[:1]) <= ENDINGS, error
        yield f"resets after {length} bytes", found, (b"ok\n", 0, ["quit"], True, b"")


def silent_reader(program):
    """Yields what a client has that sends a million lines and reads no answer until it can send no more, and another beside it."""
    lines = b"x\n" * 1_000_000
    with Server(program, 2) as server, server.client() as client:
        client.setblocking(False)
        sent = 0
        while sent < len(lines) and select.select([], [client], [], 1)[1]:
            sent += client.send(lines[sent : sent + 65536])
        beside = exchanged(server, b"move 0 0 0 1\nend\n")
        client.setblocking(True)
        client.settimeout(LIMIT)
        rest = threading.Thread(target=lambda: (client.sendall(lines[sent:]), client.shutdown(socket.SHUT_WR)))
        rest.start()
        found = all_of(client) == b"bad command\n" * 1_000_000, beside, server.ended()
        rest.join(LIMIT)
    yield "reads nothing until it has sent all or can't", found, (True, b"ok\n", (0, ["eof", "quit"], b""))


def endless_line(program):
    """Yields what a client has that sends no LF, and another beside it."""
    with Server(program, 3) as server, server.client() as client:
        client.sendall(b"a" * 4096)
        beside = exchanged(server, b"clear 0 0\nend\n")
        client.sendall(b"a")
        found = all_of(client), beside, exchanged(server, b"clear 0 0"), server.ended()
    yield "sends no LF", found, (b"bad long\n", b"ok\n", b"bad cut\n", (0, ["long", "quit", "cut"], b""))


def many_sessions(program):
    """Yields what 1,000 clients have, one after another."""
    with Server(program, 1000) as server:
        found = [exchanged(server, b"clear 0 0\nrewind 1\nend\n") for _ in range(1000)], server.ended()
    yield "1,000 sessions", found, ([b"ok\nok place 0\n"] * 1000, (0, ["quit"] * 1000, b""))


def other_addresses(program):
    """Yields what connections to other addresses of this computer have, while 127.0.0.1 is served: they are refused."""
    others = ((socket.AF_INET, "127.0.0.2"), (socket.AF_INET, "127.1.2.3"), *own_addresses())
    with Server(program, 1) as server:
        with server.client() as client:
            found = [connection_to(family, address, server.port) for family, address in others]
            client.sendall(b"clear 0 0\nend\n")
            found = found, all_of(client), server.ended()
    yield "other addresses", found, (["refused"] * len(others), b"ok\n", (0, ["quit"], b""))


def own_addresses():
    """Returns the address of this computer that others know it by, if it has one. Nothing is sent to find it."""
    with socket.socket(socket.AF_INET, socket.SOCK_DGRAM) as asked, contextlib.suppress(OSError):
        asked.connect(("192.0.2.1", 9))
        return [(socket.AF_INET, asked.getsockname()[0])]
    return []


def connection_to(family, address, port):
    """Returns whether a connection to an address is refused."""
    with socket.socket(family) as client:
        client.settimeout(LIMIT)
        try:
            client.connect((address, port))
        except ConnectionRefusedError:
            return "refused"
        return "accepted"


def taken_port(program):
    """Yields what `serve` says of a port that is taken, and `ask` of one where nobody listens."""
    with socket.create_server(("127.0.0.1", 0)) as taken:
        port = str(taken.getsockname()[1])
        ran = subprocess.run(["heapdbg", "serve", "--port", port], executable=program, capture_output=True, timeout=LIMIT)
        yield "a taken port", (ran.returncode, ran.stdout, ran.stderr), (1, b"", b"heapdbg: listen\n")
        words = ["heapdbg", "serve", "--port", str(free_port()), "--dumps", port]
        ran = subprocess.run(words, executable=program, capture_output=True, timeout=LIMIT)
        yield "a taken port for dumps", (ran.returncode, ran.stdout, ran.stderr), (1, b"", b"heapdbg: listen\n")
    ran = subprocess.run(["heapdbg", "ask", "--port", port], executable=program, input=b"", capture_output=True, timeout=LIMIT)
    yield "no server", (ran.returncode, ran.stdout, ran.stderr), (1, b"", b"heapdbg: connect\n")


@contextlib.contextmanager
def asking(program, server, **how):
    """Has `ask` run against a server, by default with its input and output in the hands of the caller, and ends it."""
    child = started(program, ["ask", "--port", str(server.port)], **{"stdin": subprocess.PIPE, "bufsize": 0} | how)
    try:
        yield child
    finally:
        child.kill()
        child.communicate()


def closing_server(listener, answers, read):
    """Accepts a client, reads all that it sends if it is asked to, sends these answers and closes."""
    client, _ = listener.accept()
    with client:
        client.settimeout(LIMIT)
        if read:
            sent = b""
            while not sent.endswith(b"\nend\n"):
                sent += client.recv(4096)
        client.sendall(answers)


def asked(program, answers, read):
    """Returns status, output and standard error of `ask` with the example against a server that sends these answers and closes."""
    with socket.create_server(("127.0.0.1", 0)) as listener:
        server = threading.Thread(target=closing_server, args=(listener, answers, read))
        server.start()
        words = ["heapdbg", "ask", "--port", str(listener.getsockname()[1])]
        ran = subprocess.run(words, executable=program, input=EXAMPLE, capture_output=True, timeout=LIMIT)
        server.join(LIMIT)
    return ran.returncode, ran.stdout, ran.stderr


def closing_servers(program):
    """Yields what `ask` prints against a server that closes at some byte of its answers, after or before it read the lines."""
    answers = replies(program, EXAMPLE)
    for length in range(0, len(answers) + 1, STEP):
        yield f"the server closes after {length} bytes", asked(program, answers[:length], True), (0, answers[:length], b"")
        status, out, error = asked(program, answers[:length], False)
        fits = (status, error) in ((0, b""), (1, b"heapdbg: read\n")) and answers[:length].startswith(out)
        yield f"the server closes after {length} bytes, and reads nothing", fits, True


def answers_one_by_one(program):
    """Yields whether a hundred dumps of several pages come whole, each asked for once the one before has come, and in less than a
    second."""
    with Session.run(program, "run") as own:
        own.new_values(0, 0, "long", 1024)
        wanted = [own.dump()] * 100
    with Server(program, 1) as server, server.session() as session:
        session.new_values(0, 0, "long", 1024)
        begin = time.monotonic()
        found = [session.dump() for _ in range(100)]
        seconds = time.monotonic() - begin
    yield "a hundred dumps, one by one", (found == wanted, seconds < 1), (True, True)


def lines_in_parts(program):
    """Yields whether sixty lines that `ask` is given in two parts each, and that are answered one by one, take less than a
    second."""
    with Server(program, 2) as server:
        exchanged(server, b"end\n")
        with asking(program, server) as client:
            begin = time.monotonic()
            for _ in range(60):
                for part in (b"clear 0", b" 0\n"):
                    client.stdin.write(part)
                    time.sleep(0.001)
                client.stdout.readline()
            yield "sixty lines in two parts each", time.monotonic() - begin < 1, True


def open_input(program):
    """Yields what `ask` does after a line `end` while its input stays open."""
    with Server(program, 2) as server:
        exchanged(server, b"end\n")
        with asking(program, server) as client:
            client.stdin.write(b"clear 0 0\nend\n")
            with contextlib.suppress(subprocess.TimeoutExpired):
                client.wait(2)
            found = client.poll(), client.stdout.read() if client.poll() == 0 else None
    yield "the input stays open after the end", found, (0, b"ok\n")


def full_output(program):
    """Yields what `ask` does with more input than a connection holds if its output takes nothing."""
    with Server(program, 2) as server, open("/dev/full", "wb") as full, tempfile.TemporaryFile() as lines:
        exchanged(server, b"end\n")
        lines.write(b"dump -\n" * 3_000_000)
        lines.seek(0)
        with asking(program, server, stdin=lines, stdout=full) as client:
            with contextlib.suppress(subprocess.TimeoutExpired):
                client.wait(LIMIT)
            found = client.poll()
    yield "the output is full", found, 1


def one_client_more(program):
    """Yields whether a client beyond the last session is refused, while that session still runs."""
    with Server(program, 1) as server, server.client() as client:
        client.sendall(b"clear 0 0\n")
        found = [client.recv(3), False]
        for _ in range(100):
            try:
                socket.create_connection(("127.0.0.1", server.port), LIMIT).close()
            except ConnectionError:
                found[1] = True
                break
            time.sleep(0.01)
        found.append(server.run.poll())
        client.sendall(b"end\n")
        found += all_of(client), server.ended()
    yield "one client more", found, [b"ok\n", True, None, b"", (0, ["quit"], b"")]


def repeated(client, come, line, wanted):
    """Sends a line every few milliseconds until its reply is `wanted` or it is too late. Returns the last reply."""
    for _ in range(LIMIT * 200):
        client.sendall(line)
        reply = come.readline()
        if reply == wanted:
            break
        time.sleep(0.005)
    return reply


def workers(program):
    """Yields what a client has that says `snap` and waits for the workers' cycles, beside one that writes without a pause and one
    that resets its connection in a cycle: of ten objects made in one register, the last alone stays."""
    with Server(program, 3, "--workers", "1", "--questions", "1") as server, server.client() as client, client.makefile("rb") as come:
        writer = threading.Thread(target=exchanged, args=(server, b"clear 0 0\n" * 20_000 + b"end\n"))
        writer.start()
        client.sendall(b"class Point - x:int y:int\n" + b"new 1 1 0\n" * 10)
        made = [come.readline() for _ in range(11)][-1]
        found = []
        for _ in range(20):
            client.sendall(b"snap\n")
            told = come.readline()
            finished = repeated(client, come, b"finish\n", b"no 15 NotMarking\n")
            found.append((told, finished, repeated(client, come, b"sweep 0\n", b"no 20 NothingToSweep 0\n")))
        writer.join(LIMIT)
        with server.client() as last:
            last.sendall(b"snap\n")
            last.setsockopt(socket.SOL_SOCKET, socket.SO_LINGER, RESET)
        client.sendall(b"histogram -\ngarbage -\nend\n")
        rest = all_of(client)
        status, words, error = server.ended()
    left = b"row 1 8 Point\nok 1 8\nok 0 0\n"
    cycle = b"ok pushed 1\n", b"no 15 NotMarking\n", b"no 20 NothingToSweep 0\n"
    found = made[:3], found, rest, status, words[:2], error
    yield "cycles by workers", found, (b"ok ", [cycle] * 20, left, 0, ["quit", "quit"], b"")


def replies_to(client, come, lines):
    """Sends lines at once, and returns their replies."""
    client.sendall(b"".join(line + b"\n" for line in lines))
    return [come.readline() for _ in lines]


def read_list(done):
    """Returns the numbers of the nodes of the list that register 0 names."""
    found, value = [], done(b"move M 3 M 0", b"load M 4 3 1")[1]
    while value.startswith(b"ok value"):
        found.append(int(value.split()[2]))
        value = done(b"load M 3 3 0", b"load M 4 3 1")[1]
    return found


def change_lists(server, mutator, is_over, read):
    """Changes a list that register 0 of a mutator names until the cycles are over: adds a node after the first one, takes the
    second one out, or reads the list and forgets it. Adds to `read`, each time, whether the list had exactly its nodes."""
    nodes, number = [], 0
    with server.client() as client, client.makefile("rb") as come:
        def done(*lines):
            return replies_to(client, come, [line.replace(b"M", b"%d" % mutator) for line in lines])

        while not is_over():
            number += 1
            if len(nodes) == 60:
                read.append(read_list(done) == nodes)
                done(b"clear M 0", b"clear M 3")
                nodes = []
            elif number % 3 == 0 and len(nodes) > 1:
                done(b"load M 2 0 0", b"load M 2 2 0", b"store M 0 0 2", b"clear M 2")
                del nodes[1]
            elif done(b"new M 1 0")[0].startswith(b"ok"):
                done(b"put M 1 1 %d" % number, b"load M 2 0 0", b"store M 1 0 2")
                done(*((b"store M 0 0 1",) if nodes else (b"move M 0 M 1",)), b"clear M 1", b"clear M 2")
                nodes.insert(1, number)
        done(b"end")


def lists_beside_cycles(program):
    """Yields whether two clients read the lists that they changed, two or more each, beside 30 or more of the workers'
    cycles, for which a third one asks."""
    with Server(program, 3, "--workers", "1", "--mutators", "2", "--regions", "4") as server, server.client() as client:
        over, read = threading.Event(), ([], [])
        with client.makefile("rb") as come, concurrent.futures.ThreadPoolExecutor(2) as pool:
            replies_to(client, come, [b"class Node - next:object number:long"])
            changing = [pool.submit(change_lists, server, mutator, over.is_set, read[mutator]) for mutator in (0, 1)]
            for cycle in range(3000):
                if cycle >= 30 and min(map(len, read)) > 1:
                    break
                found = replies_to(client, come, [b"snap"])
                found.append(repeated(client, come, b"finish\n", b"no 15 NotMarking\n"))
                found.append(repeated(client, come, b"sweep 0\n", b"no 20 NothingToSweep 0\n"))
            over.set()
            for each in changing:
                each.result(LIMIT)
            found += [len(lists) > 1 and all(lists) for lists in read]
            replies_to(client, come, [b"end"])
        found[0] = found[0][:10]
        wanted = [b"ok pushed ", b"no 15 NotMarking\n", b"no 20 NothingToSweep 0\n", True, True], (0, ["quit"] * 3, b"")
        yield "lists beside cycles", (found, server.ended()), wanted


def undone_cycles(program):
    """Yields where the heap is 30 ms after each of 40 times 3,000 cycles that are begun and undone at once, with a marker beside
    them: where it was, whenever the last `rewind` undid its `snap`, as it does almost always."""
    pairs = b"snap\nrewind 1\n" * 3000
    with Server(program, 1, "--workers", "1") as server, server.client() as client, client.makefile("rb") as come:
        made = replies_to(client, come, [b"class Point - x:int", b"new 0 0 0", b"clear 0 0"])
        undone, found = 0, []
        for _ in range(40):
            client.sendall(pairs)
            last = [come.readline() for _ in range(6000)][-1]
            time.sleep(0.03)
            place = replies_to(client, come, [b"rewind 0"])[0]
            if last == b"ok place 3\n":
                undone += 1
                found.append(place)
            # A mark came between, so the cycle that the last `snap` began goes on: back to before it.
            elif (steps := int(place.split()[2]) - 3) > 0:
                replies_to(client, come, [b"rewind %d" % steps])
        client.sendall(b"end\n")
        found = made[-1], undone > 10, set(found), server.ended()
    yield "cycles that are undone", found, (b"ok\n", True, {b"ok place 3\n"}, (0, ["quit"], b""))


def entries_of_collect(program):
    """Yields what `collect` answers, and how many entries it takes, on a heap of 256 regions: one for each of its four steps, so
    that it ends while the chronicle has room for just these."""
    lines = b"class Point - x:int\nnew 0 0 0\n"
    with Server(program, 1, "--regions", "256", "--questions", "1") as server, server.client() as client:
        # Two entries are made, four are the cycle's, and one is left.
        given = lines + b"clear 0 9\n" * 999_993 + b"collect\nclear 0 9\nclear 0 9\ncollect\nend\n"
        writer = threading.Thread(target=client.sendall, args=(given,))
        writer.start()
        answers = all_of(client).splitlines()
        writer.join(LIMIT)
        found = answers[:2], set(answers[2:999_995]), answers[999_995:], server.ended()
    bad, full = b"no 7 BadRegister", b"no 26 ChronicleFull"
    made = [b"ok class 0", b"ok object 0x10000000"]
    yield "entries of collect", found, (made, {bad}, [b"ok condemned 0 swept 0", bad, full, full], (0, ["quit"], b""))


HTTP = b"POST / HTTP/1.1\r\nHost: 127.0.0.1\r\n\r\nclear 0 0\nrewind 1\nend\n"
# First lines that end a session of `serve` before anything is run.
REQUESTS = HTTP, HTTP.replace(b"\r", b""), b"GET /x HTTP/1.0\n", b" HTTP/1.9\r\n", b"array HTTP/1.1\nend\n"
# First lines that don't, and what the session answers.
OTHER_LINES = (
    (b"x HTTP/1.1 y\nclear 0 0\nend\n", b"bad command\nok\n", "quit"),
    (b"x HTTP/1.11\nend\n", b"bad command\n", "quit"),
    (b"HTTP/1.1\nend\n", b"bad command\n", "quit"),
    (b"x HTTP/1.x\nend\n", b"bad command\n", "quit"),
    (b"x HTTP/1.1\r\r\nend\n", b"bad command\n", "quit"),
    (b"x HTTP/2.0\nend\n", b"bad command\n", "quit"),
    (b"clear 0 0\nPOST / HTTP/1.1\nclear 0 0\nend\n", b"ok\nbad command\nok\n", "quit"),
    (b"\nPOST / HTTP/1.1\nend\n", b"bad command\n", "quit"),
    (b"POST / HTTP/1.1", b"bad cut\n", "cut"),
    (b"", b"", "eof"),
    (b"a" * 4087 + b" HTTP/1.1\nend\n", None, "http"),
    (b"a" * 4088 + b" HTTP/1.1\nend\n", b"bad long\n", "long"),
)


def exchanged_in_parts(server, given, size):
    """Sends bytes from a new client in parts of a size, and returns what came until the server closed or cut the connection."""
    with server.client() as client:
        client.setsockopt(socket.IPPROTO_TCP, socket.TCP_NODELAY, 1)
        come = b""
        with contextlib.suppress(ConnectionError):
            for at in range(0, len(given), size):
                client.sendall(given[at : at + size])
                time.sleep(0.0005 if size < 64 else 0)
            client.shutdown(socket.SHUT_WR)
        with contextlib.suppress(ConnectionError):
            while part := client.recv(4096):
                come += part
        return come


def http_requests(program):
    """Yields what clients have whose first line ends as that of an HTTP request does, in one write or many: no byte, and none of
    their lines is run; and what those have whose first line doesn't."""
    with Server(program, 2 + 2 * len(REQUESTS)) as server:
        with server.client() as client, client.makefile("rb") as come:
            before = replies_to(client, come, [b"class Point - x:int", b"new 0 0 0"])
            found = [exchanged_in_parts(server, given, size) for given in REQUESTS for size in (1, len(given))]
            after = replies_to(client, come, [b"load 0 1 0 0", b"rewind 0"])
            client.sendall(b"end\n")
            found = before, found, after, exchanged(server, b"end\n"), server.ended()
    made = [b"ok class 0\n", b"ok object 0x10000000\n"]
    wanted = [b""] * 2 * len(REQUESTS), [b"ok value 0\n", b"ok place 3\n"], b""
    yield "HTTP requests", found, (made, *wanted, (0, ["quit"] + ["http"] * 2 * len(REQUESTS) + ["quit"], b""))
    for given, answers, word in OTHER_LINES:
        with Server(program, 3) as server:
            sizes = (len(given) or 1, 7 if len(given) < 100 else 1000, 4090)
            found = [exchanged_in_parts(server, given, size) for size in sizes], server.ended()
        yield f"first line {given[-40:]!r}", found, ([answers or b""] * 3, (0, [word] * 3, b""))


# The page sends lines to a port, and then shows that it did.
PAGE = """<!doctype html><title>A page</title><script>
fetch("http://127.0.0.1:%d/", {method: "POST", mode: "no-cors", body: "rewind 2\\nend\\n"})
  .catch(() => {}).then(() => document.body.append("sent"))
</script><body></body>"""


def opened_in(browser, port):
    """Has a browser open a page that sends lines to a port, and returns whether it sent them."""
    with tempfile.TemporaryDirectory() as folder:
        page = pathlib.Path(folder, "page.html")
        page.write_text(PAGE % port)
        words = [browser, "--headless=new", "--no-sandbox", "--disable-gpu", f"--user-data-dir={folder}/profile"]
        words += ["--timeout=10000", "--virtual-time-budget=5000", "--dump-dom", page.as_uri()]
        ran = subprocess.run(words, capture_output=True, text=True, timeout=6 * LIMIT)
        return ">sent<" in ran.stdout.replace("\n", "")


def web_pages(program):
    """Yields where a heap is after a page in a browser has sent it lines, if Chromium is there: where it was."""
    browser = shutil.which("chromium") or shutil.which("chromium-browser")
    if browser is None:
        return
    with Server(program, 2) as server, server.client() as client, client.makefile("rb") as come:
        made = replies_to(client, come, [b"class Point - x:int", b"new 0 0 0"])
        sent = opened_in(browser, server.port)
        place = replies_to(client, come, [b"rewind 0"])
        client.sendall(b"end\n")
        found = made, sent, place, server.ended()
    wanted = [b"ok class 0\n", b"ok object 0x10000000\n"], True, [b"ok place 2\n"], (0, ["quit", "http"], b"")
    yield "a page that sends lines", found, wanted


def old_acts(program):
    """Yields what a client has of more acts than a heap keeps, of a heap that drops old ones and of one that doesn't."""
    lines = b"clear 0 0\n" * 1_000_001 + b"rewind 2\nend\n"
    dropped, refused = b"ok\nok place 999999\n", b"no 26 ChronicleFull\n" * 2
    for options, rest in ((["--roll", "1"], dropped), (["--roll"], dropped), (["--wide", "1"], dropped), (["--roll", "0"], refused)):
        with Server(program, 1, *options) as server, server.client() as client:
            writer = threading.Thread(target=client.sendall, args=(lines,))
            writer.start()
            found = all_of(client)
            writer.join(LIMIT)
            yield f"1,000,002 acts, {' '.join(options)}", (found, server.ended()), (b"ok\n" * 1_000_000 + rest, (0, ["quit"], b""))


def come(child):
    """Returns status, output and standard error of a program that ends by itself."""
    out, error = child.communicate(timeout=LIMIT)
    return child.returncode, out, error


def full_heap(client):
    """Has a client fill the heap of 256 regions with 65,536 instances, so that no connection holds a dump of it that nobody reads."""
    with client.makefile("rb") as answers:
        client.sendall(b"class Wide - a:long b:long c:long d:long\n" + b"new 0 0 0\n" * 65_536)
        return [answers.readline() for _ in range(65_537)][-1]


def free_pins(session):
    """Returns how many pins a session can have, once dumps had the time to close theirs."""
    for _ in range(LIMIT * 100):
        pins = []
        with contextlib.suppress(Refused):
            for _ in range(4):
                pins.append(session.open().pin)
        for pin in pins:
            session.close(pin)
        if len(pins) == 4:
            break
        time.sleep(0.01)
    return len(pins)


def served_dumps(program):
    """Yields whether dumps that are sent beside a session's writes, to sockets and to two `fetch` at once, are those of the places
    that their bytes tell, and the last that of the current state."""
    with DumpServer(program, 1, "--keep", "65536") as server, server.session() as session:
        session.define_class("Point", [("x", "int"), ("y", "int")])
        session.new(0, 0, 0)
        fresh = server.dump() == session.dump()
        dumps = []
        reader = threading.Thread(target=lambda: dumps.extend(server.dump() for _ in range(50)))
        reader.start()
        value = 0
        while reader.is_alive() and value < 60_000:
            value += 1
            session.put(0, 0, 0, value)
        reader.join(LIMIT)
        places = [2 + int.from_bytes(dump[275:279], "big") for dump in dumps]
        wanted = []
        for place in places:
            pin = session.open(place).pin
            wanted.append(session.dump(pin))
            session.close(pin)
        with tempfile.TemporaryDirectory() as folder:
            paths = [pathlib.Path(folder) / name for name in ("one", "two")]
            with server.fetching(paths[0]) as one, server.fetching(paths[1]) as two:
                told = come(one), come(two)
            same = [path.read_bytes() == session.dump() for path in paths]
        found = fresh, len(dumps), dumps == wanted, places == sorted(places), len(set(places)) > 1, told, same
        session.end()
        found += (server.ended(),)
    wanted = True, 50, True, True, True, ((0, b"fetched 301\n", b""),) * 2, [True] * 2, (0, ["quit"], b"")
    yield "dumps beside writes", found, wanted


def unread_dump(program):
    """Yields what others have beside a client that reads nothing of its dump: a session works on and has three pins, a second client
    has its dump, and the server ends with its last session."""
    options = "--regions", "256", "--workers", "1"
    with DumpServer(program, 2, *options) as server, server.client() as client, tempfile.TemporaryDirectory() as folder:
        last, path = full_heap(client), pathlib.Path(folder, "dump")
        with server.dump_client(4096), server.fetching(path) as other:
            told = come(other)
            client.sendall(b"put 0 0 0 7\nopen -\nopen -\nopen -\nopen -\nend\n")
            answers, beside = all_of(client), exchanged(server, b"clear 0 0\nend\n")
            is_whole = told == (0, b"fetched %d\n" % path.stat().st_size, b"")
            found = last, is_whole, answers[:3], answers[-15:], beside, server.ended()
    wanted = b"ok object 0x101fffe0\n", True, b"ok\n", b"no 25 PinLimit\n", b"ok\n", (0, ["quit"] * 2, b"")
    yield "a dump that nobody reads", found, wanted


def resetting_dumps(program):
    """Yields how many pins a session can have after 302 clients, three at a time, that reset their connection once they have 0, 1, .. 301
    bytes of their dump, and what one has that comes while four are open."""
    with DumpServer(program, 1, "--regions", "256") as server:
        client = server.client()
        full_heap(client)
        with Session(client.makefile("rb"), client.makefile("wb"), client.close) as session:
            counts = []
            for first in range(0, 302, 3):
                with contextlib.ExitStack() as readers:
                    sizes = range(first, min(first + 3, 302))
                    for reader, size in [(readers.enter_context(server.dump_client(4096)), size) for size in sizes]:
                        reader.recv(size, socket.MSG_WAITALL)
                        reader.setsockopt(socket.SOL_SOCKET, socket.SO_LINGER, RESET)
                counts.append(free_pins(session))
            pins = [session.open().pin for _ in range(4)]
            refused = server.dump()
            for pin in pins:
                session.close(pin)
            whole = server.dump() == session.dump()
        status, words, error = server.ended()
    # Clients that wait for no byte may be served only once the session has all pins, and are then refused, too.
    told = sum(int(line.split()[3][1:]) if b"times" in line else 1 for line in error.splitlines())
    found = counts, refused, whole, status, words, error.startswith(PIN_LIMIT), told in range(1, 5)
    yield "dumps that are reset", found, ([4] * 101, b"", True, 0, ["quit"], True, True)


def fetched(program, folder, given):
    """Returns what `fetch` says of a server that sends these bytes and closes, and whether the file holds them."""
    path = folder / "dump"
    with socket.create_server(("127.0.0.1", 0)) as listener:
        server = threading.Thread(target=closing_server, args=(listener, given, False))
        server.start()
        words = ["heapdbg", "fetch", "--port", str(listener.getsockname()[1]), "--out", str(path)]
        ran = subprocess.run(words, executable=program, capture_output=True, timeout=LIMIT)
        server.join(LIMIT)
    return ran.returncode, ran.stdout, ran.stderr, path.read_bytes() == given


def cut_dumps(program):
    """Yields what `fetch` says of a dump that is cut off at some byte, of one with more after it, and of texts that end as a dump
    does, inside a record or after a header that is too short."""
    with Session.run(program, "run") as own:
        own.define_class("Point", [("x", "int"), ("y", "int")])
        own.new(0, 0, 0)
        dump = own.dump()
    end, segment = dump[-9:], b"\x1c" + bytes(4) + (18).to_bytes(4, "big")
    others = {dump + b"\0", dump + end, dump[:-9] + segment + end, dump[:30] + end, dump[:-1] + b"\1"}
    wholes = {dump, dump[:31] + end, dump[:-9] + segment + end + end + end}
    with tempfile.TemporaryDirectory() as folder:
        for given in (*(dump[:length] for length in range(0, len(dump), STEP)), *sorted(others), *sorted(wholes)):
            size = str(len(given)).encode()
            whole, cut = (0, b"fetched %b\n" % size, b"", True), (1, b"cut %b\n" % size, b"heapdbg: cut\n", True)
            wanted = whole if given in wholes else cut
            yield f"fetches {given[-12:]!r} after {len(given)} bytes", fetched(program, pathlib.Path(folder), given), wanted


HOSTILE = closing_clients, resetting_clients, silent_reader, endless_line, many_sessions, taken_port, closing_servers
OTHERS = other_addresses, answers_one_by_one, lines_in_parts, open_input, full_output, one_client_more, workers, lists_beside_cycles, old_acts
ADDED = undone_cycles, entries_of_collect, http_requests, web_pages
DUMPS = served_dumps, unread_dump, resetting_dumps, cut_dumps
CASES = (*HOSTILE, *OTHERS, *ADDED, *DUMPS)


def differences(program):
    """Yields a line for each run that went otherwise than it must."""
    for case in CASES:
        for name, found, wanted in case(program):
            if found != wanted:
                yield f"{program}, {name}: {found!r:.400}, and must be {wanted!r:.400}"


def main(words):
    """Returns the exit status: 0 where every run of every program went as it must."""
    global STEP
    programs = words
    if words[:1] == ["--step"]:
        STEP, programs = int(words[1]), words[2:]
    if not programs:
        print("usage: checks/sockets.py [--step N] PROGRAM ..")
        return 2
    found = [line for program in programs for line in differences(os.path.abspath(program))]
    print("\n".join(found), end="\n" if found else "")
    return 1 if found else 0


if __name__ == "__main__":
    sys.exit(main(sys.argv[1:]))
