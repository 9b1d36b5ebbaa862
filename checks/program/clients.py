"""Clients of the program, and runs of `serve` and `ask`."""
import socket
import threading
import time

from runs import SECONDS, run
from servers import Server, connected


def told_all(lines):
    """Returns clients: one, which sends these lines while it reads what comes, until its session has ended."""

    def clients(port):
        with connected(port) as client:
            sender = threading.Thread(target=client.sendall, args=(lines + b"end\n",))
            sender.start()
            got = rest_of(client, b"")
            sender.join()
            return (got,)

    return clients


def answered(client, lines, size):
    """Sends lines, and returns the next `size` bytes that come, or all that come before the end."""
    client.sendall(lines)
    got = b""
    while len(got) < size:
        part = client.recv(size - len(got))
        if not part:
            break
        got += part
    return got


def reply_of(client, line):
    """Sends a line, and returns its reply of one line, without the LF, or what comes of it before the end."""
    client.sendall(line + b"\n")
    got = b""
    while not got.endswith(b"\n"):
        part = client.recv(1)
        if not part:
            break
        got += part
    return got.removesuffix(b"\n")


def repeated(client, line, wanted):
    """Sends a line every few milliseconds until its reply is `wanted` or it is too late. Returns the last reply."""
    end = time.monotonic() + SECONDS
    while (reply := reply_of(client, line)) != wanted and time.monotonic() < end:
        time.sleep(0.005)
    return reply


def rest_of(client, lines):
    """Sends lines, and returns all that comes until the session has ended."""
    return answered(client, lines, 1 << 30)


def asked(program, port, given, task="ask", words=(), **how):
    """Runs `ask`, or another task that takes a port, again while nobody listens on it yet."""
    end = time.monotonic() + SECONDS
    while True:
        ran = run(program, [task, "--port", str(port), *words], given, **how)
        if ran[2] != b"heapdbg: connect\n" or time.monotonic() > end:
            return ran
        time.sleep(0.01)


def served(program, clients, words=(), **how):
    """Returns what happened to a run of `serve`, and then what its clients return, which are given its port."""
    with Server(program, None, *words, **how) as server:
        got = clients(server.port)
        out, error = server.run.communicate(timeout=SECONDS)
        return (server.run.returncode, out or b"", error, *got)


def ended(lines):
    """Returns clients: one, which sends these lines and returns what comes until its session has ended."""

    def clients(port):
        with connected(port) as client:
            return (rest_of(client, lines),)

    return clients


def ended_by(given):
    """Returns clients: one, which sends these bytes, closes its writing side, and returns what comes until its session ends."""

    def clients(port):
        with connected(port) as client, client.makefile("rb") as come:
            client.sendall(given)
            client.shutdown(socket.SHUT_WR)
            return (come.read(),)

    return clients
