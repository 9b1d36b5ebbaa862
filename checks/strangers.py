#!/usr/bin/env python3
"""Checks a served heap with a secret word, sessions of silent clients, and dumps of a session that nobody reads.

Usage: checks/strangers.py PROGRAM ..
Each wait has a limit. Prints a line for each difference and ends with status 1 if there is one. Prints nothing if all is well."""
import concurrent.futures
import contextlib
import os
import pathlib
import socket
import struct
import subprocess
import sys
import tempfile
import time

from dumping import full_server, numbers, waited
from servers import LIMIT, DumpServer, Server, all_of

WORD = b"Zq7" + 13 * b"x"
# The seconds of `--idle`, those in which a client has to say the word, those in which a session's dump has to be read on, and those by
# which an end may be late.
IDLE, FIRST_LINE, PATIENCE, LATE = 1, 10, 10, 1.5
# The seconds in which what waits for nobody is done.
SOON = 1
# The bytes that a connection takes unread at the client's end.
ROOM = 4096
# How often a client asks for help, so that no connection holds the answers.
HELPS = 2_000
RESET = struct.pack("ii", 1, 0)
# What clients send that don't know the word.
WRONG = [
    b"clear 0 0\nend\n",
    WORD[:-1] + b"y\nclear 0 0\nend\n",
    WORD[:-1] + b"\nclear 0 0\nend\n",
    WORD + b"x\nclear 0 0\nend\n",
    b" " + WORD + b"\nclear 0 0\nend\n",
    WORD.lower() + b"\nclear 0 0\nend\n",
    b"\n" + WORD + b"\nclear 0 0\nend\n",
    WORD + b"\r\r\nclear 0 0\nend\n",
    WORD + b"\0" * 48 + b"\nclear 0 0\nend\n",
    64 * b"a" + b"\nclear 0 0\nend\n",
    5_000 * b"a",
    b"GET / HTTP/1.1\r\nHost: localhost\r\n\r\n",
    WORD,
    b"",
]


@contextlib.contextmanager
def guarded(program, sessions, *options, server=DumpServer, text=WORD + b"\n"):
    """Serves clients of a heap with the secret word that a file of this text has. Yields the server and the file's path."""
    with tempfile.TemporaryDirectory() as folder:
        path = pathlib.Path(folder, "secret")
        path.touch(mode=0o600)
        path.write_bytes(text)
        with server(program, sessions, "--secret", str(path), *options) as served:
            yield served, path


def answers(client, given):
    """Sends bytes, closes the writing side, and returns all that comes, also if the connection is reset meanwhile."""
    found = b""
    with client, contextlib.suppress(OSError):
        client.sendall(given)
        client.shutdown(socket.SHUT_WR)
        while part := client.recv(65536):
            found += part
    return found


def seconds_open(client):
    """Returns what comes until the other side closes, and after how many seconds it does."""
    begin = time.monotonic()
    found = all_of(client)
    return found, time.monotonic() - begin


def is_between(seconds, least, most):
    """Tells whether something took so long, or a little longer."""
    return least <= seconds < most + LATE


def strangers(program):
    """Yields what clients have that don't say the word: nothing, and their sessions are told so; and one that does: its answers."""
    with guarded(program, len(WRONG) + 1) as (server, _):
        found = [answers(server.client(), given) for given in WRONG]
        friend = answers(server.client(), WORD + b"\nclear 0 0\nend\n")
        ended = server.ended()
    wanted = [b""] * len(WRONG), b"ok\n", (0, ["secret"] * len(WRONG) + ["quit"], b"")
    yield "clients that don't say the word", (found, friend, ended), wanted


def friends(program):
    """Yields what clients have that say the word in parts and with either end, of a file with either or none."""
    for text in (WORD, WORD + b"\n", WORD + b"\r\n"):
        with guarded(program, 4, text=text) as (server, _):
            found = [answers(server.client(), line + b"clear 0 0\nend\n") for line in (WORD + b"\n", WORD + b"\r\n")]
            found.append(answers(server.client(), WORD + b"\nGET / HTTP/1.1\r\nend\n"))
            with server.client() as client:
                for part in (WORD[:5], WORD[5:], b"\n", b"clear 0", b" 0\nend\n"):
                    client.sendall(part)
                    time.sleep(0.05)
                found.append(all_of(client))
            found.append(server.ended())
        http = b"bad command\n"
        yield f"clients that say the word of {text!r}", found, [b"ok\n", b"ok\n", http, b"ok\n", (0, ["quit"] * 4, b"")]


def silent_strangers(program):
    """Yields when the connection of clients ends that say no whole first line, one byte after another or none."""
    with guarded(program, 3) as (server, _), server.client() as silent, server.client() as slow:
        with concurrent.futures.ThreadPoolExecutor() as pool:
            ends = [pool.submit(seconds_open, client) for client in (silent, slow)]
            with contextlib.suppress(OSError):
                for _ in range(40):
                    slow.sendall(b"a")
                    time.sleep(0.4)
            (first, one), (second, other) = (end.result(LIMIT) for end in ends)
        friend = answers(server.client(), WORD + b"\nend\n")
        limits = is_between(one, FIRST_LINE - 0.5, FIRST_LINE), is_between(other, FIRST_LINE - 0.5, FIRST_LINE)
        found = first, second, limits, friend, server.ended()
    yield "clients that say no first line", found, (b"", b"", (True, True), b"", (0, ["secret", "secret", "quit"], b""))


def asked(program, port, path, given):
    """Returns what `ask` does with a secret word, or with none."""
    words = ["heapdbg", "ask", "--port", str(port)] + (["--secret", str(path)] if path else [])
    ran = subprocess.run(words, executable=program, input=given, capture_output=True, timeout=LIMIT)
    return ran.returncode, ran.stdout, ran.stderr


def fetched(program, port, path, secret):
    """Returns what `fetch` tells with a secret word, or with none."""
    words = ["heapdbg", "fetch", "--port", str(port), "--out", str(path)] + (["--secret", str(secret)] if secret else [])
    ran = subprocess.run(words, executable=program, capture_output=True, timeout=LIMIT)
    return ran.returncode, ran.stdout, ran.stderr


def clients(program):
    """Yields what `ask` and `fetch` have with the word and without."""
    with guarded(program, 3) as (server, path), tempfile.TemporaryDirectory() as folder:
        holder = server.client()
        holder.sendall(WORD + b"\n")
        dump = pathlib.Path(folder, "dump")
        told = asked(program, server.port, path, b"clear 0 0\n"), asked(program, server.port, None, b"clear 0 0\n")
        sent = fetched(program, server.dumps, dump, path), fetched(program, server.dumps, dump, None)
        with holder:
            holder.shutdown(socket.SHUT_WR)
            rest = all_of(holder)
        found = told, sent, rest, server.ended()
    wanted = ((0, b"ok\n", b""), (0, b"", b"")), ((0, b"fetched 61\n", b""), (1, b"cut 0\n", b"heapdbg: cut\n"))
    yield "ask and fetch", found, (*wanted, b"", (0, ["eof", "quit", "secret"], b""))


def dumps(program):
    """Yields what clients of the port for dumps have: with the word a whole dump, with anything else or nothing no byte, and soon."""
    with guarded(program, 1) as (server, _), server.client() as holder:
        holder.sendall(WORD + b"\n")
        good = {answers(server.dump_client(), WORD + end) for end in (b"\n", b"\r\n")}
        begin = time.monotonic()
        bad = {answers(server.dump_client(), given) for given in WRONG}
        with server.dump_client() as client:
            silent, seconds = seconds_open(client)
        after = {answers(server.dump_client(), WORD + b"\n")}
        found = len(good), after == good, b"" in good, bad, silent, is_between(seconds, 0.2, 0.25), time.monotonic() - begin < LIMIT
        holder.shutdown(socket.SHUT_WR)
        found += all_of(holder), server.ended()
    yield "dumps for those who say the word", found, (1, True, False, {b""}, b"", True, True, b"", (0, ["eof"], b""))


def idle_sessions(program):
    """Yields how sessions end from which nothing comes for a second: before the first line, within it, and after it."""
    with Server(program, 4, "--idle", str(IDLE)) as server, contextlib.ExitStack() as stack:
        silent = [stack.enter_context(server.client()) for _ in range(3)]
        busy = stack.enter_context(server.client())
        silent[1].sendall(b"clear")
        silent[2].sendall(b"clear 0 0\n")
        with concurrent.futures.ThreadPoolExecutor() as pool:
            ends = [pool.submit(seconds_open, client) for client in silent]
            for _ in range(6):
                busy.sendall(b"clear 0 0\n")
                time.sleep(IDLE / 2)
            found = [end.result(LIMIT) for end in ends]
        busy.sendall(b"end\n")
        came = [text for text, _ in found]
        limits = [is_between(seconds, IDLE - 0.2, IDLE) for _, seconds in found]
        found = came, limits, all_of(busy), server.ended()
    wanted = [b"bad read\n", b"bad read\n", b"ok\nbad read\n"], [True] * 3, b"ok\n" * 6, (0, ["idle"] * 3 + ["quit"], b"")
    yield "sessions of silent clients", found, wanted


def idle_strangers(program):
    """Yields how sessions of a heap with a word end if nothing comes from them for a second: before the word, and after it."""
    with guarded(program, 2, "--idle", str(IDLE)) as (server, _), server.client() as silent, server.client() as friend:
        friend.sendall(WORD + b"\nclear 0 0\n")
        with concurrent.futures.ThreadPoolExecutor() as pool:
            ends = [pool.submit(seconds_open, client) for client in (silent, friend)]
            found = [end.result(LIMIT) for end in ends]
        limits = [is_between(seconds, IDLE - 0.2, IDLE) for _, seconds in found]
        found = [text for text, _ in found], limits, server.ended()
    yield "silent clients of a heap with a word", found, ([b"", b"ok\nbad read\n"], [True] * 2, (0, ["secret", "idle"], b""))


def reset_sessions(program):
    """Yields whether a session whose client resets the connection ends as ever, where silent ones are ended."""
    with Server(program, 1, "--idle", "5") as server:
        with server.client() as client, client.makefile("rb") as come:
            client.sendall(b"clear 0 0\n")
            first = come.readline()
            client.setsockopt(socket.SOL_SOCKET, socket.SO_LINGER, RESET)
        status, words, error = server.ended()
        found = first, status, words in (["read"], ["write"]) or words, error
    yield "a client that resets its connection", found, (b"ok\n", 0, True, b"")


def small_client(server):
    """Returns a connection to a server that listens, which takes few bytes unread."""
    client = socket.socket()
    client.setsockopt(socket.SOL_SOCKET, socket.SO_RCVBUF, ROOM)
    client.settimeout(LIMIT)
    client.connect(("127.0.0.1", server.port))
    return client


def unread_dumps(program):
    """Yields how sessions end that nobody reads: one with `dump -`, and one with a pin of its own, whose last act is a piece of it.
    Both end after ten seconds, by a failed write, and the first leaves no pin. A session whose other answers nobody reads goes on,
    and gives all."""
    with full_server(program, 4) as (server, session), contextlib.ExitStack() as stack:
        answer = sum(len(line) + 1 for line in session.say("help"))
        unread = [stack.enter_context(small_client(server)) for _ in range(3)]
        for client, lines in zip(unread, (b"dump -\n", b"open -\ndump 2\n", b"help\n" * HELPS)):
            before = len(numbers(session))
            client.sendall(lines)
            if client is not unread[2]:
                waited(lambda: len(numbers(session)) > before, SOON)
        held = numbers(session)
        # (on a busy machine it may take longer)
        seconds = waited(lambda: len(numbers(session)) == 1, PATIENCE + LIMIT)
        left = numbers(session)
        time.sleep(LATE)
        unread[2].shutdown(socket.SHUT_WR)
        given = all_of(unread[2])
        session.end()
        found = held, seconds is not None and seconds > PATIENCE - LATE, left, len(given) == HELPS * answer, server.ended()
    wanted = [1, 2], True, [2], True, (0, ["quit", "write", "write", "eof"], b"")
    yield "sessions that nobody reads", found, wanted


CASES = strangers, friends, silent_strangers, clients, dumps, idle_sessions, idle_strangers, reset_sessions, unread_dumps


def differences(program):
    """Yields a line for each run that went otherwise than it must."""
    for case in CASES:
        try:
            for name, found, wanted in case(program):
                if found != wanted:
                    yield f"{program}, {name}: {found!r:.400}, and must be {wanted!r:.400}"
        except TimeoutError as late:
            yield f"{program}, {case.__name__}: {late}"


def main(programs):
    """Returns the exit status: 0 where every run of every program went as it must."""
    if not programs:
        print("usage: checks/strangers.py PROGRAM ..")
        return 2
    found = [line for program in programs for line in differences(os.path.abspath(program))]
    print("\n".join(found), end="\n" if found else "")
    return 1 if found else 0


if __name__ == "__main__":
    sys.exit(main(sys.argv[1:]))
