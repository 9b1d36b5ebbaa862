"""Cases of `save`."""
import os
import pathlib
import select
import socket
import subprocess
import tempfile
import threading
import time

from clients import rest_of
from ports import free_port
from runs import (
    EMPTY_DUMP,
    EXAMPLE,
    MEBIBYTE,
    POINT,
    POINT_DUMP,
    POINT_MADE,
    SECONDS,
    TOP,
    bytes_of,
    dump_of_longs,
    limited,
    run,
)

# How many seconds nothing may come to a terminal; fewer than a run may take.
PATIENCE = SECONDS / 2


def saved(program, path, given=POINT, words=(), **how):
    """Returns what happened to a run of `save` to a file, and then what the file has, None if there is none."""
    ran = run(program, ["save", "--out", path, *words], given, **how)
    if not os.path.isfile(path):
        return (*ran, None)
    with open(path, "rb") as file:
        return (*ran, file.read())


def saved_unread(program, path):
    """Returns what happened to a run of `save` to a path whose input never comes, and then what the file has."""
    reading, writing = os.pipe()
    try:
        return saved(program, path, stdin=reading)
    finally:
        os.close(reading)
        os.close(writing)


def saved_by_name(program, folder):
    """Returns what happened to a run of `save` in a folder to a file of it by its name alone, and then what the file has."""
    ran = run(program, ["save", "--out", "bare.hprof"], POINT, cwd=folder)
    return (*ran, pathlib.Path(folder, "bare.hprof").read_bytes())


def saved_files(program):
    """Yields sessions that are saved to files as (name, what happened, what must happen)."""
    with tempfile.TemporaryDirectory() as folder:
        path = os.path.join(folder, "heap.hprof")
        yield "a cut session saved", saved(program, path, b"clear 0"), (1, b"bad cut\n", b"heapdbg: cut\n", None)
        done = (0, POINT_MADE + b"saved 301\n", b"", POINT_DUMP)
        yield "saved", saved(program, path), done
        yield "saved by name", saved_by_name(program, folder), done
        pathlib.Path(path).write_bytes(bytes(1000))
        yield "saved over a file", saved(program, path, POINT + b"end\nclear"), done
        pins = b"ok pin 1 at 3\nok pin 2 at 3\nok pin 3 at 3\nok pin 4 at 3\n"
        four = (0, POINT_MADE + pins + b"saved 301\n", b"", POINT_DUMP)
        yield "saved beside four pins", saved(program, path, POINT + b"open -\n" * 4), four
        shown = b"row 0 x int 7\nrow 1 y int 0\nok object Point 2\n"
        asked = saved(program, path, POINT + b"show - 0x10000000\n", ["--questions", "1"])
        yield "saved with questions", asked, (0, POINT_MADE + shown + b"saved 301\n", b"", POINT_DUMP)
        swept = saved(program, path, POINT + b"open -\nclear 0 0\ncollect\n", ["--questions=1"])
        made = POINT_MADE + b"ok pin 1 at 3\nok\nok condemned 1 swept 1\n"
        yield "saved after a collection", swept[:2], (0, made + b"saved %d\n" % len(swept[3]))
        cut = saved(program, path + "x", b"show - 0x10000000\npi", ["--questions", "1"])
        yield "a cut session with questions saved", cut, (1, b"no 28 NoObject\nbad cut\n", b"heapdbg: cut\n", None)
        plain = saved(program, path, POINT + b"pins\n")
        yield "saved without questions", plain, (0, POINT_MADE + b"bad command\nsaved 301\n", b"", POINT_DUMP)
        short = bytes_of(dump_of_longs(1, 4, 7))
        ids = (0, b"ok object 0x10000000\nsaved %d\n" % len(short), b"", short)
        yield "saved ids and time", saved(program, path, b"newprim 0 0 long 1\n", ["--ids", "4", "--time=7"]), ids
        large = bytes_of(dump_of_longs(1024))
        arrays = (0, b"ok object 0x10000000\nsaved %d\n" % len(large), b"", large)
        yield "saved large", saved(program, path, b"newprim 0 0 long 1024\n"), arrays
        viewed = saved(program, path, (TOP / "examples/viewer.session").read_bytes())
        lines = viewed[1].splitlines()
        told = [viewed[0], all(line.startswith(b"ok") for line in lines[:-1]), lines[-1]]
        yield "the viewer's example", told, [0, True, b"saved %d" % len(viewed[3])]


def saved_to_long_names(program):
    """Yields sessions that are saved to files whose names and paths are long as (name, what happened, what must happen): each file
    is there, and no other is made."""
    done = (0, POINT_MADE + b"saved 301\n", b"")
    for names in (["h" * 64], ["h" * 65], ["h" * 255], ["in a folder", "h" * 80 + ".hprof"], ["f" * 200] * 6 + ["h" * 200]):
        for is_whole in (True, False):
            with tempfile.TemporaryDirectory() as top:
                os.makedirs(os.path.join(top, *names[:-1]), exist_ok=True)
                wanted = os.path.join(top, *names)
                path, where = (wanted, None) if is_whole else (os.path.join(*names), top)
                ran = run(program, ["save", "--out", path], POINT, cwd=where)
                there = [pathlib.Path(at, name) for at, _, files in os.walk(top) for name in files]
                made = {str(file): file.read_bytes() for file in there}
                yield f"saved to a path of {len(path)} bytes", (*ran, made), (*done, {wanted: POINT_DUMP})


def saved_faults(program):
    """Yields saves that fail as (name, what happened, what must happen)."""
    out = (1, POINT_MADE + b"failed 0\n", b"heapdbg: out\n", None)
    with tempfile.TemporaryDirectory() as folder:
        path = os.path.join(folder, "heap.hprof")
        missing = os.path.join(folder, "none", "heap.hprof")
        early = (1, b"", b"heapdbg: out\n", None)
        yield "saved to no folder", saved(program, missing), early
        yield "saved below a file", saved(program, os.path.join(os.path.abspath(__file__), "heap.hprof")), early
        yield "saved to no folder, with an input that never comes", saved_unread(program, missing), early
        yield "saved to a folder", saved(program, folder), out
        yield "saved to a full file", saved(program, "/dev/full"), out
        yield "saved to no name", saved(program, ""), out
        with open("/dev/full", "wb") as full:
            yield "answers to a full output", saved(program, path, stdout=full), (1, b"", b"heapdbg: write\n", None)
            last = (1, b"", b"heapdbg: write\n", EMPTY_DUMP)
            yield "a last line to a full output", saved(program, path, b"", stdout=full), last
            both = (1, b"", b"heapdbg: write\n", None)
            yield "no outlet and a full output", saved(program, folder, b"", stdout=full), both
    enough = next(n for n in range(1, 64) if run(program, ["run"], preexec_fn=limited(n * MEBIBYTE))[0] == 0)
    large = ["save", "--to", str(free_port()), "--regions", "256", "--keep", "65536"]
    ran = run(program, large, EXAMPLE, preexec_fn=limited(enough * MEBIBYTE))
    yield "little memory before no listener", ran, (1, b"", b"heapdbg: memory\n")
    ran = run(program, ["save", "--to", str(free_port())], POINT)
    yield "saved to nobody", ran, (1, POINT_MADE + b"failed 0\n", b"heapdbg: connect\n")


def received(server, got):
    """Adds to a list what the first client of a server sends until it closes."""
    with server.accept()[0] as client:
        client.settimeout(SECONDS)
        got.append(rest_of(client, b""))


def closed(server, got):
    """Closes the first client of a server at once."""
    server.accept()[0].close()


def saved_to(program, peer, given, *words, **how):
    """Returns what happened to a run of `save` to a server whose one client a peer sees to, and then what that peer got."""
    with socket.create_server(("127.0.0.1", 0)) as server:
        server.settimeout(SECONDS)
        # Little room on the peer's side, so that a long dump has to wait for the peer.
        server.setsockopt(socket.SOL_SOCKET, socket.SO_RCVBUF, 4096)
        got = []
        listener = threading.Thread(target=peer, args=(server, got))
        listener.start()
        ran = run(program, ["save", f"--to={server.getsockname()[1]}", *words], given, **how)
        listener.join()
    return (*ran, *got)


def late(path, terminal, got):
    """Reads a large dump out of a pipe with a name: two batches or so late, and the rest once a line is on a terminal, for which it
    waits at most PATIENCE, if there is one. Adds to a list what is on the terminal then, and how many bytes come out."""
    with open(path, "rb") as pipe:
        count = len(pipe.read(4096))
        time.sleep(0.3)
        count += len(pipe.read(100_000))
        got.append(shown_on(terminal) if terminal else b"")
        got.append(count + len(pipe.read()))


def shown_on(terminal, last=b""):
    """Returns what is on a terminal once it ends with these bytes, or once anything is if there are none. Waits at most PATIENCE for
    each part."""
    shown = b""
    while not (shown and shown.endswith(last)) and select.select([terminal], [], [], PATIENCE)[0]:
        # A line may be written in parts.
        time.sleep(0.05)
        shown += os.read(terminal, 65536)
    return shown


def saved_late(program, error, terminal=None, words=()):
    """Returns the status of a large save by these words to a pipe that is read late, what is on a terminal meanwhile, and how much came
    out."""
    got = []
    with tempfile.TemporaryDirectory() as folder:
        path = os.path.join(folder, "pipe")
        os.mkfifo(path)
        reader = threading.Thread(target=late, args=(path, terminal, got))
        reader.start()
        words = ["heapdbg", "save", "--out", path, "--regions=256", *words]
        given = b"newprim 0 0 long 1024\n" * 256
        ran = subprocess.run(words, executable=program, input=given, stdout=subprocess.PIPE, stderr=error, timeout=SECONDS)
        reader.join()
    return (ran.returncode, *got)


def saved_beside_a_terminal(program):
    """Returns the status of a large save whose standard error is a terminal, the progress in bytes that it shows while it is held, all
    that it shows afterwards, and how much came out of it."""
    terminal, error = os.openpty()
    status, early, size = saved_late(program, error, terminal)
    # What was written last may reach the terminal after the program's end.
    rest = shown_on(terminal, b"\n")
    os.close(error)
    os.close(terminal)
    return status, size, [int(line.split()[0]) for line in early.split(b"\r") if line], early + rest


def saved_quietly(program):
    """Returns the status of a large save with `--quiet` whose standard error is a terminal, how much came out of it, and what the terminal
    shows after it."""
    terminal, error = os.openpty()
    status, _, size = saved_late(program, error, words=["--quiet"])
    shown = os.read(terminal, 65536) if select.select([terminal], [], [], 0)[0] else b""
    os.close(error)
    os.close(terminal)
    return status, size, shown


def saved_to_listeners(program):
    """Yields saves to a listener as (name, what happened, what must happen)."""
    whole = (0, POINT_MADE + b"saved 301\n", b"", POINT_DUMP)
    yield "saved to a listener", saved_to(program, received, POINT), whole
    many = b"class Four - a:long b:long c:long d:long\n" + b"new 0 0 0\n" * 65_536
    status, out, error = saved_to(program, closed, many, "--regions=256")
    last = out.splitlines()[-1].split()
    told = (status, last[0], int(last[1]) < 57 * 65_536, error)
    yield "saved to a peer that closes", told, (1, b"failed", True, b"heapdbg: out\n")


def saved_on_terminals(program):
    """Yields saves that take a while, beside a terminal and without one, as (name, what happened, what must happen)."""
    size = 2_104_143
    status, came, early, shown = saved_beside_a_terminal(program)
    *lines, last = [line for line in shown.split(b"\r") if line]
    told = (status, came, len(early) > 0, all(0 < bytes_out < size for bytes_out in early))
    yield "saved beside a terminal, and held", told, (0, size, True, True)
    sizes = [int(line.split()[0]) for line in lines]
    told = (last, sizes == sorted(sizes), sizes[-1:], all(line.endswith(b" of %d bytes" % size) for line in lines))
    yield "the lines on the terminal", told, (b"\n", True, [size], True)
    with tempfile.TemporaryFile() as error:
        status, _, came = saved_late(program, error)
        error.seek(0)
        yield "saved beside a file", (status, came, error.read()), (0, size, b"")
    yield "saved beside a quiet terminal", saved_quietly(program), (0, size, b"")
