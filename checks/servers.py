"""A `serve` of the built program, and how a client talks to it."""
import contextlib
import pathlib
import re
import socket
import subprocess
import sys
import time

TOP = pathlib.Path(__file__).resolve().parent.parent
sys.path.append(str(TOP / "clients/python"))

from heapdbg import Session  # noqa: E402
from ports import free_port, listened  # noqa: E402

# The seconds that a wait may take.
LIMIT = 20


def started(program, words, **how):
    """Starts a program whose outputs can be read, unless `how`, which goes to `Popen`, says otherwise. A path is run by the name
    `heapdbg`, and a list of words as it stands."""
    pipes = {"stdout": subprocess.PIPE, "stderr": subprocess.PIPE}
    if isinstance(program, list):
        return subprocess.Popen([*program, *words], **pipes | how)
    return subprocess.Popen(["heapdbg", *words], executable=program, **pipes | how)


def memory_of(run, kind="VmRSS"):
    """Returns the bytes of memory that a program has, or those that the kernel counts by another name, as `VmHWM` for the most that it
    had. Returns None if it has ended."""
    found = re.search(rf"{kind}:\s+(\d+) kB", pathlib.Path(f"/proc/{run.pid}/status").read_text())
    return 1024 * int(found[1]) if found else None


def connection(port, room=None):
    """Returns a connection to a port that is listened on, which takes `room` bytes unread if that is given."""
    client = socket.socket()
    try:
        if room:
            client.setsockopt(socket.SOL_SOCKET, socket.SO_RCVBUF, room)
        client.settimeout(LIMIT)
        client.connect(("127.0.0.1", port))
        return client
    except OSError:
        client.close()
        raise


def connected(port, room=None, run=None):
    """Returns a connection once the port is listened on. Fails if it takes too long, or if the program `run` ends before."""
    end = time.monotonic() + LIMIT
    while time.monotonic() < end and (run is None or run.poll() is None):
        with contextlib.suppress(ConnectionError):
            return connection(port, room)
        time.sleep(0.005)
    raise TimeoutError(f"nothing listens on port {port}")


class Server:
    """A `serve` of the program (see `started`), on a port that nobody listened on, of `sessions` sessions unless that is None."""

    def __init__(self, program, sessions, *options, **how):
        self.port = free_port()
        count = [] if sessions is None else ["--sessions", str(sessions)]
        self.run = started(program, ["serve", "--port", str(self.port), *count, *options], **how)

    def client(self):
        """Returns a connection, once the server listens."""
        return connected(self.port, run=self.run)

    def waits(self):
        """Returns once the server listens, and uses up no session."""
        end = time.monotonic() + LIMIT
        while time.monotonic() < end and self.run.poll() is None:
            if self.port in listened():
                return
            time.sleep(0.01)
        raise TimeoutError(f"nothing listens on port {self.port}")

    def session(self):
        """Returns a session of a client."""
        client = self.client()
        return Session(client.makefile("rb"), client.makefile("wb"), client.close)

    def ended(self, limit=LIMIT):
        """Returns status, the words of the sessions in order, and standard error, once all sessions have ended."""
        out, error = self.run.communicate(timeout=limit)
        lines = [line.split(" ") for line in out.decode().splitlines()]
        numbers = [line[:-1] for line in lines]
        assert numbers == [["session", str(n + 1)] for n in range(len(lines))], out
        return self.run.returncode, [line[-1] for line in lines], error

    def __enter__(self):
        return self

    def __exit__(self, *_):
        self.run.kill()
        self.run.communicate()


class DumpServer(Server):
    """A `serve` of the program that sends dumps, too."""

    def __init__(self, program, sessions, *options, **how):
        self.program, self.dumps = program, free_port()
        super().__init__(program, sessions, "--dumps", str(self.dumps), *options, **how)

    def dump_client(self, room=None):
        """Returns a connection to the port for dumps, once it is listened on, which takes `room` bytes unread if that is given."""
        return connected(self.dumps, room, self.run)

    def dump(self):
        """Returns all that a client of the port for dumps is sent."""
        with self.dump_client() as client:
            return all_of(client)

    @contextlib.contextmanager
    def fetching(self, path):
        """Has `fetch` run, and ends it."""
        child = started(self.program, ["fetch", "--port", str(self.dumps), "--out", str(path)])
        try:
            yield child
        finally:
            child.kill()
            child.communicate()


def all_of(client):
    """Returns all that comes until the other side closes."""
    with client.makefile("rb") as come:
        return come.read()


def exchanged(server, given):
    """Sends bytes from a new client, which then reads all answers."""
    with server.client() as client:
        client.sendall(given)
        client.shutdown(socket.SHUT_WR)
        return all_of(client)
