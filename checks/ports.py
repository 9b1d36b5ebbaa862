"""Ports for programs that are run here."""
import contextlib
import itertools
import pathlib
import random
import socket

# Ports are asked for one after another, from one at random on, and lie below those that the system gives to clients. So none is
# taken by somebody else of this run before it is listened on.
PORTS = itertools.count(random.randrange(20_000))


def free_port():
    """Returns a port that nobody listens on."""
    for number in PORTS:
        port = 10_000 + number % 20_000
        with socket.socket() as probe, contextlib.suppress(OSError):
            probe.setsockopt(socket.SOL_SOCKET, socket.SO_REUSEADDR, 1)
            probe.bind(("127.0.0.1", port))
            return port


def free_ports(count):
    """Returns ports that nobody listens on, each another one."""
    return [free_port() for _ in range(count)]


def listened():
    """Returns the ports of 127.0.0.1 that are listened on, as the kernel's table says, so that no session is used up."""
    rows = [line.split() for line in pathlib.Path("/proc/net/tcp").read_text().splitlines()[1:]]
    return {int(row[1][9:], 16) for row in rows if row[1].startswith("0100007F:") and row[3] == "0A"}
