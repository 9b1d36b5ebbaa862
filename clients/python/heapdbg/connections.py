"""Connections to a `heapdbg serve`, and the dumps that it sends."""
from __future__ import annotations

import contextlib
import os
import re
import socket
from typing import Optional, Union

from .faults import Ended

# What the file of a secret holds.
SECRET = re.compile(rb"([0-9A-Za-z]{16,64})(\r?\n)?")
# How a dump begins, the sizes of its header and of each record's head, and the tag of the last record.
MAGIC = b"JAVA PROFILE 1.0.2\0"
HEADER_SIZE = len(MAGIC) + 12
HEAD_SIZE = 9
DUMP_END = 0x2C
# The path of the file of a secret, or None.
SecretFile = Union[None, str, "os.PathLike[str]"]


def secret_line(path: Union[str, "os.PathLike[str]"]) -> bytes:
    """Returns the line that a client has to send first, of the word in a file. Raises ValueError if the file has no such word."""
    with open(path, "rb") as file:
        found = SECRET.fullmatch(file.read(100))
    if not found:
        raise ValueError(f"{os.fspath(path)} has no word of 16 to 64 letters and digits")
    return found[1] + b"\n"


def opened(port: int, host: str, timeout: Optional[float], secret: SecretFile) -> socket.socket:
    """Returns a connection to a port of a `heapdbg serve`, which was sent the word in the file of a secret, if there is one."""
    line = b"" if secret is None else secret_line(secret)
    connection = socket.create_connection((host, port), timeout)
    connection.setsockopt(socket.IPPROTO_TCP, socket.TCP_NODELAY, 1)
    connection.sendall(line)
    return connection


def is_whole(dump: bytes) -> bool:
    """Tells whether bytes are a whole dump: the header, and then records of which the last alone is HEAP DUMP END."""
    at, tag = HEADER_SIZE, 0
    while at + HEAD_SIZE <= len(dump) and tag != DUMP_END:
        tag = dump[at]
        at += HEAD_SIZE + int.from_bytes(dump[at + 5 : at + HEAD_SIZE], "big")
    return dump.startswith(MAGIC) and tag == DUMP_END and at == len(dump)


def fetch(port: int, host: str = "127.0.0.1", timeout: Optional[float] = None, secret: SecretFile = None) -> bytes:
    """Returns the dump that the port for dumps of a `heapdbg serve` sends. `secret` is the path of the file whose word that heap
    asks for, if it asks for one. Raises Ended with the word `cut` if what came is no whole dump."""
    parts = []
    with opened(port, host, timeout, secret) as connection, contextlib.suppress(ConnectionError):
        while part := connection.recv(1 << 20):
            parts.append(part)
    dump = b"".join(parts)
    if not is_whole(dump):
        raise Ended(f"fetch {port}", "cut", text=f"{len(dump)} bytes")
    return dump
