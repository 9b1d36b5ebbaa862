"""A served heap with a page."""
import re
import threading

from asking import Page
from ports import free_port
from servers import Server

KEEP = 4096


class Heap(Page):
    """A served heap that a session left, whose client stays, and its page."""

    def __init__(self, program, lines, *options, sessions=1, keep=KEEP, port=None):
        self.port = port or free_port()
        self.server = Server(program, sessions, "--page", str(self.port), "--keep", str(keep), *options)
        self.client = self.server.client()
        self.give(lines)
        self.read_address(self.server.run.stderr)

    def give(self, lines):
        """Says lines in the session, each of which has a reply of a line, and waits for these."""
        sender = threading.Thread(target=self.client.sendall, args=(lines,))
        sender.start()
        left = lines.count(b"\n")
        while left:
            left -= self.client.recv(1 << 20).count(b"\n")
        sender.join()

    def say(self, line):
        """Says a line in the session, and returns the last line of its answer."""
        self.client.sendall(line.encode() + b"\n")
        come = b""
        while not re.search(rb"(?m)^(ok|no|bad)[^\n]*\n\Z", come):
            come += self.client.recv(1 << 16)
        return come.decode().splitlines()[-1]

    def __enter__(self):
        return self

    def __exit__(self, *_):
        self.client.close()
        self.server.__exit__()


def nodes(count):
    """Returns the lines that make a list of nodes of two slots, which register 1 names."""
    return b"class Node - next:object v:long\n" + b"new 0 0 0\nstore 0 0 0 1\nmove 0 1 0 0\n" * count
