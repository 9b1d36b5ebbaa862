"""The page of a heap, and how its requests are made."""
import contextlib
import socket

from dump import pieces_of
from servers import LIMIT


class Page:
    """The page of a heap, at the port that it has."""

    def read_address(self, errors):
        """Reads the address of the page where it is said."""
        self.address = errors.readline().decode().split("page ")[1].strip()
        self.key = self.address.split("#")[1]

    def connect(self):
        """Returns a connection to the page's port."""
        return socket.create_connection(("127.0.0.1", self.port), LIMIT)

    def sent(self, given):
        """Sends bytes, and returns what comes until nothing does, or the other side closes."""
        with self.connect() as client:
            client.sendall(given)
            come = b""
            with contextlib.suppress(ConnectionError):
                while part := client.recv(1 << 16):
                    come += part
        return come

    def head(self, method="POST", path="/ask", body=b"", host=None, version="1.1", **fields):
        """Returns the head of a request that asks to close."""
        head = [f"{method} {path} HTTP/{version}", f"Host: {host or f'127.0.0.1:{self.port}'}", "Connection: close", f"Content-Length: {len(body)}"]
        head += [f"{name.replace('_', '-')}: {value}" for name, value in fields.items()]
        return "\r\n".join(head).encode() + b"\r\n\r\n"

    def request(self, *given, body=b"", **fields):
        """Returns the response to a request that asks to close."""
        return self.sent(self.head(*given, body=body, **fields) + body)

    def status(self, *given, **fields):
        """Returns the status of the response to a request."""
        return int(self.request(*given, **fields).split(b" ", 2)[1] or 0)

    def asked(self, line):
        """Returns the answer of a line."""
        return body_of(self.request(body=line.encode(), X_Heapdbg_Key=self.key)).decode()

    def dump(self, word):
        """Returns the dump of the state that a word names."""
        return body_of(self.request(path="/dump", body=word.encode(), X_Heapdbg_Key=self.key))

    def rows(self, line):
        """Returns the rows of the answer of a line, each a list of words."""
        return [row.split()[1:] for row in self.asked(line).splitlines()[:-1]]


def body_of(response):
    """Returns the body of a response."""
    return response.split(b"\r\n\r\n", 1)[1]


def dumped(machine, place):
    """Returns the dump of the state at a place, as the model has it."""
    return b"".join(pieces_of(machine.states[place - machine.place - 1], 0, 8))
