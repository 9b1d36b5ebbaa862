"""Cases of the file of a secret: which files are refused, and what clients with and without its word are answered."""
import contextlib
import os
import pathlib
import tempfile

from clients import asked, connected, rest_of, served
from ports import free_port
from runs import POINT, POINT_DUMP, POINT_MADE, run

WORD = b"0123456789abcdefghijKLMNOPQRSTUVWXYZ"
# Texts without such a word, modes by which others than the owner can read a file, and files that are taken.
WRONG = [b"", b"a" * 15, b"a" * 65, b"a" * 15 + b"\n", b"a" * 16 + b" ", b" " + b"a" * 16, b"a" * 16 + b"\n\n", b"a" * 16 + b"\r"]
WRONG += [b"aaaaaaaa-aaaaaaaa", b"\xe4" * 16, b"a" * 16 + b"\0", b"a" * 16 + b"\n" + b"b" * 16 + b"\n", b"a" * 70_000]
SHARED = [0o640, 0o604, 0o644, 0o660, 0o666]
TAKEN = [(WORD, 0o600), (WORD + b"\n", 0o400), (WORD + b"\r\n", 0o600), (b"a" * 16, 0o700), (b"Z9" * 32, 0o600)]


def write(path, text, mode):
    """Makes a file with a text and a mode, instead of one that was there."""
    with contextlib.suppress(FileNotFoundError):
        os.remove(path)
    with open(os.open(path, os.O_CREAT | os.O_WRONLY, 0o600), "wb") as file:
        file.write(text)
    os.chmod(path, mode)


def refused_files(program):
    """Yields runs with a file that is refused, as (name, what happened, what must happen). Nothing listens on their port."""
    with tempfile.TemporaryDirectory() as folder:
        path, heap, port = os.path.join(folder, "secret"), os.path.join(folder, "heap"), str(free_port())
        commands = ["serve", "--port", port], ["ask", "--port", port], ["explore", "--port", port], ["fetch", "--port", port, "--out", heap]
        fault = (1, b"", b"heapdbg: secret\n", False)
        for text, mode in ([(text, 0o600) for text in WRONG] + [(WORD, mode) for mode in SHARED]):
            write(path, text, mode)
            for words in commands:
                happened = run(program, [*words, "--secret", path], POINT)
                yield f"{words[0]} with a file of mode {mode:o}, {text!r:.40}", (*happened, os.path.exists(heap)), fault
        for words in commands:
            for other in (folder, os.path.join(folder, "none")):
                happened = run(program, [*words, "--secret", other], POINT)
                yield f"{words[0]} with no file", (*happened, os.path.exists(heap)), fault


def answer_of_stranger(port):
    """Returns what a client is sent that doesn't begin with the word."""
    with connected(port) as client, contextlib.suppress(ConnectionError):
        return rest_of(client, POINT + b"end\n")
    return b""


def guarded(program):
    """Yields served heaps with a secret. `ask`, `explore` and `fetch` have the word; another client hasn't."""
    for text, mode in TAKEN:
        with tempfile.TemporaryDirectory() as folder:
            path, heap, dumps = os.path.join(folder, "secret"), os.path.join(folder, "heap"), free_port()
            write(path, text, mode)
            secret = ["--secret", path]

            def clients(port):
                made = asked(program, port, POINT, words=secret)
                shown = asked(program, port, b"clear 1 0\n", "explore", words=secret)
                fetched = run(program, ["fetch", "--port", str(dumps), "--out", heap, *secret])
                dump = pathlib.Path(heap).read_bytes() if os.path.exists(heap) else b""
                return made, shown, (*fetched, dump), answer_of_stranger(port)

            happened = served(program, clients, ["--sessions", "3", "--dumps", str(dumps), *secret])
            told = b"session 1 quit\nsession 2 quit\nsession 3 secret\n"
            answers = (0, POINT_MADE, b""), (0, b"ok\n", b""), (0, b"fetched 301\n", b"", POINT_DUMP), b""
            yield f"a secret of {len(text)} bytes, mode {mode:o}", happened, (0, told, b"", *answers)
