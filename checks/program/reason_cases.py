"""Cases of files and ports that can't be used: what is said of them on a terminal, before the word of the fault, and elsewhere."""
import os
import re
import socket
import tempfile

from ports import free_port
from runs import POINT, POINT_MADE, run, run_by_terminal

NOTHING = b"No such file or directory"
# How far a save is: a terminal shows it once a second has passed, as it may on a busy machine.
PROGRESS = re.compile(rb"(\r\d+ of \d+ bytes)+\n")


def reasons(program):
    """Yields runs that can't use a file or a port as (name, what happened, what must happen)."""
    with tempfile.TemporaryDirectory() as folder, socket.create_server(("127.0.0.1", 0)) as server:
        missing, below = os.path.join(folder, "none/heap"), os.path.join(os.path.abspath(__file__), "heap")
        taken, free = server.getsockname()[1], free_port()
        lacks = b"%s: %s" % (missing.encode(), NOTHING)
        refused, in_use = b"127.0.0.1:%d: Connection refused" % free, b"127.0.0.1:%d: Address already in use" % taken
        for words, out, reason, word in (
            (["explore", "--from", missing], b"", lacks, b"from"),
            (["explore", "--from", folder], b"", b"%s: Is a directory" % folder.encode(), b"from"),
            (["explore", "--hprof", missing], b"", lacks, b"hprof"),
            (["run", "--hprof", missing], b"", lacks, b"hprof"),
            (["draw", "--out", "x.svg", "--hprof", missing], b"", lacks, b"hprof"),
            (["serve", "--port", str(free), "--hprof", missing], b"", lacks, b"hprof"),
            (["explore", "--hprof", folder], b"", b"%s: Is a directory" % folder.encode(), b"hprof"),
            (["draw", "--out", missing], POINT_MADE, lacks, b"out"),
            (["draw", "--out", folder], POINT_MADE, b"%s: Is a directory" % folder.encode(), b"out"),
            (["save", "--out", missing], b"", lacks, b"out"),
            (["save", "--out", below], b"", b"%s: Not a directory" % below.encode(), b"out"),
            (["save", "--out", folder], POINT_MADE + b"failed 0\n", b"%s: Is a directory" % folder.encode(), b"out"),
            (["save", "--to", str(free)], POINT_MADE + b"failed 0\n", refused, b"connect"),
            (["ask", "--port", str(free)], b"", refused, b"connect"),
            (["explore", "--port", str(free)], b"", refused, b"connect"),
            (["fetch", "--port", str(free), "--out", os.path.join(folder, "heap")], b"", refused, b"connect"),
            (["fetch", "--port", str(taken), "--out", missing], b"", lacks, b"out"),
            (["fetch", "--port", str(taken), "--out", folder], b"", b"%s: Is a directory" % folder.encode(), b"out"),
            (["serve", "--port", str(taken)], b"", in_use, b"listen"),
            (["serve", "--port", str(free), "--dumps", str(taken)], b"", in_use, b"listen"),
            (["serve", "--port", str(free), "--page", str(taken)], b"", in_use, b"listen"),
            (["explore", "--page", str(taken)], b"", in_use, b"listen"),
            (["serve", "--port", str(free), "--secret", missing], b"", lacks, b"secret"),
            (["ask", "--port", str(taken), "--secret", missing], b"", lacks, b"secret"),
        ):
            told = b"heapdbg: %s\n" % word
            why = b"heapdbg: %s\n" % reason
            status, made, shown = run_by_terminal(program, words, POINT)
            yield f"{words} beside a terminal", (status, made, PROGRESS.sub(b"", shown)), (1, out, why + told)
            yield f"{words}", run(program, words, POINT), (1, out, told)
