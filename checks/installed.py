#!/usr/bin/env python3
"""Installs the built programs as a user does, from a copy of this repository, and types there what the documents type:
`installed.py PROGRAM IMPORT`.

Looks whether the manual page and the completions know each option that the program's help names, whether heapdbg-explore
completes the keywords of all lines, whether the examples of the manual page, as `man` shows them, and the commands of README,
SESSIONS, HUNT, RECORD, VIEWERS and of the clients' READMEs do in the installed folder what they say, and whether `make uninstall`
leaves nothing. Prints a line for each thing that is otherwise, and ends with status 1 if there is one; prints nothing
where all is well."""
import concurrent.futures
import contextlib
import http.client
import os
import pathlib
import re
import shlex
import shutil
import signal
import subprocess
import sys
import tempfile

import viewers
from hunt import asked_of, fits, hunts
from typed import LIMIT, Shell, command_word, commands_of, complaints, manual_examples

TOP = pathlib.Path(__file__).resolve().parent.parent
COMMANDS = ("run", "explore", "draw", "save", "serve", "ask", "fetch")
COMPLETED = 'source "$1"; COMP_WORDS=(heapdbg "$2" --); COMP_CWORD=2; _heapdbg; echo "${COMPREPLY[@]}"'
EXAMPLE = TOP / "examples/point.session"
REPLIES = (TOP / "crates/heapdbg/stdout").read_bytes()
# How the last line begins that each command of the manual page's examples writes, and what must stand in the file that it makes.
LAST = {"run": rb"ok dump \d+", "save": rb"saved \d+", "ask": rb"ok", "fetch": rb"fetched \d+"}
MADE = {"save": "heap.hprof", "fetch": "heap.hprof"}
# The scripts that make the files of HUNT need the checks, which aren't installed.
STORIES = [f"examples/{name}.py" for name in ("leak", "orders", "services")]


def make(folder, *words):
    """Runs make in a folder. Returns its status and what it said on standard error."""
    ran = subprocess.run(["make", "--no-print-directory", *words], cwd=folder, capture_output=True)
    return ran.returncode, ran.stderr.decode()


@contextlib.contextmanager
def copied(program, importer):
    """A copy of this repository without its history, with programs as bin/heapdbg and bin/heapdbg-import."""
    with tempfile.TemporaryDirectory() as name:
        folder = pathlib.Path(name, "copy")
        shutil.copytree(TOP, folder, ignore=shutil.ignore_patterns("out", ".git", "dist", "bin", "edits", "proofs", "__pycache__"))
        (folder / "bin").mkdir()
        shutil.copy(program, folder / "bin/heapdbg")
        shutil.copy(importer, folder / "bin/heapdbg-import")
        yield folder


def answered(*words):
    """Returns what a program and its words answer the example."""
    return subprocess.run(words, input=EXAMPLE.read_bytes(), capture_output=True).stdout


def options_of(program, command):
    """Returns the options that the help of a command names."""
    said = subprocess.run([program, command, "--help"], capture_output=True, text=True).stdout
    return set(re.findall(r"^ +(?:-\w, )?(--[a-z]+)", said, re.MULTILINE))


def misses(program, man, completions, words):
    """Yields what the manual page and the completions lack of the options of the program, or have beyond them, and whether the words of
    heapdbg-explore are the keywords of its lines."""
    told = set(re.findall(r"^\.BI? (--[a-z]+)", man.read_text().replace("\\-", "-"), re.MULTILINE)) | {"--help"}
    for command in COMMANDS:
        options = options_of(program, command)
        ran = subprocess.run(["bash", "-c", COMPLETED, "bash", completions, command], capture_output=True, text=True)
        if set(ran.stdout.split()) != options:
            yield f"the completions of {command} are {ran.stdout.strip()}, and its options {' '.join(sorted(options))}"
        yield from (f"the manual page doesn't say what {option} does" for option in sorted(options - told))
    rows = subprocess.run([program, "explore"], input=b"help\n", capture_output=True).stdout.split(b"ok\n")[0].splitlines()
    if [row.split()[1] for row in rows] != words.read_bytes().split():
        yield f"{words.name} has other words than help"
    if shutil.which("mandoc"):
        said = subprocess.run(["mandoc", "-T", "lint", man], capture_output=True, text=True).stdout
        yield from said.splitlines()


def manual(man, shell):
    """Yields what is wrong with the examples of the manual page, as `man` shows them."""
    if not shutil.which("man"):
        yield "man isn't installed (apt-get install man-db groff-base), so nobody saw the manual page's examples"
        return
    yield from (f"man says: {line}" for line in complaints(man))
    examples = manual_examples(man)
    written = re.search(r"^\.EX\n(.*?)^\.EE", man.read_text(), re.MULTILINE | re.DOTALL)[1].count("\n")
    if len(examples) != written:
        yield f"the manual page has {written} examples, and man shows {len(examples)}"
    shutil.copy(TOP / "examples/viewer.session", shell.folder / "session")
    for example in examples:
        word = command_word(example)
        file = shell.folder / MADE.get(word, "session")
        if word in MADE:
            file.unlink(missing_ok=True)
        status, out, error = shell.run(example)
        # The lines of a server that stays come when its sessions end.
        last = re.sub(rb"^session \d+ \w+\n", b"", out, flags=re.MULTILINE).rstrip(b"\n").split(b"\n")[-1]
        refused = re.search(rb"^(no|bad) .*", out, re.MULTILINE)
        if status or error or refused or not re.match(LAST[word], last) or not file.exists():
            yield f"the manual page's example {example!r}: status {status}, {(refused or [last])[0]!r}, {error!r:.100}"


def groups(out):
    """Returns the lines of answers, each with its rows before its last line."""
    found, group = [], []
    for line in out.split(b"\n")[:-1]:
        group.append(line)
        if not line.startswith((b"row ", b"data ")):
            found.append(group)
            group = []
    return found


def block(text, first):
    """Returns the left and the right column of README's block whose first line begins so."""
    lines = re.search(rf"^    {re.escape(first)}.*?(?=\n\n)", text, re.MULTILINE | re.DOTALL)[0].split("\n")
    rows = [re.split(r" {2,}", line[4:].rstrip(), maxsplit=1) for line in lines]
    return [row[0] for row in rows if row[0]], [row[1].encode() for row in rows if len(row) > 1]


def answered_as(shell, command, asked):
    """Yields what the lines that a document types are answered otherwise than it says, by the command that it types."""
    status, out, error = shell.run(command, b"".join(line + b"\n" for line, _ in asked))
    came = groups(out)
    wrong = [line for (line, wanted), got in zip(asked, came) if not fits(line, got, wanted)]
    if status or error or wrong or len(came) != len(asked):
        yield f"{command!r}: status {status}, {len(came)} answers, others than the document has to {wrong[:2]}, {error!r:.100}"


def hunted(shell, hunt):
    """Yields what HUNT's questions are answered otherwise than it says."""
    indented, _ = commands_of(hunt)
    for (_, asked), explore in zip(hunts(), indented):
        yield from (f"HUNT, {fault}" for fault in answered_as(shell, explore, asked))


def recorded(shell, document):
    """Yields what the example of RECORD and its Lisp do otherwise than it says, recorded to a file and to a heap that is served."""
    text = document.read_text()
    lisp, explore, serve, served_lisp, ask = (each for each in commands_of(document)[0] if not each.startswith("for "))
    (shell.folder / "recorded.py").write_text(re.search(r"```python\n(.*?)```", text, re.DOTALL)[1])
    wanted = re.sub("^    ", "", re.search(r"^It prints\n\n(.*?\n)\n", text, re.MULTILINE | re.DOTALL)[1], flags=re.MULTILINE)
    came = shell.run(f"PYTHONDONTWRITEBYTECODE=1 PYTHONPATH={shlex.quote(str(shell.folder / 'clients/python'))} python3 recorded.py")
    if came != (0, wanted.encode(), b""):
        yield f"RECORD's example: {came}, and must print {wanted!r}"
    asked = asked_of(text)
    status, out, error = shell.run(f"PYTHONDONTWRITEBYTECODE=1 {lisp}")
    if status or error or f"    {explore}\n".encode() not in out or asked[0][0] not in out:
        yield f"RECORD, {lisp!r}: status {status}, {out!r}, {error!r:.100}"
    yield from (f"RECORD, {fault}" for fault in answered_as(shell, explore, asked))
    with shell.start(serve) as server:
        server.waits_for(shell.ports["7020"])
        status, out, error = shell.run(f"PYTHONDONTWRITEBYTECODE=1 {served_lisp}")
        if status or error or ask.split("--port")[0].encode() not in out:
            yield f"RECORD, {served_lisp!r}: status {status}, {out!r}, {error!r:.100}"
        yield from (f"RECORD, {fault}" for fault in answered_as(shell, ask, asked[:1]))
        if server.ended() != (0, b"session 1 quit\nsession 2 quit\n", b""):
            yield f"RECORD, {serve!r}: {server.ended()}"


def viewed(shell, document):
    """Yields what is wrong with the files that VIEWERS makes."""
    indented, _ = commands_of(document)
    first, example = (shell.folder / f"examples/{name}.session" for name in ("java", "viewer"))
    if len(indented) != 2 or not example.read_text().startswith(first.read_text()):
        yield f"VIEWERS types {indented}, or {example.name} doesn't begin with {first.name}"
    for command in indented:
        file = shell.folder / command.split("--out ")[1].split()[0]
        status, out, error = shell.run(command)
        refused = re.search(rb"^(no|bad) .*", out, re.MULTILINE)
        if status or error or refused or not out.endswith(b"\nsaved %d\n" % file.stat().st_size):
            yield f"VIEWERS, {command!r}: status {status}, {refused}, {out[-40:]!r}, {error!r:.100}"
        yield from (f"VIEWERS, {command!r}: {fault}" for fault in viewers.faults(file.read_bytes()))


def asked(shell, readme):
    """Yields what README's questions, picture and example do otherwise than it says."""
    text = readme.read_text()
    _, quoted = commands_of(readme)
    explore, draw, run = ([each for each in quoted if each.startswith(f"heapdbg {word} ")] for word in ("explore", "draw", "run"))
    lines, replies = block(text, "dominators 1")
    came = shell.run(explore[0], "".join(f"{line}\n" for line in lines).encode())
    if came != (0, b"".join(reply + b"\n" for reply in replies), b""):
        yield f"README, {explore[0]!r}: {came}"
    status, out, error = shell.run(draw[0])
    if status or error or (shell.folder / "leak.svg").read_bytes() != (TOP / "examples/leak.svg").read_bytes():
        yield f"README, {draw[0]!r}: status {status}, {error!r}, or another picture"
    came = shell.run(run[0])
    if came != (0, REPLIES, b""):
        yield f"README, {run[0]!r}: {came}"
    lines, replies = block(text, "class Point")
    last = [group[-1] for group in groups(REPLIES)]
    if EXAMPLE.read_text().split("\n")[:-1] != lines or [reply.split(b": ")[-1] for reply in replies] != last:
        yield "README's example is another than examples/point.session"


def served(shell, readme):
    """Yields what the heap that README serves does otherwise than it says: two clients come to it, one after another."""
    serve, *others = [each for each in commands_of(readme)[1] if each.startswith("heapdbg serve ")]
    with shell.start(serve) as server:
        server.waits_for(shell.ports["7000"])
        for client in ("ask", "explore"):
            if (came := shell.run(f"heapdbg {client} --port 7000", b"clear 0 0\n")) != (0, b"ok\n", b""):
                yield f"README, {client!r} after {serve!r}: {came}"
        server.waits_for_lines(2)
        if others or (came := server.stopped()) != (-signal.SIGTERM, b"session 1 quit\nsession 2 quit\n", b""):
            yield f"README, {serve!r}: {others or came}"


def live(shell, document):
    """Yields what the heap that SESSIONS serves, its two sessions and its dumps do otherwise than it says."""
    text = document.read_text()
    indented, quoted = commands_of(document)
    serve, ask, fetch = indented
    explore = [each for each in quoted if each.startswith("heapdbg explore --port")]
    wanted = [int(each) for each in re.findall(r"fetched (\d+)", text)]
    nodes = [int(each.replace(",", "")) for each in re.findall(r"([\d,]+) instances", text)]
    with shell.start(serve) as server:
        server.waits_for(shell.ports["7001"])
        with shell.start(ask) as session:
            # The classes, and two lines for each node.
            shell.waits_for_lines("replies", 16 + 2 * nodes[0])
            came = shell.run(fetch)
            if came != (0, b"".join(b"fetched %d\n" % size for size in wanted), b""):
                yield f"SESSIONS, {fetch!r}: {came}"
            for name, count in zip(("before", "after"), nodes):
                data = (shell.folder / f"{name}.hprof").read_bytes()
                yield from (f"SESSIONS, {name}.hprof: {fault}" for fault in viewers.faults(data))
                if viewers.Dump(data).count("Node") != count:
                    yield f"SESSIONS, {name}.hprof: {viewers.Dump(data).count('Node')} nodes"
            status, out, error = shell.run(explore[0], b"histogram -\n")
            if status or error or not re.match(rb"row %d \d+ Node\nok " % nodes[1], out):
                yield f"SESSIONS, {explore[0]!r}: status {status}, {out!r}, {error!r}"
            if session.ended() != (0, b"", b""):
                yield f"SESSIONS, {ask!r}: {session.ended()}"
        server.waits_for_lines(2)
        # Either session may end first.
        status, out, error = server.stopped()
        if (status, sorted(out.splitlines()), error) != (-signal.SIGTERM, [b"session 1 quit", b"session 2 quit"], b""):
            yield f"SESSIONS, {serve!r}: {status}, {out!r}, {error!r}"
    yield from guarded(shell, text)


def guarded(shell, text):
    """Yields what SESSIONS' file of a secret, and a heap that asks for it, do otherwise than SESSIONS says."""
    make = re.search(r"^    (\(umask .*\))$", text, re.MULTILINE)[1]
    came, file = shell.run(make), shell.folder / "secret"
    if came != (0, b"", b"") or file.stat().st_mode & 0o777 != 0o600 or not re.fullmatch(rb"[0-9A-Za-z]{16,64}\n", file.read_bytes()):
        yield f"SESSIONS, {make!r}: {came}, {file.stat().st_mode:o}, {file.read_bytes()!r}"
    with shell.start("heapdbg serve --port 7000 --stay 1 --questions 1 --secret secret") as server:
        server.waits_for(shell.ports["7000"])
        for client, answer in (("ask", b"ok 0 0\n"), ("explore", b"ok 0 0\n"), ("ask", b"")):
            words = f"heapdbg {client} --port 7000" + (" --secret secret" if answer else "")
            out = shell.run(words, b"histogram -\n")[1]
            if out != answer:
                yield f"SESSIONS, {words!r} of a heap with a secret: {out!r}"
        server.waits_for_lines(3)
        if (came := server.stopped()) != (-signal.SIGTERM, b"session 1 quit\nsession 2 quit\nsession 3 secret\n", b""):
            yield f"SESSIONS, a heap with a secret: {came}"


def paged(shell, readme):
    """Yields what README's exploration with a page does otherwise than it says. Nothing is typed, and its session ends after a time
    here. HUNT has the same exploration."""
    explore = next(command for command in commands_of(readme)[0] if "--page" in command)
    if explore not in commands_of(readme.parent / "docs/HUNT.md")[0]:
        yield "HUNT explores another heap with a page than README"
    with shell.start(f"sleep 10 | {explore}") as session:
        session.waits_for(shell.ports["7080"])
        said = session.text(session.error).decode()
        address = re.fullmatch(r"heapdbg: page http://127\.0\.0\.1:(\d+)/#([0-9a-f]{32})\n", said)
        browser = http.client.HTTPConnection("127.0.0.1", int(address[1]), LIMIT)
        browser.request("GET", "/")
        page = browser.getresponse()
        if page.status != 200 or b"<title>heapdbg</title>" not in page.read():
            yield f"README, {explore!r}: the page is {page.status}"
        browser.request("POST", "/ask", "wrote 0x10000040 1", {"X-Heapdbg-Key": address[2]})
        if (come := browser.getresponse().read()) != b"ok place 1507\n":
            yield f"README, {explore!r}: {come!r}"
        if (came := session.ended()) != (0, b"", said.encode()):
            yield f"README, {explore!r}: {came}"


def client(shell, folder):
    """Yields what the example of the client's README does otherwise than its comments say. It has fewer lines here."""
    text = (folder / "README.md").read_text()
    code = re.search(r"```python\n(.*?)```", text, re.DOTALL)[1].replace("1_000_000", "2_000")
    code = code.replace("999502", "1502").replace("999_000", "1_000")
    (shell.folder / "example.py").write_text(code)
    status, out, error = shell.run(f"PYTHONDONTWRITEBYTECODE=1 PYTHONPATH={shlex.quote(str(folder))} python3 example.py")
    wanted = re.findall(r"print\(.*\) +# (.*)$", code, re.MULTILINE)
    if status or error or out.decode().split("\n")[:-1] != wanted or len(wanted) != 4:
        yield f"the client's example: status {status}, {out!r}, and must be {wanted}, {error.decode()[-200:]!r}"
    version = re.search(r'^version = "(.*)"', (folder / "pyproject.toml").read_text(), re.MULTILINE)[1]
    status, out, error = shell.run("heapdbg --version")
    if version.encode() not in (out + error).split():
        yield f"the client's version is {version}, and the program's {out + error!r}"


def seen(look, name, shell, folder):
    """Returns what a look at a document finds. It also finds where the look broke off."""
    found = []
    try:
        found.extend(look(shell, folder / name))
    except (OSError, subprocess.SubprocessError, LookupError, TypeError, ValueError, AssertionError) as fault:
        found.append(f"{name}: {fault!r}")
    return found


def documents(folder, programs):
    """Yields what the documents do otherwise than they say, typed where they are installed."""
    with Shell(folder, programs) as shell:
        looks = ((live, "docs/SESSIONS.md"), (paged, "README.md"), (asked, "README.md"), (hunted, "docs/HUNT.md"), (client, "clients/python"),
                 (recorded, "docs/RECORD.md"))
        # (the client's example writes the same file, and SESSIONS serves at the same port)
        yield from seen(viewed, "docs/VIEWERS.md", shell, folder)
        yield from seen(served, "README.md", shell, folder)
        with concurrent.futures.ThreadPoolExecutor(len(looks)) as pool:
            for found in pool.map(lambda look: seen(*look, shell, folder), looks):
                yield from found
    for path in (folder / "README.md", *(folder / f"docs/{name}.md" for name in ("SESSIONS", "VIEWERS", "HUNT", "RECORD"))):
        for name in re.findall(r"`((?:docs|examples|clients)/[\w./]+)`", path.read_text()):
            if name not in STORIES and not (folder / name).exists():
                yield f"{path.name} names {name}, which isn't installed"


def installed(folder, where):
    """Yields what is wrong with what `make install` and `make uninstall` do."""
    words = (f"DESTDIR={where}", "PREFIX=/usr")
    status, said = make(folder, "install", *words)
    if status or said:
        yield f"make install: status {status}, {said}"
        return
    programs, man = where / "usr/bin", where / "usr/share/man/man1/heapdbg.1"
    if answered(programs / "heapdbg", "run") != REPLIES or answered(programs / "heapdbg-explore", "--keep", "4") != REPLIES:
        yield "the installed program or script answers the example otherwise"
    share = where / "usr/share"
    yield from misses(programs / "heapdbg", man, share / "bash-completion/completions/heapdbg", share / "heapdbg/explore.words")
    with tempfile.TemporaryDirectory() as name, Shell(pathlib.Path(name), programs) as shell:
        yield from manual(man, shell)
    yield from documents(share / "doc/heapdbg", programs)
    status, said = make(folder, "uninstall", *words)
    left = [str(path) for path in where.rglob("*") if path.is_file()]
    if status or left:
        yield f"make uninstall: status {status}, and {left} stay"


def main(program, importer):
    """Returns the exit status."""
    with copied(program, importer) as folder:
        found = list(installed(folder, folder.parent / "installed"))
    for line in found:
        print(line)
    return 1 if found else 0


if __name__ == "__main__":
    sys.exit(main(*map(os.path.abspath, sys.argv[1:])))
