"""Sessions: lines in, lines out."""
from heap import KINDS, REFUSALS, Refused
from machine import Machine

MOST_DIGITS = 20
DATA_BYTES = 64

# What follows the word of a line: "n" a number, "k" a kind, "w" any word, "-" a number or a hyphen, "@" a place or a hyphen.
FORMS = {
    b"array": "w",
    b"new": "nnn",
    b"newarray": "nnnn",
    b"newprim": "nnkn",
    b"load": "nnnn",
    b"store": "nnnn",
    b"put": "nnnn",
    b"move": "nnnn",
    b"clear": "nn",
    b"snap": "",
    b"mark": "",
    b"drain": "",
    b"finish": "",
    b"sweep": "n",
    b"rewind": "n",
    b"open": "@",
    b"piece": "n",
    b"dump": "-",
    b"close": "n",
    b"end": "",
}


class Bad(Exception):
    """A line that is no command."""


def number(word):
    """Returns the number that a word is."""
    if not word.isdigit() or len(word) > MOST_DIGITS or int(word) >= 1 << 64:
        raise Bad
    return int(word)


def kind(word):
    """Returns the kind that a word names."""
    if word.decode() not in KINDS:
        raise Bad
    return word.decode()


def number_or_none(word):
    """Returns the number that a word is, None if it is a hyphen."""
    return None if word == b"-" else number(word)


def place_or_none(word):
    """Returns the place that a word names, with an `@` before it or without; None if it is a hyphen."""
    return number_or_none(word) if not word.startswith(b"@") else number(word[1:])


def field(word):
    """Returns the field that a word is, as (name, kind)."""
    if word.count(b":") != 1:
        raise Bad
    name, _, of = word.partition(b":")
    return name, kind(of)


READERS = {"n": number, "k": kind, "w": bytes, "-": number_or_none, "@": place_or_none}


def command_of(line):
    """Returns the command of a line as its word and its arguments, None if it has no words."""
    if line.endswith(b"\r"):
        line = line[:-1]
    if any(not 0x20 <= byte <= 0x7E for byte in line):
        raise Bad
    words = line.split()
    if not words:
        return None
    word, *rest = words
    if word == b"class" and len(rest) >= 2:
        return "class", rest[0], number_or_none(rest[1]), tuple(map(field, rest[2:]))
    if word not in FORMS or len(rest) != len(FORMS[word]):
        raise Bad
    return (word.decode(), *(READERS[form](each) for form, each in zip(FORMS[word], rest)))


def answer_text(answer):
    """Returns the text of the answer to a step."""
    word, *facts = answer
    if word == "done":
        return "ok"
    if word == "object":
        return f"ok object 0x{facts[0]:08x}"
    if word == "swept":
        return f"ok swept {facts[0]}" + (" empty" if facts[1] else "")
    return " ".join(["ok", word, *map(str, facts)])


def data_lines(piece):
    """Returns the data lines of a piece."""
    return [f"data {piece[at:at + DATA_BYTES].hex()}" for at in range(0, len(piece), DATA_BYTES)]


def refusal_text(refused):
    """Returns the text of a refusal."""
    return " ".join(map(str, ["no", refused.number, REFUSALS[refused.number], *refused.facts]))


class Session:
    """A session over a machine."""

    def __init__(self, machine):
        self.machine = machine
        self.ended = False

    def dump(self, pin):
        """Returns the lines of the rest of a pin's dump."""
        lines, size, last = [], 0, False
        while not last:
            try:
                piece, last = self.machine.piece(pin)
            except Refused as refused:
                return [*lines, refusal_text(refused)]
            lines += data_lines(piece)
            size += len(piece)
        return [*lines, f"ok dump {size}"]

    def replies(self, word, arguments):
        """Returns the lines that a command is answered with. It may be refused."""
        machine = self.machine
        if word == "end":
            self.ended = True
            return []
        if word == "rewind":
            return [f"ok place {machine.rewind(*arguments)}"]
        if word == "open":
            return ["ok pin {} at {}".format(*machine.open(*arguments))]
        if word == "piece":
            piece, last = machine.piece(*arguments)
            return [*data_lines(piece), f"ok {'last' if last else 'piece'} {len(piece)}"]
        if word == "close":
            machine.close(*arguments)
            return ["ok"]
        if word != "dump":
            return [answer_text(machine.step((word, *arguments)))]
        if arguments[0] is not None:
            return self.dump(*arguments)
        pin, _ = machine.open()
        lines = self.dump(pin)
        machine.close(pin)
        return lines

    def answer(self, line):
        """Returns what a line, without its LF, is answered with."""
        try:
            command = command_of(line)
            lines = self.replies(command[0], command[1:]) if command else []
        except Bad:
            lines = ["bad command"]
        except Refused as refused:
            lines = [refusal_text(refused)]
        return "".join(line + "\n" for line in lines).encode()


def answers_of(text, **settings):
    """Returns what each line of a session is answered with, the last answer being that of its end, and how it ends."""
    session = Session(Machine(**settings))
    most = session.machine.limits.longest_line
    answers, at = [], 0
    while not session.ended:
        end = text.find(b"\n", at, at + most + 1)
        if end < 0:
            if len(text) - at > most:
                return [*answers, b"bad long\n"], "long"
            return ([*answers, b"bad cut\n"], "cut") if at < len(text) else (answers, "eof")
        answers.append(session.answer(text[at:end]))
        at = end + 1
    return answers, "quit"
