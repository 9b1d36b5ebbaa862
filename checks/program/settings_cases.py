"""Cases of the settings of the commands that open a heap."""
import os
import tempfile

from clients import served, told_all
from runs import bytes_of, data_lines, dump_of_longs, record, run
from save_cases import saved

# Values of all five options: small ones, of which each differs from what it is if it isn't given, large ones, and the smallest.
# The times have bits above the 32nd, but for one.
SMALL = {"regions": 3, "mutators": 3, "keep": 5, "time": 7 << 32 | 9, "ids": 4}
LARGE = {"regions": 256, "mutators": 16, "keep": 65_536, "time": 2**64 - 1, "ids": 8}
LEAST = {"regions": 1, "mutators": 1, "keep": 1, "time": 1, "ids": 4}
DEFAULTS = {"regions": 16, "mutators": 2, "keep": 1024, "time": 0, "ids": 8}


def empty_dump(ids, time):
    """Returns the dump of a heap without classes, objects and roots: the header, the trace and the end."""
    return bytes_of(dump_of_longs(1, ids, time))[: 31 + 21] + record(0x2C, b"")


def shown(regions, mutators, keep, time, ids):
    """Returns lines, and what they are answered if these are the settings. They leave each region with an array of 1,024 longs,
    which no register names."""
    dump = empty_dump(ids, time)
    arrays = b"".join(b"ok object 0x%08x\n" % (0x10000000 + 8192 * number) for number in range(regions))
    lines = b"dump -\nclear %d 0\nclear %d 0\n" % (mutators - 1, mutators) + b"newprim 0 0 long 1024\n" * regions
    lines += b"newprim 0 0 long 1\n" + b"clear 0 0\n" * keep + b"rewind 65537\n"
    answers = data_lines(dump[:52]) + data_lines(dump[52:]) + b"ok dump %d\nok\nno 7 BadRegister\n" % len(dump)
    return lines, answers + arrays + b"no 13 HeapFull\n" + b"ok\n" * keep + b"no 21 TooFar 65537 %d\n" % keep


def left_dump(regions, ids, time):
    """Returns the dump of what those lines leave: an array a region, each in a segment of its own, and no root."""
    places = [(0x10000000 + 8192 * number).to_bytes(ids, "big") for number in range(regions)]
    arrays = [b"\x23" + place + bytes.fromhex("00000001 00000400 0b") + bytes(8192) for place in places]
    dump = empty_dump(ids, time)
    return dump[:52] + b"".join(record(0x1C, array) for array in arrays) + dump[52:]


def as_words(settings):
    """Returns the words of these options, two for each."""
    return [word for name, value in settings.items() for word in (f"--{name}", str(value))]


def settings_shown(program):
    """Yields sessions that show all settings, by each command that opens a heap, as (name, what happened, what must happen). Each
    option comes last once, after all others: such a line has 11 to 15 words."""
    names = list(SMALL)
    turned = [{name: SMALL[name] for name in names[at:] + names[:at]} for at in range(len(names))]
    for given in (*turned, LARGE, LEAST, {}):
        values = {**DEFAULTS, **given}
        words, (lines, answers) = as_words(given), shown(**values)
        name = " ".join(words)
        yield f"run {name}", run(program, ["run", *words], lines), (0, answers, b"")
        wanted = (0, b"session 1 quit\n", b"", answers)
        yield f"serve {name}", served(program, told_all(lines), ["--sessions", "1", *words]), wanted
        dump = left_dump(values["regions"], values["ids"], values["time"])
        with tempfile.TemporaryDirectory() as folder:
            happened = saved(program, os.path.join(folder, "heap.hprof"), lines, words)
        yield f"save {name}", happened, (0, answers + b"saved %d\n" % len(dump), b"", dump)


def sizes_by_names(program):
    """Yields sessions whose sizes have a `k` or an `m`: one step more than are kept can't be undone."""
    for words, kept in ((["--keep", "2k"], 2048), (["--keep=003k"], 3072), (["--keep", "64k"], 65_536), (["--keep", "1m", "--wide", "1"], 1_048_576)):
        ran = run(program, ["run", *words], b"clear 0 0\n" * (kept + 1) + b"rewind %d\n" % (kept + 1))
        yield " ".join(words), ran, (0, b"ok\n" * (kept + 1) + b"no 21 TooFar %d %d\n" % (kept + 1, kept), b"")
    lines, made = b"newprim 0 0 long 1024\n" * 2048, b"".join(b"ok object 0x%08x\n" % (0x10000000 + 8192 * number) for number in range(2048))
    ran = run(program, ["run", "--regions", "2k", "--wide", "1"], lines + b"newprim 0 0 long 1\n")
    yield "--regions 2k", ran, (0, made + b"no 13 HeapFull\n", b"")
    yield "--regions 64k", run(program, ["run", "--wide", "1", "--regions=64k"], b"clear 0 0\n"), (0, b"ok\n", b"")


def kept_by_default(program):
    """Yields sessions without `--keep`: one step more than are kept can't be undone."""
    for words, kept in ((["run"], 1024), (["run", "--wide"], 1024), (["explore"], 65_536)):
        ran = run(program, words, b"clear 0 0\n" * (kept + 1) + b"rewind %d\n" % (kept + 1))
        yield f"{' '.join(words)} without --keep", ran, (0, b"ok\n" * (kept + 1) + b"no 21 TooFar %d %d\n" % (kept + 1, kept), b"")


def options_without_values(program):
    """Yields command lines of which an option has no value, at their end or before another option, as (name, what happened, what must
    happen)."""
    pins, said = b"pins\n", (0, b"ok 0\n", b"")
    for words in (["--questions"], ["--questions", "--keep", "4"], ["--wide", "--questions"], ["--questions", "--wide", "0"]):
        yield f"run {' '.join(words)}", run(program, ["run", *words], pins), said
    arrays = b"array A1\n" + b"".join(b"array B%d\n" % number for number in range(256))
    defined = b"".join(b"ok class %d\n" % number for number in range(257))
    for words in (["run", "--wide"], ["run", "--wide", "--keep=4"], ["explore", "--wide"]):
        yield " ".join(words), run(program, words, arrays), (0, defined, b"")
    for words in (["--questions"], ["--questions", "--ids", "8"]):
        with tempfile.TemporaryDirectory() as folder:
            status, out, error, _ = saved(program, os.path.join(folder, "heap.hprof"), pins, words)
        yield f"save {' '.join(words)}", (status, out[:5], error), said
    ended = (0, b"session 1 quit\n", b"", b"ok 0\n")
    for words in (["--questions"], ["--questions", "--workers"], ["--roll", "--questions"]):
        yield f"serve {' '.join(words)}", served(program, told_all(pins), words), ended
