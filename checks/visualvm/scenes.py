"""The heaps whose dumps VisualVM opens, and changes of a dump that it must show."""
import dataclasses
import pathlib
import random
import re
import struct
import subprocess
import sys

TOP = pathlib.Path(__file__).resolve().parent.parent.parent
EXAMPLES = TOP / "examples"
REQUIRED = (EXAMPLES / "java.session").read_bytes()
# The number of the first class behind those of java.session.
FIRST = REQUIRED.count(b"\n")
# A whole cycle, which removes garbage.
COLLECT = b"collect\n"
VIEWERS = (TOP / "docs/VIEWERS.md").read_text()
TIME = 1_700_000_000_123
# The most elements of an array.
MOST = 2_097_147
KINDS = {"boolean": 1, "byte": 8, "char": 16, "short": 16, "int": 32, "long": 64, "float": 32, "double": 64}


@dataclasses.dataclass
class Scene:
    """A session, the options of its heap, the size of ids in its dump, and the time of its dump."""

    name: str
    lines: bytes
    options: tuple = ()
    ids: str = "4"
    time: int = 0


def example(name):
    """Returns the lines of an example."""
    return (EXAMPLES / f"{name}.session").read_bytes()


def prepared(name):
    """Returns the lines of an example behind those of java.session."""
    return subprocess.run([sys.executable, EXAMPLES / "java.py"], input=example(name), capture_output=True, check=True).stdout


def live():
    """Returns the lines of live.sh without their pauses: those before the first pause, and all."""
    script = re.sub(r"(?m)^sleep .*", "echo \\\\#", (EXAMPLES / "live.sh").read_text())
    lines = subprocess.run(["sh", "-c", script, EXAMPLES / "live.sh"], capture_output=True, check=True).stdout
    before, then, _ = lines.split(b"#\n")
    return before, before + then


def of_all_kinds():
    """Yields lines that make instances with fields of all kinds, also inherited ones, and short arrays of all kinds, and put them
    into one array."""
    yield f"class kinds/All 0 {' '.join(f'{kind}s:{kind}' for kind in KINDS)} other:object"
    yield f"class kinds/More {FIRST} more:byte"
    yield "array [Lkinds/All;"
    yield f"new 0 0 {FIRST + 1}"
    for number, (kind, bits) in enumerate(KINDS.items(), 1):
        yield f"put 0 0 {number} {2 ** bits - 1}"
    yield f"newarray 0 1 {FIRST + 2} 100"
    makers = [f"newprim 0 2 {kind} {length}" for length in range(9) for kind in KINDS]
    makers += [f"newarray 0 2 {FIRST + 2} {length}" for length in range(9)]
    for number, maker in enumerate([f"new 0 2 {FIRST}", f"new 0 2 {FIRST + 1}", *makers]):
        yield maker
        yield f"store 0 1 {number} 2"
    yield "store 0 0 9 2"
    yield "clear 0 2"


def linked(count, seed=7):
    """Yields lines that link nodes at random, and then leave few registers that lead to them. These name four nodes, one of them
    twice, and an array of more than 1,024 elements that names every tenth node."""
    lots = random.Random(seed)
    yield "class graph/Node 0 left:object right:object rank:int"
    yield f"class graph/Leaf {FIRST} weight:double"
    yield "array [Lgraph/Node;"
    yield f"newarray 0 0 {FIRST + 2} {count}"
    for number in range(count):
        yield f"new 0 1 {FIRST + (number % 3 == 0)}"
        yield f"store 0 0 {number} 1"
    # The slots of a Leaf are `weight` and then those of a Node.
    for number in range(count):
        yield f"load 0 1 0 {number}"
        for slot in (0, 1):
            if lots.random() < 0.6:
                near = min(count - 1, number + 1 + int(lots.expovariate(0.1)))
                yield f"load 0 2 0 {near if lots.random() < 0.9 else lots.randrange(count)}"
                yield f"store 0 1 {slot + (number % 3 == 0)} 2"
    yield f"newarray 1 0 {FIRST + 2} {count + 1100}"
    for number in range(0, count, 10):
        yield f"load 0 1 0 {number}"
        yield "move 1 1 0 1"
        yield f"store 1 0 {count + 1099 - number} 1"
    for register, number in enumerate((0, 1, 5, count // 2, count // 2), 2):
        yield f"load 0 1 0 {number}"
        yield f"move 2 {register} 0 1"
    yield "newprim 3 0 long 3000"
    yield "newprim 3 1 byte 1025"
    yield from ("clear 0 0", "clear 0 1", "clear 0 2", "clear 1 1")


def largest():
    """Yields lines that make the largest arrays."""
    yield "class Node 0 next:object"
    yield "array [LNode;"
    yield f"newprim 0 0 long {MOST}"
    yield f"newarray 0 1 {FIRST + 1} {MOST}"
    yield f"new 0 2 {FIRST}"
    yield f"store 0 1 {MOST - 1} 2"
    yield "clear 0 2"


def behind(lines):
    """Returns lines behind those of java.session."""
    return REQUIRED + "".join(f"{line}\n" for line in lines).encode()


def scenes():
    """Returns heaps without what VisualVM shows otherwise than the program answers, which is in `exceptions`."""
    before, after = live()
    wide = "--wide", "1", "--keep", "1", "--mutators", "4"
    return [
        Scene("viewer", example("viewer")),
        Scene("leak", prepared("leak") + COLLECT),
        Scene("point", prepared("point").replace(b"dump -\n", b""), ("--time", f"{TIME}"), time=TIME),
        Scene("orders", prepared("orders") + COLLECT),
        Scene("services", prepared("services") + b"clear 0 1\n" + COLLECT),
        Scene("before", before),
        Scene("after", after + COLLECT),
        Scene("kinds", behind(of_all_kinds())),
        Scene("wide", behind(linked(400)) + COLLECT, (*wide, "--regions", "64", "--area", "32")),
        Scene("largest", behind(largest()), (*wide, "--regions", "4200", "--area", "4190")),
    ]


def numbers_told():
    """Returns the line of a class that SESSIONS says VisualVM shows of the dumps of two scenes, by the scene's name."""
    pattern = r"VisualVM of (before|after)\.hprof: +(\w+) +([\d,]+) instances +([\d,]+) bytes"
    told = re.findall(pattern, (TOP / "docs/SESSIONS.md").read_text())
    if len(told) != 2:
        raise SystemExit("SESSIONS doesn't say what VisualVM shows")
    return {scene: f"class {count} {size} {name}".replace(",", "") for scene, name, count, size in told}


def changed(dump):
    """Yields changes of the viewer example's dump, each with the dump that has it."""
    node, point = (struct.pack(">I", 0x100000 + 8 * (FIRST + number)) for number in (0, 1))
    first, second = (struct.pack(">I", 0x10000000 + 32 * number) for number in (0, 1))
    head = b"\x21" + first + struct.pack(">I", 1) + node + struct.pack(">I", 8)
    yield "another name of a class", replaced(dump, b"list/Node", b"list/Knot")
    yield "another class of an object", replaced(dump, head, head.replace(node, point))
    yield "a broken reference", replaced(dump, head + second, head + struct.pack(">I", 0x10000021))
    yield "another root", replaced(dump, b"\xff" + first, b"\xff" + second)


def replaced(data, old, new):
    """Returns a dump with some bytes replaced, which must be there once."""
    if data.count(old) != 1 or old == new or len(old) != len(new):
        raise SystemExit(f"{old!r} is {data.count(old)} times in the dump")
    return data.replace(old, new)


def lacking():
    """Yields scenes whose dumps lack something that VIEWERS asks for, with the parts that must fail, each with VIEWERS' words."""
    kind, reference, null = (re.search(f"`({words}[^`]*)`", VIEWERS)[1] for words in ("Invalid type", "reference ", "Null"))
    late = [("retained", reference), ("nearest", reference)]
    yield Scene("long", example("viewer"), ids="8"), [("sizes", "")]
    yield Scene("plain", example("leak")), [("overview", kind), *late]
    yield Scene("bytes", prepared("leak").replace(b"array [B\n", b"array Bytes\n")), [("overview", kind)]
    yield Scene("referent", example("viewer").replace(b" referent:", b" other:")), late
    for number, name in enumerate(re.findall(rb"class (\S*Reference) ", REQUIRED)):
        yield Scene(f"reference{number}", example("viewer").replace(b"class %s " % name, b"class Other ")), late
    lines = example("viewer").replace(b"class java/lang/Class ", b"class Other ")
    yield Scene("class", lines), [("retained", null), ("nearest", null)]


def exceptions():
    """Returns a scene with all that VisualVM shows otherwise than the program answers, as VIEWERS says, and what it shows for which
    lines: garbage that names an object, a register that names an object which a single object names, too, and a `referent`."""
    lines = ["class A 0 a:object b:object", *(f"new 0 {register} {FIRST}" for register in range(6))]
    lines += ["new 0 6 2", f"new 0 7 {FIRST}"]
    # 0 and the garbage 2 name 1; 3 names 5, and 4, which a register names; 6 is a WeakReference that refers to 7.
    lines += ["store 0 0 0 1", "store 0 2 0 1", "store 0 3 0 4", "store 0 3 1 5", "store 0 6 0 7"]
    lines += [f"clear 0 {register}" for register in (1, 2, 5, 7)]
    zero, three, six, seven = (f"0x{0x10000000 + 32 * number:08x}" for number in (0, 3, 6, 7))
    others = {f"retained {zero} 32": f"retained {zero} 16", f"retained {three} 32": f"retained {three} 48"}
    others |= {f"retained {six} 32": f"retained {six} 16", f"retained {seven} 16": f"retained {seven} 0"}
    others[f"nearest {seven} {six}"] = f"nearest {seven} -"
    return Scene("exceptions", behind(lines)), others
