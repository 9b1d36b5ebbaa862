"""What VisualVM must show of a heap, by the program's own answers about it."""
import subprocess

LIMIT = 300
# The classes of arrays of values, by their names in a dump.
KINDS = {"[Z": "boolean[]", "[B": "byte[]", "[C": "char[]", "[S": "short[]"}
KINDS |= {"[I": "int[]", "[J": "long[]", "[F": "float[]", "[D": "double[]"}
# VisualVM adds the bytes of a header to those of an object's values, to an array's those of its length too, and rounds up.
HEADER, LENGTH, ALIGNED = 8, 4, 8


def java_name(name):
    """Returns the name of a class as VisualVM shows it."""
    name = KINDS.get(name, name).replace("/", ".")
    return f"{name[2:-1]}[]" if name.startswith("[L") else name


def size_shown(values, is_array):
    """Returns the size that VisualVM shows of an object whose values take `values` bytes."""
    return -(-(HEADER + LENGTH * is_array + values) // ALIGNED) * ALIGNED


class Answers:
    """A program's answers about the heap that a scene leaves: its classes with their supers and the bytes of their values, its
    objects and registers, the path to each object, and the objects that it dominates immediately."""

    def __init__(self, program, scene, folder):
        self.scene = scene
        session = folder / "session"
        session.write_bytes(scene.lines)
        self.words = [program, "explore", *scene.options, "--ids", scene.ids, "--from", str(session)]
        classes, registers, histogram, objects = self.asked(["classes", "registers", "histogram", "objects"])
        self.classes = [row[1] for row in classes[:-1]]
        self.supers = {row[1]: self.classes[int(row[2])] for row in classes[:-1] if row[2].isdigit()}
        self.arrays = {row[1] for row in classes[:-1] if row[2] == "array"} | set(KINDS.values())
        self.registers = [row[2] for row in registers[:-1] if row[2] != "null"]
        self.objects = {row[0]: (row[1], int(row[2])) for row in objects[:-1]}
        self.widths = self.widths_of({row[2]: (int(row[0]), int(row[1])) for row in histogram[:-1]})
        self.ways = self.ways_of()
        self.dominated = self.dominated_of()

    def asked(self, lines):
        """Returns the words of the rows that answer each line, and last those of the line that ends them."""
        text = "".join(f"{line}\n" for line in lines)
        ran = subprocess.run(self.words, input=text, capture_output=True, text=True, timeout=LIMIT)
        if ran.returncode or ran.stderr:
            raise SystemExit(f"{self.scene.name}: the program says {ran.stderr!r}")
        groups = [[]]
        for line in ran.stdout.splitlines():
            word, *words = line.split()
            groups[-1].append(words if word == "row" else line.split())
            if word != "row":
                groups.append([])
        if len(groups) != len(lines) + 1:
            raise SystemExit(f"{self.scene.name}: {len(groups) - 1} answers to {len(lines)} questions")
        return groups[:-1]

    def widths_of(self, histogram):
        """Returns the bytes of the values of an instance of each class, and of an element of each array's class."""
        slots = {}
        for name, count in self.objects.values():
            slots[name] = slots.get(name, 0) + count
        return {name: size // ((slots[name] if name in self.arrays else count) or 1) for name, (count, size) in histogram.items()}

    def size(self, number):
        """Returns the bytes of the values of an object."""
        name, slots = self.objects[number]
        return self.widths[name] * (slots if name in self.arrays else 1)

    def shown_size(self, number):
        """Returns the size that VisualVM must show of an object."""
        return size_shown(self.size(number), self.objects[number][0] in self.arrays)

    def ways_of(self):
        """Returns the objects on a shortest path to each object that is reached, from the register on."""
        answers = dict(zip(self.objects, self.asked([f"path {number}" for number in self.objects])))
        return {number: [row[2] for row in rows[:-1]] for number, rows in answers.items() if rows[-1][0] == "ok"}

    def dominated_of(self):
        """Returns the objects that each object immediately dominates."""
        answers = self.asked([f"dominators {number}" for number in self.ways])
        return {number: [row[0] for row in rows[:-1]] for number, rows in zip(self.ways, answers)}

    def retained(self):
        """Returns the retained size that VisualVM must show of each object that is reached, by the tree of dominators. The answer
        to `retained` must tell as many objects and bytes as this tree has."""
        below = {inner for each in self.dominated.values() for inner in each}
        order = [number for number in self.dominated if number not in below]
        for number in order:
            order.extend(self.dominated[number])
        sums = {}
        for number in reversed(order):
            own = 1, self.size(number), self.shown_size(number)
            sums[number] = [sum(each) for each in zip(own, *(sums[inner] for inner in self.dominated[number]))]
        for number, rows in zip(self.ways, self.asked([f"retained {number}" for number in self.ways])):
            if [int(word) for word in rows[-1][1:]] != sums[number][:2]:
                raise SystemExit(f"{self.scene.name}: {number} retains {rows[-1][1:]}, and dominates {sums[number][:2]}")
        return {number: shown for number, (_, _, shown) in sums.items()}

    def lines(self):
        """Returns the lines that the reader must print."""
        sizes = {number: self.shown_size(number) for number in self.objects}
        retained = self.retained()
        totals = {java_name(name): [0, 0] for name in self.classes}
        for number, (name, _) in self.objects.items():
            count, size = totals[java_name(name)]
            totals[java_name(name)] = [count + 1, size + sizes[number]]
        lines = [f"total {len(sizes)} {sum(sizes.values())}", f"classes {len(self.classes)}"]
        lines += [f"roots {len(self.classes) + len(self.registers)}", f"time {self.scene.time}"]
        lines += [f"class {count} {size} {name}" for name, (count, size) in totals.items()]
        lines += [f"super {java_name(name)} {java_name(above)}" for name, above in self.supers.items()]
        for number, (name, _) in self.objects.items():
            way = self.ways.get(number, ["-"])
            lines.append(f"object {number} {sizes[number]} {java_name(name)}")
            lines.append(f"retained {number} {retained.get(number, 0)}")
            lines.append(f"nearest {number} {way[-2] if len(way) > 1 else way[0]}{' root' if number in self.registers else ''}")
        return lines
