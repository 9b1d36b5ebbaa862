"""The dump of a state: HPROF text, JAVA PROFILE 1.0.2, in pieces."""
from heap import KINDS, slots_of

SEGMENT = 4096
FIRST_CLASS = 0x00100000
TRACE = 1


def number(width, value):
    """Returns a number of `width` bytes."""
    return value.to_bytes(width, "big")


def record(tag, body):
    """Returns a record, at time 0."""
    return number(1, tag) + number(4, 0) + number(4, len(body)) + body


def class_id(index):
    """Returns the id of a class."""
    return FIRST_CLASS + 8 * index


def width_of(kind, ids):
    """Returns how many bytes a value of a kind has, or a reference."""
    bits = KINDS[kind][1]
    return ids if bits is None else max(1, bits // 8)


def names_of(classes):
    """Returns the ids of the distinct names, by name, in order of first use."""
    used = [name for each in classes for name in [each.name, *(field for field, _ in each.fields)]]
    return {name: index for index, name in enumerate(dict.fromkeys(used), 1)}


def opening(classes, time, ids):
    """Returns header, names, classes and trace."""
    text = b"JAVA PROFILE 1.0.2\0" + number(4, ids) + number(8, time)
    names = names_of(classes)
    for name, index in names.items():
        text += record(0x01, number(ids, index) + name)
    for index, each in enumerate(classes):
        body = number(4, index + 1) + number(ids, class_id(index)) + number(4, TRACE) + number(ids, names[each.name])
        text += record(0x02, body)
    return text + record(0x05, number(4, TRACE) + number(4, 0) + number(4, 0))


def class_dump(classes, index, names, ids):
    """Returns the sub-record of a class."""
    each = classes[index]
    sup = 0 if each.sup is None else class_id(each.sup)
    size = sum(width_of(kind, ids) for kind in slots_of(classes, index))
    text = number(1, 0x20) + number(ids, class_id(index)) + number(4, TRACE)
    text += number(ids, sup) + 5 * number(ids, 0)
    text += number(4, size) + number(2, 0) + number(2, 0) + number(2, len(each.fields))
    for name, kind in each.fields:
        text += number(ids, names[name]) + number(1, KINDS[kind][0])
    return text


def object_dump(state, word, thing, ids):
    """Returns the sub-record of an object."""
    sort, of = thing.what
    values = b"".join(number(width_of(kind, ids), value) for kind, value in zip(state.kinds_of(thing), thing.words))
    if sort == "instance":
        return number(1, 0x21) + number(ids, word) + number(4, TRACE) + number(ids, class_id(of)) + number(4, len(values)) + values
    count = number(4, len(thing.words))
    if sort == "array":
        return number(1, 0x22) + number(ids, word) + number(4, TRACE) + count + number(ids, class_id(of)) + values
    return number(1, 0x23) + number(ids, word) + number(4, TRACE) + count + number(1, KINDS[of][0]) + values


def sub_records(state, ids):
    """Yields classes, their roots, the live objects, and the roots of the registers."""
    names = names_of(state.classes)
    for index in range(len(state.classes)):
        yield class_dump(state.classes, index, names, ids)
    for index in range(len(state.classes)):
        yield number(1, 0x05) + number(ids, class_id(index))
    for word, thing in state.objects():
        if thing.live:
            yield object_dump(state, word, thing, ids)
    for word in state.registers:
        if word:
            yield number(1, 0xFF) + number(ids, word)


def segments(state, ids):
    """Returns the bodies of the segments, each a list of its sub-records."""
    bodies = []
    for text in sub_records(state, ids):
        if not bodies or sum(map(len, bodies[-1])) + len(text) > SEGMENT:
            bodies.append([])
        bodies[-1].append(text)
    return bodies


def pieces_of(state, time, ids):
    """Returns the opening records, the segments, and the end."""
    bodies = [record(0x1C, b"".join(body)) for body in segments(state, ids)]
    return [opening(state.classes, time, ids), *bodies, record(0x2C, b"")]
