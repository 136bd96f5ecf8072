"""Inputs for the measurements: a segment file and requests for the run program (document 01, "The run program"), L = 128.

Segment 100 runs in ring 1 and has a gate at 16; segment 200 runs in ring 33. A call from 33 to 100 goes inward, one from 1 to 200 outward.
Every call leaves frame 8, so 32 of them can be open. File sizes above 2 are filled with sound records of other numbers.
"""
IN, OUT, GATE, BACK = 100, 200, 16, 50
LIST = 100


def segment(number, rings, mode, gates):
    return number.to_bytes(2, "big") + bytes(rings) + bytes([mode, len(gates), 0]) + b"".join(
        g.to_bytes(4, "big") for g in list(gates) + [0] * (8 - len(gates)))


def file(size):
    """`size` records, those of the run at the end, each other one with eight gates."""
    records = [segment(64 + i, (1, 2, 3), 7, [8 * j + i for j in range(1, 9)]) for i in range(size - 2) if 64 + i not in (IN, OUT)]
    i = size
    while len(records) < size - 2:
        records.append(segment(300 + i, (1, 2, 3), 7, [8 * j + i for j in range(1, 9)]))
        i += 1
    own = [segment(IN, (1, 1, 63), 5, [GATE]), segment(OUT, (33, 33, 33), 5, [])]
    return b"".join(sorted(records + own, key=lambda r: r[:2]))


def request(kind, a, b, *numbers):
    numbers = list(numbers) + [0] * (5 - len(numbers))
    return bytes([kind, a, b, 0]) + b"".join(n.to_bytes(4, "big") for n in numbers)


def write(stack, at, value):
    return request(2, stack, 0, at, value)


def frame(stack):
    """The return place in the frame at 8."""
    running = OUT if stack == 33 else IN
    return write(stack, 28, running) + write(stack, 29, BACK)


def arguments(stack, count):
    """A list of count arguments of nine words, directions 1, 2, 3, 3, in the stack itself; the list lies at 100, past all frames."""
    out = write(stack, LIST, count)
    for j in range(count):
        for k, v in enumerate((stack, 8 + j, 9, (1, 2, 3, 3)[j])):
            out += write(stack, LIST + 1 + 4 * j + k, v)
    return out


def call(ring):
    if ring == 33:
        return request(1, 1, 0, 8, LIST, OUT, IN, GATE)
    return request(1, 2, 0, 8, LIST, IN, OUT, 0)


def back(ring):
    """The return to `ring`."""
    return request(1, 2 if ring == 33 else 1, 1)


def prepare(ring, count, depth):
    """A start at `ring`, depth - 1 open calls (an even number, so that `ring` runs again), and its frame and list in order."""
    out, runs = request(0, ring, 0), ring
    for _ in range(depth - 1):
        out += frame(runs) + arguments(runs, 0) + call(runs)
        runs = 34 - runs
    return out + frame(ring) + arguments(ring, count)


def pairs(ring, count, depth, n):
    """n times a call from `ring` and its return. A call changes no word of the list that the next one reads."""
    return prepare(ring, count, depth) + (call(ring) + back(ring)) * n
