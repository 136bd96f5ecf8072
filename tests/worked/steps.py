"""Document 01's worked run, step by step: each request, the tests in their order, the words that change and the record.

A model of its own, written from document 01 for this run alone: `apply` changes it exactly as the pages say, and the check in
tests/worked/page.py holds its store and record, after every step, to what the program `trace` prints of the product's.
"""

L = 128
SEGMENTS = [(100, (1, 1, 63), 5, [16]), (200, (33, 33, 33), 5, [])]
ENTRY = ["old ring", "old frame", "level", "return segment", "return offset", "argument place", "prior last-used offset",
         "new frame", "argument count", "serial"]
CALL = (8, 100, 200, 100, 16)


def record(kind, a, b, numbers):
    numbers = list(numbers) + [0] * (5 - len(numbers))
    return bytes([kind, a, b, 0]) + b"".join(n.to_bytes(4, "big") for n in numbers)


def segments():
    out = b""
    for number, rings, mode, gates in SEGMENTS:
        out += number.to_bytes(2, "big") + bytes(rings) + bytes([mode, len(gates), 0])
        out += b"".join(g.to_bytes(4, "big") for g in gates + [0] * (8 - len(gates)))
    return out


def made_words(k):
    return [(k, at, {0: k, 1: 8, 26: k, 27: 40}.get(at, 0), "making stack %d" % k) for at in range(L)]


FIRST = "1 no: the store is 64 × 128 words; 2 no: the file is sound; 4 no: the record is sound"
STEPS = [
    dict(title="Start at ring 33", request=record(0, 33, 0, []), asks="start, ring 33",
         tests="1 no: the store is 64 × 128 words; 14 no: 33 is at most 63. Accepted.",
         clear=True, words=made_words(33) + [(33, 3, 33, "word 3 = the ring")],
         fields={"ring": 33, "made": {33}, "serial": 0, "open": 0}, line="0 0 0 33 0 1 0 0 0 8 0"),
    dict(title="Write the return segment into the frame", request=record(2, 33, 0, [28, 200]), asks="write, stack 33, offset 28, value 200",
         tests="1 no; 4 no: the record is sound; 16 no: stack 33 is at most 63 and offset 28 is below 128; 15 no: stack 33 is not below ring 33. Accepted.",
         words=[(33, 28, 200, "write: one word (word 20 of the frame at 8)")], line="2 0 0 33 0 1 0 0 0 0 0"),
    dict(title="Write the return offset into the frame", request=record(2, 33, 0, [29, 50]), asks="write, stack 33, offset 29, value 50",
         tests="As before. Accepted.", words=[(33, 29, 50, "write: one word (word 21 of the frame at 8)")], line="2 0 0 33 0 1 0 0 0 0 0"),
    dict(title="The call inward", request=record(1, 1, 0, CALL), asks="crossing, fault 1, instruction 0, frame 8, argument place 100, running 200, target segment 100, offset 16",
         tests=FIRST + "; 5 no: fault 1, instruction 0; 6 no: frame 8 lies in 8 to 96; 7 no: segment 200 is listed and execute, ring 33 lies in 33..33, words 28-29 are (200, 50); "
         "8 no: word 3 is 33; 9 no: no call is open; 3 no: segment 100 is listed and execute, 1 < 33 ≤ 63 is inward and so is fault 1, 16 is a gate, so ring 1 is entered; "
         "10 no: the list at 100 has count 0 and ends at 101; 11 no: stack 1 is not made; 12 no: 40 + 33 = 73 is at most 128. Accepted. Level: the larger of 33 and 33.",
         words=made_words(1) + [(33, 0, 33, "old stack 0-1: the old ring"), (33, 1, 8, "old stack 0-1: the frame")]
         + [(1, 40 + i, None, "the caller's frame words", (33, 8 + i)) for i in range(32)]
         + [(1, 56, 65537, "16-17: 65536 + the new ring"), (1, 57, 8, "16-17: the last-used offset"), (1, 58, 1, "18-19: the new ring"),
            (1, 59, 73, "18-19: the end of all copied"), (1, 68, 33, "28-29: the old ring"), (1, 69, 8, "28-29: the old frame"),
            (1, 72, 0, "the list: count 0"), (1, 2, 1, "base 2: open count with this call"), (1, 3, 33, "base 3: larger of level 33 and ring 1"),
            (1, 4, 1, "base 4: the new serial")],
         fields={"ring": 1, "made": {1, 33}, "serial": 1, "open": 1}, entry=[33, 8, 33, 200, 50, 100, 8, 40, 0, 1], line="1 0 0 1 1 2 1 100 16 40 72"),
    dict(title="A write below the ring", request=record(2, 0, 0, [9, 1]), asks="write, stack 0, offset 9, value 1",
         tests="1 no; 4 no: the record is sound; 16 no: stack 0 is at most 63 and offset 9 is below 128; 15 yes: stack 0 is below ring 1. Refused with 15.",
         words=[], line="2 15 0 1 1 2 1 0 0 0 0"),
    dict(title="A return with the wrong fault", request=record(1, 1, 1, []), asks="crossing, fault 1, instruction 1",
         tests=FIRST + "; 5 no: fault 1, instruction 1; 13 yes: the newest call went inward (old ring 33 is not below ring 1), so its return goes outward and needs fault 2. Refused with 13.",
         words=[], line="1 13 0 1 1 2 1 0 0 0 0"),
    dict(title="The return", request=record(1, 2, 1, []), asks="crossing, fault 2, instruction 1",
         tests=FIRST + "; 5 no: fault 2, instruction 1; 13 no: a call is open, and fault 2 fits. Accepted: everything comes from the entry.",
         words=[(1, 0, 1, "left stack 0-1: the left ring"), (1, 1, 8, "left stack 0-1: prior"), (33, 3, 33, "word 3 of the old stack: the saved level")],
         fields={"ring": 33, "made": {1, 33}, "serial": 1, "open": 0}, entry=[0] * 10, line="1 0 0 33 0 2 1 200 50 8 100"),
    dict(title="A call beside the gate", request=record(1, 1, 0, CALL[:4] + (17,)), asks="the call of step 4 with target offset 17",
         tests=FIRST + "; 5, 6, 7, 8 and 9 no, as in step 4; 3 yes, with reason 5: the target is listed (1), execute (2), 33 is not above 63 (3), "
         "a crossing (4), inward as the fault is (7), but 17 is not a gate (5). Refused with 3, reason 5.",
         words=[], line="1 3 5 33 0 2 1 0 0 0 0"),
]


class Model:
    """The store and the record, changed word by word."""

    def __init__(self):
        self.store = [0] * (64 * L)
        self.fields = {"ring": 0, "made": set(), "serial": 0, "open": 0}
        self.entry = [0] * 10

    def apply(self, step):
        """Makes the step's stores; gives (stack, offset, old, new, rule) of each, in order."""
        if step.get("clear"):
            self.store = [0] * (64 * L)
        before = list(self.store)
        rows = []
        for stack, at, value, rule, *source in step["words"]:
            value = before[source[0][0] * L + source[0][1]] if source else value
            rows.append((stack, at, before[stack * L + at], value, rule))
            self.store[stack * L + at] = value
        self.fields = dict(step.get("fields", self.fields))
        self.entry = list(step.get("entry", self.entry))
        return rows

    def numbers(self):
        """The record as docs/TRACE.md lists it; the worked run has one entry at most."""
        made = sum(1 << k for k in self.fields["made"])
        entries = self.entry + [0] * 16 + [0] * (26 * 31)
        return [self.fields["ring"], made >> 32, made % 2**32, self.fields["serial"], self.fields["open"]] + entries


def digest(numbers):
    d = 7
    for x in numbers:
        d = (d * 65599 + x + 1) % 4294967291
    return d
