"""Runs of the run program (document 01), described in words: worked.txt tells the form; `record` gives any bytes of a record (kind, three
bytes, five numbers), `rest` ends the input with some bytes that are no record."""
import struct


def segment(number, r1, r2, r3, mode, *gates):
    """A record of 40 bytes: number, brackets, mode, gate count, zero, eight gate offsets, high byte first."""
    offsets = list(gates) + [0] * (8 - len(gates))
    return struct.pack(">H6B8I", number, r1, r2, r3, mode, len(gates), 0, *offsets)


def record(kind, whom, instruction, *numbers):
    """A record of 24 bytes: kind; start ring, fault or stack; instruction; zero; five numbers, high byte first."""
    return struct.pack(">4B5I", kind, whom, instruction, 0, *(list(numbers) + [0] * (5 - len(numbers))))


ASKS = {
    "start": lambda ring: record(0, ring, 0),
    "write": lambda stack, offset, value: record(2, stack, 0, offset, value),
    "call": lambda fault, *numbers: record(1, fault, 0, *numbers),
    "return": lambda fault: record(1, fault, 1),
    "record": lambda *numbers: bytes(numbers[:4]) + struct.pack(">5I", *(list(numbers[4:]) + [0] * (9 - len(numbers)))),
    "rest": lambda count: bytes(count),
}


def made(text):
    """segment file, input and output, by the description"""
    segments, asked, lines = b"", b"", ""
    for line in text.splitlines():
        words = line.split("#")[0].split()
        if not words:
            continue
        numbers = [int(word) for word in words[1:]]
        if words[0] == "segment":
            segments += segment(*numbers)
        elif words[0] == "gives":
            lines += " ".join(words[1:]) + "\n"
        else:
            asked += ASKS[words[0]](*numbers)
    return segments, asked, lines
