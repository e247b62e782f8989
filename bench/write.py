#!/usr/bin/env python3
"""Writing a bag beside hashing it.

Runs the built programs on bags of distinct cells in a tree of four references a cell: bag_again, which reads a bag,
interns its cells in a pool, writes the bag and reads what it wrote, and the `hash` of the program, which reads it. Prints

- the time of interning and writing 262,144 cells, that of `hash` on the same bag, and their ratio (at most 3),
- how the time of bag_again grows from 26,214 cells to ten times as many (at most 12).

Times are processor time, the least of three. Ends with status 1 where a bound is passed.
"""
import os
import sys
import tempfile

from processor_time import spent

CRATES = os.path.join(os.path.dirname(os.path.abspath(__file__)), "..", "crates")
AGAIN = os.path.join(CRATES, "bag_again", "out", "bag_again")
PROGRAM = os.path.join(CRATES, "tlb_cli", "out", "tlb_cli")
CELLS = 262_144
FEW = 26_214


def bag_of(count):
    """The bag of `count` cells; cell i holds its number in 32 bits, and its children are 4i + 1 to 4i + 4."""
    data = bytearray()
    for i in range(count):
        children = range(4 * i + 1, min(4 * i + 5, count))
        data += bytes([len(children), 8]) + i.to_bytes(4, "big")
        for child in children:
            data += child.to_bytes(3, "big")
    numbers = [(count, 3), (1, 3), (0, 3), (len(data), 4), (0, 3)]
    header = bytes.fromhex("b5ee9c720304") + b"".join(n.to_bytes(width, "big") for n, width in numbers)
    return header + bytes(data)


def main():
    with tempfile.TemporaryDirectory() as room:
        names = {}
        for count in (FEW, CELLS):
            names[count] = os.path.join(room, f"{count}.boc")
            with open(names[count], "wb") as file:
                file.write(bag_of(count))
        few = spent([AGAIN, names[FEW]])
        many = spent([AGAIN, names[CELLS]])
        hashed = spent([PROGRAM, "hash", names[CELLS]])
    written = many - 2 * hashed
    print(f"writing {CELLS} cells: {written:.2f} s, hash: {hashed:.2f} s, ratio {written / hashed:.2f}")
    print(f"ten times the cells: {many / few:.2f} times the time")
    return 0 if written <= 3 * hashed and many <= 12 * few else 1


if __name__ == "__main__":
    sys.exit(main())
