#!/usr/bin/env python3
"""The limits of files and values on the built program: each at its limit, and one past it.

They are the bytes of a schema, of a bag and of a text, the values of a text, and the cells of the tree that `build` makes. Prints a
line for each file, and ends with status 1 where an answer is not the wanted one. It is not part of the gate.
"""
import os
import subprocess
import sys
import tempfile

from cells import bag

PROGRAM = os.path.join(os.path.dirname(os.path.abspath(__file__)), "..", "crates", "tlb_cli", "out", "tlb_cli")
UNIT = b"unit$_ = Unit;"
EMPTY = bytes.fromhex("b5ee9c72010101010002000000")
SCHEMA = 1_048_576
BAG = 134_217_728
VALUES = 1_048_576
CELLS = 262_144
# The references of a cell by their number, from the root to chains of cells with one reference each: 262,144 cells.
WIDTHS = (3, 4, 4, 4, 4, 4, 2)
CHAIN = 42


def largest():
    """The word for a type, its text in a refusal, the text of its one value and the cell of that value."""
    word = shown = "^" * (CHAIN - 1) + "(## 0)"
    text, cell, count = "^" * (CHAIN - 1) + "0", ("", []), CHAIN
    for _ in range(CHAIN - 1):
        cell = "", [cell]
    for width in reversed(WIDTHS):
        word, shown = f"{width} * ^({word})", f"({width} * ^{shown})"
        text, cell, count = "[" + ",".join(["^" + text] * width) + "]", ("", [cell] * width), 1 + width * count
    assert count == CELLS
    return word, shown, text, cell


def rows():
    """What is tried, the command, the type, the schema and the other file, and the wanted status and output."""
    unit, built = (0, b"unit{}\n"), (0, EMPTY.hex().encode() + b"\n")
    yield "a schema at its limit", "read", "Unit", UNIT.ljust(SCHEMA), EMPTY, unit
    yield "a schema one byte past its limit", "read", "Unit", UNIT.ljust(SCHEMA + 1), EMPTY, (4, b"refused: long schema\n")
    yield "a bag at its limit", "read", "Unit", UNIT, EMPTY.hex().encode().ljust(BAG), unit
    yield "a bag one byte past its limit", "read", "Unit", UNIT, EMPTY.hex().encode().ljust(BAG + 1), (4, b"refused: long file\n")
    yield "a text at its limit", "build", "Unit", UNIT, b"unit{}".ljust(BAG), built
    yield "a text one byte past its limit", "build", "Unit", UNIT, b"unit{}".ljust(BAG + 1), (4, b"refused: long file\n")
    values = b"[" + b"0," * (VALUES - 2) + b"0"
    yield "as many values as a text may have", "build", "Unit", UNIT, values + b"]", (10, b"refused: value root:Unit Shape\n")
    place = f"refused: text BulkText {2 * VALUES - 1}\n".encode()
    yield "one value more", "build", "Unit", UNIT, values + b",0]", (9, place)
    word, shown, text, cell = largest()
    yield "as many cells as a value may have", "build", word, b"", text.encode(), (0, bag(cell).hex().encode() + b"\n")
    yield "one cell more", "build", f"^({word})", b"", b"^" + text.encode(), (10, f"refused: value root:^{shown} Sprawl\n".encode())


def answer(folder, command, type_word, schema, file):
    for name, data in (("schema", schema), ("file", file)):
        with open(os.path.join(folder, name), "wb") as out:
            out.write(data)
    done = subprocess.run([os.path.abspath(PROGRAM), command, "schema", type_word, "file"], cwd=folder, capture_output=True)
    return done.returncode, done.stdout


def main():
    failed = 0
    with tempfile.TemporaryDirectory() as folder:
        for what, command, type_word, schema, file, wanted in rows():
            found = answer(folder, command, type_word, schema, file)
            print(f"{what}: status {found[0]}, {found[1].decode().strip()[:100]}")
            failed += found != wanted
    sys.exit(1 if failed else 0)


if __name__ == "__main__":
    main()
