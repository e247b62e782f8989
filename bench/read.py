#!/usr/bin/env python3
"""The program's `read` of large values beside its `hash` of the same bags.

Reads a message with a dictionary of 10,000 and of 100,000 currencies, binary trees of 32,767 and of 262,143 cells, and one cell that
holds a list of 1,000 bits. Prints for each the processor time of `read` and of `hash` and their ratio, the memory of `read` besides the
file, and how the time grows. Ends with status 1 where the ratio of the first message or the large tree is above 6, where the larger of
two takes more than 12 times the time, or where the memory passes 400 MB. Times are the least of three runs.
"""
import os
import sys
import tempfile

from cells import bag, edge, number
from processor_time import spent, spent_and_held

HERE = os.path.dirname(os.path.abspath(__file__))
PROGRAM = os.path.join(HERE, "..", "crates", "tlb_cli", "out", "tlb_cli")
BLOCK = os.path.join(HERE, "..", "examples", "block.tlb")
TREE = "leaf$0 value:uint32 = Tree;\nfork$1 left:^Tree right:^Tree = Tree;\n"
LIST = "bit$_ (## 1) = Bit;\nlist$_ n:(## 10) bits:(n * Bit) = Bits;\n"


def address():
    return "10" + "0" + number(0, 8) + number(1, 256)


def message(count):
    """An internal message that carries so many currencies of 32 bits each, one for each key."""
    amounts = [(number(key * 40503 % 2**32, 32), number(4, 5) + number(key + 2**31, 32), []) for key in range(count)]
    currencies = edge(sorted(amounts), 32)
    info = "0" + "110" + address() * 2 + number(4, 4) + number(10**9, 32) + "1" + number(0, 4) * 2 + number(0, 64) + number(0, 32)
    return info + "0" + "1", [currencies, ("", [])]


def tree(first, depth):
    """A binary tree of 2 ** depth leaves with numbers of their own."""
    if depth == 0:
        return "0" + number(first, 32), []
    return "1", [tree(first, depth - 1), tree(first + 2 ** (depth - 1), depth - 1)]


def bits(count):
    return number(count, 10) + "10" * (count // 2), []


def measured(folder, name, schema, type_word, root):
    path = os.path.join(folder, "bag")
    written = bag(root)
    with open(path, "wb") as out:
        out.write(written)
    read, memory = spent_and_held([PROGRAM, "read", schema, type_word, path])
    hashed = spent([PROGRAM, "hash", path])
    beside = memory / 1024 - len(written) / 2**20
    print(f"{name}: read {read:.3f} s, hash {hashed:.3f} s, ratio {read / hashed:.1f}; {beside:.0f} MB besides the file")
    return read, read / hashed, beside


def main():
    kept = True
    with tempfile.TemporaryDirectory() as folder:
        schemas = {}
        for name, text in (("tree", TREE), ("list", LIST)):
            schemas[name] = os.path.join(folder, name)
            with open(schemas[name], "w", encoding="ascii") as out:
                out.write(text)
        few = measured(folder, "10,000 currencies", BLOCK, "Message Any", message(10_000))
        many = measured(folder, "100,000 currencies", BLOCK, "Message Any", message(100_000))
        small = measured(folder, "32,767 cells", schemas["tree"], "Tree", tree(0, 14))
        large = measured(folder, "262,143 cells", schemas["tree"], "Tree", tree(0, 17))
        measured(folder, "1,000 bits", schemas["list"], "Bits", bits(1000))
        growths = many[0] / few[0], large[0] / small[0]
        print(f"10 times the currencies take {growths[0]:.1f} times the time, 8 times the cells {growths[1]:.1f} times")
        kept = few[1] <= 6 and large[1] <= 6 and growths[0] <= 12 and growths[1] <= 12
        kept = kept and max(few[2], many[2], large[2]) <= 400
    sys.exit(0 if kept else 1)


if __name__ == "__main__":
    main()
