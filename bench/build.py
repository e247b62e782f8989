#!/usr/bin/env python3
"""The program's `build` and `tidy` of large values beside its `hash` of the same bags.

Takes the messages and the binary trees of the benchmark of `read`, builds the texts that `read` prints for them, and tidies their bags.
Prints for each the processor time of `build`, `tidy` and `hash`, the ratios to `hash`, the memory of `build` and `tidy` besides the file,
and how the times grow. Ends with status 1 where a ratio of a larger one of two is above 6, where the larger takes more than 12 times the
time, where the memory passes 400 MB, or where `build` and `tidy` print different bags. Times are the least of three runs.
"""
import os
import subprocess
import sys
import tempfile

from cells import bag
from processor_time import spent, spent_and_held
from read import BLOCK, PROGRAM, TREE, message, tree

RATIO = 6
GROWTH = 12
MEGABYTES = 400


def output(command, path):
    with open(path, "wb") as out:
        subprocess.run(command, stdout=out, check=True)


def agree(folder, build, tidy):
    """Tells whether both commands print one bag, whose root has the hash of the bag that was tidied."""
    built = os.path.join(folder, "built")
    tidied = os.path.join(folder, "tidied")
    output(build, built)
    output(tidy, tidied)
    with open(built, "rb") as first, open(tidied, "rb") as second:
        same = first.read() == second.read()
    hashes = [subprocess.run([PROGRAM, "hash", path], stdout=subprocess.PIPE, check=True).stdout for path in (built, tidy[-1])]
    return same and hashes[0] == hashes[1]


def measured(folder, name, schema, type_word, root):
    """Prints a line and returns the times of `build` and `tidy`, their ratios, and the greater memory."""
    path, text = os.path.join(folder, "bag"), os.path.join(folder, "text")
    with open(path, "wb") as out:
        out.write(bag(root))
    output([PROGRAM, "read", schema, type_word, path], text)
    commands = [PROGRAM, "build", schema, type_word, text], [PROGRAM, "tidy", schema, type_word, path]
    if not agree(folder, *commands):
        raise SystemExit(f"{name}: the bags differ")
    hashed = spent([PROGRAM, "hash", path])
    times, beside = [], []
    for command in commands:
        time, memory = spent_and_held(command)
        times.append(time)
        beside.append(memory / 1024 - os.path.getsize(command[-1]) / 2**20)
    ratios = [time / hashed for time in times]
    print(f"{name}: build {times[0]:.3f} s, tidy {times[1]:.3f} s, hash {hashed:.3f} s, ratios {ratios[0]:.1f} and {ratios[1]:.1f}; "
          f"{beside[0]:.0f} and {beside[1]:.0f} MB besides the file")
    return times, ratios, max(beside)


def main():
    with tempfile.TemporaryDirectory() as folder:
        schema = os.path.join(folder, "tree")
        with open(schema, "w", encoding="ascii") as out:
            out.write(TREE)
        few = measured(folder, "10,000 currencies", BLOCK, "Message Any", message(10_000))
        many = measured(folder, "100,000 currencies", BLOCK, "Message Any", message(100_000))
        small = measured(folder, "32,767 cells", schema, "Tree", tree(0, 14))
        large = measured(folder, "262,143 cells", schema, "Tree", tree(0, 17))
    kept = True
    for command, one in (("build", 0), ("tidy", 1)):
        growths = many[0][one] / few[0][one], large[0][one] / small[0][one]
        print(f"{command}: 10 times the currencies take {growths[0]:.1f} times the time, 8 times the cells {growths[1]:.1f} times")
        kept = kept and max(many[1][one], large[1][one]) <= RATIO and max(growths) <= GROWTH
    sys.exit(0 if kept and max(many[2], large[2]) <= MEGABYTES else 1)


if __name__ == "__main__":
    main()
