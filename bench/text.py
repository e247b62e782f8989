#!/usr/bin/env python3
"""Reading and printing the text of a value.

Runs the built program text_again, which reads a text by `parse` and prints its value by `print`. Prints

- the time of a list of 1,048,575 numbers, read and printed, and how it grows from a tenth of it (at most 12 times),
- the time of a text of 134,217,728 bytes of white space around one value,
- the time of a map of 100,000 entries and of a tree of 262,144 cells.

Times are processor time, the least of three. Ends with status 1 where a bound is passed.
"""
import os
import sys
import tempfile

from processor_time import spent

AGAIN = os.path.join(os.path.dirname(os.path.abspath(__file__)), "..", "crates", "text_again", "out", "text_again")
MOST = 134_217_728


def tree(depth):
    """The text of a cell with four references at each of the levels below it."""
    return "(x{5A})" if depth == 0 else "(x{5A}," + ",".join([tree(depth - 1)] * 4) + ")"


def main():
    texts = {
        "few": "[" + ",".join(["7"] * 104_857) + "]",
        "many": "[" + ",".join(["7"] * 1_048_575) + "]",
        "white space": " " * (MOST - 1) + "7",
        "map": "<" + ",".join(f"x{{{i:08X}}}:{i}" for i in range(100_000)) + ">",
        "cells": "[" + ",".join([tree(8)] * 3) + "]",
    }
    times = {}
    with tempfile.TemporaryDirectory() as room:
        for name, text in texts.items():
            path = os.path.join(room, "text")
            with open(path, "w") as file:
                file.write(text)
            times[name] = spent([AGAIN, path])
            print(f"{name}: {len(text)} bytes, {times[name]:.2f} s")
    growth = times["many"] / max(times["few"], 0.01)
    print(f"growth: {growth:.1f}")
    return 1 if growth > 12 else 0


sys.exit(main())
