#!/usr/bin/env python3
"""How fast the whole program is, in one table.

Takes messages whose dictionary holds 100, 1,000 and 10,000 currencies, and a binary tree of 262,143 cells, of records with one number.
Measures `hash`, `read`, `build`, `prove` of one path and of 64, `view` of the proof for 64, and `check` of the message's schema. Prints
for each the processor time, the ratio to `hash` of the same bag with its bar, the ratio to what Python's hashlib takes for the
representations of the cells alone, and the memory besides the files. Then how the times grow with ten times the entries, and what a
plain reader in Python takes for the largest message.

The bars: 6 times `hash` for `read`, `build` and `view`, 8 times for `prove`, for the largest message and the tree; 12 times the time for
ten times the entries; 450 MB for the tree. Ends with status 1 where one is passed or an answer is wrong. Times are the least of three
runs.
"""
import os
import subprocess
import sys
import tempfile
import time

from cells import bag, edge, number
from plain import hashing, message_text
from processor_time import spent, spent_and_held
from read import BLOCK, PROGRAM, tree

TREE = ("bt_leaf$0 {X:Type} leaf:X = BinTree X;\nbt_fork$1 {X:Type} left:^(BinTree X) right:^(BinTree X) = BinTree X;\n"
        "item$_ number:uint32 = Item;\n")
LEVELS = 17
RATIOS = {"read": 6, "build": 6, "prove, 1 path": 8, "prove, 64 paths": 8, "view": 6}
GROWTH = 12
MEGABYTES = 450
PATHS = 64


def keys(count):
    """So many different keys of 32 bits, in the order in which they are drawn."""
    drawn, last = [], count
    for _ in range(count):
        last = (1103515245 * last + 12345) % 2**32
        drawn.append(last)
    return drawn


def message(drawn):
    """An internal message with an amount for each key, an initial state in place, and a body by reference."""
    amounts = [(number(key, 32), number(4, 5) + number(key, 32), []) for key in sorted(drawn)]
    ends = "".join("10" + "0" + number(0, 8) + number(digit, 4) * 64 for digit in (1, 2))
    info = "0" + "110" + ends + number(4, 4) + number(10**9, 32) + "1" + number(0, 4) * 2 + number(0, 64) + number(0, 32)
    return info + "10" + "00110" + "1", [edge(amounts, 32), (number(0xFF00, 16), []), ("", []), (number(0, 32), [])]


def spread(items):
    return [items[i * len(items) // PATHS] for i in range(PATHS)]


def message_paths(drawn):
    return [f"/info/value/other/dict/x{{{key:08X}}}" for key in drawn[:1] + spread(drawn[1:])]


def tree_paths():
    leaves = [number(leaf, LEVELS) for leaf in [2**LEVELS // 3] + spread(range(2**LEVELS))]
    return ["".join("/right" if side == "1" else "/left" for side in leaf) + "/leaf/number" for leaf in leaves]


def output(command, path):
    with open(path, "wb") as out:
        subprocess.run(command, stdout=out, check=True)
    return path


def commands(folder, schema, type_word, path, paths):
    """The measured commands by their names; the text and the proof that they take are made by the program."""
    prove = [PROGRAM, "prove", schema, type_word, path]
    read = [PROGRAM, "read", schema, type_word, path]
    proof = output(prove + paths[1:], os.path.join(folder, "proof"))
    yield "read", read
    yield "build", [PROGRAM, "build", schema, type_word, output(read, os.path.join(folder, "text"))]
    yield "prove, 1 path", prove + paths[:1]
    yield "prove, 64 paths", prove + paths[1:]
    yield "view", [PROGRAM, "view", schema, type_word, proof]
    yield "check", [PROGRAM, "check", schema]


def agree(path, root, listed):
    """Tells whether `build` gives a bag of the same hash, and the view of the proof begins with that hash."""
    found = subprocess.run([PROGRAM, "hash", path], stdout=subprocess.PIPE, check=True).stdout.split()[1].decode()
    viewed = subprocess.run(listed["view"], stdout=subprocess.PIPE, check=True).stdout
    built = output(listed["build"], path + ".built")
    again = subprocess.run([PROGRAM, "hash", built], stdout=subprocess.PIPE, check=True).stdout.split()[1].decode()
    return found == again == root and viewed.startswith(b"root " + root.encode() + b"\n")


def measured(folder, name, schema, type_word, root, paths, has_bars):
    """Prints a line for each command, and returns the times by command and whether the bars and the answers are kept."""
    path = os.path.join(folder, "bag")
    with open(path, "wb") as out:
        out.write(bag(root))
    listed = dict(commands(folder, schema, type_word, path, paths))
    plain, digest = hashing(root)
    kept = agree(path, digest, listed)
    times = {"hash": spent([PROGRAM, "hash", path])}
    print(f"{name}: hash {times['hash']:.4f} s, {times['hash'] / plain:.1f} times hashlib{'' if kept else ', a wrong answer'}")
    for what, command in listed.items():
        times[what], memory = spent_and_held(command)
        files = sum(os.path.getsize(word) for word in command[2:] if os.path.isfile(word))
        beside = memory / 1024 - files / 2**20
        ratio = times[what] / times["hash"]
        bar = RATIOS.get(what) if has_bars else None
        limit = f" (at most {bar})" if bar else ""
        print(f"  {what:16}{times[what]:.4f} s  {ratio:5.1f} times hash{limit}  {times[what] / plain:5.1f} times hashlib  {beside:4.0f} MB")
        kept = kept and (bar is None or ratio <= bar and beside <= MEGABYTES)
    return times, kept


def grown(few, many):
    """Prints how much longer each command takes, and returns the greatest."""
    growths = {what: many[what] / few[what] for what in many if what != "check"}
    print(f"ten times the entries (at most {GROWTH} times): " + "; ".join(f"{what} {growths[what]:.1f}" for what in growths))
    return max(growths.values())


def yardstick(folder, read):
    """Prints what a plain reader in Python takes for the bag that was written last, and tells whether it reads the same."""
    with open(os.path.join(folder, "bag"), "rb") as file:
        data = file.read()
    begun = time.process_time()
    text = message_text(data)
    taken = time.process_time() - begun
    with open(os.path.join(folder, "text"), "rb") as file:
        same = file.read() == text.encode() + b"\n"
    print(f"a plain reader in Python: {taken:.3f} s, {taken / read:.1f} times read{'' if same else ', another text'}")
    return same


def main():
    kept, messages = True, []
    with tempfile.TemporaryDirectory() as folder:
        for count in (100, 1_000, 10_000):
            drawn = keys(count)
            name = f"a message of {count} entries"
            times, good = measured(folder, name, BLOCK, "Message Any", message(drawn), message_paths(drawn), count == 10_000)
            messages.append(times)
            kept = kept and good
        kept = yardstick(folder, messages[-1]["read"]) and kept
        kept = max(grown(*messages[:2]), grown(*messages[1:])) <= GROWTH and kept
        schema = os.path.join(folder, "tree")
        with open(schema, "w", encoding="ascii") as out:
            out.write(TREE)
        _, good = measured(folder, "a tree of 262143 cells", schema, "BinTree Item", tree(0, LEVELS), tree_paths(), True)
    sys.exit(0 if kept and good else 1)


if __name__ == "__main__":
    main()
