#!/usr/bin/env python3
"""The program's `hash` of large bags beside Python's hashlib.

Writes bags of distinct cells of 100 data bytes in a binary tree, and runs the built program on them. Prints

- the time for 262,144 cells, hashlib's time for the same representations, and their ratio (at most 3),
- the memory of the program besides the file (at most 200 MB),
- how the time grows from 26,214 cells to ten times as many (at most 12),
- the time for a hexadecimal file of the greatest size that is refused at its end.

Times are processor time, the least of three. Ends with status 1 where a bound is passed.
"""
import hashlib
import os
import resource
import subprocess
import sys
import tempfile
import time

PROGRAM = os.path.join(os.path.dirname(os.path.abspath(__file__)), "..", "crates", "tlb_cli", "out", "tlb_cli")
CELLS = 262_144
FEW = 26_214
DATA = 100
GREATEST = 134_217_728


def cells_of(count):
    """Descriptor bytes, data and children of each cell; the children of i are 2i + 1 and 2i + 2."""
    for i in range(count):
        children = [c for c in (2 * i + 1, 2 * i + 2) if c < count]
        yield bytes([len(children), 2 * DATA]), i.to_bytes(4, "big") * (DATA // 4), children


def bag_of(count):
    size = 3
    data = b"".join(d + content + b"".join(c.to_bytes(size, "big") for c in children) for d, content, children in cells_of(count))
    off = 4
    header = bytes.fromhex("b5ee9c72") + bytes([size, off]) + count.to_bytes(size, "big") + (1).to_bytes(size, "big") + bytes(size)
    return header + len(data).to_bytes(off, "big") + bytes(size) + data


def hashlib_root(count):
    """The root's hash and the time that hashing takes, with all representations laid out before it."""
    cells = list(cells_of(count))
    hashes, depths = [b""] * count, [0] * count
    spent = 0.0
    for i in reversed(range(count)):
        d, content, children = cells[i]
        depths[i] = 1 + max(depths[c] for c in children) if children else 0
        message = d + content + b"".join(depths[c].to_bytes(2, "big") for c in children) + b"".join(hashes[c] for c in children)
        begun = time.perf_counter()
        hashes[i] = hashlib.sha256(message).digest()
        spent += time.perf_counter() - begun
    return hashes[0].hex(), depths[0], spent


# Runs the program and tells its status, its output, its processor time in seconds and its memory in kilobytes.
def run(path):
    process = subprocess.Popen([PROGRAM, "hash", path], stdout=subprocess.PIPE)
    output = process.stdout.read()
    _, status, usage = os.wait4(process.pid, 0)
    return os.waitstatus_to_exitcode(status), output, usage.ru_utime + usage.ru_stime, usage.ru_maxrss


def least_of_three(path):
    runs = [run(path) for _ in range(3)]
    return runs[0][0], runs[0][1], min(r[2] for r in runs), max(r[3] for r in runs)


def main():
    kept = True
    with tempfile.TemporaryDirectory() as folder:
        path = os.path.join(folder, "bag")
        times = {}
        for count in (FEW, CELLS):
            bag = bag_of(count)
            with open(path, "wb") as out:
                out.write(bag)
            status, output, times[count], memory = least_of_three(path)
            root, depth, spent = hashlib_root(count)
            assert (status, output.decode()) == (0, f"0 {root} {depth}\n"), (status, output)
        ratio, growth = times[CELLS] / spent, times[CELLS] / times[FEW]
        beside = memory / 1024 - len(bag) / 2**20
        print(f"hash of {CELLS} cells: {times[CELLS]:.3f} s, hashlib {spent:.3f} s, ratio {ratio:.2f}")
        print(f"memory besides the file of {len(bag) / 2**20:.0f} MB: {beside:.0f} MB")
        print(f"{CELLS} cells take {growth:.1f} times what {FEW} cells take")
        kept = kept and ratio <= 3 and beside <= 200 and growth <= 12

        with open(path, "wb") as out:
            out.write(b"b" + b"5" * (GREATEST - 2) + b"g")
        status, output, spent, _ = run(path)
        print(f"hexadecimal file of {GREATEST} bytes: {spent:.2f} s, {output.decode().strip()}")
        kept = kept and (status, output.decode()) == (6, f"refused: bag BadHex {GREATEST - 1}\n") and spent < 30
    sys.exit(0 if kept else 1)


if __name__ == "__main__":
    main()
