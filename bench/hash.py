#!/usr/bin/env python3
"""Hashing of representations beside Python's hashlib.

Builds and proves crates/hash_bench by `rt run`, and then runs it and hashlib in turn, five times each, on
the same 250,000 messages of 170 bytes. The time is processor time, the least of the five. Prints both
times and their ratio, and ends with status 1 where the last hashes differ or the ratio is above 2.
"""
import hashlib
import os
import resource
import subprocess
import sys
import time

STEPS = 250_000
ROUNDS = 5
FOLDER = os.path.join(os.path.dirname(os.path.abspath(__file__)), "..", "crates", "hash_bench")


def by_program():
    before = resource.getrusage(resource.RUSAGE_CHILDREN)
    answer = subprocess.run(["out/hash_bench"], cwd=FOLDER, stdout=subprocess.PIPE, check=True)
    after = resource.getrusage(resource.RUSAGE_CHILDREN)
    spent = after.ru_utime - before.ru_utime + after.ru_stime - before.ru_stime
    return answer.stdout.decode().strip(), spent


def by_hashlib():
    front = bytes([2, 200]) + b"\x5a" * 100 + bytes([0, 1, 0, 1])
    begun = time.process_time()
    digest = bytes(32)
    for _ in range(STEPS):
        digest = hashlib.sha256(front + digest + digest).digest()
    return digest.hex(), time.process_time() - begun


def main():
    subprocess.run(["rt", "run"], cwd=FOLDER, stdout=subprocess.DEVNULL, stderr=subprocess.DEVNULL, check=True)
    ours, theirs = [], []
    for _ in range(ROUNDS):
        ours.append(by_program())
        theirs.append(by_hashlib())
    if len({last for last, _ in ours + theirs}) != 1:
        sys.exit("the last hashes differ")
    least = min(spent for _, spent in ours)
    least_hashlib = min(spent for _, spent in theirs)
    ratio = least / least_hashlib
    print(f"hash_parts {least:.3f} s, hashlib {least_hashlib:.3f} s, ratio {ratio:.2f}")
    sys.exit(0 if ratio <= 2 else 1)


if __name__ == "__main__":
    main()
