#!/usr/bin/env python3
"""The throughput of two programs on the same input.

    throughput.py INPUT OURS THEIRS [WORD..]

Five rounds, the two in turn, each from the file INPUT to a file of its own. Prints the median times a line, their
quotient and the throughputs; ends with status 1 where the outputs differ or ours has less than 0.95 of theirs.
"""
import filecmp
import os
import statistics
import subprocess
import sys
import time

LEAST = 0.95


def run(command, source, target):
    with open(source, "rb") as stdin, open(target, "wb") as stdout:
        start = time.monotonic()
        subprocess.run(command, stdin=stdin, stdout=stdout, check=True)
        return time.monotonic() - start


def lines(path):
    with open(path, "rb") as file:
        return sum(block.count(b"\n") for block in iter(lambda: file.read(1 << 20), b""))


def main(source, ours, *theirs):
    outputs = [source + ".ours", source + ".theirs"]
    times = [[], []]
    for _ in range(5):
        for command, output, taken in zip([[ours], theirs], outputs, times):
            taken.append(run(command, source, output))
    same = filecmp.cmp(*outputs, shallow=False)
    size = os.path.getsize(source)
    mine, plain = map(statistics.median, times)
    mine_a_line, plain_a_line = (1e9 * taken / lines(outputs[0]) for taken in (mine, plain))
    print(f"{'text program, a line':<24}{mine_a_line:>9.1f}{plain_a_line:>9.1f}{mine / plain:>7.2f}")
    print(f"{size} bytes, outputs {'the same' if same else 'DIFFER'}, "
          f"{size / mine / 1e6:.0f} MB/s and {size / plain / 1e6:.0f} MB/s")
    sys.exit(0 if same and plain / mine >= LEAST else 1)


main(*sys.argv[1:])
