#!/usr/bin/env python3
"""bench.py ORACLE PSTORE..: the time of both programs on four files, turn by turn in one run; the best of each counts."""
import subprocess
import sys
import time

ROUNDS = 60
CASES = [
    ("worst SETTLE", "worst", "1"),
    ("worst SETTLE, no conflicts", "worst", "2"),
    ("long schedule of single steps", "long", "1"),
    ("many idle SETTLEs", "idle", "1"),
    ("smallest file", "", ""),
]


def smallest():
    """One key, one group of one site, END, no steps."""
    return bytes.fromhex("010004000000000200090100000000000000010F0000".replace(" ", ""))


def steps(listing):
    """Steps taken: one for each line STEP, and for SETTLE those that it counts."""
    total = 0
    for line in listing.decode().splitlines():
        words = line.split()
        if words[0] == "STEP":
            total += 1
            if words[2] == "0" and words[4] == "0" and int(words[3]) > 1000:
                total += int(words[3])
    return total


def once(program, data):
    start = time.perf_counter()
    done = subprocess.run(program, input=data, capture_output=True, check=True)
    return time.perf_counter() - start, done.stdout


def main():
    oracle, pstore = sys.argv[1], sys.argv[2:]
    print(f"{'':31}{'second':>10}{'pstore':>10}{'ratio':>8}{'steps/s':>12}")
    for name, kind, seed in CASES:
        data = smallest()
        if kind:
            data = subprocess.run([oracle, "generate", kind, seed], capture_output=True, check=True).stdout
        best = [1e9, 1e9]
        for _ in range(ROUNDS):
            theirs, expected = once([oracle, "list"], data)
            ours, listing = once(pstore, data)
            if listing != expected:
                sys.exit(f"{name}: the listings differ")
            best = [min(best[0], theirs), min(best[1], ours)]
        rate = f"{steps(listing) / best[1]:12,.0f}" if kind else ""
        print(f"{name:31}{best[0] * 1e3:7.2f} ms{best[1] * 1e3:7.2f} ms{best[1] / best[0]:8.2f}{rate}")


main()
