#!/usr/bin/env python3
"""Measures two calls of the libraries by themselves: building directories of 1,000, 10,000 and 100,000 names (f2_dent), and
following chains of 600, 6,000 and 60,000 nodes on a disk in memory (f2_roll).

The cost per name should not grow by more than 3 from the smallest to the largest, nor that per node. This is printed, and
nothing fails where it is not so. The program f2_measure makes the calls; what it takes to prepare them is measured with no
call, and taken off.
"""
import os
import sys

sys.dont_write_bytecode = True
from measuring import TOP, mean_start, medians, print_row

MEASURE = os.path.abspath(os.environ.get("F2MEASURE", f"{TOP}/crates/f2_measure/out/f2_measure"))
CALLS = {"build": ("name", (1_000, 10_000, 100_000)), "chain": ("node", (600, 6_000, 60_000))}
WORK = 400_000  # names or nodes of all calls of a start
SAMPLES = 7


def times_of(size):
    return max(1, WORK // size)


def sample(call, size, times):
    return mean_start([MEASURE, call, str(size), str(times)], 1)


def main():
    if not os.access(MEASURE, os.X_OK):
        sys.exit(f"no program at {MEASURE}: run make build, or set F2MEASURE")
    cases = [(call, size, times) for call, (_, sizes) in CALLS.items() for size in sizes for times in (0, times_of(size))]
    found = medians(cases, sample, SAMPLES)
    print(f"{os.cpu_count()} cores; medians of {SAMPLES} samples")
    for call, (thing, sizes) in CALLS.items():
        print()
        print_row(f"{call}: {thing}s", "time of a call", f"per {thing}", "ratio", "wanted")
        costs = []
        for size in sizes:
            whole = (found[call, size, times_of(size)] - found[call, size, 0]) / times_of(size)
            costs.append(whole * 1e6 / size)
            wanted = "at most 3" if size == sizes[-1] else ""
            print_row(f"{size:,}", f"{whole:.3f} ms", f"{costs[-1]:.0f} ns", f"{costs[-1] / costs[0]:.2f}", wanted)


if __name__ == "__main__":
    main()
