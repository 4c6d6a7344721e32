#!/usr/bin/env python3
"""Measures `f2tools IMAGE defrag -l 512` and `defrag -l 20480` against the real `defrag.f2fs` with the same range and target, on copies of
an image of 1 GiB with 20,000 files that the real mkfs.f2fs and sload.f2fs made.

Each start has a fresh copy, which was made and synced before. The range begins with the first main segment that is full of data,
and for the growth, where files have no data, with the first that is full. The check is a part of each defrag: the time of `fsck` alone says how much of it. Peak memory should be below 64 MiB. On images with
5,000, 20,000 and 80,000 files the time for a file should stay: at 80,000 it should be at most 1.3 of that at 5,000. This is
printed, and nothing fails where it is not so.
"""
import os
import shutil
import subprocess
import sys

sys.dont_write_bytecode = True
from comparing import FILES, full_image, measure_growth, peak_memory
from measuring import PROGRAM, count_calls, medians, named_medians, print_row, start

LENGTHS = 512, 20_480  # blocks
SEGMENT = 512
DATA, ALL = range(3), range(6)  # types of segments
SAMPLES = 7


def first_full(image, kinds=DATA):
    """The address of the first main segment that is full, and of these kinds."""
    fields = subprocess.run(["od", "-A", "n", "-t", "u4", "-j", str(1024 + 92), "-N", "4", image], check=True, stdout=subprocess.PIPE)
    listed = subprocess.run([PROGRAM, image, "dump", "-s", "0~-1"], check=True, stdout=subprocess.PIPE)
    segments = (map(int, line.split()[:3]) for line in listed.stdout.splitlines())
    return int(fields.stdout) + SEGMENT * next(segno for segno, kind, count in segments if kind in kinds and count == SEGMENT)


def words_of(image, begin, length):
    """The words of both sides, which move the same blocks to the free segments behind them."""
    ends = "-s", str(begin), "-l", str(length), "-t", str(begin + length)
    return (PROGRAM, image, "defrag", *ends), (shutil.which("defrag.f2fs"), *ends, image)


def take(image, copy):
    """Makes a fresh copy; what is left to write of it isn't counted to the program that moves its blocks."""
    subprocess.run(["cp", "--sparse=always", image, copy], check=True)
    with open(copy, "rb") as file:
        os.fsync(file)


def sample_of(image, copy):
    def sample(words):
        take(image, copy)
        return start(words, 0) * 1000

    return sample


def compare(image, copy):
    begin = first_full(image)
    pairs = {length: words_of(copy, begin, length) for length in LENGTHS}
    check = PROGRAM, copy, "fsck"
    cases = [(words,) for sides in pairs.values() for words in sides] + [(check,)]
    times = medians(cases, sample_of(image, copy), SAMPLES)
    print(f"{os.cpu_count()} cores; medians of {SAMPLES} samples of a start each, on a fresh copy; from address {begin} on")
    print()
    print_row("time of a start", "f2tools", "defrag.f2fs", "ratio", "fsck alone", "its share")
    for length, (ours, theirs) in pairs.items():
        mine, other, of_check = (times[words,] for words in (ours, theirs, check))
        print_row(
            f"defrag -l {length}", f"{mine:.1f} ms", f"{other:.1f} ms", f"{mine / other:.3f}", f"{of_check:.1f} ms", f"{of_check / mine:.3f}"
        )

    print()
    if shutil.which("time") is None:
        print("peak memory is not measured: time is not installed")
    else:
        print_row("peak memory", "f2tools", "defrag.f2fs", "wanted")
        for length, sides in pairs.items():
            row = []
            for words in sides:
                take(image, copy)
                row.append(f"{peak_memory(words):.1f} MiB")
            print_row(f"defrag -l {length}", *row, "below 64 MiB")

    print()
    if shutil.which("strace") is None:
        print("blocks read and written are not counted: strace is not installed")
        return
    print_row("calls of f2tools", "blocks read", "blocks written", "syncs")
    for length, (ours, _) in pairs.items():
        take(image, copy)
        counts = count_calls(ours, 0, copy, "log")
        print_row(f"defrag -l {length}", *([f"{count:g}" for count in counts] if counts else ["strace failed"]))


def times_on(image):
    copy = f"{image}-copy"
    # small files have no blocks but their inodes
    begin = first_full(image, ALL)
    cases = {f"defrag -l {length}": (words_of(copy, begin, length)[0],) for length in LENGTHS}
    cases["fsck alone"] = ((PROGRAM, copy, "fsck"),)
    return named_medians(cases, sample_of(image, copy), SAMPLES)


def main():
    if shutil.which("defrag.f2fs") is None:
        print("skipped: defrag.f2fs is not installed")
        return
    print(f"# {FILES:,} files")
    with full_image() as image:
        compare(image, f"{image}-copy")
    print()
    measure_growth(f"medians of {SAMPLES} samples of a start each, on a fresh copy", times_on)


if __name__ == "__main__":
    main()
