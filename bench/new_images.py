#!/usr/bin/env python3
"""Measures `f2tools IMAGE mkfs` on sparse files of 1 GiB, 64 GiB and 1 TiB against the real `mkfs.f2fs -q`.

It should not take longer than the real one: each ratio should be at most 1. This is printed, and nothing fails where it is not
so. Each start has a new file.
"""
import os
import shutil
import sys
import tempfile

sys.dont_write_bytecode = True
from measuring import BLOCK, PROGRAM, count_calls, medians, need_program, print_row, start

os.environ["PATH"] += ":/usr/sbin:/sbin"
SIZES = {"1 GiB": 262_144, "64 GiB": 16_777_216, "1 TiB": 268_435_456}  # blocks
SIDES = ("mkfs", "mkfs.f2fs")
SAMPLES = 7


def words_of(side, image):
    return [PROGRAM, image, "mkfs"] if side == "mkfs" else [shutil.which(side), "-q", image]


def new_file(image, size):
    if os.path.exists(image):
        os.remove(image)
    with open(image, "wb") as file:
        file.truncate(SIZES[size] * BLOCK)


def main():
    need_program()
    if shutil.which("mkfs.f2fs") is None:
        print("skipped: mkfs.f2fs is not installed")
        return
    with tempfile.TemporaryDirectory(prefix="f2tools.") as folder:
        folder = os.path.realpath(folder)
        image = f"{folder}/image"

        def sample(side, size):
            new_file(image, size)
            return start(words_of(side, image), 0) * 1000

        print(f"{os.cpu_count()} cores; medians of {SAMPLES} samples of a start each")
        print()
        print_row("time of a start", *SIZES, "wanted")
        times = medians([(side, size) for size in SIZES for side in SIDES], sample, SAMPLES)
        for side in SIDES:
            print_row(side, *(f"{times[side, size]:.1f} ms" for size in SIZES))
        ratios = (times["mkfs", size] / times["mkfs.f2fs", size] for size in SIZES)
        print_row("mkfs / mkfs.f2fs", *(f"{ratio:.4f}" for ratio in ratios), "at most 1")

        print()
        print_row("blocks", *SIZES)
        counts = {}
        for side in SIDES:
            for size in SIZES:
                new_file(image, size)
                counts[side, size] = count_calls(words_of(side, image), 0, image, f"{folder}/log")
                allocated = os.stat(image).st_blocks * 512 // BLOCK
                counts[side, size] = (*(counts[side, size] or ("", "", "")), allocated)
        for side in SIDES:
            for place, name in enumerate(("read", "written", "syncs", "allocated")):
                print_row(f"{side}: {name}", *(f"{counts[side, size][place]}" for size in SIZES))


if __name__ == "__main__":
    main()
