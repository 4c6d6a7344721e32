#!/usr/bin/env python3
"""Measures `f2tools IMAGE fsck` and `fsck -t` against the real `fsck.f2fs` and `fsck.f2fs -t`, on images of 1 GiB that the real
mkfs.f2fs and sload.f2fs made: one with 20,000 files, and one with one file of 900 MiB.

Neither should take longer than the real one, nor 64 MiB of memory or more. On images with 5,000, 20,000 and 80,000 files the time
for a file should stay: at 80,000 it should be at most 1.3 of that at 5,000. This is printed, and nothing fails where it is not
so.
"""
import os
import shutil
import sys

sys.dont_write_bytecode = True
from comparing import SAMPLES, STARTS, compare, full_image, measure_growth
from measuring import BLOCK, PROGRAM, mean_start, named_medians

LARGE = 230_400  # blocks


def add_large(tree):
    os.makedirs(tree, exist_ok=True)
    with open(f"{tree}/large", "wb") as file:
        for _ in range(LARGE // 256):
            file.write(os.urandom(256 * BLOCK))


def pairs(image):
    for options in (), ("-t",):
        words = " ".join(("fsck", *options))
        yield words, (PROGRAM, image, "fsck", *options), (shutil.which("fsck.f2fs"), *options, image), "at most 1"


def compare_full(name, add, files):
    print(f"# {name}")
    with full_image(add, files) as image:
        compare(image, list(pairs(image)), 64)
    print()


def times_on(image):
    cases = {name: (words,) for name, words, *_ in pairs(image)}
    return named_medians(cases, lambda words: mean_start(words, STARTS), SAMPLES)


def main():
    compare_full("20,000 files", lambda tree: None, 20_000)
    compare_full("a file of 900 MiB", add_large, 0)
    measure_growth(f"medians of {SAMPLES} samples of {STARTS} starts each", times_on)


if __name__ == "__main__":
    main()
