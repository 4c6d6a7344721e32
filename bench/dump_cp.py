#!/usr/bin/env python3
"""Measures `f2tools IMAGE dump --cp` on sparse images of 64 MiB and 1 TiB that the real mkfs.f2fs made.

Neither the time of the job nor the blocks that it reads should grow with the image: the ratio of both sizes should be
below 1.5. Nor should it be slower than the real `dump.f2fs IMAGE`, which prints less: that ratio should be at most 1.
This is printed, and nothing fails where it is not so.
"""
import os
import shutil
import sys
import tempfile

sys.dont_write_bytecode = True
from measuring import PROGRAM, SIZES, count_calls, lay_out_images, make_image, mean_start, medians, need_program, print_row

os.environ["PATH"] += ":/usr/sbin:/sbin"
SIDES = ("dump --cp", "dump.f2fs")
SAMPLES = 11
STARTS = 10  # of each program, in each sample


def words_of(side, image):
    return [PROGRAM, image, "dump", "--cp"] if side == "dump --cp" else [shutil.which(side), image]


def print_times(times):
    print_row("time of a start", *SIZES, "ratio", "wanted")
    for side in SIDES:
        small, large = (times[side, size] for size in SIZES)
        wanted = "below 1.5" if side == "dump --cp" else ""
        print_row(side, f"{small:.3f} ms", f"{large:.3f} ms", f"{large / small:.3f}", wanted)
    ratios = (times["dump --cp", size] / times["dump.f2fs", size] for size in SIZES)
    print_row("dump --cp / dump.f2fs", *(f"{ratio:.4f}" for ratio in ratios), "", "at most 1")


def print_calls(counts):
    print_row("calls of a dump --cp", *SIZES, "ratio", "wanted")
    if None in counts:
        print("strace failed")
        return
    for name, small, large in zip(("blocks read", "blocks written", "syncs"), *counts):
        ratio, wanted = (f"{large / small:.3f}", "below 1.5") if small else ("", "")
        print_row(name, f"{small:g}", f"{large:g}", ratio, wanted)


def main():
    need_program()
    if shutil.which("mkfs.f2fs") is None or shutil.which("dump.f2fs") is None:
        print("skipped: mkfs.f2fs and dump.f2fs are not installed")
        return
    with tempfile.TemporaryDirectory(prefix="f2tools.") as folder:
        folder = os.path.realpath(folder)
        images = lay_out_images(folder, make_image)

        print(f"{os.cpu_count()} cores; medians of {SAMPLES} samples of {STARTS} starts each")
        print()
        cases = [(side, size) for size in images for side in SIDES]
        print_times(medians(cases, lambda side, size: mean_start(words_of(side, images[size]), STARTS), SAMPLES))

        print()
        if shutil.which("strace") is None:
            print("blocks read and written are not counted: strace is not installed")
            return
        words = {image: words_of("dump --cp", image) for image in images.values()}
        print_calls([count_calls(words[image], 0, image, f"{folder}/log") for image in words])


if __name__ == "__main__":
    main()
