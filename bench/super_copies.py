#!/usr/bin/env python3
"""Measures `f2tools IMAGE fsck --super` on sparse images of 64 MiB and 1 TiB.

The time of the job should not grow with the image: the ratio of both medians should be below 1.2. This is
printed, and nothing fails where it is not so.
"""
import os
import shutil
import sys
import tempfile

sys.dont_write_bytecode = True
from measuring import PROGRAM, SIZES, TOP, count_calls, lay_out_images, medians, need_program, print_row, start

sys.path.insert(0, f"{TOP}/scripts")
from superblock_image import COPY_LENGTH, COPY_START, lay_out

STATUSES = {"done": 0, "corrected": 1}
SAMPLES = 11
STARTS = 50  # of the program, in each sample


def zero_first_copy(image):
    with open(image, "r+b") as file:
        file.seek(COPY_START)
        file.write(bytes(COPY_LENGTH))
        file.flush()
        os.fsync(file.fileno())


def words_of(image):
    return [PROGRAM, image, "fsck", "--super"]


def sample(image, case):
    """The mean time of a start, in milliseconds."""
    seconds = 0
    for _ in range(STARTS):
        if case == "corrected":
            zero_first_copy(image)
        seconds += start(words_of(image), STATUSES[case])
    return seconds * 1000 / STARTS


def print_calls(image, case, size, log):
    if case == "corrected":
        zero_first_copy(image)
    counts = count_calls(words_of(image), STATUSES[case], image, log)
    print_row(f"{case}, {size}", *([f"{count:g}" for count in counts] if counts else ["strace failed"]))


def main():
    need_program()
    with tempfile.TemporaryDirectory(prefix="f2tools.") as folder:
        folder = os.path.realpath(folder)
        images = lay_out_images(folder, lay_out)

        print(f"{os.cpu_count()} cores; medians of {SAMPLES} samples of {STARTS} starts each")
        print()
        print_row("time of a start", *SIZES, "ratio", "wanted")
        cases = [(case, size) for case in STATUSES for size in SIZES]
        times = medians(cases, lambda case, size: sample(images[size], case), SAMPLES)
        for case in STATUSES:
            small, large = (times[case, size] for size in SIZES)
            print_row(case, f"{small:.3f} ms", f"{large:.3f} ms", f"{large / small:.3f}", "below 1.2")

        print()
        if shutil.which("strace") is None:
            print("blocks read and written are not counted: strace is not installed")
            return
        print_row("calls of a run", "blocks read", "blocks written", "syncs")
        for case in STATUSES:
            for size, image in images.items():
                print_calls(image, case, size, f"{folder}/log")


if __name__ == "__main__":
    main()
