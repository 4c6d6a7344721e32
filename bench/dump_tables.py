#!/usr/bin/env python3
"""Measures `f2tools IMAGE dump -n 0~-1` and `dump -s 0~-1` on an image of 1 GiB with 20,000 files that the real
mkfs.f2fs and sload.f2fs made.

Each should take less than half the time of the real `dump.f2fs`, which writes to a file, and less than 16 MiB of memory.
This is printed, and nothing fails where it is not so.
"""
import sys

sys.dont_write_bytecode = True
from comparing import compare, full_image, of_dump


def main():
    with full_image() as image:
        compare(image, [of_dump(option, image) for option in ("-n", "-s")])


if __name__ == "__main__":
    main()
