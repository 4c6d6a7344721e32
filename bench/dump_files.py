#!/usr/bin/env python3
"""Measures `f2tools IMAGE dump --cat` of a file of 200 MiB, and `dump -a 0~-1`, on an image of 1 GiB with 20,000 other files
that the real mkfs.f2fs and sload.f2fs made.

All write to /dev/null, and what they read is in the page cache. `dump --cat` should take less than three times as long as
`cat` of a plain file with the same bytes, and less than 1.5 times as long as `dd bs=4k` of as many blocks of the image;
`dump -a` less than half the time of the real `dump.f2fs -a`, which writes to a file; and all less than 16 MiB of memory.
This is printed, and nothing fails where it is not so.
"""
import os
import shutil
import sys

sys.dont_write_bytecode = True
from comparing import compare, full_image, of_dump
from measuring import BLOCK, PROGRAM, TOP

sys.path.insert(0, f"{TOP}/scripts")
from checkpoint_packs import counting_pack
from image_files import Files

LARGE = 51_200  # blocks


def add_large(tree):
    with open("large", "wb") as file:
        file.write(os.urandom(LARGE * BLOCK))
    os.link("large", f"{tree}/large")


def of_cat(image):
    with open(image, "rb") as file:
        files = Files(file, counting_pack(file))
        ino = next(ino for ino, path in files.paths() if path == b"large")
    ours = PROGRAM, image, "dump", "--cat", str(ino)
    blocks = f"if={image}", "bs=4k", f"skip={files.main.start}", f"count={LARGE}", "status=none"
    yield "dump --cat / cat", ours, (shutil.which("cat"), "large"), "below 3"
    yield "dump --cat / dd bs=4k", ours, (shutil.which("dd"), *blocks), "below 1.5"


def main():
    with full_image(add_large) as image:
        compare(image, [*of_cat(image), of_dump("-a", image)])


if __name__ == "__main__":
    main()
