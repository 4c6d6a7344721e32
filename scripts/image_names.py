#!/usr/bin/env python3
"""Reads the names in the directories of an F2FS image.

It prints a line for each name but `.` and `..`: the hash that its entry says, and the bytes of the name in hexadecimal.
"""
import argparse
import sys

sys.dont_write_bytecode = True
from checkpoint_packs import counting_pack
from directory_items import items
from image_files import DIRECTORY, Files, addresses, kind_of
from image_tables import image_block

AREA, INLINE_WORDS = 364, 872  # where the inline area begins, and its words, with 50 more taken for attributes
INLINE_DENTRY = 4


def directory_items(files, ino):
    inode = files.inode(ino)
    if inode[3] & INLINE_DENTRY:
        area = inode[AREA : AREA + 4 * INLINE_WORDS]
        yield from items(area, 8 * len(area) // 153)
        return
    for address in addresses(inode).values():
        yield from items(image_block(files.image, address), 214)


def main():
    words = argparse.ArgumentParser(description=__doc__)
    words.add_argument("image", metavar="IMAGE")
    given = words.parse_args()
    with open(given.image, "rb") as image:
        files = Files(image, counting_pack(image))
        for ino in files.inodes():
            if kind_of(files.inode(ino)) != DIRECTORY:
                continue
            for _, hash_of, _, _, _, name, _ in directory_items(files, ino):
                if name not in (b".", b".."):
                    print(hash_of, name.hex())


if __name__ == "__main__":
    main()
