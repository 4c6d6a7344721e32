#!/usr/bin/env python3
"""Prints a line for each file and directory of a folder, or of an F2FS image that was loaded with it: its kind, the digest of its
bytes, and its path.

The bytes in an image are those that `f2tools IMAGE dump --cat` gives, and its names are read by a script.
"""
import argparse
import hashlib
import os
import subprocess
import sys

sys.dont_write_bytecode = True
from checkpoint_packs import counting_pack
from image_files import DIRECTORY, Files, kind_of

NONE = "-"


def digest(data):
    return hashlib.sha256(data).hexdigest()


def folder_lines(folder):
    for above, folders, files in os.walk(folder):
        for name in folders + files:
            path = os.path.join(above, name)
            kind = os.lstat(path).st_mode >> 12
            if os.path.islink(path):
                of = digest(os.readlink(path))
            elif kind == DIRECTORY:
                of = NONE
            else:
                with open(path, "rb") as file:
                    of = digest(file.read())
            yield kind, of, os.path.relpath(path, folder)


def image_lines(program, path):
    with open(path, "rb") as image:
        files = Files(image, counting_pack(image))
        for ino, name in files.paths():
            kind = kind_of(files.inode(ino))
            of = NONE
            if kind != DIRECTORY:
                read = subprocess.run([program, path, "dump", "--cat", str(ino)], stdin=subprocess.DEVNULL, capture_output=True)
                of = digest(read.stdout) if read.returncode == 0 and not read.stderr else f"status {read.returncode}"
            yield kind, of, name


def main():
    words = argparse.ArgumentParser(description=__doc__)
    what = words.add_mutually_exclusive_group(required=True)
    what.add_argument("--folder", metavar="FOLDER")
    what.add_argument("--image", nargs=2, metavar=("PROGRAM", "IMAGE"))
    given = words.parse_args()
    lines = folder_lines(os.fsencode(given.folder)) if given.folder else image_lines(*given.image)
    for kind, of, path in sorted(lines, key=lambda line: line[2]):
        print(kind, of, path.hex())


if __name__ == "__main__":
    main()
