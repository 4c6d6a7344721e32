#!/usr/bin/env python3
"""Lays out a folder with so many files, symbolic links among them, in folders below it, for sload.f2fs to load."""
import argparse
import os
import random

IN_FOLDER = 40  # files
FOLDERS_IN_FOLDER = 5
SIZES = (0, 1, 100, 3000, 4096, 5000, 20_000, 60_000)  # bytes
LARGE = 13_000_000  # bytes: such a file has nodes of nodes
LARGE_EVERY = 5000
LINK_EVERY = 10


def lay_out(path, files):
    chance = random.Random(files)
    folders = [path]
    for number in range(files):
        folder = number // IN_FOLDER
        if folder == len(folders):
            folders.append(f"{folders[(folder - 1) // FOLDERS_IN_FOLDER]}/folder {folder}")
        os.makedirs(folders[folder], exist_ok=True)
        name = f"{folders[folder]}/file {number}"
        if number % LINK_EVERY == 1:
            os.symlink(f"file {number - 1}", name)
            continue
        with open(name, "wb") as file:
            file.write(chance.randbytes(LARGE if number % LARGE_EVERY == 0 else chance.choice(SIZES)))


def main():
    words = argparse.ArgumentParser(description=__doc__)
    words.add_argument("folder", metavar="FOLDER", help="which is made")
    words.add_argument("files", metavar="FILES", type=int)
    given = words.parse_args()
    lay_out(given.folder, given.files)


if __name__ == "__main__":
    main()
