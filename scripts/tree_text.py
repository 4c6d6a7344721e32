#!/usr/bin/env python3
"""Prints the tree of a folder as `f2tools IMAGE fsck -t` has to print that of an image that was loaded with it."""
import argparse
import os
import sys


def escaped(name):
    return "".join(chr(byte) if 0x21 <= byte <= 0x7E and byte != 0x5C else f"\\x{byte:02x}" for byte in name)


def lines(folder):
    """Each name below the folder, in the order of bytes: the folders that are open have the rest of their names."""
    rest = [sorted(os.scandir(folder), key=lambda entry: entry.name, reverse=True)]
    while rest:
        if not rest[-1]:
            rest.pop()
            continue
        entry = rest[-1].pop()
        is_folder = entry.is_dir(follow_symlinks=False)
        yield "  " * (len(rest) - 1) + escaped(entry.name) + "/" * is_folder
        if is_folder:
            rest.append(sorted(os.scandir(entry.path), key=lambda entry: entry.name, reverse=True))


def main():
    words = argparse.ArgumentParser(description=__doc__)
    words.add_argument("folder", metavar="FOLDER")
    given = words.parse_args()
    sys.stdout.writelines(f"{line}\n" for line in lines(os.fsencode(given.folder)))


if __name__ == "__main__":
    main()
