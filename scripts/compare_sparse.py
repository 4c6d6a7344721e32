#!/usr/bin/env python3
"""Compares standard input with a sparse file, and ends with status 1 where they differ.

Holes aren't read: those of a file of many GiB would fill the memory.
"""
import argparse
import os
import sys

PIECE = 1 << 16  # bytes that a pipe holds


def next_data(file, place):
    try:
        return os.lseek(file, place, os.SEEK_DATA)
    except OSError:
        # there is a hole up to the end
        return os.fstat(file).st_size


def main():
    words = argparse.ArgumentParser(description=__doc__)
    words.add_argument("file", metavar="FILE")
    file = os.open(words.parse_args().file, os.O_RDONLY)
    zeros = bytes(PIECE)
    place = data = 0
    while piece := os.read(0, PIECE):
        end = place + len(piece)
        if data < place:
            data = next_data(file, place)
        if not (zeros.startswith(piece) if end <= data else os.pread(file, len(piece), place) == piece):
            sys.exit(f"they differ from byte {place} to {end}")
        place = end
    if place != os.fstat(file).st_size:
        sys.exit(f"the input ends at byte {place}")


if __name__ == "__main__":
    main()
