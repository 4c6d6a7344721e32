#!/usr/bin/env python3
"""Lays out a sparse file that has the superblock copies of an F2FS image, and nothing else of one."""
import argparse
import struct

BLOCK = 4096
SEGMENT = 512  # blocks
COPY_START = 1024  # in blocks 0 and 1
COPY_LENGTH = 3072
MAGIC = 0xF2F52010
SB_CHECKSUM = 0x800


def divided_up(number, by):
    return -(-number // by)


def checksum(data):
    value = MAGIC
    for byte in data:
        value ^= byte
        for _ in range(8):
            value = (value >> 1) ^ (0xEDB88320 if value & 1 else 0)
    return value


def superblock(blocks, feature=0):
    """The bytes of a copy for an image of so many blocks."""
    segments = blocks // SEGMENT - 1
    ckpt = 2
    sit = 2 * divided_up(divided_up(segments, 55), 512)
    rest = segments - ckpt - sit
    nat = 2 * min(divided_up(divided_up(rest * 512, 455), 512), 60 - sit // 2)
    rest -= nat
    ssa = divided_up(rest, 512)
    main = rest - ssa
    if main < 1:
        raise ValueError(f"{blocks} blocks leave no segment for files")

    # each area begins where the one before ends
    starts = [SEGMENT]
    for count in ckpt, sit, nat, ssa:
        starts.append(starts[-1] + count * SEGMENT)

    copy = bytearray(COPY_LENGTH)
    struct.pack_into("<IHH", copy, 0, MAGIC, 1, 0)  # magic, version
    struct.pack_into("<6I", copy, 8, 9, 3, 12, 9, 1, 1)  # sizes of sector, block, segment, section, zone
    struct.pack_into("<I", copy, 32, COPY_LENGTH - 4 if feature & SB_CHECKSUM else 0)  # checksum_offset
    struct.pack_into("<Q", copy, 36, blocks)
    struct.pack_into("<7I", copy, 44, main, segments, ckpt, sit, nat, ssa, main)
    struct.pack_into("<6I", copy, 72, SEGMENT, *starts)
    struct.pack_into("<3I", copy, 96, 3, 1, 2)  # root, node and meta inode
    struct.pack_into("<I", copy, 2180, feature)
    if feature & SB_CHECKSUM:
        struct.pack_into("<I", copy, COPY_LENGTH - 4, checksum(copy[:-4]))
    return bytes(copy)


def lay_out(path, blocks, feature=0, first=True, second=True):
    """Makes the file anew; a copy that is left out is all zeros."""
    copy = superblock(blocks, feature)
    with open(path, "wb") as image:
        image.truncate(blocks * BLOCK)
        for number, wanted in enumerate((first, second)):
            if wanted:
                image.seek(number * BLOCK + COPY_START)
                image.write(copy)


def main():
    words = argparse.ArgumentParser(description=__doc__)
    words.add_argument("image", metavar="IMAGE")
    words.add_argument("blocks", metavar="BLOCKS", type=int, help="of 4096 bytes each")
    words.add_argument("--zero-first", action="store_true", help="leave out the copy in block 0")
    words.add_argument("--zero-second", action="store_true", help="leave out the copy in block 1")
    words.add_argument("--feature", metavar="HEX", type=lambda text: int(text, 16), default=0, help="the feature bits, as a00")
    given = words.parse_args()
    try:
        lay_out(given.image, given.blocks, given.feature, not given.zero_first, not given.zero_second)
    except (OSError, ValueError) as why:
        words.exit(1, f"{words.prog}: {why}\n")


if __name__ == "__main__":
    main()
