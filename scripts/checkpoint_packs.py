#!/usr/bin/env python3
"""Prints the fields of the checkpoint pack of an F2FS image that counts, as `f2tools IMAGE dump --cp` has to.

Where neither pack is valid, it prints that and ends with status 1. With an option, it changes the image instead.
"""
import argparse
import struct
import sys

sys.dont_write_bytecode = True
from superblock_image import BLOCK, COPY_LENGTH, COPY_START, MAGIC, SEGMENT, checksum

FORMATS = {1: "<B", 2: "<H", 4: "<I", 8: "<Q"}
FIELDS = [  # of struct f2fs_checkpoint: name, offset, width, and how many there are
    ("checkpoint_ver", 0, 8, 1),
    ("user_block_count", 8, 8, 1),
    ("valid_block_count", 16, 8, 1),
    ("rsvd_segment_count", 24, 4, 1),
    ("overprov_segment_count", 28, 4, 1),
    ("free_segment_count", 32, 4, 1),
    ("cur_node_segno", 36, 4, 8),
    ("cur_node_blkoff", 68, 2, 8),
    ("cur_data_segno", 84, 4, 8),
    ("cur_data_blkoff", 116, 2, 8),
    ("ckpt_flags", 132, 4, 1),
    ("cp_pack_total_block_count", 136, 4, 1),
    ("cp_pack_start_sum", 140, 4, 1),
    ("valid_node_count", 144, 4, 1),
    ("valid_inode_count", 148, 4, 1),
    ("next_free_nid", 152, 4, 1),
    ("sit_ver_bitmap_bytesize", 156, 4, 1),
    ("nat_ver_bitmap_bytesize", 160, 4, 1),
    ("checksum_offset", 164, 4, 1),
    ("elapsed_time", 168, 8, 1),
    ("alloc_type", 176, 1, 16),
]
# a valid head binds these to the image's layout or to its pack
BOUND = {
    "checkpoint_ver",
    *(f"{name}[{log}]" for name in ("cur_node_segno", "cur_data_segno") for log in range(3)),
    "ckpt_flags",
    "cp_pack_total_block_count",
    "cp_pack_start_sum",
    "sit_ver_bitmap_bytesize",
    "nat_ver_bitmap_bytesize",
    "checksum_offset",
    *(f"alloc_type[{log}]" for log in range(6)),
}
# and these to less than a segment's blocks
OFFSETS = {f"{name}[{log}]" for name in ("cur_node_blkoff", "cur_data_blkoff") for log in range(3)}


def places():
    """Name, offset and width of each field but the checksum."""
    for name, offset, width, count in FIELDS:
        for index in range(count):
            yield name if count == 1 else f"{name}[{index}]", offset + index * width, width


def number_at(block, offset, width=4):
    return struct.unpack_from(FORMATS[width], block, offset)[0]


def version(block):
    return number_at(block, 0, 8)


def checksum_offset(block):
    return number_at(block, 164)


def is_sealed(block):
    at = checksum_offset(block)
    return 192 <= at <= BLOCK - 4 and number_at(block, at) == checksum(block[:at])


def sealed(block):
    at = checksum_offset(block)
    return block[:at] + struct.pack("<I", checksum(block[:at])) + block[at + 4 :]


def first_copy(image):
    """The bytes of the first superblock copy."""
    image.seek(COPY_START)
    copy = image.read(COPY_LENGTH)
    if number_at(copy, 0) != MAGIC:
        sys.exit("the first superblock copy is bad")
    return copy


class Pack:
    def __init__(self, image, number):
        self.image = image
        self.first = number_at(first_copy(image), 76) + number * SEGMENT
        self.head = self.read(0)
        self.last = number_at(self.head, 136) - 1
        self.tail = self.read(self.last) if self.last in range(SEGMENT) else bytes(BLOCK)

    def read(self, block):
        self.image.seek((self.first + block) * BLOCK)
        return self.image.read(BLOCK).ljust(BLOCK, b"\0")

    def write(self, block, data):
        self.image.seek((self.first + block) * BLOCK)
        self.image.write(data)

    def is_valid(self):
        return is_sealed(self.head) and is_sealed(self.tail) and version(self.head) == version(self.tail)

    def print_fields(self):
        for name, offset, width in places():
            print(name, number_at(self.head, offset, width))
        print("checksum", number_at(self.head, checksum_offset(self.head)))

    def destroy(self, end):
        self.write(self.last if end == "tail" else 0, b"destroyed")

    def give_version(self, number):
        for block, data in (0, self.head), (self.last, self.tail):
            self.write(block, sealed(struct.pack("<Q", number) + data[8:]))

    def mark(self):
        """Gives each field that is free to differ a number, and its bytes, that no other has."""
        head = bytearray(self.head)
        for line, (name, offset, width) in enumerate(places(), start=1):
            if name in OFFSETS:
                struct.pack_into(FORMATS[width], head, offset, line)
            elif name not in BOUND:
                head[offset : offset + width] = range(line, line + width)
        self.write(0, sealed(bytes(head)))


def packs_of(image):
    """Both packs, and the one that counts, if any."""
    packs = [Pack(image, number) for number in (0, 1)]
    valid = [pack for pack in packs if pack.is_valid()]
    # the first pack goes before the second at a tie
    return packs, max(valid, key=lambda pack: version(pack.head), default=None)


def counting_pack(image):
    """The pack that counts; without one the script ends."""
    return packs_of(image)[1] or sys.exit("neither checkpoint pack is valid")


def main():
    words = argparse.ArgumentParser(description=__doc__)
    words.add_argument("image", metavar="IMAGE")
    change = words.add_mutually_exclusive_group()
    change.add_argument("--destroy", choices=("head", "tail"), help="write over this end of the pack that counts")
    change.add_argument("--raise-other", action="store_true", help="make the other pack the one that counts, by its version")
    change.add_argument("--mark", action="store_true", help="give the fields of the pack that counts numbers that differ")
    given = words.parse_args()
    changes = given.destroy or given.raise_other or given.mark
    with open(given.image, "r+b" if changes else "rb") as image:
        packs, counting = packs_of(image)
        if counting is None:
            print("refused 5 NoPack")
            sys.exit(1)
        if given.destroy:
            counting.destroy(given.destroy)
        elif given.raise_other:
            other = packs[1 - packs.index(counting)]
            if not other.is_valid():
                sys.exit(1)
            other.give_version(version(counting.head) + 1)
        elif given.mark:
            counting.mark()
        else:
            counting.print_fields()


if __name__ == "__main__":
    main()
