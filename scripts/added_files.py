#!/usr/bin/env python3
"""Adds files that sload.f2fs doesn't make to an F2FS image: sparse ones, one of 8 GiB among them, ones without inline xattr,
and inodes of all kinds. It leaves in a folder the bytes of each regular file and symbolic link, by its number.

No more is written than the blocks and the nodes of these files and their entries in the node address table.
"""
import argparse
import itertools
import random
import struct
import sys

sys.dont_write_bytecode = True
from checkpoint_packs import counting_pack
from image_files import ADDRESSES, FOOTER, INLINE_DATA, INLINE_DENTRY, INLINE_XATTR, REGULAR, SYMLINK, room_of
from image_tables import FIRST_NID, NodeTable, SegmentTable, put_block
from superblock_image import BLOCK, SEGMENT

INLINE, NIDS = 364, 4052  # where they begin in an inode
FANOUT = 1018  # words of a node that is no inode
DEPTHS = 1, 1, 2, 2, 3  # how many nodes lead from each nid of an inode to a block
RESERVED = 0xFFFFFFFF


class Adding:
    """The numbers and the blocks of an image that are free, and what is put there."""

    def __init__(self, image, pack, folder):
        self.image, self.folder = image, folder
        self.chance = random.Random(0)
        self.table = NodeTable(pack)
        taken = {nid for nid, (_, _, address) in self.table.entries() if address != 0}
        taken.update(nid for nid, *_ in self.table.records())
        self.nids = (nid for nid in reversed(range(FIRST_NID, self.table.numbers)) if nid not in taken)
        segments = SegmentTable(pack)
        entries = itertools.islice(segments.entries(), segments.numbers)
        free = [segment for segment, (number, _, _) in entries if number & 1023 == 0]
        self.free = (self.table.main[segment * SEGMENT + block] for segment in free for block in range(SEGMENT))

    def put(self, data):
        """Puts a block, and answers its address."""
        address = next(self.free)
        put_block(self.image, address, data)
        return address

    def put_node(self, nid, ino, data):
        struct.pack_into("<II", data, FOOTER, nid, ino)
        self.table.put(nid, 0, ino, self.put(data))

    def branch(self, ino, depth, first, words):
        """Puts the nodes over these words of a file that lie from `first` on, and answers the nid of the highest node."""
        span = FANOUT**depth
        words = {place: word for place, word in words.items() if first <= place < first + span}
        if not words:
            return 0
        starts = range(first, first + span, span // FANOUT)
        entries = [words.get(start, 0) if depth == 1 else self.branch(ino, depth - 1, start, words) for start in starts]
        nid = next(self.nids)
        self.put_node(nid, ino, bytearray(struct.pack(f"<{FANOUT}I", *entries).ljust(BLOCK, b"\0")))
        return nid

    def put_inode(self, ino, kind, inline, size=None, words=None, nids=None):
        """Puts an inode whose other bytes are noise, and answers its bytes."""
        data = bytearray(self.chance.randbytes(BLOCK))
        struct.pack_into("<H", data, 0, kind << 12 | 0o644)
        data[3] = inline
        if size is not None:
            struct.pack_into("<Q", data, 16, size)
        if words is not None:
            room = room_of(inline)
            struct.pack_into(f"<{room}I", data, ADDRESSES, *(words.get(place, 0) for place in range(room)))
            struct.pack_into("<5I", data, NIDS, *nids)
        self.put_node(ino, ino, data)
        return data

    def leave(self, ino, size, blocks):
        with open(f"{self.folder}/{ino}", "wb") as file:
            for place, data in blocks.items():
                file.seek(place * BLOCK)
                file.write(data)
            file.truncate(size)

    def add_file(self, inline, size, blocks, words=None, nids=None):
        """Adds a file with these blocks by their places, these words in other places, and, if given, these nids."""
        ino = next(self.nids)
        words = {place: self.put(data) for place, data in blocks.items()} | (words or {})
        branches, first = [], room_of(inline)
        for depth in DEPTHS:
            branches.append(self.branch(ino, depth, first, words))
            first += FANOUT**depth
        self.put_inode(ino, REGULAR, inline, size, words, nids or branches)
        self.leave(ino, size, blocks)

    def noise(self, places):
        return {place: self.chance.randbytes(BLOCK) for place in places}

    def add_sparse(self, inline, count, ends):
        """Adds a file of so many blocks with some at both sides of these ends, in its middle and at its own end."""
        places = (0, *(end - before for end in ends for before in (1, 0)), count // 2, count - 1, count)
        main = self.table.main
        outside = dict(enumerate((RESERVED, RESERVED - 1, 1, main.start - 1, main.stop), start=1))
        self.add_file(inline, count * BLOCK - 1, self.noise(places), outside | {end + 1: RESERVED for end in ends})

    def add_inline(self, kind, inline, size):
        ino = next(self.nids)
        area = self.put_inode(ino, kind, inline, size)[INLINE : INLINE + 4 * (room_of(inline) - 1)]
        # a longer file has no more than this
        self.leave(ino, min(size, len(area)), {0: area})

    def add(self):
        # the nodes begin to hold other blocks at these ends, and an inode with less room at lower ones
        ends = [923 + FANOUT * count for count in range(4)]
        self.add_sparse(0, 25_600, ends)
        for inline in INLINE_XATTR, INLINE_DENTRY:
            self.add_sparse(inline, 5000, [end - 50 for end in ends])
        # one of 8 GiB has blocks below all five nids
        indirect = [923 + FANOUT * 2 + FANOUT**2 * count for count in range(3)]
        self.add_sparse(0, indirect[2] + FANOUT + 5, [*indirect, indirect[2] + FANOUT])
        # none of these nids is that of a node in the main area
        free, before, behind = itertools.islice(self.nids, 3)
        self.table.put(before, 0, before, 1)
        self.table.put(behind, 0, behind, self.table.main.stop)
        for nids in (free, before, behind, 0, 0), (RESERVED, 0, self.table.numbers, 0, 0):
            self.add_file(0, 4000 * BLOCK, self.noise((0, 922)), nids=nids)

        for kind in REGULAR, SYMLINK:
            for inline, size in (INLINE_DATA, 3688), (INLINE_DATA, 4000), (INLINE_DATA | INLINE_XATTR, 4000), (7, 20):
                self.add_inline(kind, inline, size)
        for kind in set(range(16)) - {REGULAR, SYMLINK}:
            for inline in 0, INLINE_DATA, INLINE_XATTR | INLINE_DENTRY:
                self.put_inode(next(self.nids), kind, inline)


def main():
    words = argparse.ArgumentParser(description=__doc__)
    words.add_argument("image", metavar="IMAGE")
    words.add_argument("folder", metavar="FOLDER")
    given = words.parse_args()
    with open(given.image, "r+b") as image:
        pack = counting_pack(image)
        Adding(image, pack, given.folder).add()


if __name__ == "__main__":
    main()
