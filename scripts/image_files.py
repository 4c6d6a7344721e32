#!/usr/bin/env python3
"""Reads the files of an F2FS image.

It leaves in a folder: `paths`, the number and the path of each file, each with a zero byte behind; `inodes`, a folder with
what `f2tools IMAGE dump -i` has to print for each number; and `absent`, numbers that no inode has.
"""
import argparse
import os
import struct
import sys

sys.dont_write_bytecode = True
from checkpoint_packs import counting_pack, number_at
from directory_items import items
from image_tables import FIRST_NID, NodeTable, image_block, put_lines

FIELDS = [  # of struct f2fs_inode: name, offset and width
    ("mode", 0, 2),
    ("advise", 2, 1),
    ("inline", 3, 1),
    ("uid", 4, 4),
    ("gid", 8, 4),
    ("links", 12, 4),
    ("size", 16, 8),
    ("blocks", 24, 8),
    ("atime", 32, 8),
    ("ctime", 40, 8),
    ("mtime", 48, 8),
    ("atime_nsec", 56, 4),
    ("ctime_nsec", 60, 4),
    ("mtime_nsec", 64, 4),
    ("generation", 68, 4),
    ("current_depth", 72, 4),
    ("xattr_nid", 76, 4),
    ("flags", 80, 4),
    ("pino", 84, 4),
    ("namelen", 88, 4),
    ("dir_level", 347, 1),
    ("ext_fofs", 348, 4),
    ("ext_addr", 352, 4),
    ("ext_len", 356, 4),
    *((f"nid[{place}]", 4052 + 4 * place, 4) for place in range(5)),
]
ADDRESSES, FOOTER = 360, 4072  # where they begin in a node
DIRECTORY, REGULAR, SYMLINK = 4, 8, 10  # the first digit of a mode
INLINE_XATTR, INLINE_DATA, INLINE_DENTRY = 1, 2, 4
ROOT = 3
SLOTS, DENTRIES = 214, 30  # of a block of a folder, and where they begin


def kind_of(inode):
    return number_at(inode, 0, 2) >> 12


def room_of(inline):
    """How many address words an inode has."""
    return 873 if inline & (INLINE_XATTR | INLINE_DENTRY) else 923


def addresses(inode):
    """The address words that aren't 0, by their place; none where the words are no addresses."""
    kind, inline = kind_of(inode), inode[3]
    if kind not in (DIRECTORY, REGULAR, SYMLINK) or inline & (INLINE_DENTRY if kind == DIRECTORY else INLINE_DATA):
        return {}
    words = struct.unpack_from(f"<{room_of(inline)}I", inode, ADDRESSES)
    return {place: word for place, word in enumerate(words) if word != 0}


def inode_lines(inode):
    for name, offset, width in FIELDS:
        yield f"{name} {number_at(inode, offset, width)}"
    for place, address in addresses(inode).items():
        yield f"addr {place} {address}"


class Files:
    def __init__(self, image, pack):
        self.image = image
        table = NodeTable(pack)
        self.numbers, self.main = table.numbers, table.main
        entries = ((nid, ino, address) for nid, (_, ino, address) in table.entries())
        self.nodes = {nid: (ino, address) for nid, ino, address in entries if nid >= FIRST_NID and address != 0}

    def inode(self, ino):
        return image_block(self.image, self.nodes[ino][1])

    def inodes(self):
        return [nid for nid, (ino, address) in self.nodes.items() if ino == nid and address in self.main]

    def absent(self):
        """Numbers that no inode has: those of other nodes, of nodes outside of the main area, and some of no node."""
        free = next(nid for nid in range(FIRST_NID, self.numbers) if nid not in self.nodes)
        yield from (0, 1, 2, free, self.numbers, self.numbers + ROOT, 0xFFFFFFFF)
        yield from set(self.nodes) - set(self.inodes())

    def names(self, folder):
        """Each name in a folder whose inode has the addresses of all its blocks, and the number of its file."""
        for address in addresses(self.inode(folder)).values():
            data = image_block(self.image, address)
            for _, _, ino, _, _, name, _ in items(data, SLOTS):
                yield name, ino

    def paths(self, folder=ROOT, above=b""):
        for name, ino in self.names(folder):
            if name not in (b".", b".."):
                yield ino, above + name
                if kind_of(self.inode(ino)) == DIRECTORY:
                    yield from self.paths(ino, above + name + b"/")

    def leave(self, folder):
        os.makedirs(f"{folder}/inodes", exist_ok=True)
        for ino in self.inodes():
            put_lines(f"{folder}/inodes/{ino}", inode_lines(self.inode(ino)))
        put_lines(f"{folder}/absent", self.absent())
        with open(f"{folder}/paths", "wb") as file:
            file.writelines(b"%d\0%s\0" % path for path in self.paths())


def main():
    words = argparse.ArgumentParser(description=__doc__)
    words.add_argument("image", metavar="IMAGE")
    words.add_argument("folder", metavar="FOLDER")
    given = words.parse_args()
    with open(given.image, "rb") as image:
        pack = counting_pack(image)
        Files(image, pack).leave(given.folder)


if __name__ == "__main__":
    main()
