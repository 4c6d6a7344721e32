#!/usr/bin/env python3
"""Damages an F2FS image in one place, as by a tool that writes single fields.

With --list it prints each damage it knows and the least rule of `f2tools IMAGE fsck` that the image then fails.
"""
import argparse
import itertools
import struct
import sys

sys.dont_write_bytecode = True
from checkpoint_packs import FORMATS, counting_pack, number_at, sealed
from directory_items import ENTRY, items
from image_files import (
    ADDRESSES,
    DENTRIES,
    DIRECTORY,
    FOOTER,
    INLINE_DATA,
    INLINE_DENTRY,
    REGULAR,
    ROOT,
    SLOTS,
    Files,
    kind_of,
)
from image_summaries import Summaries
from image_tables import NodeTable, SegmentTable, image_block, put_block
from superblock_image import COPY_START, SEGMENT

INLINE = INLINE_DATA | INLINE_DENTRY
WORDS = 923  # of an inode, for addresses
NIDS = 4052  # where the nids of an inode begin


class Damaged:
    def __init__(self, image):
        self.image = image
        self.pack = counting_pack(image)
        self.files = Files(image, self.pack)
        self.nodes, self.segments = NodeTable(self.pack), SegmentTable(self.pack)
        self.summaries = Summaries(image, self.pack)

    def put(self, address, offset, value, width=4):
        """Gives a number of a block another value."""
        data = bytearray(image_block(self.image, address))
        struct.pack_into(FORMATS[width], data, offset, value)
        put_block(self.image, address, bytes(data))

    def get(self, address, offset, width=4):
        return number_at(image_block(self.image, address), offset, width)

    def put_head(self, offset, value, width=4):
        """The same for a checkpoint, at both ends of its pack."""
        head = bytearray(self.pack.head)
        struct.pack_into(FORMATS[width], head, offset, value)
        for block in 0, self.pack.last:
            self.pack.write(block, sealed(bytes(head)))

    def address_of(self, ino):
        return self.files.nodes[ino][1]

    def some(self, test, skipped=0):
        """The first inode but the root whose block passes, and before which so many others do."""
        passing = (ino for ino in self.files.inodes() if ino != ROOT and test(self.files.inode(ino)))
        return next(itertools.islice(passing, skipped, None))

    def is_file(self, inode):
        """Whether it is a regular file whose first two blocks have addresses."""
        first = (number_at(inode, ADDRESSES + 4 * word) for word in (0, 1))
        return kind_of(inode) == REGULAR and not inode[3] & INLINE and all(address in self.files.main for address in first)

    def some_file(self, skipped=0):
        return self.some(self.is_file, skipped)


    def some_directory(self):
        return self.some(lambda b: kind_of(b) == DIRECTORY and not b[3] & INLINE)

    def put_nat(self, nid, ino=None, address=None):
        """Gives a nid another inode or address."""
        version, old_ino, old_address = next(entry for number, entry in self.nodes.entries() if number == nid)
        self.put_entry(self.nodes, nid, (version, old_ino if ino is None else ino, old_address if address is None else address))

    def put_entry(self, table, number, entry):
        """Gives a number another entry, where the old one stands: in its first record, or in the table."""
        records = table.records()
        for place, record in enumerate(records):
            if record[0] == number:
                table.put_records([*records[:place], (number, *entry), *records[place + 1 :]])
                return
        block, place = divmod(number, table.room)
        address = table.place(block, table.bit(block))
        data = bytearray(image_block(self.image, address))
        table.entry.pack_into(data, place * table.entry.size, *entry)
        put_block(self.image, address, bytes(data))

    def segment_of(self, address):
        return divmod(address - self.files.main.start, SEGMENT)

    def put_segment(self, segment, change):
        number, valid, mtime = next(entry for n, entry in self.segments.entries() if n == segment)
        number, valid = change(number, bytearray(valid))
        self.put_entry(self.segments, segment, (number, bytes(valid), mtime))

    def data_address(self):
        return number_at(self.files.inode(self.some_file()), ADDRESSES)

    def entry_of(self, directory, wanted):
        """The block and the first byte of an entry of a directory in blocks, by a test of its name and its slot."""
        inode = self.files.inode(directory)
        for word in range(WORDS):
            address = number_at(inode, ADDRESSES + 4 * word)
            if address not in self.files.main:
                continue
            data = image_block(self.image, address)
            for slot, _, ino, _, _, name, _ in items(data, SLOTS):
                if wanted(name, ino):
                    return address, DENTRIES + ENTRY.size * slot
        raise StopIteration


def superblock_magic(d):
    d.put(1, COPY_START, 0)


def superblock_uuid(d):
    d.put(1, COPY_START + 108, d.get(1, COPY_START + 108) ^ 1)


def checkpoint_error(d):
    d.put_head(132, number_at(d.pack.head, 132) | 0x8)


def nat_address(d):
    d.put_nat(d.some_file(), address=d.files.main.start - 1)


def nat_ino(d):
    d.put_nat(d.some_file(), ino=ROOT)


def footer_nid(d):
    d.put(d.address_of(d.some_file()), FOOTER, 1)


def footer_ino(d):
    d.put(d.address_of(d.some_file()), FOOTER + 4, 1)


def footer_offset(d):
    d.put(d.address_of(d.some_file()), FOOTER + 8, 8)


def inode_mode(d):
    d.put(d.address_of(d.some_file()), 0, 0o644, 2)


def root_mode(d):
    d.put(d.address_of(ROOT), 0, 0o100644, 2)


def inode_nid(d):
    ino = d.some(lambda b: kind_of(b) == REGULAR and not b[3] & INLINE and number_at(b, NIDS) == 0)
    d.put(d.address_of(ino), NIDS, ROOT)


def address_outside(d):
    d.put(d.address_of(d.some_file()), ADDRESSES, 1)


def address_shared(d):
    d.put(d.address_of(d.some_file(1)), ADDRESSES, d.data_address())


def valid_bit(d):
    segment, block = d.segment_of(d.data_address())

    def change(number, valid):
        valid[block // 8] ^= 128 >> block % 8
        return number - 1, valid

    d.put_segment(segment, change)


def valid_count(d):
    segment, _ = d.segment_of(d.data_address())
    d.put_segment(segment, lambda number, valid: (number - 1, valid))


def segment_type(d):
    segment, _ = d.segment_of(d.data_address())
    d.put_segment(segment, lambda number, valid: (number & 1023 | 4 << 10, valid))


def put_summary(d, offset, value, width):
    spot = d.summaries.spot(*d.segment_of(d.data_address()))
    d.put(spot[0], spot[1] + offset, value, width)


def summary_nid(d):
    put_summary(d, 0, ROOT, 4)


def summary_place(d):
    put_summary(d, 5, 700, 2)


def valid_block_count(d):
    d.put_head(16, number_at(d.pack.head, 16, 8) + 1, 8)


def valid_node_count(d):
    d.put_head(144, number_at(d.pack.head, 144) + 1)


def valid_inode_count(d):
    d.put_head(148, number_at(d.pack.head, 148) - 1)


def free_segment_count(d):
    d.put_head(32, number_at(d.pack.head, 32) + 1)


def log_offset(d):
    # a log of data goes on at the block before, which it has just written
    log = next(log for log in range(3) if number_at(d.pack.head, 116 + 2 * log, 2) > 0)
    d.put_head(116 + 2 * log, number_at(d.pack.head, 116 + 2 * log, 2) - 1, 2)


def inode_blocks(d):
    address = d.address_of(d.some_file())
    d.put(address, 24, d.get(address, 24, 8) + 1, 8)


def inode_links(d):
    d.put(d.address_of(d.some_file()), 12, 2)


def directory_links(d):
    address = d.address_of(d.some_directory())
    d.put(address, 12, d.get(address, 12) + 1)


def extent(d):
    address = d.address_of(d.some_file())
    d.put(address, 348, 0)
    d.put(address, 352, d.get(address, ADDRESSES) + 1)
    d.put(address, 356, 0xFFFFFFFF)


def entry_hash(d):
    address, start = d.entry_of(d.some_directory(), lambda name, ino: name not in (b".", b".."))
    d.put(address, start, d.get(address, start) ^ 1)


def entry_type(d):
    address, start = d.entry_of(d.some_directory(), lambda name, ino: name not in (b".", b".."))
    d.put(address, start + 10, 3, 1)


def entry_above(d):
    directory = d.some_directory()
    address, start = d.entry_of(directory, lambda name, ino: name == b"..")
    d.put(address, start + 4, directory)


def directory_depth(d):
    d.put(d.address_of(d.some_directory()), 72, 0)


def directory_size(d):
    d.put(d.address_of(d.some_directory()), 16, 0, 8)


def two_names(d):
    """The name of a file becomes a second one of a folder beside it; all links are counted so."""
    kinds = {ino: kind_of(d.files.inode(ino)) for ino in d.files.inodes()}
    address, start = d.entry_of(ROOT, lambda name, ino: kinds[ino] == REGULAR)
    _, other = d.entry_of(ROOT, lambda name, ino: kinds[ino] == DIRECTORY and name not in (b".", b".."))
    folder = d.get(address, other + 4)
    d.put(d.address_of(d.get(address, start + 4)), 12, 0)
    d.put(address, start + 4, folder)
    d.put(address, start + 10, 2, 1)
    d.put(d.address_of(ROOT), 12, d.get(d.address_of(ROOT), 12) + 1)


def attribute_node(d):
    free = next(nid for nid in range(ROOT, d.nodes.numbers) if nid not in d.files.nodes)
    d.put(d.address_of(d.some_file()), 76, free)


RULES = {
    1: (superblock_magic, superblock_uuid),
    2: (checkpoint_error,),
    3: (nat_address, nat_ino, footer_nid, footer_ino, footer_offset, inode_mode, root_mode, inode_nid),
    4: (address_outside, address_shared),
    5: (valid_bit, valid_count, segment_type),
    6: (summary_nid, summary_place),
    7: (valid_block_count, valid_node_count, valid_inode_count, free_segment_count),
    8: (log_offset,),
    9: (inode_blocks, inode_links, directory_links, extent),
    10: (entry_hash, entry_type, entry_above, directory_depth, directory_size),
    11: (two_names,),
    12: (attribute_node,),
}
DAMAGES = {damage.__name__: damage for damages in RULES.values() for damage in damages}


def main():
    words = argparse.ArgumentParser(description=__doc__)
    words.add_argument("--list", action="store_true", help="print the damages and their rules")
    words.add_argument("image", metavar="IMAGE", nargs="?")
    words.add_argument("damage", metavar="DAMAGE", nargs="?", choices=DAMAGES)
    given = words.parse_args()
    if given.list:
        for rule, damages in RULES.items():
            for damage in damages:
                print(damage.__name__, rule)
        return
    with open(given.image, "r+b") as image:
        DAMAGES[given.damage](Damaged(image))


if __name__ == "__main__":
    main()
