#!/usr/bin/env python3
"""Reads the node address table and the segment table of an F2FS image.

It leaves three files in a folder: `nodes` and `segments`, as `f2tools IMAGE dump -n 0~-1` and `dump -s 0~-1` have to print
them, and `figures`. With the option --scatter, it changes the image instead.
"""
import argparse
import hashlib
import itertools
import struct
import sys

sys.dont_write_bytecode = True
from checkpoint_packs import counting_pack, first_copy, number_at, sealed
from superblock_image import BLOCK, SEGMENT

FIRST_NID = 3
UNMOUNT, COMPACT, FASTBOOT = 0x1, 0x4, 0x20  # of ckpt_flags
BITMAPS = 192  # where they begin in the head of a pack
SUMMARIES = 512 * 7  # bytes before the journal area of a summary block
AREA = 507  # bytes of a journal area


def journal_places(pack):
    """Where the journals of both tables stand: the block of the pack, and the byte there."""
    flags, start_sum = number_at(pack.head, 132), number_at(pack.head, 140)
    if flags & COMPACT:
        return (start_sum, 0), (start_sum, AREA)
    cold = pack.last - 1 - (3 if flags & (UNMOUNT | FASTBOOT) else 0)
    return (cold - 2, SUMMARIES), (cold, SUMMARIES)


def image_block(image, address):
    image.seek(address * BLOCK)
    return image.read(BLOCK).ljust(BLOCK, b"\0")


def put_block(image, address, data):
    image.seek(address * BLOCK)
    image.write(data)


class Table:
    """Blocks of entries, a bitmap that says which of its two places each block is in, and the journal before them."""

    def __init__(self, pack, form, blocks, bitmap, journal):
        self.pack, self.blocks, self.bitmap, self.journal = pack, blocks, bitmap, journal
        self.entry = struct.Struct(f"<{form}")
        self.record = struct.Struct(f"<I{form}")
        self.room = BLOCK // self.entry.size  # entries in a block

    def bit(self, block):
        return self.pack.head[self.bitmap + block // 8] >> (7 - block % 8) & 1

    def records(self):
        block, offset = self.journal
        area = self.pack.read(block)[offset : offset + AREA]
        return list(self.record.iter_unpack(area[2 : 2 + number_at(area, 0, 2) * self.record.size]))

    def entries(self):
        """Each number and its entry, in order."""
        # a number's first record counts
        journal = {number: entry for number, *entry in reversed(self.records())}
        for block in range(self.blocks):
            data = image_block(self.pack.image, self.place(block, self.bit(block)))
            entries = self.entry.iter_unpack(data[: self.room * self.entry.size])
            for number, entry in enumerate(entries, start=block * self.room):
                yield number, journal.get(number, entry)

    def most_records(self):
        return (AREA - 2) // self.record.size

    def put_records(self, records):
        area = struct.pack("<H", len(records)) + b"".join(self.record.pack(*record) for record in records)
        block, offset = self.journal
        data = self.pack.read(block)
        self.pack.write(block, data[:offset] + area + data[offset + len(area) :])

    def put(self, number, *entry):
        """Gives a number that has no record another entry: half of the numbers by a record, while there is room."""
        records = self.records()
        if number % 2 == 1 and len(records) < self.most_records():
            self.put_records([*records, (number, *entry)])
            return
        block, place = divmod(number, self.room)
        address = self.place(block, self.bit(block))
        data = bytearray(image_block(self.pack.image, address))
        self.entry.pack_into(data, place * self.entry.size, *entry)
        put_block(self.pack.image, address, data)

    def scatter(self):
        """Gives each number an entry of its own, the blocks places in no simple order, and the journal all its records."""
        head = bytearray(self.pack.head)
        for block in range(self.blocks):
            bit = bin(block).count("1") % 2
            numbers = range(block * self.room, (block + 1) * self.room)
            data = b"".join(self.entry.pack(*self.sample(number)) for number in numbers)
            put_block(self.pack.image, self.place(block, bit), data.ljust(BLOCK, b"\0"))
            put_block(self.pack.image, self.place(block, 1 - bit), b"\xff" * BLOCK)
            if bit != self.bit(block):
                head[self.bitmap + block // 8] ^= 128 >> block % 8
        self.pack.write(0, sealed(bytes(head)))
        self.pack.head = self.pack.read(0)

        # a record has the entry that the table has for the next number
        count = self.most_records()
        numbers = range(FIRST_NID, self.numbers, self.numbers // count)[:count]
        self.put_records([(number, *self.sample(number + 1)) for number in numbers])


class NodeTable(Table):
    def __init__(self, pack):
        copy = first_copy(pack.image)
        blocks = number_at(copy, 60) // 2 * SEGMENT
        super().__init__(pack, "BII", blocks, BITMAPS + number_at(pack.head, 156), journal_places(pack)[0])
        self.start = number_at(copy, 84)
        self.numbers = blocks * self.room
        self.main = range(number_at(copy, 92), number_at(copy, 92) + number_at(copy, 68) * SEGMENT)

    def place(self, block, bit):
        return self.start + 2 * block - block % SEGMENT + SEGMENT * bit

    def sample(self, nid):
        # the last nid has an address
        return nid % 251, nid // 2, self.main[nid * 7919 % len(self.main)] if nid % 16 in (2, 15) else 0

    def lines(self):
        for nid, (version, ino, address) in self.entries():
            if nid >= FIRST_NID and address != 0:
                yield f"{nid} {ino} {address} {version}"


class SegmentTable(Table):
    def __init__(self, pack):
        copy = first_copy(pack.image)
        super().__init__(pack, "H64sQ", number_at(copy, 56) // 2 * SEGMENT, BITMAPS, journal_places(pack)[1])
        self.start = number_at(copy, 80)
        self.numbers = number_at(copy, 68)

    def place(self, block, bit):
        return self.start + block + self.blocks * bit

    def sample(self, segment):
        valid = hashlib.sha512(str(segment).encode()).digest()
        count = bin(int.from_bytes(valid, "big")).count("1")
        return (segment % 6) << 10 | count, valid, int.from_bytes(valid[:8], "big")

    def lines(self):
        for segment, (number, valid, mtime) in itertools.islice(self.entries(), self.numbers):
            yield f"{segment} {number >> 10} {number & 1023} {mtime} {valid.hex()}"


def figures(nodes, segments):
    yield f"blocks {number_at(first_copy(nodes.pack.image), 36, 8)}"
    for name, table in ("nodes", nodes), ("segments", segments):
        yield f"{name} {table.numbers}"
        yield f"{name}_moved {sum(map(table.bit, range(table.blocks)))}"
        yield f"{name}_records {len(table.records())}"


def put_lines(path, lines):
    with open(path, "w") as file:
        file.writelines(f"{line}\n" for line in lines)


def main():
    words = argparse.ArgumentParser(description=__doc__)
    words.add_argument("image", metavar="IMAGE")
    what = words.add_mutually_exclusive_group(required=True)
    what.add_argument("--read", metavar="FOLDER", help="leave the files there")
    what.add_argument("--scatter", action="store_true", help="change both tables to ones with moved blocks and full journals")
    given = words.parse_args()
    with open(given.image, "r+b" if given.scatter else "rb") as image:
        pack = counting_pack(image)
        nodes, segments = NodeTable(pack), SegmentTable(pack)
        if given.scatter:
            nodes.scatter()
            segments.scatter()
        else:
            put_lines(f"{given.read}/nodes", nodes.lines())
            put_lines(f"{given.read}/segments", segments.lines())
            put_lines(f"{given.read}/figures", figures(nodes, segments))


if __name__ == "__main__":
    main()
