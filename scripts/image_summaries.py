#!/usr/bin/env python3
"""Prints the summaries of the main blocks of an F2FS image, as `f2tools IMAGE dump -a 0~-1` has to.

With an option, it changes the image instead.
"""
import argparse
import functools
import random
import struct
import sys

sys.dont_write_bytecode = True
from checkpoint_packs import counting_pack, first_copy, number_at, sealed
from image_files import FOOTER
from image_tables import COMPACT, FASTBOOT, UNMOUNT, image_block, put_block
from superblock_image import SEGMENT

SUMMARY = struct.Struct("<IBH")  # nid, version, place in the node
DATA_LOGS, NODE_LOGS = range(3), range(3, 6)
REUSES_HOLES = 1  # of alloc_type
AREAS = 1014  # bytes of both journal areas, before the compact summaries
COMPACT_ROOM = 439, 584  # summaries in the first compact block, and in each later one


class Summaries:
    def __init__(self, image, pack):
        copy = first_copy(image)
        self.pack, self.head = pack, pack.head
        self.ssa, self.main, self.segments = number_at(copy, 88), number_at(copy, 92), number_at(copy, 68)
        flags = number_at(self.head, 132)
        self.is_compact = flags & COMPACT
        self.node_logs = NODE_LOGS if flags & (UNMOUNT | FASTBOOT) else ()
        first_node = pack.last - len(self.node_logs)
        first_data = number_at(self.head, 140) if self.is_compact else first_node - len(DATA_LOGS)
        self.first_data, self.first_node = pack.first + first_data, pack.first + first_node
        # the first of several logs with the same segment counts
        self.log_of = {self.segment(log): log for log in reversed((*DATA_LOGS, *NODE_LOGS))}
        self.block = functools.lru_cache(maxsize=None)(functools.partial(image_block, image))

    def segment(self, log):
        return number_at(self.head, 84 + 4 * log if log in DATA_LOGS else 36 + 4 * (log - 3))

    def count(self, log):
        """How many compact summaries a data log has."""
        return SEGMENT if self.head[176 + log] == REUSES_HOLES else number_at(self.head, 116 + 2 * log, 2)

    def stored(self, segment, block):
        return self.ssa + segment, SUMMARY.size * block

    def spot(self, segment, block):
        """The address and the byte of a summary; None where the pack lacks it."""
        log = self.log_of.get(segment)
        if log is None:
            return self.stored(segment, block)
        if log in NODE_LOGS:
            return (self.first_node + log - 3, SUMMARY.size * block) if self.node_logs else None
        if not self.is_compact:
            return self.first_data + log, SUMMARY.size * block
        if block >= self.count(log):
            return None
        number = sum(map(self.count, range(log))) + block
        first, later = COMPACT_ROOM
        if number < first:
            return self.first_data, AREAS + SUMMARY.size * number
        return self.first_data + 1 + (number - first) // later, (number - first) % later * SUMMARY.size

    def summary(self, segment, block):
        spot = self.spot(segment, block)
        if spot is not None:
            return SUMMARY.unpack_from(self.block(spot[0]), spot[1])
        if self.log_of[segment] in DATA_LOGS:
            return 0, 0, 0
        return number_at(self.block(self.main + segment * SEGMENT + block), FOOTER), 0, 0

    def blocks(self):
        return ((segment, block) for segment in range(self.segments) for block in range(SEGMENT))

    def lines(self):
        for segment, block in self.blocks():
            nid, version, place = self.summary(segment, block)
            yield f"{segment} {block} {nid} {version} {place}\n"

    def scatter(self):
        """Gives each main block a summary of its own."""
        chance = random.Random(0)
        changed = {}
        for segment, block in self.blocks():
            # the summaries in the area that don't count because the segment is a log's differ too
            for address, byte in filter(None, {self.stored(segment, block), self.spot(segment, block)}):
                data = changed.setdefault(address, bytearray(self.block(address)))
                data[byte : byte + SUMMARY.size] = chance.randbytes(SUMMARY.size)
        for address, data in changed.items():
            put_block(self.pack.image, address, data)

    def lengthen(self):
        """Has the data logs of a compact pack need two blocks for their summaries; the second log reuses holes."""
        for block in reversed(range(self.first_node, self.pack.first + self.pack.last)):
            put_block(self.pack.image, block + 1, self.block(block))
        head = bytearray(self.head)
        struct.pack_into("<3H", head, 116, 300, 20, 100)
        head[176 + 1] = REUSES_HOLES
        self.put_head(head, self.pack.last + 1)

    def drop_node_summaries(self):
        """Takes the summaries of the node logs out of the pack, as a kernel leaves it that goes on writing."""
        head = bytearray(self.head)
        struct.pack_into("<I", head, 132, number_at(head, 132) & ~(UNMOUNT | FASTBOOT))
        self.put_head(head, self.pack.last - len(self.node_logs))

    def put_head(self, head, last):
        """Changes both ends of the pack, whose last block is this one from now on."""
        struct.pack_into("<I", head, 136, last + 1)
        for block in 0, last:
            self.pack.write(block, sealed(bytes(head)))


def main():
    words = argparse.ArgumentParser(description=__doc__)
    words.add_argument("image", metavar="IMAGE")
    change = words.add_mutually_exclusive_group()
    change.add_argument("--scatter", action="store_true", help="give each main block a summary of its own")
    change.add_argument("--lengthen", action="store_true", help="have a compact pack need two blocks for summaries")
    change.add_argument("--drop-node-summaries", action="store_true", help="take those of the node logs out of the pack")
    given = words.parse_args()
    changes = given.scatter or given.lengthen or given.drop_node_summaries
    with open(given.image, "r+b" if changes else "rb") as image:
        pack = counting_pack(image)
        summaries = Summaries(image, pack)
        if given.scatter:
            summaries.scatter()
        elif given.lengthen:
            summaries.lengthen()
        elif given.drop_node_summaries:
            summaries.drop_node_summaries()
        else:
            sys.stdout.writelines(summaries.lines())


if __name__ == "__main__":
    main()
