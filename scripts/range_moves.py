#!/usr/bin/env python3
"""Prints what `f2tools IMAGE defrag` with the same words has to print of an F2FS image that meets the rules, and ends with its status.

It counts the blocks of the range, the nodes that move with them and the free segments by the tables and the summaries.
"""
import argparse
import itertools
import sys

sys.dont_write_bytecode = True
from checkpoint_packs import counting_pack, number_at
from image_files import REGULAR, kind_of
from image_summaries import DATA_LOGS, NODE_LOGS, Summaries
from image_tables import NodeTable, SegmentTable, image_block
from superblock_image import SEGMENT

MOST = 4096  # blocks that a batch takes from the range
DONE, NO_SPACE, REFUSED = 0, 10, 20  # statuses
EXTENT = 352  # where its address begins in an inode, and its length behind that


def refuse(address):
    print(f"refused 14 OutOfRange {address}")
    sys.exit(REFUSED)


def number(text):
    return int(text, 0)


def segments_for(blocks):
    return -(-blocks // SEGMENT)


class Moves:
    def __init__(self, image, pack, given):
        self.image = image
        nodes, segments = NodeTable(pack), SegmentTable(pack)
        self.main = nodes.main
        self.nodes = {nid: (ino, address) for nid, (_, ino, address) in nodes.entries() if address in self.main}
        self.segments = [entry for _, entry in itertools.islice(segments.entries(), segments.numbers)]
        self.summaries = Summaries(image, pack)
        self.range = self.range_of(given)
        self.target = self.target_of(given)
        self.down = given.i

    def range_of(self, given):
        start = max(given.s, self.main.start)
        if start >= self.main.stop:
            refuse(start)
        return range(start, min(start + (given.l or SEGMENT), self.main.stop))

    def target_of(self, given):
        target = given.t
        if target is None:
            target = self.range.start - 1 if given.i else self.range.stop
        if not self.main.start <= target <= self.main.stop or target in self.range:
            refuse(target)
        return target

    def segment(self, address):
        return (address - self.main.start) // SEGMENT

    def is_data(self, segment):
        return self.segments[segment][0] >> 10 in DATA_LOGS

    def valid(self, segment):
        """The valid blocks of a segment that lie in the range."""
        start = self.main.start + segment * SEGMENT
        bits = self.segments[segment][1]
        return [start + k for k in range(SEGMENT) if bits[k // 8] >> 7 - k % 8 & 1 and start + k in self.range]

    def batches(self):
        batch = []
        for segment in range(self.segment(self.range.start), self.segment(self.range.stop - 1) + 1):
            valid = self.valid(segment)
            if len(batch) + len(valid) > MOST:
                yield batch
                batch = []
            batch += valid
        yield batch

    def covers(self, ino, data):
        """Whether the extent of a regular file covers one of these blocks."""
        inode = image_block(self.image, self.nodes[ino][1])
        start = number_at(inode, EXTENT)
        return kind_of(inode) == REGULAR and any(start <= address < start + number_at(inode, EXTENT + 4) for address in data)

    def weight(self, batch):
        """The data of a batch, and the nids of the nodes that move with it."""
        data = [address for address in batch if self.is_data(self.segment(address))]
        # that of the node that stands there, or of the one that holds its address
        nids = {address: self.summaries.summary(*divmod(address - self.main.start, SEGMENT))[0] for address in batch}
        held = {}
        for address in data:
            held.setdefault(self.nodes[nids[address]][0], []).append(address)
        return data, {*nids.values(), *(ino for ino, blocks in held.items() if self.covers(ino, blocks))}

    def targets(self):
        """How many free segments lie beside the range, from the target on."""
        logs = {self.summaries.segment(log) for log in (*DATA_LOGS, *NODE_LOGS)}
        first, last = self.segment(self.range.start), self.segment(self.range.stop - 1)
        target = self.segment(self.target)
        return sum(
            number & 1023 == 0
            and segment not in logs
            and not first <= segment <= last
            and (segment <= target if self.down else segment >= target)
            for segment, (number, _, _) in enumerate(self.segments)
        )

    def answer(self):
        need = blocks = batches = 0
        left = set()  # addresses of nodes that moved with an earlier batch
        for batch in self.batches():
            data, nids = self.weight(batch)
            need += segments_for(len(data)) + segments_for(len(nids))
            there = sum(address not in left for address in batch)
            blocks += there
            batches += there > 0
            left |= {self.nodes[nid][1] for nid in nids}
        have = self.targets()
        if need > have:
            print(f"no space: need {need}, have {have}")
            sys.exit(NO_SPACE)
        print(f"moved {blocks} blocks in {batches} batches")
        print("done")


def main():
    words = argparse.ArgumentParser(description=__doc__)
    words.add_argument("image", metavar="IMAGE")
    words.add_argument("-s", metavar="START", type=number, default=0)
    words.add_argument("-l", metavar="BLOCKS", type=number, default=0)
    words.add_argument("-t", metavar="TARGET", type=number)
    words.add_argument("-i", action="store_true")
    given = words.parse_args()
    with open(given.image, "rb") as image:
        Moves(image, counting_pack(image), given).answer()


if __name__ == "__main__":
    main()
