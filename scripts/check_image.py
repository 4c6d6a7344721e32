#!/usr/bin/env python3
"""Checks an F2FS image by itself, and prints what `f2tools IMAGE fsck` has to print; it ends with the same status.

It reads whole tables into memory and walks each file from its inode, and so shares no way of working with the program.
"""
import argparse
import itertools
import struct
import sys
from collections import Counter

sys.dont_write_bytecode = True
from checkpoint_packs import counting_pack, number_at, version
from directory_items import items
from image_files import (
    ADDRESSES,
    DIRECTORY,
    FOOTER,
    INLINE_DATA,
    INLINE_DENTRY,
    REGULAR,
    ROOT,
    SYMLINK,
    Files,
    kind_of,
    room_of,
)
from image_summaries import Summaries
from image_tables import SegmentTable, image_block
from superblock_image import BLOCK, COPY_START, MAGIC, SEGMENT, checksum

NONE = 2**32
RESERVED = 2**32 - 1
LISTED = 64
IN_NODE = 1018
NIDS = 4052  # where the five nids of an inode begin
SLOTS = 214
KINDS = {8: 1, 4: 2, 2: 3, 6: 4, 1: 5, 12: 6, 10: 7}  # the type of an entry by the first digit of a mode
DOTS = 0x10  # of the inline bits
ATTRIBUTE = 0x1FFFFFFF  # the offset of an attribute node
ORPHANS, CRC_RECOVERY, NOCRC_RECOVERY = 0x2, 0x40, 0x200  # of ckpt_flags
WRONG_FLAGS = 0x1018
# the compared rows of a superblock: number, offset and width
ROWS = [
    *((row, 8 + 4 * (row - 3), 4) for row in range(3, 9)),
    (10, 36, 8),
    *((row, 44 + 4 * (row - 11), 4) for row in range(11, 27)),
    (27, 108, 8),
    (28, 116, 8),
    (30, 1664, 4),
    (31, 2180, 4),
]


class Part:
    """The comparisons of a part that fail."""

    def __init__(self, number):
        self.number, self.defects, self.count = number, [], 0

    def add(self, a, b, found, wanted, fails=None):
        if (found != wanted) if fails is None else fails:
            self.defects.append((self.number, a, b, found, wanted))
            self.count += 1


def name_hash(name):
    if name in (b".", b".."):
        return 0
    low = 0xFFFFFFFF
    p, q = 0x67452301, 0xEFCDAB89
    for start in range(0, len(name), 16):
        left, piece = len(name) - start, name[start : start + 16]
        pad = left | left << 8
        pad = (pad | pad << 16) & low
        a, b, c, d = (pad_word(pad, piece[4 * j : 4 * j + 4]) for j in range(4))
        x, y, s = p, q, 0
        for _ in range(16):
            s = (s + 0x9E3779B9) & low
            x = (x + ((((y << 4) & low) + a & low) ^ (y + s & low) ^ ((y >> 5) + b & low))) & low
            y = (y + ((((x << 4) & low) + c & low) ^ (x + s & low) ^ ((x >> 5) + d & low))) & low
        p, q = (p + x) & low, (q + y) & low
    return p


def pad_word(pad, piece):
    for byte in piece:
        pad = (byte + (pad << 8)) & 0xFFFFFFFF
    return pad


def buckets(level, depth):
    return 1 << level + depth if level + depth < 31 else 1 << 30


def bucket_blocks(level):
    return 2 if level < 31 else 4


def level_of(block, depth):
    """The level and the bucket of a block of a directory."""
    start = 0
    for level in itertools.count():
        end = start + buckets(level, depth) * bucket_blocks(level)
        if block < end:
            return level, (block - start) // bucket_blocks(level)
        start = end


def copy_passes(copy):
    at = lambda offset, width=4: number_at(copy, offset, width)  # noqa: E731
    sit, nat, ssa, main = (at(offset) for offset in (56, 60, 64, 68))
    starts = [at(offset) for offset in (76, 80, 84, 88, 92)]
    return (
        at(0) == MAGIC
        and 9 <= at(8) <= 12
        and at(12) == 12 - at(8)
        and (at(16), at(20), at(24)) == (12, 9, 1)
        and at(28) >= 1
        and at(1664) == 0
        and (at(96), at(100), at(104)) == (3, 1, 2)
        and at(52) == 2
        and sit % 2 == nat % 2 == 0
        and min(sit, nat) >= 2
        and min(ssa, main) >= 1
        and at(44) == main
        and at(72) == starts[0] >= 2
        and all(b == a + 512 * count for a, b, count in zip(starts, starts[1:], (2, sit, nat, ssa)))
        and starts[4] + 512 * main <= at(36, 8)
        and at(48) >= 2 + sit + nat + ssa + main
        and 512 * ssa >= main
        and 28160 * (sit // 2) >= main
        and 32 * (sit + nat) <= 3900
        and (not at(2180) & 0x800 or (at(32) == 3068 and at(3068) == checksum(copy[:3068])))
    )


class Image:
    def __init__(self, image):
        self.image = image
        self.copies = [image_block(image, n)[COPY_START:] for n in (0, 1)]
        self.pack = counting_pack(image)
        self.head = self.pack.head
        self.files = Files(image, self.pack)
        self.nodes, self.main = self.files.nodes, self.files.main
        self.blocks = {}
        segments = self.main.stop - self.main.start >> 9
        self.segments = [entry for _, entry in itertools.islice(SegmentTable(self.pack).entries(), segments)]
        self.logs = [self.log(t) for t in range(6)]
        self.inodes = [nid for nid, (ino, _) in self.nodes.items() if ino == nid]

    def log(self, t):
        """Segment, offset, and whether it reuses holes."""
        segment, offset = (84 + 4 * t, 116 + 2 * t) if t < 3 else (24 + 4 * t, 62 + 2 * t)
        return number_at(self.head, segment), number_at(self.head, offset, 2), self.head[176 + t]

    def block(self, address):
        if address not in self.blocks:
            self.blocks[address] = image_block(self.image, address)
        return self.blocks[address]

    def node(self, nid):
        entry = self.nodes.get(nid)
        return self.block(entry[1]) if entry and entry[1] in self.main else None

    def inode(self, nid):
        return self.node(nid) if self.nodes.get(nid, (None,))[0] == nid else None

    def is_directory(self, nid):
        inode = self.inode(nid)
        return inode is not None and kind_of(inode) == DIRECTORY

    def offset_of(self, nid, ino):
        block = self.node(nid)
        return NONE if block is None or self.nodes[nid][0] != ino else number_at(block, FOOTER + 8) >> 3

    def has_slots(self, inode):
        return kind_of(inode) in (DIRECTORY, REGULAR, SYMLINK) and not is_inline(inode)

    def names(self, ino):
        """Offset and nid of each nid slot that isn't 0, in order."""
        inode = self.inode(ino)
        if inode is None or not self.has_slots(inode):
            return
        nids = struct.unpack_from("<5I", inode, NIDS)
        yield from self.names_under(1, 0, nids[0])
        yield from self.names_under(2, 0, nids[1])
        yield from self.names_under(3, 1, nids[2])
        yield from self.names_under(1022, 1, nids[3])
        yield from self.names_under(2041, 2, nids[4])

    def names_under(self, offset, height, nid):
        if nid != 0:
            yield offset, nid
        block = self.node(nid) if height > 0 else None
        if block is None:
            return
        step = 1 if height == 1 else 1019
        for j, below in enumerate(struct.unpack_from(f"<{IN_NODE}I", block)):
            if below != 0:
                yield from self.names_under(offset + 1 + step * j, height - 1, below)

    def slots(self, ino):
        """Block, address, node and place of each slot that isn't 0, in order."""
        inode = self.inode(ino)
        if inode is None or not self.has_slots(inode):
            return
        count = room_of(inode[3])
        words = struct.unpack_from(f"<{count}I", inode, ADDRESSES)
        yield from ((k, address, ino, k) for k, address in enumerate(words) if address)
        first = count
        for height, nid in enumerate(struct.unpack_from("<5I", inode, NIDS)):
            height = (0, 0, 1, 1, 2)[height]
            yield from self.slots_under(height, first, nid)
            first += IN_NODE ** (height + 1)

    def slots_under(self, height, first, nid):
        block = self.node(nid)
        if block is None:
            return
        for j, word in enumerate(struct.unpack_from(f"<{IN_NODE}I", block)):
            if word == 0:
                continue
            if height == 0:
                yield first + j, word, nid, j
            else:
                yield from self.slots_under(height - 1, first + j * IN_NODE**height, word)

    def items(self, ino):
        """Place and the rest of each item of a directory."""
        inode = self.inode(ino)
        if is_inline(inode):
            length = 4 * (room_of(inode[3]) - 1)
            yield from items(inode[364 : 364 + length], 8 * length // 153)
            return
        for k, address, _, _ in self.slots(ino):
            if address in self.main:
                for slot, *rest in items(self.block(address), SLOTS):
                    yield SLOTS * k + slot, *rest

    def segment_of(self, address):
        return divmod(address - self.main.start, SEGMENT)

    def is_valid(self, segment, block):
        return self.segments[segment][1][block // 8] >> (7 - block % 8) & 1


def is_inline(inode):
    return bool(inode[3] & (INLINE_DENTRY if kind_of(inode) == DIRECTORY else INLINE_DATA)) and kind_of(inode) in (DIRECTORY, REGULAR, SYMLINK)


def superblock_rule(i):
    parts = Part(1), Part(2)
    for n, copy in enumerate(i.copies):
        parts[0].add(n, 0, int(copy_passes(copy)), 1)
    for row, offset, width in ROWS:
        parts[1].add(row, 0, *(number_at(copy, offset, width) for copy in i.copies[::-1]))
    return parts


def chain_length(i):
    flags, head = number_at(i.head, 132), i.head
    address = i.main.start + SEGMENT * i.logs[4][0] + i.logs[4][1]
    seen = set()
    while address in i.main and address not in seen:
        block = i.block(address)
        written = number_at(block, FOOTER + 12, 8)
        if flags & NOCRC_RECOVERY:
            fits = written % NONE == version(head) % NONE
        elif flags & CRC_RECOVERY:
            fits = written == version(head) | number_at(head, 4092) << 32
        else:
            fits = written == version(head)
        if not fits:
            break
        seen.add(address)
        address = number_at(block, FOOTER + 20)
    return len(seen)


def checkpoint_rule(i):
    orphans = set()
    if number_at(i.head, 132) & ORPHANS:
        for block in range(1, number_at(i.head, 140)):
            data = i.pack.read(block)
            orphans.update(struct.unpack_from(f"<{min(number_at(data, 4088), 1020)}I", data))
    parts = Part(1), Part(2), Part(3)
    parts[0].add(0, 0, len(orphans), 0)
    parts[1].add(0, 0, chain_length(i), 0)
    parts[2].add(0, 0, number_at(i.head, 132) & WRONG_FLAGS, 0)
    return parts


def node_rule(i):
    parts = tuple(map(Part, range(1, 8)))
    named = Counter()
    for nid, (ino, address) in i.nodes.items():
        parts[0].add(nid, 0, address, i.main.start, address not in i.main)
        block = i.node(nid)
        if block is not None:
            parts[1].add(nid, 0, number_at(block, FOOTER), nid)
            parts[2].add(nid, 0, number_at(block, FOOTER + 4), ino)
            if nid == ino:
                parts[3].add(nid, 0, number_at(block, FOOTER + 8) >> 3, 0)
                if nid != ROOT:
                    parts[4].add(nid, 0, number_at(block, 0, 2), 0, kind_of(block) not in KINDS)
    root = i.inode(ROOT)
    parts[4].add(ROOT, 0, number_at(root, 0, 2) if root else 0, 0x4000, not i.is_directory(ROOT))
    parts[4].defects.sort()
    for ino in i.inodes:
        for offset, nid in i.names(ino):
            parts[5].add(ino, offset, i.offset_of(nid, ino), offset)
            named[nid] += 1
        if (inode := i.inode(ino)) is not None:
            named[number_at(inode, 76)] += 1
    for nid, (ino, _) in i.nodes.items():
        if nid != ino:
            parts[6].add(nid, 0, named[nid], 1)
    return parts


def address_rule(i):
    i.slot_lists = {ino: list(i.slots(ino)) for ino in i.inodes}
    times = Counter(slot[1] for slots in i.slot_lists.values() for slot in slots)
    times.update(address for _, address in i.nodes.values())
    parts = Part(1), Part(2)
    for ino, slots in i.slot_lists.items():
        for k, address, _, _ in slots:
            if address != RESERVED:
                parts[0].add(ino, k, address, i.main.start, address not in i.main)
                parts[1].add(ino, k, times[address], 1)
    return parts


def validity_rule(i):
    i.owner = {address: (nid, None) for nid, (_, address) in i.nodes.items()}
    i.owner.update((address, (nid, place)) for slots in i.slot_lists.values() for _, address, nid, place in slots)
    parts = Part(1), Part(2), Part(3)
    for segment, (number, valid, _) in enumerate(i.segments):
        kind = number >> 10
        parts[1].add(segment, 0, number & 1023, sum(byte.bit_count() for byte in valid))
        for block in range(SEGMENT):
            owner = i.owner.get(i.main.start + SEGMENT * segment + block)
            marked = i.is_valid(segment, block)
            parts[0].add(segment, block, marked, int(owner is not None))
            if marked and owner:
                if owner[1] is not None:
                    parts[2].add(segment, block, kind, 0, kind > 2)
                else:
                    parts[2].add(segment, block, kind, 3, kind not in (3, 4, 5))
    return parts


def summary_rule(i):
    parts = Part(1), Part(2), Part(3)
    summaries = Summaries(i.image, i.pack)
    logs = {segment for segment, _, _ in i.logs}
    for segment, (number, valid, _) in enumerate(i.segments):
        if not any(valid):
            continue
        for block in range(SEGMENT):
            if i.is_valid(segment, block):
                nid, place = i.owner[i.main.start + SEGMENT * segment + block]
                found, _, ofs = summaries.summary(segment, block)
                parts[0].add(segment, block, found, nid)
                if place is not None:
                    parts[1].add(segment, block, ofs, place)
        if segment not in logs:
            parts[2].add(segment, 0, i.block(summaries.ssa + segment)[4091], int(number >> 10 > 2))
    return parts


def count_rule(i):
    parts = tuple(map(Part, range(1, 5)))
    parts[0].add(0, 0, number_at(i.head, 16, 8), len(i.nodes) + sum(map(len, i.slot_lists.values())))
    parts[1].add(0, 0, number_at(i.head, 144), len(i.nodes))
    parts[2].add(0, 0, number_at(i.head, 148), len(i.inodes))
    logs = {segment for segment, _, _ in i.logs}
    free = sum(not any(valid) and segment not in logs for segment, (_, valid, _) in enumerate(i.segments))
    parts[3].add(0, 0, number_at(i.head, 32), free)
    return parts


def log_rule(i):
    parts = tuple(map(Part, range(1, 5)))
    for t, (segment, offset, reuses) in enumerate(i.logs):
        parts[0].add(t, 0, next(u for u, log in enumerate(i.logs) if log[0] == segment), t)
        kind = i.segments[segment][0] >> 10
        if any(i.segments[segment][1]):
            parts[1].add(t, 0, kind, t, (kind < 3) != (t < 3))
        parts[2].add(t, offset, i.is_valid(segment, offset), 0)
        if reuses == 0:
            for block in range(offset + 1, SEGMENT):
                parts[3].add(t, block, i.is_valid(segment, block), 0)
    return parts


def read_names(i):
    """The legal items of each directory, how often each number is named, and the least directory that names it."""
    i.item_lists = {ino: list(i.items(ino)) for ino in i.inodes if i.is_directory(ino)}
    i.named, i.parent = Counter(), {}
    i.name_lists = {}
    for ino, listed in i.item_lists.items():
        i.name_lists[ino] = [item[2] for item in listed if item[6] and item[5] not in (b".", b"..")]
        for target in i.name_lists[ino]:
            i.named[target] += 1
            i.parent.setdefault(target, ino)


def extent_defects(i, ino, inode, part):
    """An extent may claim billions of blocks: those past the first ones that fail are counted."""
    first, address, length = (number_at(inode, offset) for offset in (348, 352, 356))
    count = room_of(inode[3])
    limit = count + 2 * IN_NODE + 2 * IN_NODE**2 + IN_NODE**3
    slots = {} if is_inline(inode) else {slot[0]: slot[1] for slot in i.slot_lists[ino]}

    def found(k):
        return 0 if is_inline(inode) else (slots.get(k, 0) if k < limit else NONE)

    passing = sum(first <= k < first + length and slot == address + k - first for k, slot in slots.items())
    special = {first} | ({first + NONE - address} if not is_inline(inode) else set())
    passing += sum(
        first <= k < first + length and k not in slots and found(k) == address + k - first for k in special
    )
    part.count += length - passing
    for k in range(first, first + length):
        if len(part.defects) >= LISTED:
            break
        if found(k) != address + k - first:
            part.defects.append((part.number, ino, k, found(k), address + k - first))


def inode_rule(i):
    parts = Part(1), Part(2), Part(3)
    nodes = Counter(ino for ino, _ in i.nodes.values())
    read_names(i)
    for ino in i.inodes:
        inode = i.inode(ino)
        parts[0].add(ino, 0, number_at(inode, 24, 8), nodes[ino] + len(i.slot_lists[ino]))
        links = 2 + sum(map(i.is_directory, i.name_lists[ino])) if i.is_directory(ino) else i.named[ino]
        parts[1].add(ino, 0, number_at(inode, 12), links)
        if kind_of(inode) == REGULAR:
            extent_defects(i, ino, inode, parts[2])
    return parts


def directory_rule(i):
    parts = tuple(map(Part, range(1, 10)))
    for ino, listed in i.item_lists.items():
        inode = i.inode(ino)
        depth, dots, inline = inode[347], inode[3] & DOTS, is_inline(inode)
        first, levels, blocks = {}, 0, 0
        for place, hash_of, target, length, kind, name, legal in listed:
            if not legal:
                parts[0].add(ino, place, length, 0, True)
                continue
            first.setdefault(name, (place, target))
            parts[1].add(ino, place, first[name][0], place)
            parts[2].add(ino, place, hash_of, name_hash(name))
            if not inline:
                level, bucket = level_of(place // SLOTS, depth)
                parts[3].add(ino, place, bucket, name_hash(name) % buckets(level, depth))
                levels, blocks = max(levels, level + 1), max(blocks, place // SLOTS + 1)
            wanted = i.inode(target)
            parts[4].add(ino, place, kind, NONE if wanted is None else KINDS.get(kind_of(wanted), 0))
        if not inline:
            found = number_at(inode, 72)
            parts[5].add(ino, 0, found, levels, found < levels)
            found = number_at(inode, 16, 8)
            parts[8].add(ino, 0, found, BLOCK * blocks, found < BLOCK * blocks)
        above = ROOT if ino == ROOT else i.parent.get(ino, NONE)
        for part, name, wanted in (parts[6], b".", ino), (parts[7], b"..", above):
            if name in first:
                part.add(ino, 0, first[name][1], wanted)
            else:
                part.add(ino, 0, 0, wanted, not dots)
    return parts


def is_own_ancestor(i, ino):
    above, steps = i.parent.get(ino), set()
    while above is not None and above != ino and above not in steps:
        steps.add(above)
        above = i.parent.get(above)
    return above == ino


def link_rule(i):
    parts = Part(1), Part(2), Part(3)
    for ino in i.inodes:
        if ino != ROOT:
            parts[0].add(ino, 0, i.named[ino] if i.is_directory(ino) else int(i.named[ino] > 0), 1)
        if i.is_directory(ino):
            parts[1].add(ino, 0, int(is_own_ancestor(i, ino)), 0)
    parts[2].add(ROOT, 0, i.named[ROOT], 0)
    return parts


def attribute_rule(i):
    part = Part(1)
    for ino in i.inodes:
        nid = number_at(i.inode(ino), 76)
        if nid != 0:
            part.add(ino, 0, i.offset_of(nid, ino), ATTRIBUTE)
    return (part,)


RULES = (
    superblock_rule,
    checkpoint_rule,
    node_rule,
    address_rule,
    validity_rule,
    summary_rule,
    count_rule,
    log_rule,
    inode_rule,
    directory_rule,
    link_rule,
    attribute_rule,
)


def main():
    words = argparse.ArgumentParser(description=__doc__)
    words.add_argument("image", metavar="IMAGE")
    given = words.parse_args()
    with open(given.image, "rb") as image:
        checked = Image(image)
        for rule, parts_of in enumerate(RULES, start=1):
            parts = parts_of(checked)
            count = sum(part.count for part in parts)
            if count > 0:
                for defect in [defect for part in parts for defect in part.defects][:LISTED]:
                    print("E{}.{} {} {} {} {}".format(rule, *defect))
                print("defects", count)
                sys.exit(4)
    print("done")


if __name__ == "__main__":
    main()
