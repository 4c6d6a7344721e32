"""The items of an area of a directory: that of a block, or of an inode."""
import struct

ENTRY = struct.Struct("<IIHB")  # hash, number, length of the name, type


def items(area, slots):
    """Slot, hash, number, length, type, name and legality of each item of an area."""
    entries, names = len(area) - 19 * slots, len(area) - 8 * slots
    slot = 0
    while slot < slots:
        if not area[slot // 8] >> slot % 8 & 1:
            slot += 1
            continue
        hash_of, ino, length, kind = ENTRY.unpack_from(area, entries + ENTRY.size * slot)
        # a name fills as many slots as it needs
        taken = (length + 7) // 8
        cut = length > 255 or slot + taken > slots
        start = names + 8 * slot
        name = area[start : start + length]
        legal = 0 < length and not cut and not {0, 0x2F} & set(name)
        yield slot, hash_of, ino, length, kind, name, legal
        if length == 0:
            slot += 1
        elif cut:
            return
        else:
            slot += taken
