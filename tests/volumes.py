#!/usr/bin/env python3
"""Makes and reads volumes whose directory, map and files have several blocks and pointer blocks, byte by byte from docs/FORMAT.md.

    tests/volumes.py FOLDER               makes each volume of VOLUMES in the folder as NAME.img, and says what is on it
    tests/volumes.py IMAGE BLOCK-SIZE     says what is on an image, or the reason why it is no minidisk

Other tests take `make` and `read` from here; tests/updates.py foretells what an update of such a volume writes. Blocks are taken in a
mixed order, so that free ones lie between them, but where a volume is to be in order.
"""

import pathlib
import random
import re
import struct
import sys
from typing import NamedTuple

from volume import DATE, entry, levels, up

NOT_BEGUN = 0xFFFFFFFF
NAME = re.compile(r"[A-Z0-9$#@+\-:_]+ *")
DAYS = (31, 29, 31, 30, 31, 30, 31, 31, 30, 31, 30, 31)


class File(NamedTuple):
    """A file's format, F or V, and its records."""

    form: str
    records: list

    def data(self):
        """The bytes of its data blocks, and the places at which records begin, which only V's pointers tell."""
        if self.form == "F":
            return b"".join(self.records), []
        data, places = bytearray(), []
        for record in self.records:
            places.append(len(data))
            data += struct.pack(">H", len(record)) + record
        return bytes(data), places


class Kind(NamedTuple):
    """What a volume is to be: its blocks, its origin, how many files it has, and how many blocks are to be free or lost.

    Of as many files as `odd` says, one has the type ODD. In order, block 6 and those behind it are taken one after another.
    """

    blocks: int
    origin: int
    files: int
    lost: int
    free: int = -1
    odd: int = 0
    in_order: bool = False


# With blocks of 512 bytes a map block has the bits of 4,096 blocks, and the fan is 128 at F and 42 at V.
SIZE = 512
VOLUMES = {
    # a level of pointers over 38 directory blocks and 10 map blocks
    "wide": Kind(blocks=40000, origin=4, files=300, lost=7),
    # two levels over 138 directory blocks, from block 5 on
    "deep": Kind(blocks=40000, origin=5, files=1100, lost=0),
    # the erase of the first file finds as many free blocks as it needs, or one fewer
    "enough": Kind(blocks=8200, origin=4, files=300, lost=0, free=6),
    "full": Kind(blocks=8200, origin=4, files=300, lost=0, free=5),
    # the erase of the last entry leaves a directory of one block fewer
    "shrinking": Kind(blocks=40000, origin=5, files=303, lost=1),
    # the erase of any file leaves the second of its directory's lower pointer blocks a data block fewer, and none of these is written
    "narrowing": Kind(blocks=12000, origin=4, files=1031, lost=2),
    # three of its files have a type of their own
    "listed": Kind(blocks=8200, origin=5, files=40, lost=2, odd=13),
}


def files_of(kind):
    """The files of such a volume, by name and type: most have a block or a few, two of the first have two levels of pointers."""
    files = {}
    for nth in range(kind.files):
        form, count = "FV"[nth % 3 == 1], 1 + nth % 40
        if nth in (3, 4):
            count = 900
        text = f"FILE {nth} RECORD "
        records = [(text + str(k)).ljust(80 if form == "F" else k % 90) for k in range(count)]
        file_type = "ODD" if kind.odd and nth % kind.odd == 1 else "DATA"
        files[f"F{nth:05}", file_type] = File(form, [record.encode("cp037") for record in records])
    return files


class Writer:
    """The blocks of a volume that are written, in order, at numbers that are taken in a given order."""

    def __init__(self, numbers, size):
        self.numbers = iter(numbers)
        self.size = size
        self.written = {}

    def fresh(self, count):
        return [next(self.numbers) for _ in range(count)]

    def put(self, data, psize=4, places=(), first=None):
        """Writes a tree over these bytes, data blocks first and then pointers, the lowest level first. Gives its root and data blocks."""
        size, count = self.size, up(len(data), self.size)
        leaves = [first, *self.fresh(count - 1)] if first else self.fresh(count)
        nodes, begun = [], 0
        for nth, leaf in enumerate(leaves):
            self.written[leaf] = data[nth * size : (nth + 1) * size].ljust(size, b"\0")
            begins = [place for place in places if nth * size <= place < (nth + 1) * size]
            begun += len(begins)
            nodes.append((leaf, begun, begins[0] % size if begins else NOT_BEGUN))
        fan = size // psize
        while len(nodes) > 1:
            below, nodes = nodes, []
            for start in range(0, len(below), fan):
                part = below[start : start + fan]
                number = self.fresh(1)[0]
                self.written[number] = b"".join(struct.pack(">III", *node)[:psize] for node in part).ljust(size, b"\0")
                nodes.append((number, part[-1][1], part[0][2]))
        return nodes[0][0], count


def front(kind, files, chosen):
    """The blocks from 6 on in the order in which they are taken: mixed, with about a third of the front left free, or in their order."""
    if kind.in_order:
        return range(6, kind.blocks + 1)
    data = sum(up(len(file.data()[0]), SIZE) + 2 for file in files.values())
    last = min(kind.blocks, 300 + (data + kind.files // 8) * 3 // 2)
    numbers = list(range(6, last + 1))
    chosen.shuffle(numbers)
    return numbers + list(range(last + 1, kind.blocks + 1))


def make(kind, seed=1):
    """An image of such a volume, and its files."""
    files = files_of(kind)
    return made(kind, files, random.Random(seed)), files


def made(kind, files, chosen):
    """An image of such a volume with these files."""
    writer = Writer(front(kind, files, chosen), SIZE)
    rows = []
    for (name, kinds), file in files.items():
        data, places = file.data()
        psize = 4 if file.form == "F" else 12
        root, count = writer.put(data, psize, places)
        longest = max(len(record) for record in file.records)
        key = name.ljust(8).encode("cp037"), kinds.ljust(8).encode("cp037")
        rows.append(entry(*key, file.form, longest, root, count, len(file.records), psize, SIZE))
    marks = up(up(kind.blocks, 8), SIZE)
    map_root, _ = writer.put(bytes(marks * SIZE))
    count = len(rows) + 2
    root, listing = writer.put(bytes(64 * count), first=kind.origin)
    fill(writer, root, listing, b"".join([*own_rows(root, count, map_root, marks, DATE, SIZE), *rows]))

    used = {1, 2, 3, 4, 5, *writer.written}
    unused = [number for number in range(6, kind.blocks + 1) if number not in used]
    lost = len(unused) - kind.free if kind.free >= 0 else kind.lost
    used.update(chosen.sample(unused, lost))
    fill(writer, map_root, marks, bits_of(used, marks * SIZE))
    writer.written[3] = label(kind, len(used))

    image = bytearray(kind.blocks * SIZE)
    for number, block in writer.written.items():
        image[(number - 1) * SIZE : number * SIZE] = block
    return bytes(image)


def own_rows(root, count, map_root, marks, date, size):
    """The entries of a directory with so many entries, and of a map of so many blocks, with a date of the years from 2000 on."""
    listed = entry(b"\0\0\0\1\0\0\0\0", "DIRECTOR".encode("cp037"), "F", 64, root, up(64 * count, size), count, 4, size)
    marked = entry(b"\0\0\0\2\0\0\0\0", "ALLOCMAP".encode("cp037"), "F", size, map_root, marks, marks, 4, size)
    return [row[:54] + date + row[60:] for row in (listed, marked)]


def bits_of(used, length):
    bits = bytearray(length)
    for number in used:
        bits[(number - 1) // 8] |= 0x80 >> (number - 1) % 8
    return bytes(bits)


def fill(writer, root, count, data):
    """Writes other bytes to the data blocks of a tree at F."""
    size, numbers = writer.size, [root]
    for _ in range(levels(size // 4, count)):
        numbers = [word for number in numbers for (word,) in struct.iter_unpack(">I", writer.written[number]) if word]
    for nth, number in enumerate(numbers):
        writer.written[number] = data[nth * size : (nth + 1) * size].ljust(size, b"\0")


def label(kind, used):
    block = bytearray(SIZE)
    block[0:10] = b"\xc3\xd4\xe2\xf1" + "TREES1".encode("cp037")
    for at, value in ((12, SIZE), (16, kind.origin), (28, kind.blocks), (32, used), (36, 64)):
        block[at : at + 4] = struct.pack(">I", value)
    return bytes(block)


class Refused(Exception):
    """The image is no minidisk, for the reason of this number."""


class Found(NamedTuple):
    """What is on a volume: its files by name and type, in the order of the directory; free and lost blocks; its label's origin."""

    files: dict
    free: list
    lost: list
    origin: int
    blocks: int


class Row(NamedTuple):
    """The fields of an entry that are read."""

    name: bytes
    mode: int
    form: int
    length: int
    root: int
    count: int
    records: int
    levels: int
    psize: int
    date: bytes

    @classmethod
    def of(cls, row):
        return cls(row[0:16], row[25], row[30], *struct.unpack(">I4xIII", row[32:52]), row[52], row[53], row[54:60])


class Reader:
    """A reading of an image, test by test in the order of opening."""

    def __init__(self, image, size):
        self.image, self.size = image, size
        held = min(len(image) // size, 1048576)
        head = self.block(3) if held >= 6 else bytes(size)
        bsize, self.origin, self.last, width = struct.unpack(">II8xI4xI", head[12:40])
        self.want(head[0:4] == b"\xc3\xd4\xe2\xf1" and bsize == size and self.origin in (4, 5), 2)
        self.want(6 <= self.last <= held and width == 64, 2)

    @staticmethod
    def want(holds, reason):
        if not holds:
            raise Refused(reason)

    def block(self, number):
        return self.image[(number - 1) * self.size : number * self.size]

    def tree(self, row, first=None):
        """The blocks of a tree, each pointer block before those below it, and its data blocks."""
        psize = 4 if row.form == 0xC6 else 12
        met, leaves = [], []

        def walk(number, depth, count):
            leads = first if depth == 0 and not leaves else None
            self.want(number == leads if leads else 6 <= number <= self.last, 4)
            met.append(number)
            if depth == 0:
                leaves.append(number)
                return
            room = (self.size // psize) ** (depth - 1)
            for at, done in enumerate(range(0, count, room)):
                word = self.block(number)[at * psize : at * psize + 4]
                walk(int.from_bytes(word, "big"), depth - 1, min(room, count - done))

        walk(row.root, levels(self.size // psize, row.count), row.count)
        return met, leaves

    def levels(self, row):
        """The blocks of a tree, level by level, its data blocks first; and the pointers to those of each level but the highest."""
        psize = 4 if row.form == 0xC6 else 12
        tiers, pointers, fan = [[row.root]], [], self.size // psize
        for level in range(levels(fan, row.count) - 1, -1, -1):
            held = b"".join(self.block(number)[: fan * psize] for number in tiers[0])
            cells = [held[at : at + psize] for at in range(0, len(held), psize)][: up(row.count, fan**level)]
            tiers.insert(0, [int.from_bytes(cell[:4], "big") for cell in cells])
            pointers.insert(0, cells)
        return tiers, pointers

    def data(self, leaves):
        return b"".join(map(self.block, leaves))

    def own(self, row, length, low, high):
        """Whether the row describes the directory or the map."""
        whole = row.form == 0xC6 and row.length == length and low <= row.records <= high
        return whole and row.count == up(row.records * length, self.size) and row.levels == levels(self.size // 4, row.count)

    def is_entry(self, row):
        psize = {0xC6: 4, 0xE5: 12}.get(row.form)
        if not all(NAME.fullmatch(row.name[at : at + 8].decode("cp037")) for at in (0, 8)):
            return False
        if not 0xF0 <= row.mode <= 0xF6 or psize is None or not 1 <= row.records <= 1048576:
            return False
        total = row.records * row.length
        if psize == 4 and not (1 <= row.length <= 65535 and total <= 67108864 and row.count == up(total, self.size)):
            return False
        if psize == 12 and not 1 <= row.count <= 67108864 // self.size:
            return False
        depth = levels(self.size // psize, row.count)
        return row.levels == depth and (depth == 0 or row.psize == psize) and is_date(row.date)

    def records(self, row, leaves):
        """The records of a file, or none at V where they don't fill its blocks."""
        data = self.data(leaves)
        if row.form == 0xC6:
            return [data[k * row.length : (k + 1) * row.length] for k in range(row.records)]
        found, at = [], 0
        for _ in range(row.records):
            length = int.from_bytes(data[at : at + 2], "big")
            self.want(length and at + 2 + length <= len(data), 7)
            found.append(data[at + 2 : at + 2 + length])
            at += 2 + length
        self.want(len(data) - at < self.size, 7)
        return found

    def read(self):
        own = Row.of(self.block(self.origin)[0:64])
        self.want(self.own(own, 64, 2, 16386) and (own.levels or own.root == self.origin), 9)
        listed, leaves = self.tree(own, self.origin)
        listing = self.data(leaves)
        self.rows = [listing[64 * k : 64 * k + 64] for k in range(own.records)]
        rows = [Row.of(row) for row in self.rows]
        marks = up(up(self.last, 8), self.size)
        self.want(self.own(rows[1], self.size, marks, marks), 9)
        self.want(all(map(self.is_entry, rows[2:])), 3)
        self.want(len({row.name for row in rows[2:]}) == len(rows) - 2, 8)
        trees = [self.tree(row) for row in rows[1:]]
        self.trees = [listed, *(tree for tree, _ in trees)]
        met = [number for tree in self.trees for number in tree]
        self.want(len(set(met)) == len(met), 5)
        bits = self.data(trees[0][1])
        marked = {number for number in range(1, self.last + 1) if bits[(number - 1) // 8] >> 7 - (number - 1) % 8 & 1}
        self.want(all(number in marked for number in met if number > 5), 6)
        files = {}
        for row, (_, leaves) in zip(rows[2:], trees[1:]):
            key = tuple(row.name[at : at + 8].decode("cp037").rstrip() for at in (0, 8))
            files[key] = File("F" if row.form == 0xC6 else "V", self.records(row, leaves))
        lost = sorted(number for number in marked - set(met) if number > 5)
        free = [number for number in range(6, self.last + 1) if number not in marked]
        return Found(files, free, lost, self.origin, self.last)


def is_date(date):
    if any(digit > 9 for byte in date for digit in divmod(byte, 16)):
        return False
    year, month, day, hour, minute, second = (10 * (byte >> 4) + byte % 16 for byte in date)
    if not 1 <= month <= 12 or not 1 <= day <= DAYS[month - 1] or (month, day) == (2, 29) and year % 4:
        return False
    return hour < 24 and minute < 60 and second < 60


def read(image, size):
    """What is on an image; Refused, with the reason, where it is no minidisk."""
    return Reader(image, size).read()


def tree_blocks(count, fan):
    """The data blocks and pointer blocks of a tree with so many data blocks."""
    total = count
    while count > 1:
        count = up(count, fan)
        total += count
    return total


def said(name, found):
    free = f"{len(found.free)} free, {len(found.lost)} lost"
    return f"{name}: {len(found.files)} files, {found.blocks} blocks, {free}, origin {found.origin}"


def main():
    if len(sys.argv) == 3:
        try:
            print(said(sys.argv[1], read(pathlib.Path(sys.argv[1]).read_bytes(), int(sys.argv[2]))))
        except Refused as refused:
            sys.exit(f"{sys.argv[1]}: no minidisk, reason {refused}")
        return
    if len(sys.argv) != 2:
        sys.exit(__doc__)
    for name, kind in VOLUMES.items():
        image, files = make(kind)
        found = read(image, SIZE)
        if found.files != files or kind.free not in (-1, len(found.free)):
            sys.exit(f"{name}: it isn't read as it was made")
        path = pathlib.Path(sys.argv[1]) / f"{name}.img"
        path.write_bytes(image)
        print(said(path, found))


if __name__ == "__main__":
    main()
