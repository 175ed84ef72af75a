#!/usr/bin/env python3
"""Makes a large volume in a new image, byte by byte from docs/FORMAT.md: tests/volume.py IMAGE [FILES BLOCKS BLOCK-SIZE].

By default 10,000 files in 262,144 blocks of 4,096 bytes. Every tenth file has records of varying length in two data blocks, the others
have records of 80 bytes in as many data blocks as there is room for. The directory, the map and all pointer blocks stand together
from block 6 on, so that one `dd` reads them; the last block of that front is printed. Data blocks of fixed records are left as holes.
"""

import pathlib
import struct
import sys

# Noon of 1 July 2026: the date, and the flags that tell its century.
DATE = bytes([0x26, 0x07, 0x01, 0x12, 0x00, 0x00])
FLAGS = 0x08
TEXT = "HELLO".encode("cp037")
VARYING = 10


def up(a, b):
    return -(-a // b)


def levels(fan, count):
    """The least number of levels that has room for so many data blocks."""
    k = 0
    while fan**k < count:
        k += 1
    return k


def entry(name, kind, form, length, root, count, records, psize, size):
    row = bytearray(64)
    row[0:16] = name + kind
    row[24:26] = b"\xc1\xf1"
    row[30:31] = form.encode("cp037")
    row[31] = FLAGS
    row[32:36] = struct.pack(">I", length)
    row[40:52] = struct.pack(">III", root, count, records)
    row[52:54] = bytes([levels(size // psize, count), psize])
    row[54:60] = DATE
    return bytes(row)


class Volume:
    def __init__(self, files, blocks, size):
        self.files, self.blocks, self.size = files, blocks, size
        self.written = {}
        self.numbers = iter(range(6, blocks + 1))
        self.rows = []

    def fresh(self, count):
        return [next(self.numbers) for _ in range(count)]

    def tree(self, leaves, psize, numbers):
        """Writes the pointer blocks over some data blocks, lowest level first, and gives the root."""
        fan = self.size // psize
        while len(leaves) > 1:
            above = []
            for start in range(0, len(leaves), fan):
                number = next(numbers)
                cells = [struct.pack(">I", leaf).ljust(psize, b"\0") for leaf in leaves[start : start + fan]]
                self.written[number] = b"".join(cells)
                above.append(number)
            leaves = above
        return leaves[0]

    def put(self, numbers, data):
        """Writes bytes to these blocks, one after another."""
        for nth, number in enumerate(numbers):
            self.written[number] = data[nth * self.size : (nth + 1) * self.size]

    def put_varying(self, name, kind, root):
        record = struct.pack(">H", len(TEXT)) + TEXT
        count = 2 * self.size // len(record)
        leaves = self.fresh(2)
        self.put(leaves, record * count)
        root = self.tree(leaves, 12, iter([root]))
        self.rows.append(entry(name, kind, "V", len(TEXT), root, 2, count, 12, self.size))

    def put_fixed(self, name, kind, root, count):
        root = self.tree(self.fresh(count), 4, iter([root]))
        self.rows.append(entry(name, kind, "F", 80, root, count, count * self.size // 80, 4, self.size))

    def put_files(self, roots, each):
        kind = "DATA    ".encode("cp037")
        for nth, root in enumerate(roots):
            name = f"F{nth:07}".encode("cp037")
            if nth % VARYING == 0:
                self.put_varying(name, kind, root)
            else:
                self.put_fixed(name, kind, root, each)

    def put_map(self, numbers, used):
        bits = bytearray(len(numbers) * self.size)
        for place in range(used):
            bits[place // 8] |= 0x80 >> (place % 8)
        self.put(numbers, bytes(bits))

    def put_label(self, used):
        label = bytearray(self.size)
        label[0:10] = b"\xc3\xd4\xe2\xf1" + "LARGE1".encode("cp037")
        for at, value in ((12, self.size), (16, 4), (28, self.blocks), (32, used), (36, 64)):
            label[at : at + 4] = struct.pack(">I", value)
        self.written[3] = bytes(label)

    def make(self):
        """Makes it all, and gives the last block of its front."""
        listing, marks = up(64 * (self.files + 2), self.size), up(up(self.blocks, 8), self.size)
        directory = [4, *self.fresh(listing - 1)]
        directory_root = self.tree(directory, 4, self.numbers)
        bitmap = self.fresh(marks)
        map_root = self.tree(bitmap, 4, self.numbers)
        self.rows.append(entry(b"\0\0\0\1\0\0\0\0", "DIRECTOR".encode("cp037"), "F", 64, directory_root, listing, self.files + 2, 4, self.size))
        self.rows.append(entry(b"\0\0\0\2\0\0\0\0", "ALLOCMAP".encode("cp037"), "F", self.size, map_root, marks, marks, 4, self.size))
        roots = self.fresh(self.files)
        varying = up(self.files, VARYING)
        self.put_files(roots, max(2, (self.blocks - roots[-1] - 2 * varying) // (self.files - varying)))
        used = self.fresh(1)[0] - 1
        self.put_map(bitmap, used)
        self.put(directory, b"".join(self.rows))
        self.put_label(used)
        return roots[-1]

    def save(self, name):
        with pathlib.Path(name).open("xb") as image:
            image.truncate(self.blocks * self.size)
            for number, block in self.written.items():
                image.seek((number - 1) * self.size)
                image.write(block)


def main():
    if len(sys.argv) not in (2, 5):
        sys.exit(__doc__)
    volume = Volume(*map(int, sys.argv[2:] or ("10000", "262144", "4096")))
    last = volume.make()
    volume.save(sys.argv[1])
    print(last)


if __name__ == "__main__":
    main()
