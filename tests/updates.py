#!/usr/bin/env python3
"""Foretells what an update of a volume writes, block by block from docs/FORMAT.md: a file that is put, records that are added to one, a file
that is erased, one that is renamed, and stamps that are moved by a century.

    tests/updates.py [SEEDS]       tries each of them on volumes of tests/volumes.py and on small ones, and looks at what stands then

Other tests take `put`, `append`, `erase`, `rename` and `century` from here. Each gives the blocks with their bytes in the order in which they are
written: all but the last, a sync, the last, which is the label, a sync. They raise Full where too few blocks are free. A file that is put
or added to gets the date of the update.

A try looks at this: the volume with these blocks is read, and its files are as they must be; no block is written in which the volume
before stands, but for the label; no more blocks are written than the update needs, and two; lost blocks stay lost.
"""

import random
import struct
import sys
from typing import NamedTuple

import volumes
from volume import DATE, entry, levels, up
from volumes import NOT_BEGUN, File, Reader, Row, bits_of, own_rows

ENTRY = 64


class Full(Exception):
    """There are fewer free blocks than the update needs."""


def psize_of(form):
    return {"F": 4, "V": 12}[form]


# ---- trees that keep blocks of those before


class Shared(NamedTuple):
    """A tree that keeps blocks of the tree before: its levels, the data blocks first, and the places that are new on each of them."""

    tiers: list
    new: list

    @classmethod
    def over(cls, old, count, fan, written, numbers):
        """The tree of so many data blocks of which these are written, where the tree before has these levels."""
        tiers, new = [[*old[0][:count], *[0] * (count - len(old[0]))]], [sorted(written)]
        for place in new[0]:
            tiers[0][place] = next(numbers)
        for level in range(1, levels(fan, count) + 1):
            size = fan**level
            kept = [cls.keeps(old, level, place, size, count, written) for place in range(up(count, size))]
            tiers.append([old[level][place] if whole else next(numbers) for place, whole in enumerate(kept)])
            new.append([place for place, whole in enumerate(kept) if not whole])
        return cls(tiers, new)

    @staticmethod
    def keeps(old, level, place, size, count, written):
        end = min((place + 1) * size, count)
        same = level < len(old) and min((place + 1) * size, len(old[0])) == end
        return same and not any(place * size <= number < end for number in written)

    def left(self, old):
        """The blocks of the tree before that it doesn't have."""
        return {number for tier in old for number in tier} - {number for tier in self.tiers for number in tier}

    def taken(self):
        """How many blocks are new."""
        return sum(map(len, self.new))

    def numbers(self):
        """The new blocks."""
        return {tier[place] for tier, new in zip(self.tiers, self.new) for place in new}

    def nodes(self, size):
        """The new pointer blocks at F with their bytes, in order."""
        fan = size // 4
        for level in range(1, len(self.tiers)):
            for place in self.new[level]:
                below = self.tiers[level - 1][place * fan : (place + 1) * fan]
                yield self.tiers[level][place], struct.pack(f">{len(below)}I", *below).ljust(size, b"\0")

    def data(self, bytes_, size):
        """The new data blocks with their bytes, in order."""
        for place in self.new[0]:
            yield self.tiers[0][place], bytes_[place * size : (place + 1) * size].ljust(size, b"\0")


def fresh_count(before, count, fan, written):
    """How many blocks a tree of so many data blocks takes, where these are written and the tree before has so many."""
    old = [[1] * up(before, fan**level) for level in range(levels(fan, before) + 1)] if before else [[]]
    return Shared.over(old, count, fan, written, iter([0] * (2 * count + 2))).taken()


def tree_blocks(count, fan):
    """The data blocks and pointer blocks of a tree with so many data blocks."""
    return fresh_count(0, count, fan, range(count))


# ---- the file that is written


class Content(NamedTuple):
    """A file that is written: what it is to be, and the levels and pointers of the tree before."""

    file: File
    mode: int
    before: list
    pointers: list
    written: range

    def count(self, size):
        return up(len(self.file.data()[0]), size)

    def fan(self, size):
        return size // psize_of(self.file.form)

    def tree(self, size, numbers):
        return Shared.over(self.before, self.count(size), self.fan(size), self.written, numbers)

    def marks(self, size):
        """Of each data block how many records begin up to its end, and the place of the first that begins in it."""
        places, marks, begun = self.file.data()[1], [], 0
        for nth in range(self.count(size)):
            begins = []
            while begun < len(places) and places[begun] < (nth + 1) * size:
                begins.append(places[begun] % size)
                begun += 1
            marks.append((begun, begins[0] if begins else NOT_BEGUN))
        return marks

    def pointer(self, tree, marks, level, place, size):
        """The pointer to the block of a level in the tree; words of the pointer before stay where what they tell of is kept."""
        number = struct.pack(">I", tree.tiers[level][place])
        if self.file.form == "F":
            return number
        width = self.fan(size) ** level
        first, end = place * width, min((place + 1) * width, len(tree.tiers[0]))
        last, begins = struct.pack(">I", marks[end - 1][0]), struct.pack(">I", marks[first][1])
        if level < len(self.pointers) and place < len(self.pointers[level]) and first not in self.written:
            old = self.pointers[level][place]
            begins = old[8:12]
            if place not in tree.new[level]:
                last = old[4:8]
        return number + last + begins

    def blocks(self, tree, size):
        """Its data blocks in order, and each pointer block as soon as the block of its last pointer is written."""
        data, marks, fan = self.file.data()[0], self.marks(size), self.fan(size)
        count = len(tree.tiers[0])
        for leaf in self.written:
            yield tree.tiers[0][leaf], data[leaf * size : (leaf + 1) * size].ljust(size, b"\0")
            for level in range(1, len(tree.tiers)):
                place = leaf // fan**level
                if leaf + 1 != min((place + 1) * fan**level, count):
                    break
                below = range(place * fan, min((place + 1) * fan, len(tree.tiers[level - 1])))
                cells = [self.pointer(tree, marks, level - 1, child, size) for child in below]
                yield tree.tiers[level][place], b"".join(cells).ljust(size, b"\0")

    def row(self, key, tree, date, size):
        """Its entry."""
        name, kind = (part.ljust(8).encode("cp037") for part in key)
        longest, psize = max(map(len, self.file.records)), psize_of(self.file.form)
        row = entry(name, kind, self.file.form, longest, tree.tiers[-1][0], len(tree.tiers[0]), len(self.file.records), psize, size)
        return row[:25] + bytes([self.mode]) + row[26:54] + date + row[60:]


# ---- the update


class Edit(NamedTuple):
    """What becomes of a volume: its entries then, the numbers of those that are made anew, the blocks that are given back, and the file that
    is written, with its name and the place of its entry."""

    rows: list
    made: set
    gone: set
    key: tuple = ()
    place: int = 0
    content: Content = None


def spelled(row):
    """The bytes of an entry as they are written: its fields, and zeros between them."""
    psize = 4 if row[30] == 0xC6 else 12
    return row[0:16] + bytes(8) + b"\xc1" + row[25:26] + bytes(4) + row[30:31] + bytes([row[31] & 8]) + row[32:36] + bytes(4) + row[40:53] + bytes([psize]) + row[54:60] + bytes(4)


def listed_by(edit, size):
    """The data blocks of the directory that are written, and how many there are then."""
    count = up(ENTRY * (len(edit.rows) + 2), size)
    return {at for number in edit.made if (at := ENTRY * number // size) < count}, count


def needs(reader, found, edit):
    """How many free blocks an update needs: the file's, those of the directory that it writes but for its first, and a map."""
    size, (written, count) = reader.size, listed_by(edit, reader.size)
    before, marks = up(ENTRY * len(reader.rows), size), up(up(found.blocks, 8), size)
    own = edit.content.tree(size, iter([0] * (2 * edit.content.count(size) + 2))).taken() if edit.content else 0
    return own + fresh_count(before, count, size // 4, written) - 1 + tree_blocks(marks, size // 4)


def writes(reader, found, edit, date):
    """The blocks that an update writes, with their bytes, in order."""
    size, need = reader.size, needs(reader, found, edit)
    if need > len(found.free):
        raise Full
    lowest, origin = found.free[:need], 9 - found.origin
    numbers, rows, file, own = iter(lowest), list(edit.rows), [], set()
    gone = set(edit.gone)
    if edit.content:
        tree = edit.content.tree(size, numbers)
        file, own = list(edit.content.blocks(tree, size)), tree.numbers()
        gone |= tree.left(edit.content.before)
        rows[edit.place] = edit.content.row(edit.key, tree, date, size)
    (old, _), (old_map, _) = (reader.levels(Row.of(row)) for row in reader.rows[:2])
    written, count = listed_by(edit, size)
    listing = Shared.over(old, count, size // 4, written, iter([origin, *numbers]))
    taken = listing.taken() - 1
    numbers = iter(lowest[len(own) + taken :])
    gone |= {number for number in listing.left(old) if number > 5}
    turned = {*lowest, *gone, *(number for tier in old_map for number in tier)} if own or taken or gone else set()
    marks = up(up(found.blocks, 8), size)
    maps = Shared.over(old_map, marks, size // 4, {(number - 1) // (8 * size) for number in turned}, numbers)
    fresh = {number for number in own | listing.numbers() | maps.numbers() if number > 5}
    used = set(range(1, found.blocks + 1)) - set(found.free) - gone - maps.left(old_map) | fresh
    heads = own_rows(listing.tiers[-1][0], len(rows) + 2, maps.tiers[-1][0], marks, date, size)
    first, *behind = listing.data(b"".join([*heads, *map(spelled, rows)]), size)
    head = bytearray(reader.block(3))
    head[16:20], head[32:36] = struct.pack(">I", origin), struct.pack(">I", len(used))
    blocks = [*file, *behind, *listing.nodes(size), *maps.data(bits_of(used, marks * size), size), *maps.nodes(size)]
    return [*blocks, first, (3, bytes(head))]


def opened(image, size):
    reader = Reader(image, size)
    return reader, reader.read()


def told(reader, found):
    """The entries of files as they are written: at V each tells the length of its longest record, whatever stood there."""
    longest = (max(map(len, file.records)) for file in found.files.values())
    return [row[:32] + struct.pack(">I", length) + row[36:] for row, length in zip(reader.rows[2:], longest)]


def put(image, size, key, file, date, mode=0xF1):
    """The writes of a file that is put: it takes the place of the one of its name, or stands last."""
    reader, found = opened(image, size)
    rows, place, gone = told(reader, found), len(found.files), set()
    if key in found.files:
        place = list(found.files).index(key)
        gone, mode = set(reader.trees[place + 2]), rows[place][25]
    else:
        rows.append(bytes(ENTRY))
    content = Content(file, mode, [[]], [], range(up(len(file.data()[0]), size)))
    return writes(reader, found, Edit(rows, {0, place + 2}, gone, key, place, content), date)


def append(image, size, key, more, date):
    """The writes of records that are added to the file of a name: its full data blocks stay."""
    reader, found = opened(image, size)
    rows, place, old = told(reader, found), list(found.files).index(key), found.files[key]
    file = File(old.form, [*old.records, *more])
    before, pointers = reader.levels(Row.of(rows[place]))
    kept, count = len(old.data()[0]) // size, up(len(file.data()[0]), size)
    content = Content(file, rows[place][25], before, pointers, range(kept, count))
    return writes(reader, found, Edit(rows, {0, place + 2}, set(), key, place, content), date)


def erased(reader, found, key):
    rows, place = told(reader, found), list(found.files).index(key)
    made = {0, place + 2, len(rows) + 1}
    rows[place] = rows[-1]
    return Edit(rows[:-1], made, set(reader.trees[place + 2]))


def erase(image, size, key, date):
    """The writes of a file that goes: the last entry takes its place."""
    reader, found = opened(image, size)
    return writes(reader, found, erased(reader, found, key), date)


def erase_needs(image, size, key):
    """How many free blocks the erase of a file needs."""
    reader, found = opened(image, size)
    return needs(reader, found, erased(reader, found, key))


def rename(image, size, key, name, date):
    """The writes of a file that gets another name."""
    reader, found = opened(image, size)
    rows, place = told(reader, found), list(found.files).index(key)
    rows[place] = b"".join(part.ljust(8).encode("cp037") for part in name) + rows[place][16:]
    return writes(reader, found, Edit(rows, {0, place + 2}, set()), date)


def year(row):
    """The year of an entry's stamp."""
    return (2000 if row[31] & 8 else 1900) + 10 * (row[54] >> 4) + row[54] % 16


def moved(row, pivot):
    """An entry whose stamp is a century later where it lies before the pivot."""
    return row[:31] + b"\x08" + row[32:] if year(row) < 1900 + pivot else row


def century(image, size, pivot, date):
    """The writes of stamps that are moved: all entries are made anew."""
    reader, found = opened(image, size)
    rows = [moved(row, pivot) for row in told(reader, found)]
    return writes(reader, found, Edit(rows, set(range(len(rows) + 2)), set()), date)


def years(image, size):
    """The years of the files' stamps."""
    return [year(row) for row in opened(image, size)[0].rows[2:]]


def done(image, size, blocks):
    """The image with these blocks."""
    after = bytearray(image)
    for number, data in blocks:
        after[(number - 1) * size : number * size] = data
    return bytes(after)


# ---- tries

# Years of a century, as two digits.
YEARS = (0x00, 0x01, 0x69, 0x70, 0x99)


def odd(image, size, chosen):
    """The image with other bytes where none is read: in the words of V's pointers, behind a pointer block's last pointer and a file's last
    record, in entries between their fields and behind the last, in the record length of V's, in the bits of their flags that tell nothing, and
    in the bits of blocks 1 to 5 and behind the last block. Its files have stamps of some years of both centuries."""
    reader, found = opened(image, size)
    after = bytearray(image)

    def scatter(number, start, end):
        at = (number - 1) * size
        after[at + start : at + end] = chosen.randbytes(end - start)

    for place, raw in enumerate(reader.rows):
        row = Row.of(raw)
        tiers, pointers = reader.levels(row)
        psize = 4 if row.form == 0xC6 else 12
        fan = size // psize
        for level in range(1, len(tiers)):
            for nth, number in enumerate(tiers[level]):
                held = min(fan, len(tiers[level - 1]) - nth * fan)
                scatter(number, held * psize, size)
                for cell in range(held if psize == 12 else 0):
                    scatter(number, cell * psize + 4, cell * psize + 12)
        if place > 1:
            left = len(list(found.files.values())[place - 2].data()[0]) % size
            scatter(tiers[0][-1], left or size, size)
        entry_at = (reader.levels(Row.of(reader.rows[0]))[0][0][ENTRY * place // size], ENTRY * place % size)
        for start, end in ((16, 25), (26, 30), (36 if row.form == 0xC6 else 32, 40), (60, 64)):
            scatter(entry_at[0], entry_at[1] + start, entry_at[1] + end)
        stamp = (entry_at[0] - 1) * size + entry_at[1]
        after[stamp + 31], after[stamp + 54] = chosen.randrange(256), chosen.choice(YEARS)
    leaves = reader.levels(Row.of(reader.rows[0]))[0][0]
    scatter(leaves[-1], (ENTRY * len(reader.rows) - 1) % size + 1, size)
    marks = reader.levels(Row.of(reader.rows[1]))[0][0]
    after[(marks[0] - 1) * size] ^= 0xF8 & chosen.randrange(256)
    scatter(marks[-1], up(found.blocks, 8) - (len(marks) - 1) * size, size)
    return bytes(after)


def small(chosen):
    """A small volume: a file or a few, whose data blocks are about as many as a pointer block has pointers."""
    kind = volumes.Kind(blocks=chosen.choice((600, 4090, 4097, 8300)), origin=chosen.choice((4, 5)), files=0, lost=chosen.randrange(4))
    files = {}
    for nth in range(chosen.choice((1, 5, 6, 7, 14, 15))):
        form = chosen.choice("FV")
        edge = {"F": 128, "V": 42}[form] if nth == 0 else 1
        total = max(1, edge * volumes.SIZE * chosen.choice((1, 1, 2)) + chosen.choice((-600, -2, -1, 0, 1, 2, 300)))
        files[f"S{nth:03}", "DATA"] = File(form, filling(form, total, chosen))
    return kind, files


def filling(form, total, chosen):
    """Records that fill about so many bytes."""
    if form == "F":
        length = chosen.choice((1, 80, 512, 700))
        return [chosen.randbytes(length) for _ in range(max(1, total // length))]
    records = []
    while total > 2:
        length = min(total - 2, chosen.choice((1, 5, 400, 510, 1600)))
        records.append(chosen.randbytes(length))
        total -= length + 2
    return records or [b"\xc1"]


def more_for(file, chosen):
    """Records that may be added to a file: one, or some that fill a block or a few."""
    if file.form == "V":
        return filling("V", chosen.choice((3, 514, 600, 3000)), chosen)
    return [chosen.randbytes(len(file.records[0])) for _ in range(chosen.choice((1, 2, 7)))]


def dropped(files, key):
    """The files where one has gone: the last of them stands in its place."""
    rest, last = dict(files), list(files)[-1]
    rest.pop(key)
    if last == key:
        return rest
    return {last if name == key else name: files[last if name == key else name] for name in files if name != last}


class Try(NamedTuple):
    """An update: what it is called, what it writes, the files then."""

    name: str
    blocks: list
    files: dict
    years: list = None


def tries(image, size, chosen):
    """An update of each kind."""
    files = volumes.read(image, size).files
    key, new = chosen.choice(list(files)), ("NEW", "FILE")
    more, file = more_for(files[key], chosen), files[chosen.choice(list(files))]
    longer = File(files[key].form, [*files[key].records, *more])
    renamed = {new if name == key else name: each for name, each in files.items()}
    yield Try("append", append(image, size, key, more, DATE), {**files, key: longer})
    yield Try("put", put(image, size, new, file, DATE), {**files, new: file})
    yield Try("replace", put(image, size, key, file, DATE), {**files, key: file})
    yield Try("erase", erase(image, size, key, DATE), dropped(files, key))
    yield Try("rename", rename(image, size, key, new, DATE), renamed)
    for pivot in (0, 70, 100):
        later = [each + 100 if each < 1900 + pivot else each for each in years(image, size)]
        yield Try(f"century {pivot}", century(image, size, pivot, DATE), files, later)


def untold(image, size, written):
    """A file whose entry stands in a written block and tells another length than that of its longest record, if there is one."""
    reader, found = opened(image, size)
    leaves = reader.levels(Row.of(reader.rows[0]))[0][0]
    for place, (row, should) in enumerate(zip(reader.rows[2:], told(reader, found)), 2):
        if leaves[ENTRY * place // size] in written and row != should:
            return list(found.files)[place - 2]
    return None


def is_wrong(image, size, update):
    """What is wrong with what is foretold of an update, if anything is."""
    reader, before = opened(image, size)
    after = volumes.read(done(image, size, update.blocks), size)
    stands = {number for tree in reader.trees for number in tree} | {before.origin}
    if list(after.files.items()) != list(update.files.items()):
        return "the files are others"
    if untold(done(image, size, update.blocks), size, {number for number, _ in update.blocks}):
        return "an entry tells another length than that of its longest record"
    if update.years not in (None, years(done(image, size, update.blocks), size)):
        return "the years are others"
    if stands & {number for number, _ in update.blocks}:
        return "a block is written in which the volume before stands"
    if before.lost != after.lost:
        return "other blocks are lost"
    if len({number for number, _ in update.blocks}) != len(update.blocks):
        return "a block is written twice"
    return None


def tried(name, image, size, chosen):
    for update in tries(image, size, chosen):
        if wrong := is_wrong(image, size, update):
            sys.exit(f"{name}: {update.name}: {wrong}")
        print(f"{name}: {update.name} writes {len(update.blocks)} blocks")


# Rows of trees: data blocks before and then, pointers of a block, written data blocks, and how many blocks are taken.
ROWS = [(300, 301, 128, [300], 3), (42, 43, 42, [42], 3), (3, 3, 128, [0, 2], 3), (130, 129, 128, [0], 4), (2, 1, 128, [0], 1), (1, 2, 128, [0, 1], 3)]


def main():
    if len(sys.argv) > 2:
        sys.exit(__doc__)
    for before, count, fan, written, taken in ROWS:
        if fresh_count(before, count, fan, written) != taken:
            sys.exit(f"{before} to {count} data blocks, of which {written} are written: not {taken} blocks")
    for name, kind in volumes.VOLUMES.items():
        if kind.free < 0:
            tried(name, volumes.make(kind)[0], volumes.SIZE, random.Random(name))
    for seed in range(int(sys.argv[1]) if sys.argv[1:] else 100):
        chosen = random.Random(seed)
        image = volumes.made(*small(chosen), chosen)
        tried(f"small {seed}", image, volumes.SIZE, chosen)
        tried(f"odd {seed}", odd(image, volumes.SIZE, chosen), volumes.SIZE, chosen)


if __name__ == "__main__":
    main()
