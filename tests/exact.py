#!/usr/bin/env python3
"""Runs an update of each kind on volumes, and compares what is written, write by write, with what tests/updates.py foretells of it.

    tests/exact.py [SEEDS]       on 10 small volumes by default, and on those of tests/volumes.py

Needs strace; it is no part of the gate. The updates are a file that is put, one that takes the place of another, records that are added to a
file, a file that is erased, one that is renamed, and stamps that are moved by a century. Each volume is taken as it is made, and again with
bytes of another writer where none is read, and stamps of both centuries: what is kept keeps these, and what is written has those that it must have. An update that finds too few free blocks is to write nothing.
"""

import pathlib
import random
import subprocess
import sys
import tempfile
from typing import Callable, NamedTuple

import stops
import updates
import volumes

SIZE = volumes.SIZE
NEW = ("NEW", "FILE")
REFUSED = b"R(00100);\n"


class Update(NamedTuple):
    """An update: its line, and what is foretold of its writes on an image with a date."""

    line: str
    foretold: Callable


def said(key):
    return f"{key[0]} {key[1]} A"


def updates_of(files, chosen):
    """An update of each kind of a volume with these files."""
    key, other = chosen.choice(list(files)), chosen.choice(list(files))
    count = chosen.choice((1, 1, len(files[key].records)))
    more, file = files[key].records[:count], files[other]
    yield Update(f"COPYFILE {said(key)} {said(key)} (APPEND FOR {count}", lambda image, date: updates.append(image, SIZE, key, more, date))
    yield Update(f"COPYFILE {said(other)} {said(NEW)}", lambda image, date: updates.put(image, SIZE, NEW, file, date))
    yield Update(f"COPYFILE {said(other)} {said(key)} (REPLACE", lambda image, date: updates.put(image, SIZE, key, file, date))
    yield Update(f"ERASE {said(key)}", lambda image, date: updates.erase(image, SIZE, key, date))
    yield Update(f"RENAME {said(key)} {said(NEW)}", lambda image, date: updates.rename(image, SIZE, key, NEW, date))
    pivot = chosen.choice((0, 1, 70, 100))
    yield Update(f"CENTURY A {pivot}", lambda image, date: updates.century(image, SIZE, pivot, date))


class Trial(stops.Trial):
    """An update of an image, of which the writes are compared."""

    def __init__(self, folder, image, update):
        super().__init__(folder, {"a": image}, SIZE, (update.line + "\n").encode())
        self.image, self.update = image, update

    def is_refused(self):
        """Whether the update is refused for want of room, with the image as it was."""
        folder = self.laid("refused")
        ended = self.session(folder, "rw", self.script)
        return ended.stdout.endswith(REFUSED) and (folder / "a.img").read_bytes() == self.image

    def wrong(self):
        """What is wrong, if anything is."""
        try:
            self.update.foretold(self.image, bytes(6))
        except updates.Full:
            return None if self.is_refused() else "it isn't refused for want of room"
        device = [(kind, place, data) for kind, _, place, data in self.recorded() if kind != "typed"]
        heads = [data for _, place, data in device if place in (3 * SIZE, 4 * SIZE)]
        *blocks, label = self.update.foretold(self.image, heads[0][54:60] if heads else bytes(6))
        wrote = [("write", (number - 1) * SIZE, data) for number, data in [*blocks, label]]
        meant = [*wrote[:-1], ("sync", 0, b""), wrote[-1], ("sync", 0, b"")]
        if device == meant:
            return None
        nth = next((nth for nth, pair in enumerate(zip(device, meant)) if pair[0] != pair[1]), min(len(device), len(meant)))
        shown = [f"{each[nth][0]} at {each[nth][1] // SIZE + 1}" if nth < len(each) else "nothing" for each in (device, meant)]
        return f"moment {nth + 1} is {shown[0]} for {shown[1]}, of {len(device)} for {len(meant)}"


def compared(folder, name, image, chosen):
    for update in updates_of(volumes.read(image, SIZE).files, chosen):
        if wrong := Trial(folder, image, update).wrong():
            sys.exit(f"{name}: {update.line}: {wrong}")
        print(f"{name}: {update.line}")


def images(seeds):
    """The volumes by name, each with what draws its updates."""
    for name, kind in volumes.VOLUMES.items():
        yield name, volumes.make(kind)[0], random.Random(name)
    for seed in range(seeds):
        chosen = random.Random(seed)
        yield f"small {seed}", volumes.made(*updates.small(chosen), chosen), chosen


def main():
    if len(sys.argv) > 2:
        sys.exit(__doc__)
    subprocess.run([stops.ROOT / "cms", "--build"], stdout=subprocess.DEVNULL, check=True)
    with tempfile.TemporaryDirectory() as folder:
        for name, image, chosen in images(int(sys.argv[1]) if sys.argv[1:] else 10):
            compared(pathlib.Path(folder), name, image, chosen)
            compared(pathlib.Path(folder), f"{name}, odd", updates.odd(image, SIZE, chosen), chosen)


if __name__ == "__main__":
    main()
