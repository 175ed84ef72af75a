#!/usr/bin/env python3
"""Stops the program at each write and each sync of additions to files in one session, and looks at what is left, as tests/stops.py says.

    tests/append_crash.py

Needs strace; it is no part of the gate. The volume has three map blocks, and bytes of another writer where none is read. Records are added to
files at F and at V: with two levels of pointer blocks and with none, from another file and from the file itself, many and one. The writes of
each addition must be those that tests/updates.py foretells of it, in their order, so that all that is kept stays as it was. Each image must
be the minidisk behind one of the additions, or that of the start, with its files in their order: the one that the lines typed by then tell
of, or the next where one is under way. A session on it must list the same files.
"""

import random
import sys
from typing import Callable, NamedTuple

import stops
import updates
import volumes

SIZE = volumes.SIZE
KIND = volumes.Kind(blocks=9000, origin=4, files=12, lost=3)
LOOK = b"LISTFILE * * A (ALLOC\n"


class Addition(NamedTuple):
    """A line, the file to which it adds records, and the records by the files that there are then."""

    line: str
    key: tuple
    more: Callable


def copied(source, target):
    """The records of a file behind those of another, or of itself."""
    key = (source, "DATA")
    return Addition(f"COPYFILE {source} DATA A {target} DATA A (APPEND", (target, "DATA"), lambda files: files[key].records)


def written(target, text):
    """A line behind the records of a file at V."""
    return Addition(f"EXECIO 1 DISKW {target} DATA A (STRING {text}", (target, "DATA"), lambda files: [text.encode("cp037")])


# Files 3 and 4 have two levels of pointer blocks, at F and at V; 1, 4, 7 and 10 are at V.
ADDITIONS = (
    copied("F00000", "F00003"),
    copied("F00001", "F00004"),
    copied("F00006", "F00006"),
    copied("F00007", "F00007"),
    copied("F00003", "F00003"),
    written("F00004", "ONE MORE"),
    written("F00010", "X" * 60),
)


class Trial(stops.Trial):
    """The session, and the minidisks that it makes one after another."""

    def __init__(self, folder):
        image, files = volumes.make(KIND)
        image = updates.odd(image, SIZE, random.Random(1))
        super().__init__(folder, {"a": image}, SIZE, "".join(addition.line + "\n" for addition in ADDITIONS).encode())
        self.states = [files]
        for addition in ADDITIONS:
            files = dict(self.states[-1])
            old = files[addition.key]
            files[addition.key] = volumes.File(old.form, [*old.records, *addition.more(files)])
            self.states.append(files)

    def state(self, unit, image):
        try:
            files = list(volumes.read(image, SIZE).files.items())
        except volumes.Refused as refused:
            sys.exit(f"not allowed: the image is no minidisk, reason {refused}")
        return next((nth for nth, known in enumerate(self.states) if list(known.items()) == files), None)

    def allowed(self, unit, typed):
        done = typed.count(stops.READY)
        return {done, done + 1} if done < len(ADDITIONS) else {done}

    def looked(self, folder, states):
        looked = self.session(folder, "ro", LOOK)
        files = self.states[states["a"]]
        counts = [(name, str(len(file.records))) for (name, _), file in files.items()]
        shown = [(words[0], words[5]) for words in map(str.split, looked.stdout.decode().splitlines()[1:-1])]
        if looked.returncode != 0 or not looked.stdout.endswith(stops.READY) or shown != counts:
            sys.exit(f"not allowed: status {looked.returncode}, {looked.stdout[-100:]!r}")

    def looked_at(self, unit, image, state):
        self.looked(self.laid("left", a=image), {"a": state})

    def are_meant(self, moments):
        device = [(kind, place, data) for kind, _, place, data in moments if kind != "typed"]
        image = self.starts["a"]
        for addition, files in zip(ADDITIONS, self.states):
            heads = [data for _, place, data in device if place in (3 * SIZE, 4 * SIZE)]
            date = heads[0][54:60] if heads else bytes(6)
            *blocks, label = updates.append(image, SIZE, addition.key, addition.more(files), date)
            wrote = [("write", (number - 1) * SIZE, data) for number, data in [*blocks, label]]
            meant = [*wrote[:-1], ("sync", 0, b""), wrote[-1], ("sync", 0, b"")]
            if device[: len(meant)] != meant:
                sys.exit(f"not allowed: the writes aren't those of {addition.line}")
            device = device[len(meant) :]
            image = updates.done(image, SIZE, [*blocks, label])
        if device:
            sys.exit("not allowed: more is written than the additions")


def main():
    if len(sys.argv) != 1:
        sys.exit(__doc__)
    stops.run(Trial)


if __name__ == "__main__":
    main()
