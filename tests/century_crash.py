#!/usr/bin/env python3
"""Stops the program at each write and each sync of two CENTURYs in one session, and looks at what is left, as tests/stops.py says.

    tests/century_crash.py

Needs strace; it is no part of the gate. The volume has two levels of pointer blocks over its directory, and stamps of both centuries. The
writes of each CENTURY must be those that tests/updates.py foretells of it, in their order. Each image must have the files of the start with
all stamps as they were, or as one of the CENTURYs leaves them: the one that the lines typed by then tell of, or the next where one is under
way. A session on it must list the same years.
"""

import random
import sys

import stops
import updates
import volumes

SIZE = volumes.SIZE
KIND = volumes.Kind(blocks=9000, origin=5, files=1100, lost=3)
PIVOTS = (70, 100)
LOOK = b"LISTFILE * * A (FULLDATE NOHEADER\n"


class Trial(stops.Trial):
    """The session, and the years that its updates leave one after another."""

    def __init__(self, folder):
        image, self.files = volumes.make(KIND)
        image = updates.odd(image, SIZE, random.Random(1))
        super().__init__(folder, {"a": image}, SIZE, "".join(f"CENTURY A {pivot}\n" for pivot in PIVOTS).encode())
        self.states = [updates.years(image, SIZE)]
        for pivot in PIVOTS:
            self.states.append([year + 100 if year < 1900 + pivot else year for year in self.states[-1]])

    def state(self, unit, image):
        try:
            found = volumes.read(image, SIZE)
        except volumes.Refused as refused:
            sys.exit(f"not allowed: the image is no minidisk, reason {refused}")
        years = updates.years(image, SIZE)
        return self.states.index(years) if found.files == self.files and years in self.states else None

    def allowed(self, unit, typed):
        done = typed.count(stops.READY)
        return {done, done + 1} if done < len(PIVOTS) else {done}

    def looked(self, folder, states):
        looked = self.session(folder, "ro", LOOK)
        shown = [int(line.split()[7][-4:]) for line in looked.stdout.decode().splitlines()[:-1]]
        if looked.returncode != 0 or not looked.stdout.endswith(stops.READY) or shown != self.states[states["a"]]:
            sys.exit(f"not allowed: status {looked.returncode}, {looked.stdout[-100:]!r}")

    def looked_at(self, unit, image, state):
        self.looked(self.laid("left", a=image), {"a": state})

    def are_meant(self, moments):
        device = [(kind, place, data) for kind, _, place, data in moments if kind != "typed"]
        image = self.starts["a"]
        for pivot in PIVOTS:
            heads = [data for _, place, data in device if place in (3 * SIZE, 4 * SIZE)]
            date = heads[0][54:60] if heads else bytes(6)
            *blocks, label = updates.century(image, SIZE, pivot, date)
            wrote = [("write", (number - 1) * SIZE, data) for number, data in [*blocks, label]]
            meant = [*wrote[:-1], ("sync", 0, b""), wrote[-1], ("sync", 0, b"")]
            if device[: len(meant)] != meant:
                sys.exit(f"not allowed: the writes aren't those of CENTURY A {pivot}")
            device = device[len(meant) :]
            image = updates.done(image, SIZE, [*blocks, label])
        if device:
            sys.exit("not allowed: more is written than the stamps")


def main():
    if len(sys.argv) != 1:
        sys.exit(__doc__)
    stops.run(Trial)


if __name__ == "__main__":
    main()
