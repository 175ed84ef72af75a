#!/usr/bin/env python3
"""Stops the program at each write and each sync of a COPYFILE of three files, an ERASE of them, a RENAME and a LISTFILE with EXEC in one
session, and looks at what is left, as tests/stops.py says.

    tests/files_crash.py

Needs strace; it is no part of the gate. The unit is the volume `listed` of tests/volumes.py, whose directory and map have several blocks.
Each image must be the minidisk behind one of the session's eight updates, or that of the start, with its files in their order: the one
that the lines typed by then tell of, or the next where one is under way. A session on it must list the same files.
"""

import sys

import stops
import volumes

SIZE = 512
ODD = "ODD"
EVEN = "EVEN"
SCRIPT = b"COPYFILE * ODD A = EVEN A (TYPE\nERASE * ODD A (TYPE\nRENAME F00000 DATA A G00000 = =\nLISTFILE * * A (EXEC\n"
LOOK = b"LISTFILE * * A (FTYPE\n"


def without(files, key):
    """The files where one has gone: the last of them stands in its place."""
    rest, last = [each for each in files if each[0] != key], files[-1]
    place = [each[0] for each in files].index(key)
    return files[:-1] if last[0] == key else [*rest[:place], last, *rest[place:-1]]


def renamed(files, key, name):
    return [(name, file) if each == key else (each, file) for each, file in files]


def fixed(text):
    return text.ljust(80).encode("cp037")


def listed(files):
    """The procedure that LISTFILE writes of the files, behind them."""
    lines = [fixed(f"&1 &2 {name:8} {kind:8} A1") for (name, kind), _ in files]
    return [*files, (("CMS", "EXEC"), volumes.File("F", [fixed("&TRACE OFF"), *lines]))]


class Trial(stops.Trial):
    """The session, and the minidisks that it makes one after another."""

    def __init__(self, folder):
        image, files = volumes.make(volumes.VOLUMES["listed"])
        super().__init__(folder, {"a": image}, SIZE, SCRIPT)
        self.states = [list(files.items())]
        self.odd = [key for key in files if key[1] == ODD]
        for name, _ in self.odd:
            self.states.append([*self.states[-1], ((name, EVEN), files[name, ODD])])
        for key in self.odd:
            self.states.append(without(self.states[-1], key))
        self.states.append(renamed(self.states[-1], ("F00000", "DATA"), ("G00000", "DATA")))
        self.states.append(listed(self.states[-1]))

    def state(self, unit, image):
        try:
            files = list(volumes.read(image, SIZE).files.items())
        except volumes.Refused as refused:
            sys.exit(f"not allowed: the image is no minidisk, reason {refused}")
        return self.states.index(files) if files in self.states else None

    def allowed(self, unit, typed):
        copied, erased, ready = typed.count(b" TO "), typed.count(b" ODD A1\n"), typed.count(stops.READY)
        done = copied + erased + max(0, ready - 2)
        told = copied if ready == 0 else erased
        under_way = ready in (2, 3) or ready < 2 and told < len(self.odd)
        return {done, done + 1} if under_way else {done}

    def looked(self, folder, states):
        looked = self.session(folder, "ro", LOOK)
        shown = "".join(f"{name:8} {kind}\n" for (name, kind), _ in self.states[states["a"]])
        if looked.returncode != 0 or looked.stdout != shown.encode() + stops.READY:
            sys.exit(f"not allowed: status {looked.returncode}, {looked.stdout[-100:]!r}")

    def looked_at(self, unit, image, state):
        self.looked(self.laid("left", a=image), {"a": state})


def main():
    if len(sys.argv) != 1:
        sys.exit(__doc__)
    stops.run(Trial)


if __name__ == "__main__":
    main()
