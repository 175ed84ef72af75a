#!/usr/bin/env python3
"""Stops the program at each write and each sync of an ERASE on a real image, and looks at what is left, as tests/stops.py says.

    tests/crash.py [IMAGE BLOCK-SIZE NAME TYPE]       by default HELLO TEXT of examples/disk.img; tests/volumes.py makes larger ones

Needs strace; it is no part of the gate. The writes of a whole session must be those of an erase. Each image must be a minidisk with all
files or with all but the erased one, and the latter once the ready line is typed. A plain reading of it and a session on it must agree.
"""

import pathlib
import sys

import stops
import updates
import volumes

OLD, NEW = 0, 1


class Trial(stops.Trial):
    """An ERASE of a file of an image, and what may be left of it."""

    def __init__(self, folder, image, size, name, kind):
        super().__init__(folder, {"a": image.read_bytes()}, size, f"ERASE {name} {kind} A\n".encode())
        self.key = (name, kind)
        self.old = volumes.read(self.starts["a"], size).files
        self.new = {key: file for key, file in self.old.items() if key != self.key}
        self.look = f"TYPE {name} {kind} A\n".encode()
        self.missed = f"CMS002E File {name} {kind} A not found\nR(00028);\n".encode()

    def state(self, unit, image):
        try:
            files = volumes.read(image, self.size).files
        except volumes.Refused as refused:
            sys.exit(f"not allowed: the image is no minidisk, reason {refused}")
        return OLD if files == self.old else NEW if files == self.new else None

    def allowed(self, unit, typed):
        return {NEW} if stops.READY in typed else {OLD, NEW}

    def looked(self, folder, states):
        looked = self.session(folder, "ro", self.look)
        lines = len(self.old[self.key].records) + 1
        ready = looked.stdout.endswith(stops.READY) and looked.stdout.count(b"\n") == lines
        shown = looked.stdout == self.missed if states["a"] == NEW else ready
        if looked.returncode != 0 or not shown:
            sys.exit(f"not allowed: status {looked.returncode}, {looked.stdout[-100:]!r}")

    def looked_at(self, unit, image, state):
        self.looked(self.laid("left", a=image), {"a": state})

    def are_meant(self, moments):
        device = [(kind, place, data) for kind, _, place, data in moments if kind != "typed"]
        directory = next((data for _, place, data in device if place in (3 * self.size, 4 * self.size)), bytes(60))
        *blocks, label = updates.erase(self.starts["a"], self.size, self.key, directory[54:60])
        wrote = [("write", (number - 1) * self.size, data) for number, data in [*blocks, label]]
        if device != [*wrote[:-1], ("sync", 0, b""), wrote[-1], ("sync", 0, b"")]:
            sys.exit("not allowed: the writes aren't those of an erase")


def main():
    if len(sys.argv) not in (1, 5):
        sys.exit(__doc__)
    image, size, name, kind = sys.argv[1:] or (stops.ROOT / "examples/disk.img", "512", "HELLO", "TEXT")
    stops.run(lambda folder: Trial(folder, pathlib.Path(image), int(size), name, kind))


if __name__ == "__main__":
    main()
