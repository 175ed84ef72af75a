#!/usr/bin/env python3
"""Stops the program at each write and each sync of a FORMAT and a relabelling in one session, and looks at what is left of both units,
as tests/stops.py says.

    tests/format_crash.py

Needs strace; it is no part of the gate. The first unit is the example's image, the second a volume of 40,000 blocks. The session makes the
second an empty volume, and changes the volume id of the first. Each image of the first unit must be its minidisk with the old volume id or
the new one, and each of the second its old minidisk, no volume by its label, or the empty one: each as the lines that were typed allow it,
and a session on what a kill leaves must say the same.
"""

import sys
from typing import NamedTuple

import stops
import volumes

SIZE = 512
VOLUME_ID = slice(2 * SIZE + 4, 2 * SIZE + 10)
NO_LABEL = 2

SCRIPT = b"FORMAT 192 B\nYES\nWORK01\nFORMAT 191 A (LABEL\nSAVE02\n"
LOOK = b"ACCESS 192 B\nQUERY DISK A\nQUERY DISK B\n"


class State(NamedTuple):
    """What an image is: the volume id and the files of a minidisk, or the reason why it is none."""

    volume_id: str = ""
    files: dict = {}
    reason: int = 0


def state_of(image):
    try:
        found = volumes.read(image, SIZE)
    except volumes.Refused as refused:
        return State(reason=refused.args[0])
    return State(image[VOLUME_ID].decode("cp037"), found.files)


class Trial(stops.Trial):
    """The session, and what may be left of its units."""

    def __init__(self, folder):
        starts = {"a": (stops.ROOT / "examples/disk.img").read_bytes(), "b": volumes.make(volumes.VOLUMES["wide"])[0]}
        super().__init__(folder, starts, SIZE, SCRIPT)
        first, second = map(state_of, starts.values())
        self.states = {"a": [first, first._replace(volume_id="SAVE02")], "b": [second, State(reason=NO_LABEL), State("WORK01", {})]}

    def state(self, unit, image):
        found = state_of(image)
        return self.states[unit].index(found) if found in self.states[unit] else None

    def allowed(self, unit, typed):
        asked, ready = typed.count(b"CMS605R"), typed.count(stops.READY)
        if unit == "b":
            return {2} if b"CMS733I" in typed else {0, 1, 2} if asked else {0}
        return {0} if asked < 2 else {1} if ready == 2 else {0, 1}

    def looked(self, folder, states):
        typed = self.session(folder, "ro", LOOK).stdout
        for unit, device in stops.DEVICES.items():
            state = self.states[unit][states[unit]]
            shown = f"{state.volume_id} {device} {unit.upper()} R/O" if state.volume_id else "holds no volume, reason 2"
            if shown.encode() not in typed:
                sys.exit(f"not allowed: a session doesn't say {shown!r} but {typed!r}")


def main():
    if len(sys.argv) != 1:
        sys.exit(__doc__)
    stops.run(Trial)


if __name__ == "__main__":
    main()
