#!/usr/bin/env python3
"""Stops `minidisk` at each write and each sync of a put of four host files, an erase of three files and a rename, and looks at what is
left, as tests/stops.py says.

    tests/update_crash.py [put | erase | rename]       all three unless one is named

Needs strace; it is no part of the gate. The image is the volume `listed` of tests/volumes.py, whose directory and map have several blocks.
What is left must be the minidisk behind one of the command's updates, or that of the start, with its files in their order: the one that the
names typed by then tell of, or the next where one is under way. `check` must find it sound, and `list` must list these files.
"""

import subprocess
import sys

import model
import stops
import volumes

SIZE = 512
# Small, with a level of pointers, of another format, and in the place of a file that is there.
HOSTS = {
    "new.txt": b"one\ntwo\n",
    "large.txt": b"".join(b"line %d of a longer text\n" % nth for nth in range(400)),
    "text.data": b"again\n" * 60,
    "f00001.data": b"instead\n",
}


def put(disk, hosts):
    """The minidisks behind each of these puts."""
    for name, data in hosts.items():
        disk.put(model.name_of(name), model.held_of("text", 0, 1, data))
        yield list(disk.files)


def erased(disk, keys):
    for key in keys:
        disk.erase(key)
        yield list(disk.files)


def renamed(disk, old, new):
    disk.rename(old, new)
    yield list(disk.files)


class Trial(stops.Trial):
    """A command, and the minidisks that it makes one after another."""

    def __init__(self, folder, verb):
        image, _ = volumes.make(volumes.VOLUMES["listed"])
        super().__init__(folder, {"a": image}, SIZE, b"")
        disk = model.Disk()
        disk.files, _ = model.read(image, SIZE)
        start = list(disk.files)
        odd = [key for key, _ in start if key[1] == "ODD"]
        self.words, states = {
            "put": (["-r", "a.img", *HOSTS], put(disk, HOSTS)),
            "erase": (["a.img", "*.odd"], erased(disk, odd)),
            "rename": (["a.img", "f00000.data", "g00000.data"], renamed(disk, ("F00000", "DATA"), ("G00000", "DATA"))),
        }[verb]
        self.words = [verb, "-v", *self.words]
        self.states = [start, *states]

    def laid(self, name, **given):
        folder = super().laid(name, **given)
        for host, data in HOSTS.items():
            (folder / host).write_bytes(data)
        return folder

    def session(self, folder, access, script, before=()):
        words = [*before, str(model.PROGRAM), *self.words]
        return subprocess.run(words, cwd=folder, stdin=subprocess.DEVNULL, stdout=subprocess.PIPE, check=False)

    def is_whole(self, ended):
        return ended.returncode == 0 and ended.stdout.count(b"\n") == len(self.states) - 1

    def state(self, unit, image):
        try:
            files, _ = model.read(image, SIZE)
        except volumes.Refused as refused:
            sys.exit(f"not allowed: the image is no minidisk, reason {refused}")
        return self.states.index(files) if files in self.states else None

    def allowed(self, unit, typed):
        done = typed.count(b"\n")
        return {done, min(done + 1, len(self.states) - 1)}

    def looked(self, folder, states):
        names = "".join(f"{model.spelled(key)}\n" for key, _ in self.states[states["a"]])
        listed, checked = model.run(["list", "a.img"], folder), model.run(["check", "a.img"], folder)
        if listed != model.Answer(0, names.encode(), []) or checked.status != 0:
            sys.exit(f"not allowed: {listed}, {checked}")

    def looked_at(self, unit, image, state):
        self.looked(self.laid("left", a=image), {"a": state})


def main():
    verbs = sys.argv[1:] or ["put", "erase", "rename"]
    if len(verbs) > 3 or not {"put", "erase", "rename"}.issuperset(verbs):
        sys.exit(__doc__)
    for verb in verbs:
        stops.run(lambda folder, verb=verb: Trial(folder, verb), "minidisk")


if __name__ == "__main__":
    main()
