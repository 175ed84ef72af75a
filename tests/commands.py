#!/usr/bin/env python3
"""Runs random commands of `minidisk` on images, and looks at what each types, says and leaves.

    tests/commands.py [RUNS [SEED]]       100 images with 40 commands each unless RUNS says otherwise; SEED names the choices, else 1

What must come is that of tests/model.py. Behind each command the image is read by tests/volumes.py, and every host file is looked at.
No part of the gate.
"""

import datetime
import pathlib
import random
import re
import sys
import tempfile
import time

import model
import volumes
from model import Answer, said

NAMES = ["A.TXT", "B.TXT", "LONGNAME.LONGTYPE", "A.B", "$#@+-:_0.Z9", "N.EXEC", "B.EXEC"]
PATTERNS = ["*.*", "a*.*", "%.txt", "*.exec", "b.%%%", "long*.*type", "q.q", "*.none"]
OTHER = ["c", "a.b.c", "toolongname.x", "x.", "é.txt"]
ZONES = {"E0000": 0, "W0500": -18000, "E1459": 53940, "W0001": -60}
SIZES = (512, 1024, 2048, 4096)
LINE = re.compile(rb"(.{17}) ([FV]) ( *\d+) ( *\d+) ( *\d+) (\d{4}-\d\d-\d\d \d\d:\d\d:\d\d) (\d)")


def text(chosen):
    """A text, mostly one that is taken."""
    alphabet = chosen.choice(["ab c", "".join(map(chr, range(32, 127))), "".join(map(chr, range(256)))])
    lines = ["".join(chosen.choices(alphabet, k=chosen.choice([0, 1, 5, 80, 300]))) for _ in range(chosen.randrange(1, 30))]
    data = chosen.choice(["\n", "\n", "\r\n"]).join(lines).encode()
    if chosen.randrange(8) == 0:
        data = data[: chosen.randrange(len(data) + 1)] + chosen.choice([b"\r", b"\xff", b"\xc3", b"\xe2\x82\xac"])
    return data + chosen.choice([b"", b"\n", b"\n"])


def stored(chosen):
    """Records behind their lengths, now and then with a fault."""
    length = chosen.choice([0, 0, 7, 80])
    records = [chosen.randbytes(length or chosen.randrange(1, 200)) for _ in range(chosen.randrange(1, 40))]
    data = b"".join(len(record).to_bytes(2, "big") + record for record in records)
    return data[: chosen.randrange(len(data))] if chosen.randrange(8) == 0 else data


class Trial:
    """An image with its model, and the host files of a folder."""

    def __init__(self, folder, chosen):
        self.folder, self.chosen = folder, chosen
        self.size, self.disk, self.dates = chosen.choice(SIZES), model.Disk(), {}
        (folder / "out").mkdir()
        for nth in range(6):
            name = chosen.choice([*NAMES, *OTHER]).lower()
            data = (text, text, stored, lambda c: c.randbytes(c.randrange(3000)))[nth % 4](chosen)
            (folder / name).write_bytes(data)
        self.hosts = self.host_files()
        self.made()

    def host_files(self):
        return {str(path.relative_to(self.folder)): path.read_bytes() for path in self.folder.rglob("*") if path.is_file()}

    def made(self):
        self.blocks = self.chosen.choice([400, 5000])
        words = ["make", "-b", str(self.size), "-n", str(self.blocks), "-l", "trial1", "disk.img"]
        self.want(words, Answer(0, b"", []), changes=True)

    # ---- looking

    def want(self, words, answer, changes=False, files=None):
        """Runs a command, which must answer so, and may change the image, and these host files."""
        begun = int(time.time())
        got = model.run(words, self.folder)
        if got != answer:
            sys.exit(f"commands: minidisk {' '.join(words)}: {got} where {answer} must come")
        after = self.host_files()
        expected = {**self.hosts, **(files or {})}
        image = after["disk.img"]
        if not changes and image != self.hosts["disk.img"]:
            sys.exit(f"commands: minidisk {' '.join(words)}: the image was changed")
        expected["disk.img"] = image
        if after != expected:
            sys.exit(f"commands: minidisk {' '.join(words)}: other host files than must be")
        self.hosts = after
        held, self.found = model.read(image, self.size)
        if held != self.disk.files:
            sys.exit(f"commands: minidisk {' '.join(words)}: the image has other files than must be")
        return begun

    def dated(self, key, begun, zone):
        """The stamp of a file is the clock's in a zone."""
        self.dates[key] = (begun + zone, int(time.time()) + zone)

    # ---- words

    def options(self, *flags):
        """Some of these options, and the block size now and then."""
        words = [flag for flag in flags if self.chosen.randrange(2)]
        return words + (["-b", str(self.size)] if self.chosen.randrange(3) == 0 else [])

    def zone(self):
        name = self.chosen.choice([None, *ZONES])
        return (["-z", name], ZONES[name]) if name else ([], 0)

    def names(self, least):
        pool = [*NAMES, *(name.lower() for name in NAMES), *PATTERNS]
        return [self.chosen.choice(pool) for _ in range(self.chosen.randrange(least, 4))]

    # ---- commands

    def list(self):
        words, names = self.options(), self.names(0)
        keys, idle = self.disk.listed(names), self.disk.idle(names)
        lines = [f"{model.spelled(key)}\n" for key in keys]
        self.want(["list", *words, "disk.img", *names], Answer(bool(idle), "".join(lines).encode(), idle))

    def list_long(self):
        got = model.run(["list", "-l", "disk.img"], self.folder)
        lines = got.output.splitlines()
        if got.status or got.notes or len(lines) != len(self.disk.files):
            sys.exit(f"commands: list -l answers {got}")
        for line, (key, file) in zip(lines, self.disk.files):
            self.look_long(line, key, file)

    def look_long(self, line, key, file):
        fields = LINE.fullmatch(line)
        if not fields:
            sys.exit(f"commands: list -l types {line}")
        data = sum(map(len, file.records)) + (2 * len(file.records) if file.form == "V" else 0)
        name, form, length, count, blocks, date, number = (field.decode() for field in fields.groups())
        want = (model.spelled(key), file.form, file.length, len(file.records), volumes.up(data, self.size), file.number)
        if (name.rstrip(), form, int(length), int(count), int(blocks), int(number)) != want:
            sys.exit(f"commands: list -l types {line} where {want} must come")
        moment = datetime.datetime.fromisoformat(date).replace(tzinfo=datetime.timezone.utc).timestamp()
        first, last = self.dates[key]
        if not first <= moment <= last:
            sys.exit(f"commands: list -l types {line}, which isn't the date of the file")

    def info(self):
        free, lost = len(self.found.free), len(self.found.lost)
        facts = {"label": "TRIAL1", "block size": self.size, "blocks": self.blocks, "used": self.blocks - free}
        facts |= {"free": free, "lost": lost, "files": len(self.disk.files)}
        lines = "".join(f"{key}: {value}\n" for key, value in facts.items())
        self.want(["info", *self.options(), "disk.img"], Answer(0, lines.encode(), []))

    def check(self):
        line = f"disk.img: sound, {len(self.disk.files)} files, {len(self.found.lost)} blocks lost\n".encode()
        self.want(["check", *self.options(), "disk.img", "none.img", "disk.img"],
                  Answer(1, line * 2, [said("none.img", model.NOT_THERE)]))

    def shown(self, form, names):
        """What is handed out of the files that names fit, by their names, and the notes."""
        out, notes = {}, []
        for key in self.disk.chosen(names):
            try:
                out[key] = model.shown(form, self.disk.get(key))
            except model.Refused as refused:
                notes.append(said(model.spelled(key), refused))
        return out, notes

    def get(self):
        form, names = self.chosen.choice(["text", "text", "binary", "records"]), self.names(1)
        out, notes = self.shown(form, names)
        notes += self.disk.idle(names)
        self.want(["get", *self.options(), "-f", form, "disk.img", *names],
                  Answer(bool(notes), b"".join(out.values()), notes))

    def get_joined(self):
        form, names, replaces = self.chosen.choice(["text", "records"]), self.names(1), self.chosen.randrange(2)
        out, notes = self.shown(form, names)
        typed = "".join(f"{model.spelled(key)}\n" for key in out).encode()
        files = {"joined": b"".join(out.values())} if out else {}
        idle = self.disk.idle(names)
        if "joined" in self.hosts and not replaces:
            typed, files, notes = b"", {}, [said("joined", model.IS_THERE)]
        words = ["get", "-v", *(["-r"] if replaces else []), "-o", "joined", "-f", form, "disk.img", *names]
        self.want(words, Answer(bool(notes + idle), typed, notes + idle), files=files)

    def get_each(self):
        form, names, replaces = self.chosen.choice(["text", "binary"]), self.names(1), self.chosen.randrange(2)
        typed, files, notes = [], {}, []
        for key in self.disk.chosen(names):
            path = f"out/{model.spelled(key).lower()}"
            try:
                if path in self.hosts and not replaces:
                    notes.append(said(path, model.IS_THERE))
                    continue
                files[path] = model.shown(form, self.disk.get(key))
                typed.append(f"{model.spelled(key)}\n")
            except model.Refused as refused:
                notes.append(said(model.spelled(key), refused))
        notes += self.disk.idle(names)
        words = ["get", "-v", *(["-r"] if replaces else []), "-d", "out", "-f", form, "disk.img", *names]
        self.want(words, Answer(bool(notes), "".join(typed).encode(), notes), files=files)

    def put_one(self, host, layout, key, number, replaces):
        """The note of a host file that isn't put; none where it is."""
        form, length = layout
        if key is None:
            return said(host, model.NO_NAME)
        if self.disk.place(key) is not None and not replaces:
            return said(host, model.IS_THERE)
        if host == "disk.img":
            return said(host, model.IS_IMAGE)
        if host not in self.hosts:
            return said(host, model.NOT_THERE)
        try:
            self.disk.put(key, model.held_of(form, length, number, self.hosts[host]))
        except model.Refused as refused:
            return said(host, refused)
        return None

    def put(self):
        layout = self.chosen.choice([("text", 0), ("text", 80), ("text", 300), ("binary", 80), ("records", 0), ("records", 7)])
        flags, (zone, seconds) = self.options("-r"), self.zone()
        number = self.chosen.choice([1, 1, 0, 3, 6])
        hosts = self.chosen.choices([*self.hosts, "none.txt", "out"], k=self.chosen.randrange(1, 4))
        own = self.chosen.choice(NAMES) if len(hosts) == 1 and self.chosen.randrange(2) else None
        typed, notes, keys = [], [], []
        for host in hosts:
            key = model.name_of(own or host.split("/")[-1])
            note = self.put_one(host, layout, key, number, "-r" in flags)
            notes += [note] if note else []
            typed += [] if note else [f"{model.spelled(key)}\n"]
            keys += [] if note else [key]
        words = [*flags, *zone, "-v", "-m", str(number), "-f", layout[0], *(["-L", str(layout[1])] if layout[1] else [])]
        words += ["-n", own] if own else []
        begun = self.want(["put", *words, "disk.img", *hosts], Answer(bool(notes), "".join(typed).encode(), notes), changes=True)
        for key in keys:
            self.dated(key, begun, seconds)

    def erase(self):
        names, idle = self.names(1), None
        idle, keys = self.disk.idle(names), self.disk.chosen(names)
        for key in keys:
            self.disk.erase(key)
        typed = "".join(f"{model.spelled(key)}\n" for key in keys).encode()
        self.want(["erase", *self.options(), "-v", *self.zone()[0], "disk.img", *names], Answer(bool(idle), typed, idle), changes=True)

    def rename(self):
        old, new = self.chosen.choice(NAMES), self.chosen.choice(NAMES)
        key, to = model.name_of(old), model.name_of(new)
        if self.disk.place(key) is None:
            answer = Answer(1, b"", [said(old, model.NOTHING_FITS)])
        elif key != to and self.disk.place(to) is not None:
            answer = Answer(1, b"", [said(new, model.IS_THERE)])
        else:
            self.disk.rename(key, to)
            self.dates[to] = self.dates.pop(key)
            answer = Answer(0, f"{new}\n".encode(), [])
        self.want(["rename", *self.options(), "-v", "disk.img", old.lower(), new], answer, changes=True)

    def step(self):
        commands = [self.list, self.list_long, self.info, self.check, self.erase, self.rename, self.get_joined, self.get_each]
        self.chosen.choice([*commands, *[self.get] * 2, *[self.put] * 6])()


def main():
    runs = int(sys.argv[1]) if len(sys.argv) > 1 else 100
    seed = int(sys.argv[2]) if len(sys.argv) > 2 else 1
    if not model.PROGRAM.exists():
        sys.exit("commands: build the program first, by ./minidisk --build")
    for nth in range(runs):
        with tempfile.TemporaryDirectory() as folder:
            trial = Trial(pathlib.Path(folder), random.Random(f"{seed}.{nth}"))
            for _ in range(40):
                trial.step()
    print(f"{runs} images with 40 commands each: every answer and every image is as it must be")


if __name__ == "__main__":
    main()
