#!/usr/bin/env python3
"""Runs the built program as a hostile user would, and looks that no run crashes, hangs, takes over a gibibyte or has a status of its own.

    tests/hostile.py [RUNS [SEED]]      10,000 images unless RUNS says otherwise; SEED names one run of choices, else 1

Each image is a good one that was changed at random: in its label, its entries, its pointers, its map or its data, or cut short. On two of
them a random script of all commands and of procedures is run. Where a reader of its own finds a minidisk on an image before, it must find
one behind the run as well. Behind them stand single cases: lines of binary bytes and of 10 MB, images that are no plain files, that are
cut while they run, or for which the file system has no room, an output, an input or a standard error that is full or closed, little
memory, and generated sessions. A run that fails is printed with its seed, and its images and script are kept. No part of the gate.
"""

import os
import pathlib
import random
import sys
import tempfile

import cases
import volumes
from runs import PROGRAM, ROOT, Failed, is_minidisk, run

NAMES = ["HELLO", "LETTER", "NOTES", "PARTS", "OLD", "F00001", "F00003", "F00004", "NEW", "A", "LOOP", "*"]
KINDS = ["TEXT", "DATA", "ODD", "EXEC", "FILE", "*"]
MODES = ["A", "B", "A1", "B0", "*", "=", "C", ""]
OPTIONS = "TYPE STRING REPLACE APPEND FROM FOR LRECL RECFM F V FILL UPCASE EXEC STACK HEX COL".split()
WORDS = ["191", "192", "193", "A", "B", "*", "=", "1", "2", "99999", "0", "(", ")", *OPTIONS]
NUMBERS = ["1", "2", "7", "100", "65535", "*"]
COPYING = """
REPLACE
APPEND
RECFM F LRECL 80
RECFM F LRECL 65535
RECFM V LRECL 7
FROM 2 FOR 3
TRUNC FILL 00
LOWCASE OLDDATE REPLACE""".split("\n")
STATEMENTS = """
&TYPE &1 &I &RC
&I = &I + 1
&X = &X&X
&X = &LEFT OF &X 200
&X = &MULT OF 9 &I
&X = &DIV OF 1 &I
&ARGS &X &X
&LOOP 2 3
&LOOP -E *
&LOOP 1 WHILE &I < 9
-E
&GOTO -E
&CALL -E A B
&RETURN
&SKIP -2
&STACK LIFO TYPE A FILE A
&BEGSTACK
&BEGTYPE
&END
&READ ARGS
&READ STRING &X
&IF &RC = 0 &SKIP 1
&ERROR &EXIT &RC
&ERROR
&EXIT &I
&COMMAND
EXEC NEW
EXEC LOOP A
* A COMMENT""".split("\n")


def identifier(chosen):
    return f"{chosen.choice(NAMES)} {chosen.choice(KINDS)} {chosen.choice(MODES)}"


def procedure(chosen):
    """The lines that write a procedure, and one that runs it."""
    name = chosen.choice(["NEW", "LOOP", "A"])
    lines = ["&TRACE OFF"] + [chosen.choice([*STATEMENTS, "", command(chosen)]) for _ in range(chosen.randrange(1, 16))]
    run = chosen.choice([f"{name} X Y", f"EXEC {name}", f"exec {name} one two"])
    return "\n".join([f"EXECIO {len(lines)} DISKW {name} EXEC {chosen.choice('AAB')}", *lines, run])


def command(chosen):
    """A line of a command, most of them as they should be."""
    forms = [
        lambda: f"ACCESS {chosen.choice(['191', '192'])} {chosen.choice('ABC')}" + chosen.choice(["", "/A", "/B"]),
        lambda: f"RELEASE {chosen.choice(['191', '192', 'A', 'B'])}",
        lambda: "QUERY " + chosen.choice(["DISK", "DISK *", "SEARCH", "DISK A"]),
        lambda: f"LISTFILE {identifier(chosen)} (" + chosen.choice(["ALLOC", "DATE", "LABEL", "STACK", "LIFO", "EXEC", "APPEND", ""]),
        lambda: "TALLY",
        lambda: chosen.choice(["NUCXMAP", "NUCXDROP TALLY", "NUCXDROP NONE", "NUCXDROP"]),
        lambda: f"STATE {identifier(chosen)}",
        lambda: f"TYPE {identifier(chosen)} {chosen.choice(['', '1', '2 3', '1 *'])} " + chosen.choice(["", "(HEX", "(COL 1-20"]),
        lambda: f"ERASE {identifier(chosen)} " + chosen.choice(["", "(TYPE"]),
        lambda: f"RENAME {identifier(chosen)} {chosen.choice(NAMES)} {chosen.choice(KINDS)} {chosen.choice('=AB')}",
        lambda: f"COPYFILE {identifier(chosen)} {identifier(chosen)} ({chosen.choice(COPYING)}",
        lambda: f"COPYFILE {identifier(chosen)} = {chosen.choice(KINDS)} = ({chosen.choice(COPYING)}",
        lambda: f"{chosen.choice(['PUNCH', 'DISK DUMP', 'READCARD'])} {identifier(chosen)}",
        lambda: f"DISK LOAD {chosen.choice(WORDS)}",
        lambda: f"EXECIO {chosen.choice(NUMBERS)} DISKR {identifier(chosen)} " + chosen.choice(["", "(LIFO", "(STRIP", "(FINIS"]),
        lambda: f"EXECIO {chosen.choice('013')} DISKW {identifier(chosen)} " + chosen.choice(["", "(STRING text", "(STRING &TRACE OFF"]),
        lambda: f"EXEC {chosen.choice(NAMES)} {chosen.choice(NAMES)}",
    ]
    return chosen.choice(forms)()


def edits(chosen):
    """A line of EDIT that reads a file, and subcommands."""
    forms = [
        lambda: chosen.choice(["TOP", "BOTTOM", "SAVE", "save", "END", "", "TYPE", "DELETE", "NEXT", "UP"]),
        lambda: f"{chosen.choice(['NEXT', 'UP', 'TYPE', 'DELETE'])} {chosen.choice(NUMBERS)}",
        lambda: f"{chosen.choice(['INPUT', 'REPLACE', 'LOCATE'])} {chosen.choice(NAMES + WORDS)}",
        lambda: f"CHANGE {chosen.choice(['/A/B/', '//B/', '/E//', 'XAXBX', '/A/B', '/A/' + 'B' * 240 + '/'])}",
    ]
    file = f"EDIT {chosen.choice(NAMES)} {chosen.choice(KINDS)} {chosen.choice(['', 'A', 'B', 'C', 'A1'])}"
    return "\n".join([file, "EDIT", *[chosen.choice(forms)() for _ in range(chosen.randrange(12))], chosen.choice(["END", ""])])


def line(chosen):
    """A command, a procedure, edits, or what is none of them."""
    forms = [
        *[lambda: command(chosen)] * 12,
        *[lambda: procedure(chosen)] * 2,
        lambda: edits(chosen),
        lambda: f"FORMAT 192 B\nYES\n{chosen.choice(['WORK', '', '**'])}",
        lambda: " ".join(chosen.choice(WORDS + NAMES + KINDS) for _ in range(chosen.randrange(12))),
        lambda: "".join(chr(chosen.randrange(32, 127)) for _ in range(chosen.randrange(300))),
    ]
    return chosen.choice(forms)()


def script(chosen):
    lines = [line(chosen) for _ in range(chosen.randrange(1, 12))]
    return "\n".join([*chosen.choice([[], ["ACCESS 192 B"]]), *lines]) + "\n"


class Good:
    """A good image, and its blocks by what they hold."""

    def __init__(self, image, size):
        self.image, self.size = image, size
        reader = volumes.Reader(image, size)
        reader.read()
        rows = [volumes.Row.of(row) for row in reader.rows]
        trees = [reader.tree(rows[0], reader.origin), *(reader.tree(row) for row in rows[1:])]
        leaves = {number for _, found in trees for number in found}
        pointers = [number for met, _ in trees for number in met if number not in leaves]
        data = [number for _, found in trees[2:] for number in found]
        self.regions = [region for region in ([3], trees[0][1], pointers, trees[1][1], data) if region]

    def spoilt(self, chosen):
        """The image with some changes: bytes, numbers, or pieces that stand elsewhere in it; now and then it is cut short."""
        image = bytearray(self.image)
        for _ in range(chosen.choice([0, 1, 1, 2, 4, 16])):
            region = chosen.choice(self.regions)
            start = (chosen.choice(region) - 1) * self.size
            chosen.choice([self.put_byte, self.put_number, self.put_piece])(image, region, start, chosen)
        if chosen.randrange(40) == 0:
            del image[chosen.randrange(len(image)) :]
        return bytes(image)

    def put_byte(self, image, _region, start, chosen):
        at = start + chosen.choice([chosen.randrange(self.size), chosen.randrange(60)])
        image[at] = chosen.choice([0, 1, 0xFF, image[at] ^ (1 << chosen.randrange(8)), chosen.randrange(256)])

    def put_number(self, image, region, start, chosen):
        """A number of four bytes: a limit, one of the image's own, or a block that something else has."""
        at = start + 4 * chosen.randrange(self.size // 4)
        last = len(image) // self.size
        own = int.from_bytes(image[at : at + 4], "big")
        limits_and_blocks = [0, 1, 3, 5, 6, 0x7FFFFFFF, 0xFFFFFFFF, last, last + 1, own + 1, own ^ 1, chosen.choice(region)]
        number = chosen.choice([*limits_and_blocks, chosen.randrange(1 << 32)])
        image[at : at + 4] = (number % (1 << 32)).to_bytes(4, "big")

    def put_piece(self, image, region, start, chosen):
        """Sixty-four bytes that stand in another place of a like block, as an entry does."""
        frm = (chosen.choice(region) - 1) * self.size + 64 * chosen.randrange(self.size // 64)
        to = start + 64 * chosen.randrange(self.size // 64)
        image[to : to + 64] = image[frm : frm + 64]


MAKING = b"""FORMAT 191 A
YES
MADE01
EXECIO 3 DISKW LOOP EXEC A
&TRACE OFF
-L &I = &I + 1
&IF &I < 50 &GOTO -L
EXECIO 3 DISKW A EXEC A
&TRACE OFF
EXECIO * DISKR HELLO TEXT A
EXEC LOOP &1
EXECIO 200 DISKW HELLO TEXT A (STRING some text
COPYFILE HELLO TEXT A NOTES DATA A (RECFM F LRECL 100
COPYFILE * EXEC A = TEXT = (REPLACE
LISTFILE * * A (EXEC
EXECIO 1 DISKW A FILE A (STRING X
"""


def made(size, blocks):
    """An image that the program makes, with procedures and copies on it."""
    name = f"made{size}.img"
    if run([f"191,{size},n{blocks},{name}"], MAKING) != 0:
        sys.exit("hostile: no image is made")
    return pathlib.Path(name).read_bytes()


def good():
    """Images to begin from, each with how often it is taken."""
    yield Good((ROOT / "examples/disk.img").read_bytes(), 512), 6
    yield Good((ROOT / "examples/files.img").read_bytes(), 512), 6
    for size, blocks in ((512, 300), (1024, 200), (4096, 60)):
        yield Good(made(size, blocks), size), 6
    for name, weight in (("listed", 3), ("wide", 1)):
        yield Good(volumes.make(volumes.VOLUMES[name])[0], volumes.SIZE), weight


def kept(first, second, text):
    keep = pathlib.Path(tempfile.mkdtemp(prefix="hostile-", dir=ROOT.parent))
    (keep / "a.img").write_bytes(first)
    (keep / "b.img").write_bytes(second)
    (keep / "script").write_bytes(text)
    return keep.name


def tried(bases, chosen):
    """The status of a run on two changed images."""
    weights = [weight for _, weight in bases]
    units = {name: chosen.choices(bases, weights)[0][0] for name in ("a", "b")}
    spoilt = {name: unit.spoilt(chosen) for name, unit in units.items()}
    text = script(chosen).encode()
    for name, image in spoilt.items():
        pathlib.Path(f"{name}.img").write_bytes(image)
    try:
        code = run(["-t", "20000", f"191,{units['a'].size},rw,a.img", f"192,{units['b'].size},rw,b.img"], text)
        for name, unit in units.items():
            left = pathlib.Path(f"{name}.img").read_bytes()
            if is_minidisk(spoilt[name], unit.size) and not is_minidisk(left, unit.size):
                raise Failed(f"{name}.img is no minidisk any more")
        return code
    except Failed as failed:
        raise Failed(f"{failed}; kept in {kept(spoilt['a'], spoilt['b'], text)}") from failed


def images(count, seed):
    """The changed images, each with a script."""
    bases = list(good())
    ended = {}
    for nth in range(count):
        try:
            code = tried(bases, random.Random(f"{seed}.{nth}"))
        except Failed as failed:
            sys.exit(f"hostile: run {nth} of seed {seed}: {failed}")
        ended[code] = ended.get(code, 0) + 1
    told = ", ".join(f"{times} with status {code}" for code, times in sorted(ended.items()))
    print(f"{count} changed images: {told}", flush=True)


def main():
    count = int(sys.argv[1]) if len(sys.argv) > 1 else 10_000
    seed = int(sys.argv[2]) if len(sys.argv) > 2 else 1
    if not PROGRAM.exists():
        sys.exit("hostile: build the program first, by ./cms --build")
    memory = "/dev/shm" if os.access("/dev/shm", os.W_OK) else None
    with tempfile.TemporaryDirectory(dir=memory) as folder:
        os.chdir(folder)
        images(count, seed)
        failures = cases.failures()
        os.chdir(ROOT)
    if failures:
        sys.exit(f"hostile: {failures} cases failed")


if __name__ == "__main__":
    main()
