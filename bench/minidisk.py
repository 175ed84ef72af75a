#!/usr/bin/env python3
"""Measures `minidisk` beside mtools on a FAT image of the like size, and beside `cp`, and prints the ratios. No part of the gate.

    bench/minidisk.py           all of them
    bench/minidisk.py NAME ..   some: large, small, listing

large      64 MiB put into an image and got again, as records of 4,096 bytes joined, and as lines of 79 characters, as many as a file
           of an image may have, in which two bytes of length stand before each
small      10,000 texts of 40 to 400 bytes put into an image and got again, into a folder
listing    10,000 files listed, and with all columns

The program is built first by `./minidisk --build`, where it isn't built. mtools (mformat, mcopy, mdir) is wanted. All files are made in a
folder of their own in the folder in which this is started, so its file system is the one that is measured. mtools sync nothing, so each of
its writes is measured with a `sync` of its image, or of each file that it wrote, behind it. `put` syncs the image twice for each file: what
as many syncs take by themselves stands beside it.
"""

import os
import pathlib
import random
import shutil
import subprocess
import sys
import tempfile
import time

from bench import HOME, MEBIBYTE, beside, said, spent

PROGRAM = HOME / "crates/minidisk/out/minidisk"
SIZE = 64 * MEBIBYTE
COUNT = 10_000
BLOCKS = 60_000


def new_image(name):
    spent([PROGRAM, "make", "-b", "4096", "-n", str(BLOCKS), "-l", "BENCH", name])


def new_fat(name):
    with open(name, "wb") as image:
        image.truncate(BLOCKS * 4096)
    spent(["mformat", "-i", name, "-F", "-T", str(BLOCKS * 8), "::"])


def synced(words, image):
    """The seconds of a command of mtools and a sync of its image."""
    return spent(words)[0] + spent(["sync", image])[0]


def syncs_alone(count):
    """The seconds of as many updates that do nothing: each writes three blocks, syncs, writes a label and syncs."""
    block = bytes(4096)
    with open("syncs", "wb") as image:
        image.truncate(BLOCKS * 4096)
        os.fsync(image.fileno())
        begun = time.monotonic()
        for nth in range(count):
            for place in (8 + nth, BLOCKS // 3 + nth, BLOCKS // 3 * 2 + nth):
                os.pwrite(image.fileno(), block, place * 4096)
            os.fdatasync(image.fileno())
            os.pwrite(image.fileno(), block, 8192)
            os.fdatasync(image.fileno())
        seconds = time.monotonic() - begun
    os.unlink("syncs")
    return seconds


def measured(what, words, plain_what, plain):
    seconds, memory, _ = spent([PROGRAM, *words])
    said(what, seconds, memory)
    said(plain_what, plain)
    beside(seconds, plain)


def large():
    line = b"x" * 79 + b"\n"
    for name, data in (("large.bin", random.Random(1).randbytes(SIZE)), ("large.txt", line * (SIZE // 81))):
        pathlib.Path(name).write_bytes(data)
    os.sync()
    for name, form in (("large.bin", ["-f", "binary", "-L", "4096"]), ("large.txt", [])):
        new_image("a.img")
        new_fat("a.fat")
        plain = synced(["mcopy", "-i", "a.fat", name, "::"], "a.fat")
        measured(f"put of 64 MiB, {name}", ["put", *form, "a.img", name], "mcopy into a FAT image", plain)
        copied = spent(["cp", name, "plain"])[0] + spent(["sync", "plain"])[0]
        said("cp and sync of it", copied)
        plain = synced(["mcopy", "-n", "-i", "a.fat", f"::{name}", "back.fat"], "back.fat")
        words = ["get", *form[:2], "-o", "back", "a.img", name]
        measured(f"get of 64 MiB, {name}", words, "mcopy out of it", plain)
        if pathlib.Path("back").read_bytes() != pathlib.Path(name).read_bytes():
            sys.exit(f"bench: {name} comes back otherwise")
        for each in ("a.img", "a.fat", "plain", "back", "back.fat"):
            os.unlink(each)


def many(folder):
    """As many small texts in a folder, and their names."""
    chosen = random.Random(1)
    os.mkdir(folder)
    names = [f"{folder}/f{nth:05}.txt" for nth in range(COUNT)]
    for name in names:
        lines = [b"x" * chosen.randrange(39) for _ in range(chosen.randrange(1, 11))]
        pathlib.Path(name).write_bytes(b"\n".join([*lines, b"a line of some length that ends it"]) + b"\n")
    os.sync()
    return names


def small():
    names = many("many")
    new_image("a.img")
    new_fat("a.fat")
    plain = synced(["mcopy", "-i", "a.fat", *names, "::"], "a.fat")
    measured(f"put of {COUNT:,} texts", ["put", "a.img", *names], "mcopy of them into a FAT image", plain)
    said(f"{2 * COUNT:,} syncs alone", syncs_alone(COUNT))
    for folder in ("out", "out.fat"):
        os.mkdir(folder)
    plain = spent(["mcopy", "-n", "-i", "a.fat", "::*", "out.fat"])[0]
    said("mcopy of them out of it, with no sync", plain)
    plain += spent(["sync", *[f"out.fat/{name}" for name in os.listdir("out.fat")]])[0]
    measured(f"get of {COUNT:,} texts", ["get", "-d", "out", "a.img", "*.*"], "mcopy of them out of it, and a sync of each", plain)
    listing_of("a.img", "a.fat")
    for folder in ("many", "out", "out.fat"):
        shutil.rmtree(folder)


def listing_of(image, fat):
    plain = spent(["mdir", "-b", "-i", fat, "::"])[0]
    measured(f"list of {COUNT:,} files", ["list", image], "mdir -b of as many", plain)
    plain = spent(["mdir", "-i", fat, "::"])[0]
    measured(f"list -l of {COUNT:,} files", ["list", "-l", image], "mdir of as many", plain)


def listing():
    names = many("many")
    new_image("a.img")
    new_fat("a.fat")
    spent([PROGRAM, "put", "a.img", *names])
    spent(["mcopy", "-i", "a.fat", *names, "::"])
    listing_of("a.img", "a.fat")
    shutil.rmtree("many")


BENCHES = {"large": large, "small": small, "listing": listing}


def main():
    names = sys.argv[1:] or ["large", "small"]
    unknown = [name for name in names if name not in BENCHES]
    if unknown:
        sys.exit(f"bench: no {unknown[0]}; there are {', '.join(BENCHES)}")
    if not shutil.which("mcopy"):
        sys.exit("bench: mtools are wanted, in Debian's package mtools")
    if not PROGRAM.exists():
        subprocess.run([HOME / "minidisk", "--build"], check=True)
    with tempfile.TemporaryDirectory(dir=".") as folder:
        os.chdir(folder)
        for name in names:
            BENCHES[name]()
        os.chdir("..")


if __name__ == "__main__":
    main()
