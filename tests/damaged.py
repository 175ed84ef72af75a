#!/usr/bin/env python3
"""Damages images at random, and looks at what `minidisk check` and `minidisk dump` say of them.

    tests/damaged.py [RUNS [SEED]]        2,000 images unless RUNS says otherwise; SEED names the choices, else 1

The images are those of tests/hostile.py. `check` must say that an image is sound exactly where tests/volumes.py finds a minidisk, and what
it says of files and lost blocks must be so; else it says one line of why. `list`, `info` and `get` must refuse the same images with the same
line. `dump` must show the label of each, and its entries in order, all of them where it is sound. None may change the image, crash, hang,
or have a status of its own. No part of the gate.
"""

import pathlib
import random
import sys
import tempfile

import hostile
import model
import volumes

LABEL = ["identifier", "label", "block size", "directory", "blocks", "used", "entry size"]


def failed(what):
    sys.exit(f"damaged: {what}")


def found(image, size):
    """What another reader finds, or none where it is no minidisk."""
    try:
        return volumes.read(image, size)
    except (volumes.Refused, ArithmeticError, LookupError, ValueError, RecursionError, volumes.struct.error):
        return None


def good():
    """Images to begin from, each with how often it is taken."""
    yield hostile.Good((model.ROOT / "examples/disk.img").read_bytes(), 512), 6
    yield hostile.Good((model.ROOT / "examples/files.img").read_bytes(), 512), 6
    for name, weight in (("listed", 3), ("wide", 1)):
        yield hostile.Good(volumes.make(volumes.VOLUMES[name])[0], volumes.SIZE), weight


def checked(folder, size, image):
    """The answer of `check`, which must be that of another reader."""
    got = model.run(["check", "-b", str(size), "a.img"], folder)
    read = found(image, size)
    if read:
        line = f"a.img: sound, {len(read.files)} files, {len(read.lost)} blocks lost\n"
        if got != model.Answer(0, line.encode(), []):
            failed(f"check answers {got} where {line!r} must come")
    elif got.status != 1 or got.output or len(got.notes) != 1 or not got.notes[0].startswith("minidisk: a.img: not sound: "):
        failed(f"check answers {got} of an image that is no minidisk")
    return got


def looked_at(folder, size, image):
    """Runs the commands on an image that may be damaged."""
    verdict = checked(folder, size, image)
    for words in (["list"], ["info"], ["get", "-f", "records"]):
        names = ["*.*"] if words[0] == "get" else []
        got = model.run([*words, "-b", str(size), "a.img", *names], folder)
        if verdict.status and (got.output or got.notes != verdict.notes or got.status != 1):
            failed(f"{words[0]} answers {got} where check says {verdict.notes}")
        if not verdict.status and got.status:
            failed(f"{words[0]} answers {got} of a sound image")
    dumped(folder, size, image)
    if (folder / "a.img").read_bytes() != image:
        failed("the image was changed")


def dumped(folder, size, image):
    """`dump` shows the label of each image that has one, its entries by their numbers, and each block."""
    got = model.run(["dump", "-b", str(size), "a.img"], folder)
    held = len(image) // size
    if held >= 3:
        lines = got.output.decode().splitlines()
        read = found(image, size)
        numbers = [int(line[6:].split(":")[0]) for line in lines if line.startswith("entry ") and line[6].isdigit()]
        if got.status or got.notes or numbers != list(range(len(read.files) + 2 if read else len(numbers))):
            failed(f"dump answers {got}")
        keys = [line.split(":")[0] for line in lines if not line.startswith("label: ") or not line.endswith("is wrong")]
        if [key for key in keys if key in LABEL][:7] != LABEL:
            failed(f"dump answers {got}")
    elif got.status != 1:
        failed(f"dump answers {got} of an image without a label")
    block = random.randrange(1, held + 2)
    got = model.run(["dump", "-b", str(size), "a.img", str(block)], folder)
    if block > held:
        if got != model.Answer(1, b"", [model.said("a.img", f"it has no block {block}")]):
            failed(f"dump {block} answers {got}")
        return
    if got.status or got.notes or hexadecimal(got.output) != image[(block - 1) * size : block * size]:
        failed(f"dump {block} answers {got}")


def hexadecimal(output):
    """The bytes that the lines of a block show."""
    return b"".join(bytes.fromhex(line[5:53]) for line in output.decode().splitlines()[1:])


def main():
    count = int(sys.argv[1]) if len(sys.argv) > 1 else 2000
    seed = int(sys.argv[2]) if len(sys.argv) > 2 else 1
    if not model.PROGRAM.exists():
        sys.exit("damaged: build the program first, by ./minidisk --build")
    bases = list(good())
    sound = 0
    with tempfile.TemporaryDirectory() as name:
        folder = pathlib.Path(name)
        for nth in range(count):
            chosen = random.Random(f"{seed}.{nth}")
            unit = chosen.choices(bases, [weight for _, weight in bases])[0][0]
            image = unit.spoilt(chosen)
            (folder / "a.img").write_bytes(image)
            looked_at(folder, unit.size, image)
            sound += found(image, unit.size) is not None
    print(f"{count} images, of which {sound} are sound: check and dump say of each what is so")


if __name__ == "__main__":
    main()
