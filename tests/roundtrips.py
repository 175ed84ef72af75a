#!/usr/bin/env python3
"""Puts random texts and records into images by `minidisk`, gets them again, and looks that they come back.

    tests/roundtrips.py [RUNS [SEED]]     200 texts and 200 files of records unless RUNS says otherwise; SEED names the choices, else 1

A text must come back with the same lines, but that CR before LF is gone, a line of one blank is empty, and at F blanks at the end are gone.
A file that was got in a form and is put again in it, with its own length, must have the same records. Single cases stand behind them: the
longest records, the most records, and one more. Each image is read by tests/volumes.py. No part of the gate.
"""

import pathlib
import random
import sys
import tempfile

import model

SIZES = (512, 1024, 2048, 4096)
BLOCKS = {512: 300000, 1024: 150000, 2048: 80000, 4096: 40000}


def failed(what):
    sys.exit(f"roundtrips: {what}")


def done(words, folder, text=b""):
    """Runs a command that must be done, with nothing said."""
    got = model.run(words, folder, text)
    if got.status or got.notes:
        failed(f"minidisk {' '.join(words)}: {got.status}, {got.notes}")
    return got.output


def new_image(folder, size, name="disk.img"):
    (folder / name).unlink(missing_ok=True)
    done(["make", "-b", str(size), "-n", str(BLOCKS[size]), "-l", "TRIP", name], folder)


def held(folder, size, key):
    """A file of the image, by another reader."""
    files, _ = model.read((folder / "disk.img").read_bytes(), size)
    return dict(files)[key]


def text_of(chosen):
    """A text of characters to U+00FF; its lines end in LF or in CR LF."""
    alphabet = chosen.choice(["ab ", "".join(map(chr, range(32, 256))), "".join(chr(c) for c in range(256) if c not in (10, 13))])
    lengths = chosen.choice([[0, 1, 2], [0, 70, 80], [1000, 5000], [65535]])
    count = chosen.randrange(1, 4 if lengths == [65535] else 300)
    lines = ["".join(chosen.choices(alphabet, k=chosen.choice(lengths))) for _ in range(count)]
    data = "".join(line + chosen.choice(["\n", "\n", "\r\n"]) for line in lines)
    return (data if lines[-1] == "" or chosen.randrange(2) else data.rstrip("\r\n")).encode()


def lines_back(data, length):
    """The text that must come back."""
    lines = [line.decode() for line in model.lines_of(data)]
    lines = [line.rstrip(" ") if length else "" if line == " " else line for line in lines]
    return "".join(f"{line}\n" for line in lines).encode()


def text_trip(folder, chosen):
    """A text goes in, at V or at F, and comes back."""
    size, data = chosen.choice(SIZES), text_of(chosen)
    longest = max(len(line.decode()) for line in model.lines_of(data))
    length = chosen.choice([0, max(1, longest), min(longest + 7, model.LONGEST)])
    new_image(folder, size)
    (folder / "a.txt").write_bytes(data)
    done(["put", *(["-L", str(length)] if length else []), "disk.img", "a.txt"], folder)
    if held(folder, size, ("A", "TXT")) != model.held_of("text", length, 1, data):
        failed("a text is put as other records")
    if done(["get", "disk.img", "a.txt"], folder) != lines_back(data, length):
        failed("a text comes back otherwise")


def records_of(chosen):
    """Records of any bytes; of one length, or each with its own."""
    length = chosen.choice([0, 0, 1, 80, 4096, 65535])
    longest = length or chosen.choice([3, 100, 20000, 65535])
    count = chosen.randrange(1, max(2, min(400, 2000000 // longest)))
    records = [chosen.randbytes(length or chosen.randrange(1, longest + 1)) for _ in range(count)]
    if chosen.randrange(2):
        records = [record.translate(bytes(byte if byte not in (0x25, 0x0D) else 0x40 for byte in range(256))) for record in records]
    return length, records


def records_trip(folder, chosen):
    """A file is put as records, got in each form, and put again."""
    size, (length, records) = chosen.choice(SIZES), records_of(chosen)
    new_image(folder, size)
    data = b"".join(len(record).to_bytes(2, "big") + record for record in records)
    word = ["-L", str(length)] if length else []
    done(["put", "-f", "records", *word, "-n", "a.x", "disk.img", "-"], folder, data)
    file = held(folder, size, ("A", "X"))
    if file != model.Held("F" if length else "V", length or max(map(len, records)), 1, records):
        failed("records are put otherwise")
    for form in ("text", "records", *(["binary"] if length else [])):
        form_trip(folder, size, form, word, file)


def form_trip(folder, size, form, word, file):
    try:
        shown = model.shown(form, file)
    except model.Refused as refused:
        got = model.run(["get", "-f", form, "disk.img", "a.x"], folder)
        if got != model.Answer(1, b"", [model.said("A.X", refused)]):
            failed(f"{got.status}, {got.notes} where {refused} must come")
        return
    if done(["get", "-f", form, "-r", "-o", "b.y", "disk.img", "a.x"], folder) or (folder / "b.y").read_bytes() != shown:
        failed(f"a file is shown otherwise as {form}")
    done(["put", "-r", "-f", form, *word, "disk.img", "b.y"], folder)
    if held(folder, size, ("B", "Y")) != file:
        failed(f"a file doesn't come back as {form}")


def limits(folder):
    """The longest records and the most records are taken, and one more isn't."""
    new_image(folder, 4096)
    cases = [
        ("text", 0, b"x" * 65535, None),
        ("text", 0, b"x\n" + b"x" * 65536, model.LONG_LINE.format(2)),
        ("text", 1, b"x\n" * 1048576, None),
        ("text", 1, b"x\n" * 1048577, model.TOO_LARGE),
        ("binary", 65535, b"x" * 65535 * 3, None),
        ("binary", 64, b"x" * 67108864, None),
        ("binary", 64, b"x" * 67108865, model.TOO_LARGE),
        ("records", 0, b"\xff\xff" + b"x" * 65535, None),
    ]
    for form, length, data, refused in cases:
        word = ["-L", str(length)] if length else []
        got = model.run(["put", "-r", "-f", form, *word, "-n", "a.x", "disk.img", "-"], folder, data)
        want = model.Answer(1, b"", [model.said("-", refused)]) if refused else model.Answer(0, b"", [])
        if got != want:
            failed(f"{form} of {len(data)} bytes: {got} where {want} must come")
        if not refused and held(folder, 4096, ("A", "X")) != model.held_of(form, length, 1, data):
            failed(f"{form} of {len(data)} bytes are put as other records")


def main():
    runs = int(sys.argv[1]) if len(sys.argv) > 1 else 200
    seed = int(sys.argv[2]) if len(sys.argv) > 2 else 1
    if not model.PROGRAM.exists():
        sys.exit("roundtrips: build the program first, by ./minidisk --build")
    with tempfile.TemporaryDirectory() as name:
        folder = pathlib.Path(name)
        for nth in range(runs):
            text_trip(folder, random.Random(f"{seed}.text.{nth}"))
            records_trip(folder, random.Random(f"{seed}.records.{nth}"))
        limits(folder)
    print(f"{runs} texts and {runs} files of records come back, and the limits are kept")


if __name__ == "__main__":
    main()
