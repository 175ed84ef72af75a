"""What `minidisk` must do, over a plain model: the files of an image with their records, and host files as forms stand for them.

`Disk` is the model of an image and answers commands, `run` runs the built program, and `read` reads an image back by tests/volumes.py.
"""

import pathlib
import re
import subprocess
from typing import NamedTuple

import volumes

ROOT = pathlib.Path(__file__).resolve().parent.parent
PROGRAM = ROOT / "crates/minidisk/out/minidisk"
SECONDS = 120

BLANK = b"\x40"
LONGEST = 65535
MOST_RECORDS = 1048576
MOST_BYTES = 67108864
# A character to U+00FF in UTF-8 that ends no line.
ONE = re.compile(rb"(?:[\x00-\x09\x0b\x0c\x0e-\x7f]|[\xc2\xc3][\x80-\xbf])")
TEXT = re.compile(b"%b*" % ONE.pattern)
PART = frozenset("ABCDEFGHIJKLMNOPQRSTUVWXYZ0123456789$#@+-:_")

# What the program says behind the word that a refusal is about.
NOTHING_FITS = "no file of the image has such a name"
NOT_THERE = "there is no such plain file"
NO_FOLDER = "there is no such folder; make it first"
IS_THERE = "a file of this name is there; get and put replace it with -r"
IS_IMAGE = "it is the image itself; name another file"
NO_NAME = "its name isn't FN.FT as CMS has it; give one with -n"
NOT_LINES = "a record has a line feed or a carriage return; use -f records or -f binary"
CHARACTER = "line {} has bytes that aren't a character to U+00FF in UTF-8"
RETURN = "line {} has a carriage return that isn't right before its line feed"
LONG_LINE = "line {} is longer than a record may be; -L N makes room for N characters"
BAD_LENGTH = "record {} has the length 0, or another one than -L says"
CUT = "the file ends within record {}"
TOO_LARGE = "a file has at most 1048576 records and 67108864 bytes"
EMPTY = "it is empty, and a CMS file has at least one record"


class Answer(NamedTuple):
    """What a run came to: its status, what it typed, and the lines that it said on standard error."""

    status: int
    output: bytes
    notes: list


class Held(NamedTuple):
    """A file of an image: its format, F or V, the length of its records, its mode number, and the records."""

    form: str
    length: int
    number: int
    records: list


class Refused(Exception):
    """A host file stands for no records, or a file can't be shown in a form."""


def run(words, folder, text=b"", before=()):
    """Runs the program in a folder with these words."""
    ended = subprocess.run(
        [*before, str(PROGRAM), *words], cwd=folder, input=text, capture_output=True, timeout=SECONDS, check=False
    )
    return Answer(ended.returncode, ended.stdout, ended.stderr.decode().splitlines())


def said(word, text):
    return f"minidisk: {word}: {text}"


# ---- forms


def lines_of(data):
    """The lines of a host file, each without what ends it."""
    lines = data.split(b"\n")
    last = lines.pop()
    lines = [line[:-1] if line.endswith(b"\r") else line for line in lines]
    return [*lines, last] if last else lines


def look_through(line, number, most):
    """Refuses the first byte of a line that begins no character to U+00FF, and a line of too many of them."""
    at = count = 0
    while at < len(line):
        found = ONE.match(line, at)
        if not found:
            raise Refused((RETURN if line[at] == 13 else CHARACTER).format(number))
        at, count = found.end(), count + 1
        if count > most:
            raise Refused(LONG_LINE.format(number))


def record_of(line, number, length):
    """The record that a line stands for, in a file of records of this length or of varying ones."""
    most = length or LONGEST
    if len(line) > most or not TEXT.fullmatch(line):
        look_through(line, number, most)
    record = line.decode().encode("cp037")
    return record.ljust(length, BLANK) if length else record or BLANK


def counted(data, length):
    """The records that stand behind their lengths."""
    records, at = [], 0
    while at < len(data):
        size = int.from_bytes(data[at : at + 2], "big")
        if at + 2 > len(data):
            raise Refused(CUT.format(len(records) + 1))
        if size == 0 or length and size != length:
            raise Refused(BAD_LENGTH.format(len(records) + 1))
        if at + 2 + size > len(data):
            raise Refused(CUT.format(len(records) + 1))
        records.append(data[at + 2 : at + 2 + size])
        at += 2 + size
    return records


def records_of(form, length, data):
    """The records that a host file stands for; none where it is refused."""
    if not data:
        raise Refused(EMPTY)
    if form == "text":
        records = [record_of(line, number, length) for number, line in enumerate(lines_of(data), 1)]
    elif form == "binary":
        records = [data[at : at + length].ljust(length, b"\0") for at in range(0, len(data), length)]
    else:
        records = counted(data, length)
    stored = sum(len(record) + (0 if length else 2) for record in records)
    if len(records) > MOST_RECORDS or stored > MOST_BYTES:
        raise Refused(TOO_LARGE)
    return records


def held_of(form, length, number, data):
    """The file that a host file becomes."""
    records = records_of(form, length, data)
    return Held("F" if length else "V", length or max(map(len, records)), number, records)


def line_of(file, record):
    text = record.decode("cp037")
    if "\n" in text or "\r" in text:
        raise Refused(NOT_LINES)
    text = text.rstrip(" ") if file.form == "F" else "" if text == " " else text
    return f"{text}\n".encode()


def shown(form, file):
    """The bytes of a host file that shows a file in a form."""
    if form == "text":
        return b"".join([line_of(file, record) for record in file.records])
    if form == "binary":
        return b"".join(file.records)
    return b"".join(len(record).to_bytes(2, "big") + record for record in file.records)


# ---- names


def name_of(word):
    """The name that a word spells, FN.FT in either case; none where it spells none."""
    parts = word.upper().split(".", 1) if word.isascii() else []
    good = len(parts) == 2 and all(1 <= len(part) <= 8 and PART.issuperset(part) for part in parts)
    return tuple(parts) if good else None


def fits_part(pattern, text):
    """Whether a pattern with `*` and `%` fits a text."""
    if not pattern:
        return not text
    if pattern[0] == "*":
        return fits_part(pattern[1:], text) or bool(text) and fits_part(pattern, text[1:])
    return bool(text) and pattern[0] in ("%", text[0]) and fits_part(pattern[1:], text[1:])


def fits(word, key):
    return all(map(fits_part, word.upper().split(".", 1), key))


def spelled(key):
    return f"{key[0]}.{key[1]}"


# ---- images


class Disk:
    """The files of an image, in the order of its directory."""

    def __init__(self):
        self.files = []

    def place(self, key):
        """Where a file stands, or none."""
        return next((place for place, (name, _) in enumerate(self.files) if name == key), None)

    def get(self, key):
        return self.files[self.place(key)][1]

    def put(self, key, file):
        place = self.place(key)
        if place is None:
            self.files.append((key, file))
        else:
            self.files[place] = (key, file._replace(number=self.files[place][1].number))

    def erase(self, key):
        """The last file takes the place of the one that goes."""
        last = self.files.pop()
        if last[0] != key:
            self.files[self.place(key)] = last

    def rename(self, old, new):
        self.files[self.place(old)] = (new, self.get(old))

    def listed(self, words):
        """The files that any of these names fits, all where there are none, in the order of the directory."""
        return [key for key, _ in self.files if not words or any(fits(word, key) for word in words)]

    def chosen(self, words):
        """The files that these names fit, in the order of the names, each once."""
        return list(dict.fromkeys(key for word in words for key, _ in self.files if fits(word, key)))

    def idle(self, words):
        """The notes of the names that fit no file."""
        return [said(word, NOTHING_FITS) for word in words if not self.listed([word])]


def read(image, size):
    """The files of an image as tests/volumes.py reads them, and what it found."""
    reader = volumes.Reader(image, size)
    found = reader.read()
    rows = [volumes.Row.of(row) for row in reader.rows[2:]]
    files = [
        (key, Held(file.form, row.length, row.mode - 0xF0, file.records))
        for (key, file), row in zip(found.files.items(), rows)
    ]
    return files, found
