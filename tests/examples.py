#!/usr/bin/env python3
"""Runs the examples of README.md, docs/SESSIONS.md and the manual page on the built program: each must type what the document shows.

    tests/examples.py

No part of the gate. A script and what it types are two blocks of a document, one behind the other. The scripts in examples/ must be those of
the documents.
"""

import os
import pathlib
import re
import shutil
import subprocess
import sys
import tempfile
from typing import NamedTuple

from runs import PROGRAM, ROOT, SECONDS

EXAMPLES = ROOT / "examples"
PAGE = "docs/cms.1"
SESSIONS = "docs/SESSIONS.md"


class Example(NamedTuple):
    """A document, the first line of a script in it, the program's words, and the script's file in examples/, if any."""

    document: str
    first: str
    words: list
    file: str = ""


RUNS = [
    Example("README.md", "* what is there", ["191,512,ro,disk.img"], "hello.txt"),
    Example("README.md", "FORMAT 192 B", ["191,512,ro,disk.img", "192,1024,n60,work.img"], "format.txt"),
    Example(SESSIONS, "* a list is written, mended and typed", ["191,1024,n60,notes.img"], "edit.txt"),
    Example(SESSIONS, "FORMAT 191 A", ["191,1024,n100,keep.img"]),
    Example(PAGE, "* the files of disk A, and some records of two of them", ["191,512,rw,files.img"], "files.txt"),
    Example(PAGE, "EXECIO 9 DISKW FIRST EXEC A", ["191,512,rw,files.img"], "procedure.txt"),
]

# A later session on the image that the last example of docs/SESSIONS.md made: its lines stand in the text, and what it types behind them.
CHECKED = Example(SESSIONS, "CMS723I A (191) R/O", ["191,1024,ro,keep.img"])
CHECKING = "ACCESS 191 A\nQUERY DISK A\n"


def page_blocks(text):
    """The displays of the manual page, as they are shown."""
    shown = []
    for block in re.findall(r"^\.EX\n(.*?)^\.EE$", text, re.MULTILINE | re.DOTALL):
        lines = [line.removeprefix("\\&").replace("\\-", "-").replace("\\e", "\\") for line in block.splitlines()]
        shown.append("".join(f"{line}\n" for line in lines))
    return shown


def text_blocks(text):
    """The blocks of a text that are indented by four blanks."""
    found = re.findall(r"(?:^    .*\n)+", text, re.MULTILINE)
    return ["".join(line[4:] + "\n" for line in block.splitlines()) for block in found]


def blocks(document):
    text = (ROOT / document).read_text()
    return page_blocks(text) if document == PAGE else text_blocks(text)


def typed(words, script):
    ran = subprocess.run([PROGRAM, *words], input=script.encode(), capture_output=True, timeout=SECONDS, check=False)
    return ran.returncode, ran.stdout.decode()


def fresh_images():
    for image in EXAMPLES.glob("*.img"):
        shutil.copy(image, ".")


def place_of(example, shown):
    places = [place for place, block in enumerate(shown) if block.startswith(example.first + "\n")]
    if len(places) != 1:
        sys.exit(f"examples: {example.document} has {len(places)} blocks that begin with {example.first!r}")
    return places[0]


def check(example, script, wanted):
    status, found = typed(example.words, script)
    if (status, found) != (0, wanted):
        sys.exit(f"examples: {example.document}, {example.first!r}: status {status}\n{found}")


def try_all():
    for example in RUNS:
        shown = blocks(example.document)
        place = place_of(example, shown)
        if example.file and (EXAMPLES / example.file).read_text() != shown[place]:
            sys.exit(f"examples: examples/{example.file} isn't the script of {example.document}")
        fresh_images()
        check(example, shown[place], shown[place + 1])
    shown = blocks(CHECKED.document)
    check(CHECKED, CHECKING, shown[place_of(CHECKED, shown)])


def main():
    if len(sys.argv) != 1 or not PROGRAM.exists():
        sys.exit(__doc__)
    with tempfile.TemporaryDirectory() as folder:
        os.chdir(folder)
        try_all()
        os.chdir(ROOT)
    print(f"examples: {len(RUNS) + 1} examples type what the documents show")


if __name__ == "__main__":
    main()
