#!/usr/bin/env python3
"""Runs the commands that stand behind `$` in the blocks of README.md and docs/TUTORIAL.md, on the built programs: each must answer what the
document shows.

    tests/transcripts.py

The blocks of a document run one behind another, in a folder with a copy of examples/. What a command types stands first, then what it says
on standard error. Dates are those of the run. No part of the gate.
"""

import os
import pathlib
import re
import shutil
import subprocess
import sys
import tempfile

import model
import runs

DOCUMENTS = ["README.md", "docs/TUTORIAL.md"]
DATE = re.compile(r"\d{4}-\d\d-\d\d \d\d:\d\d:\d\d")


def steps(text):
    """The commands of a document, each with the lines of its answer."""
    found = []
    for block in re.findall(r"(?:^    .*\n)+", text, re.MULTILINE):
        lines = [line[4:] for line in block.splitlines()]
        if not lines[0].startswith("$ "):
            continue
        for line in lines:
            if line.startswith("$ "):
                found.append((line[2:], []))
            else:
                found[-1][1].append(line)
    return found


def answered(command):
    ended = subprocess.run(["sh", "-c", command], capture_output=True, text=True, timeout=model.SECONDS, check=False)
    return (ended.stdout + ended.stderr).splitlines()


def dated(lines):
    return [DATE.sub("DATE", line).rstrip() for line in lines]


def try_document(document):
    """Runs a document's commands in a new folder, and counts them."""
    found = steps((model.ROOT / document).read_text())
    with tempfile.TemporaryDirectory() as folder:
        shutil.copytree(model.ROOT / "examples", pathlib.Path(folder) / "examples")
        os.chdir(folder)
        for command, wanted in found:
            lines = answered(command)
            if dated(lines) != dated(wanted):
                sys.exit(f"transcripts: {document}, $ {command}\n" + "\n".join(lines))
        os.chdir(model.ROOT)
    return len(found)


def main():
    if len(sys.argv) != 1 or not model.PROGRAM.exists() or not runs.PROGRAM.exists():
        sys.exit(__doc__)
    with tempfile.TemporaryDirectory() as folder:
        for name, program in (("minidisk", model.PROGRAM), ("cms", runs.PROGRAM)):
            os.symlink(program, pathlib.Path(folder) / name)
        os.environ["PATH"] = f"{folder}:{os.environ['PATH']}"
        count = sum(map(try_document, DOCUMENTS))
    print(f"transcripts: {count} commands answer what the documents show")


if __name__ == "__main__":
    main()
