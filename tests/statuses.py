#!/usr/bin/env python3
"""Runs `minidisk` with words that are refused, images in use, and files and streams that fail, and looks at what it says and ends with.

    tests/statuses.py

Each case that fails is printed. No part of the gate; one case wants /dev/full.
"""

import fcntl
import os
import pathlib
import resource
import signal
import subprocess
import sys
import tempfile

import model
from model import Answer, said

IN_USE = said("a.img", "it is in use; try again when the other program has ended")
BEHIND = "what stands behind isn't done"


def failed(title, got):
    print(f"FAILED: {title}: {got}")
    return 1


def want(title, words, answer, **how):
    got = model.run(words, ".", **how)
    return 0 if got == answer else failed(title, got)


def says(title, words, status, piece):
    """The status of a run, and a piece of the one line that it says."""
    got = model.run(words, ".")
    good = got.status == status and not got.output and len(got.notes) == 1 and piece in got.notes[0]
    return 0 if good else failed(title, got)


def words_of_help():
    """Help and the version are on standard output, and what clap refuses is not."""
    bad = 0
    for words in (["--help"], ["-h"], ["--version"], *([verb, "--help"] for verb in VERBS)):
        got = model.run(words, ".")
        if got.status or got.notes or not got.output:
            bad += failed(" ".join(words), got)
    for words in ([], ["copy"], ["list"], ["list", "-x", "a.img"], ["get", "a.img"], ["make", "a.img"], ["put", "-b"]):
        got = model.run(words, ".")
        if got.status != 2 or got.output or not got.notes:
            bad += failed(" ".join(words), got)
    return bad


VERBS = ["list", "info", "get", "put", "erase", "rename", "make", "check", "dump"]

NAME = "a name is FN.FT, each of 1 to 8 characters A to Z, 0 to 9 and $ # @ + - : _; in list, get and erase also * and %"

# Words that clap takes, and what is said of them.
REFUSED = [
    (["list", "-b", "513", "a.img"], "-b: a block size is 512, 1024, 2048 or 4096"),
    (["get", "-f", "lines", "a.img", "a.txt"], "-f: a form is text, binary or records"),
    (["put", "-f", "binary", "a.img", "a.txt"], "-f binary wants the length of a record, -L N"),
    (["put", "-L", "0", "a.img", "a.txt"], "-L: a record has 1 to 65535 bytes"),
    (["put", "-m", "7", "a.img", "a.txt"], "-m: a mode number is a digit 0 to 6"),
    (["get", "a.img", "a"], f"name 1: {NAME}"),
    (["rename", "a.img", "a.txt", "b.*"], f"name 2: {NAME}"),
    (["make", "-b", "512", "-n", "7", "-l", "X", "b.img"], "-n: a volume has 8 to 1048576 blocks"),
    (["make", "-b", "512", "-n", "8", "-l", "TOOLONG", "b.img"],
     "-l: a label is 1 to 6 characters A to Z, 0 to 9 and $ # @ + - : _"),
    (["erase", "-z", "E1500", "a.img", "a.txt"], "-z: a zone is E or W and hhmm, as W0500"),
    (["dump", "a.img", "0"], "word 1 behind the image: blocks have the numbers 1 to 1048576"),
    (["get", "-o", "x", "-d", "y", "a.img", "a.txt"], "-o and -d exclude each other"),
    (["get", "-v", "a.img", "a.txt"], "-v wants -o or -d: else the files themselves are the output"),
    (["put", "-n", "b.txt", "a.img", "a.txt", "b.txt"], "-n takes one host file"),
    (["put", "a.img", "-"], "- is standard input, and wants its name in the image, -n FN.FT"),
]


def refused_words():
    return sum(want(" ".join(words), words, Answer(2, b"", [f"minidisk: {text}"])) for words, text in REFUSED)


def not_there():
    bad = want("no image", ["list", "no.img"], Answer(1, b"", [said("no.img", model.NOT_THERE)]))
    bad += want("a folder as an image", ["list", "folder"], Answer(1, b"", [said("folder", model.NOT_THERE)]))
    bad += want("an image of zeros", ["list", "zeros.img"],
                Answer(1, b"", [said("zeros.img", "its block size can't be told from its label; give it with -b")]))
    bad += want("make over a file", ["make", "-b", "512", "-n", "8", "-l", "X", "a.img"], Answer(1, b"", [said("a.img", model.IS_THERE)]))
    bad += says("make in no folder", ["make", "-b", "512", "-n", "8", "-l", "X", "no/a.img"], 4, "no/a.img: ")
    bad += want("a pipe as a host file", ["put", "a.img", "pipe.txt"], Answer(1, b"", [said("pipe.txt", model.NOT_THERE)]))
    bad += want("no folder", ["get", "-d", "no", "a.img", "a.txt"], Answer(1, b"", [said("no", model.NO_FOLDER)]))
    bad += says("over a device", ["get", "-r", "-o", "/dev/null", "a.img", "a.txt"], 4, "minidisk: /dev/null: what has the name is no plain file")
    bad += says("over a folder", ["get", "-r", "-o", "folder", "a.img", "a.txt"], 4, "minidisk: folder: what has the name is no plain file")
    return bad


def in_use():
    """Readers share an image; a writer has it alone."""
    bad = 0
    for lock, reads in ((fcntl.LOCK_SH, 0), (fcntl.LOCK_EX, 1)):
        with open("a.img", "rb") as image:
            fcntl.flock(image, lock)
            bad += want("a writer", ["erase", "a.img", "a.txt"], Answer(1, b"", [IN_USE]))
            answer = Answer(1, b"", [IN_USE]) if reads else Answer(0, b"A.TXT\n", [])
            bad += want("a reader", ["list", "a.img"], answer)
    return bad


def no_room():
    """What has no room is refused, with what it needs and what is free, and the image is as before."""
    model.run(["make", "-b", "512", "-n", "20", "-l", "SMALL", "small.img"], ".")
    before = pathlib.Path("small.img").read_bytes()
    pathlib.Path("large.txt").write_bytes(b"x" * 100 + b"\n" * 20000)
    bad = says("no room", ["put", "small.img", "large.txt"], 1, " blocks, and 14 are free")
    return bad + (failed("no room", "the image changed") if pathlib.Path("small.img").read_bytes() != before else 0)


def broken_streams():
    """A full output is a failure, behind an update too, which stays."""
    bad = 0
    with open("/dev/full", "wb") as full:
        for words in (["list", "a.img"], ["get", "a.img", "a.txt"], ["put", "-v", "-r", "a.img", "a.txt"]):
            ended = subprocess.run([model.PROGRAM, *words], stdout=full, stderr=subprocess.PIPE, check=False)
            if ended.returncode != 4 or len(ended.stderr.splitlines()) != 1:
                bad += failed(f"{words[0]} to a full output", (ended.returncode, ended.stderr))
    closed = subprocess.run([model.PROGRAM, "list", "a.img"], preexec_fn=lambda: os.close(1), stderr=subprocess.PIPE, check=False)
    if closed.returncode != 4:
        bad += failed("a closed output", closed.returncode)
    return bad + want("the image behind it", ["check", "a.img"], Answer(0, b"a.img: sound, 1 files, 0 blocks lost\n", []))


def without_room():
    """Files have no room, which a call answers, and no signal."""
    signal.signal(signal.SIGXFSZ, signal.SIG_IGN)
    resource.setrlimit(resource.RLIMIT_FSIZE, (0, 0))


def cut_short():
    """Where a host file fails nothing is left of what was begun."""
    words = [model.PROGRAM, "get", "-o", "cut.txt", "a.img", "a.txt"]
    ended = subprocess.run(words, preexec_fn=without_room, capture_output=True, check=False)
    left = sorted(path.name for path in pathlib.Path(".").iterdir() if "cut.txt" in path.name)
    good = ended.returncode == 4 and ended.stderr.startswith(b"minidisk: cut.txt: ") and BEHIND.encode() in ended.stderr and not left
    return 0 if good else failed("a host file that is cut", (ended.returncode, ended.stderr, left))


def made():
    """The files of the cases."""
    pathlib.Path("a.txt").write_bytes(b"one\ntwo\n")
    pathlib.Path("b.txt").write_bytes(b"three\n")
    pathlib.Path("zeros.img").write_bytes(bytes(51200))
    os.mkdir("folder")
    os.mkfifo("pipe.txt")
    bad = want("make", ["make", "-b", "512", "-n", "100", "-l", "A", "a.img"], Answer(0, b"", []))
    return bad + want("put", ["put", "a.img", "a.txt"], Answer(0, b"", []))


def main():
    if len(sys.argv) != 1 or not model.PROGRAM.exists():
        sys.exit(__doc__)
    with tempfile.TemporaryDirectory() as folder:
        os.chdir(folder)
        groups = (made, words_of_help, refused_words, not_there, in_use, no_room, broken_streams, cut_short)
        bad = sum(group() for group in groups)
        os.chdir(model.ROOT)
    if bad:
        sys.exit(f"statuses: {bad} cases failed")
    print("statuses: each case says and ends as it must")


if __name__ == "__main__":
    main()
