#!/usr/bin/env python3
"""Refuses the built program memory at calls by which it asks the system for more, in turn, and looks how the session ends.

    tests/memory.py

Needs strace; it is no part of the gate. The scripts are those of examples/, and one with a large file that is copied and stacked. In each
run one call fails, or all from one on; where it is `brk` the `mmap` by which the C library asks again fails too. The session ends with status 0 and what it types else, or with status 3, one line on standard error
and the first lines of what it types else; and a minidisk that stood on an image stands there still, as another reader finds it. So that the
program asks often, the C library is told to take no more than it is asked for.
"""

import os
import pathlib
import re
import subprocess
import sys
import tempfile

from cases import LARGE
from runs import PROGRAM, ROOT, is_minidisk

# How the kernel refuses each.
REFUSED = {"mmap": "error=ENOMEM", "brk": "retval=0"}
OFTEN = {"MALLOC_TOP_PAD_": "0", "MALLOC_MMAP_THRESHOLD_": "4096", "MALLOC_TRIM_THRESHOLD_": "0"}
EXAMPLES = ROOT / "examples"
MOST = 50

# What a session is called: its words, its script, and the images that it begins with.
SESSIONS = {
    "hello": (["191,512,ro,disk.img"], "hello.txt", ["disk.img"]),
    "format": (["191,512,ro,disk.img", "192,1024,n60,work.img"], "format.txt", ["disk.img"]),
    "files": (["191,512,rw,files.img"], "files.txt", ["files.img"]),
    "procedure": (["191,512,rw,files.img"], "procedure.txt", ["files.img"]),
    "large": (["191,512,n9000,large.img"], "", []),
}


def ended(words, script, injected=()):
    """A run under strace, and what it told of the calls."""
    traced = ["strace", "-qq", "-o", "calls", "-e", f"trace={','.join(REFUSED)}", *injected]
    return subprocess.run([*traced, PROGRAM, *words], input=script, capture_output=True, env={**os.environ, **OFTEN}, check=False)


def asked():
    """The calls by which the last run asked for memory, in order."""
    return re.findall(r"^(brk|mmap)\(", pathlib.Path("calls").read_text(), re.MULTILINE)


def refused(calls, number, further):
    """What strace is told so that the call of a number, from 0, fails, or all from it on."""
    for name, how in REFUSED.items():
        if further or name == "mmap" or calls[number] == name:
            when = calls[:number].count(name) + 1
            yield from ("-e", f"inject={name}:{how}:when={when}{'+' if further else ''}")


class Session:
    def __init__(self, name):
        self.words, script, self.images = SESSIONS[name]
        self.script = (EXAMPLES / script).read_bytes() if script else LARGE.encode()
        self.made = [word.split(",")[-1] for word in self.words]
        self.sizes = {word.split(",")[-1]: int(word.split(",")[1]) for word in self.words}
        self.lay()
        ended(["--version"], b"")
        self.first = len(asked())
        whole = ended(self.words, self.script)
        if whole.returncode:
            sys.exit(f"memory: {name} ended with {whole.returncode}")
        self.typed, self.calls = whole.stdout, asked()

    def lay(self):
        for name in self.made:
            pathlib.Path(name).unlink(missing_ok=True)
        for name in self.images:
            pathlib.Path(name).write_bytes((EXAMPLES / name).read_bytes())

    def fault(self, number, further):
        """What is wrong where this call fails, and all further ones where these do too; nothing where all is well."""
        self.lay()
        run = ended(self.words, self.script, refused(self.calls, number, further))
        said = run.stderr.splitlines()
        if run.returncode == 0 and run.stdout == self.typed and not said:
            return self.image_fault()
        if run.returncode == 3 and self.typed.startswith(run.stdout) and said == [b"cms: there is no memory"]:
            return self.image_fault()
        return f"status {run.returncode}, {run.stdout[-60:]!r}, {said[:2]}"

    def image_fault(self):
        for name, size in self.sizes.items():
            path = pathlib.Path(name)
            image = path.read_bytes() if path.exists() else b""
            if any(image) and not is_minidisk(image, size):
                return f"{name} is no minidisk"
        return ""

    def tried(self):
        """Fails each call, or many of them where there are more, alone and with all behind it; and counts the runs."""
        count = len(self.calls) - self.first
        numbers = range(self.first, len(self.calls), 1 + count // MOST)
        for number in numbers:
            for further in (False, True):
                if fault := self.fault(number, further):
                    sys.exit(f"memory: call {number}, {'all' if further else 'alone'}, of {self.words}: {fault}")
        return 2 * len(numbers)


def main():
    if len(sys.argv) != 1 or not PROGRAM.exists():
        sys.exit(__doc__)
    with tempfile.TemporaryDirectory() as folder:
        os.chdir(folder)
        for name in SESSIONS:
            print(f"{name}: {Session(name).tried()} runs, each with status 0 or 3 and its minidisks", flush=True)
        os.chdir(ROOT)


if __name__ == "__main__":
    main()
