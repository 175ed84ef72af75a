"""Runs of the built program, which must not crash, hang, take over a gibibyte or end with a status of its own."""

import os
import pathlib
import resource
import signal
import subprocess
import tempfile
import time

import volumes

ROOT = pathlib.Path(__file__).resolve().parent.parent
PROGRAM = ROOT / "crates/cms_cli/out/cms_cli"
STATUSES = {0, 2, 3, 4, 5}
SECONDS = 60
MEMORY = 1 << 30
SMALL = 5 << 20


class Failed(Exception):
    pass


def limits():
    resource.setrlimit(resource.RLIMIT_CORE, (0, 0))
    signal.signal(signal.SIGPIPE, signal.SIG_IGN)


def waited(child, meanwhile):
    """Waits for a program that may not run for long."""
    ends = time.monotonic() + SECONDS
    while True:
        done, status, used = os.wait4(child.pid, os.WNOHANG)
        if done:
            child.returncode = os.waitstatus_to_exitcode(status)
            return used
        if meanwhile:
            meanwhile()
        if time.monotonic() > ends:
            child.kill()
            os.wait4(child.pid, 0)
            child.returncode = -9
            raise Failed(f"no end after {SECONDS} s")
        time.sleep(0.001)


def run(words, text, output=subprocess.DEVNULL, prepare=limits, meanwhile=None, statuses=STATUSES, told=True):
    """Runs the program, and fails where it crashes, hangs, is too large, has a status of its own, or says otherwise what failed."""
    with tempfile.TemporaryFile() as source, tempfile.TemporaryFile() as errors:
        source.write(text)
        source.seek(0)
        child = subprocess.Popen([PROGRAM, *words], stdin=source, stdout=output, stderr=errors, preexec_fn=prepare)
        used = waited(child, meanwhile)
        errors.seek(0)
        said = errors.read().splitlines()
    code = child.returncode
    if code not in statuses:
        raise Failed(f"status {code}: {said[:3]}")
    if told and (len(said) != (code != 0) or not all(each.startswith(b"cms: ") for each in said)):
        raise Failed(f"status {code} with {said[:3]} on standard error")
    if used.ru_maxrss * 1024 > MEMORY:
        raise Failed(f"{used.ru_maxrss} KiB")
    return code


def is_minidisk(image, size):
    """Whether another reader finds a minidisk; not asked where an image is large."""
    try:
        return len(image) <= SMALL and bool(volumes.read(image, size))
    except (volumes.Refused, ArithmeticError, LookupError, ValueError, RecursionError, volumes.struct.error):
        return False
