#!/usr/bin/env python3
"""Runs the built program over files, folders and streams that fail or are in use, and looks that it loses nothing and says what happened.

    tests/edge.py

Two programs at once on one image, and one image under two names; a lock that is let go by a kill; a first sync that fails where later
ones answer well; file systems that know no locks; folders that can't be synced; no room in the middle of an update; interrupts; pipes
that nobody reads; a clock before 1970. Calls of the system are made to fail by a small library that is compiled here and loaded before
the C library, so a C compiler is needed. A case that fails is printed. No part of the gate.
"""

import functools
import os
import pathlib
import resource
import shutil
import signal
import subprocess
import sys
import tempfile
import time

from runs import PROGRAM, ROOT, SECONDS, Failed, is_minidisk

WORD = "191,512,rw,a.img"
MAKE = b"FORMAT 191 A\nYES\nMADE01\nEXECIO 1 DISKW FIRST FILE A (STRING one\nQUERY DISK\n"
CHANGE = b"EXECIO 1 DISKW SECOND FILE A (STRING two\nLISTFILE\n"

# What CHANGE types where its update fails: the fault, and the list of what is there; or, where the label may be there or not, a disk that
# was given up.
FAULT = "CMS105E Device fault on 191\nR(00100);\n"
KEPT = "FIRST    FILE     A1\nR;\n"
GIVEN_UP = "CMS069E Disk A is not accessed\nR(00036);\n"

# The label is the third block. The first block that an update of the image writes is behind it, and goes over this end.
LABEL_ENDS = 3 * 512
LIMIT = 5 * 512 + 40

# Each call is counted where CMS_FAIL names it, as in `fdatasync=1:5`: the first call fails with error 5. `flock=*:95` fails them all. Each
# that fails is written to the file that CMS_LOG names.
LIBRARY = r"""
#define _GNU_SOURCE
#include <dlfcn.h>
#include <errno.h>
#include <fcntl.h>
#include <stdlib.h>
#include <string.h>
#include <sys/stat.h>
#include <sys/types.h>
#include <time.h>
#include <unistd.h>

static void told(const char *call) {
    int log = open(getenv("CMS_LOG"), O_WRONLY | O_CREAT | O_APPEND, 0600);
    if (write(log, call, strlen(call)) < 0) abort();
    close(log);
}

static int fails(const char *call, int *count) {
    const char *rule = getenv("CMS_FAIL");
    size_t length = strlen(call);
    if (!rule || strncmp(rule, call, length) || rule[length] != '=') return 0;
    rule += length + 1;
    *count += 1;
    if (*rule != '*' && atoi(rule) != *count) return 0;
    told(call);
    errno = atoi(strchr(rule, ':') + 1);
    return 1;
}

static int is_folder(int fd) {
    struct stat status;
    return fstat(fd, &status) == 0 && S_ISDIR(status.st_mode);
}

int fdatasync(int fd) {
    static int count;
    if (fails("fdatasync", &count)) return -1;
    return ((int (*)(int))dlsym(RTLD_NEXT, "fdatasync"))(fd);
}

int fsync(int fd) {
    static int count;
    if (is_folder(fd) && fails("folder", &count)) return -1;
    return ((int (*)(int))dlsym(RTLD_NEXT, "fsync"))(fd);
}

int flock(int fd, int how) {
    static int count;
    if (fails("flock", &count)) return -1;
    return ((int (*)(int, int))dlsym(RTLD_NEXT, "flock"))(fd, how);
}

/* Half of the bytes are written, and then none. */
ssize_t pwrite64(int fd, const void *bytes, size_t size, off_t at) {
    static int count, torn;
    int fail = !torn && fails("pwrite", &count);
    if (torn) {
        torn = 0;
        errno = ENOSPC;
        return -1;
    }
    torn = fail;
    return ((ssize_t (*)(int, const void *, size_t, off_t))dlsym(RTLD_NEXT, "pwrite64"))(fd, bytes, fail ? size / 2 : size, at);
}

ssize_t pwrite(int fd, const void *bytes, size_t size, off_t at) { return pwrite64(fd, bytes, size, at); }

int clock_gettime(clockid_t which, struct timespec *time) {
    static int count;
    if (which == CLOCK_REALTIME && getenv("CMS_FAIL") && !strcmp(getenv("CMS_FAIL"), "1969")) {
        told("clock");
        time->tv_sec = -1000;
        time->tv_nsec = 0;
        return 0;
    }
    if (which == CLOCK_REALTIME && fails("clock", &count)) return -1;
    return ((int (*)(clockid_t, struct timespec *))dlsym(RTLD_NEXT, "clock_gettime"))(which, time);
}
"""


def compiled():
    pathlib.Path("fails.c").write_text(LIBRARY)
    subprocess.run(["cc", "-shared", "-fPIC", "-O1", "-o", "fails.so", "fails.c", "-ldl"], check=True)


def plain():
    """Standard signals, whatever this process has."""
    for number in (signal.SIGPIPE, signal.SIGINT, signal.SIGTERM, signal.SIGHUP):
        signal.signal(number, signal.SIG_DFL)


def environment(fail):
    given = dict(os.environ)
    if fail:
        given |= {"LD_PRELOAD": os.path.abspath("fails.so"), "CMS_FAIL": fail, "CMS_LOG": os.path.abspath("failed")}
    return given


def session(words, text, fail=None, prepare=plain, output=subprocess.PIPE):
    """The status of a whole session, what it types, and the lines that it says. What is to fail must have failed."""
    failed = pathlib.Path("failed")
    failed.unlink(missing_ok=True)
    done = subprocess.run(
        [PROGRAM, *words], input=text, stdout=output, stderr=subprocess.PIPE, preexec_fn=prepare, env=environment(fail), timeout=SECONDS, check=False
    )
    if fail and not failed.exists():
        raise Failed(f"{fail} never came: status {done.returncode}, typed {done.stdout!r}")
    return done.returncode, (done.stdout or b"").decode(), done.stderr.decode().splitlines()


def expect(got, status, said, typed=None):
    """Fails where a session ended otherwise, or one of the texts isn't in the line of its place."""
    code, out, lines = got
    if code != status or len(lines) != len(said) or not all(text in line for text, line in zip(said, lines)):
        raise Failed(f"status {code}, wanted {status}; said {lines}, wanted {said}; typed {out[-300:]!r}")
    if typed is not None and typed not in out:
        raise Failed(f"typed {out!r}, wanted {typed!r}")
    return code


def image(name="a.img", blocks=200):
    """A new image with a file on it, made by the program."""
    pathlib.Path(name).unlink(missing_ok=True)
    expect(session([f"191,512,n{blocks},{name}"], MAKE), 0, [], "MADE01 191 A R/W")
    return pathlib.Path(name).read_bytes()


def ready(text):
    """A program that has run these lines on the image and waits for more."""
    child = subprocess.Popen([PROGRAM, WORD], stdin=subprocess.PIPE, stdout=subprocess.PIPE, stderr=subprocess.PIPE, preexec_fn=plain)
    child.stdin.write(text)
    child.stdin.flush()
    for _ in range(text.count(b"\n")):
        while not child.stdout.readline().startswith((b"R;", b"R(")):
            pass
    return child


def ended(child):
    said = child.communicate(timeout=SECONDS)[1].decode().splitlines()
    return child.returncode, "", said


def two_programs():
    """While one may write the image no other has it; when it ended another one does."""
    image()
    first = ready(b"LISTFILE\n")
    for access in ("rw", "ro"):
        expect(session([f"191,512,{access},a.img"], CHANGE), 4, ["a.img can't be attached: it is in use"])
    expect(ended(first), 0, [])
    return expect(session([WORD], CHANGE), 0, [], "SECOND   FILE")


def two_readers():
    """Programs that only read an image have it together, and none may write it meanwhile."""
    image()
    reading = subprocess.Popen([PROGRAM, "191,512,ro,a.img"], stdin=subprocess.PIPE, stdout=subprocess.PIPE, stderr=subprocess.PIPE)
    reading.stdin.write(b"LISTFILE\n")
    reading.stdin.flush()
    while not reading.stdout.readline().startswith(b"R;"):
        pass
    expect(session(["191,512,ro,a.img"], b"LISTFILE\n"), 0, [], "FIRST    FILE")
    expect(session([WORD], b"LISTFILE\n"), 4, ["it is in use"])
    return expect(ended(reading), 0, [])


def two_names():
    """One image under two names of one program, by a link and by a second word."""
    image()
    pathlib.Path("b.img").unlink(missing_ok=True)
    os.link("a.img", "b.img")
    for words in (["192,512,rw,b.img"], ["192,512,ro,b.img"], ["192,512,rw,a.img"]):
        expect(session([WORD, *words], b"LISTFILE\n"), 4, ["can't be attached: it is in use"])
    expect(session(["191,512,ro,a.img", "192,512,rw,b.img"], b""), 4, ["b.img can't be attached: it is in use"])
    return expect(session(["191,512,ro,a.img", "192,512,ro,b.img"], b"LISTFILE\n"), 0, [])


def let_go_by(number):
    """A program that is ended by a signal lets its lock go, and loses nothing that it typed."""
    image()
    child = ready(b"EXECIO 1 DISKW SECOND FILE A (STRING two\n")
    expect(session([WORD], b""), 4, ["it is in use"])
    child.send_signal(number)
    expect(ended(child), -number, [])
    return expect(session([WORD], b"LISTFILE\n"), 0, [], "SECOND   FILE")


def held_by_another():
    """A lock that another tool has."""
    image()
    holder = subprocess.Popen(["flock", "a.img", "sh", "-c", "echo held; read line"], stdin=subprocess.PIPE, stdout=subprocess.PIPE)
    holder.stdout.readline()
    expect(session([WORD], b""), 4, ["it is in use"])
    holder.communicate(b"\n")
    return expect(session([WORD], b""), 0, [])


def no_locks(error):
    """A file system that knows no locks: it is said once, and the session goes on."""
    image()
    image("b.img")
    said = ["a.img can't be locked"]
    return expect(session([WORD, "192,512,rw,b.img"], CHANGE, fail=f"flock=*:{error}"), 0, said, "SECOND   FILE")


def lock_fails():
    image()
    return expect(session([WORD], CHANGE, fail="flock=*:5"), 4, ["a.img can't be attached"])


def first_sync_fails(nth, lines):
    """A sync fails once: no later one is believed, each line that needs one has code 100, and a next session finds a minidisk."""
    image()
    code, typed, said = session([WORD], lines, fail=f"fdatasync={nth}:5")
    expect((code, typed, said), 0, ["a.img couldn't be synced"], "CMS105")
    if typed.count("CMS105") != 4 or typed.count("R(00100);") != 4:
        raise Failed(f"a later sync was believed: {typed!r}")
    return after()


def after():
    """What a next session finds on the image: a minidisk with its first file."""
    if not is_minidisk(pathlib.Path("a.img").read_bytes(), 512):
        raise Failed("no minidisk is left")
    return expect(session([WORD], b"LISTFILE\n"), 0, [], "FIRST    FILE")


def folder_fails():
    """A new image whose folder can't be synced isn't attached, and nothing is typed that rests on it."""
    pathlib.Path("new.img").unlink(missing_ok=True)
    got = session(["191,512,n60,new.img"], MAKE, fail="folder=1:5")
    if got[1]:
        raise Failed(f"typed {got[1]!r}")
    return expect(got, 4, ["new.img can't be attached: the folder that holds it can't be synced"])


def closed_folder():
    """A folder in which a name may be made and which can't be opened: only where this isn't run as root."""
    if os.geteuid() == 0:
        return "none: root opens every folder"
    os.makedirs("closed", exist_ok=True)
    os.chmod("closed", 0o300)
    try:
        return expect(session(["191,512,n60,closed/new.img"], MAKE), 4, ["the folder that holds it can't be synced"])
    finally:
        os.chmod("closed", 0o700)
        shutil.rmtree("closed")


def folder_is_synced():
    """The folder of a new image is synced behind the image and before anything is typed."""
    if not shutil.which("strace"):
        return "none: there is no strace"
    pathlib.Path("new.img").unlink(missing_ok=True)
    command = ["strace", "-qq", "-y", "-o", "log", "-e", "trace=flock,ftruncate,fsync,fdatasync,write", PROGRAM, "191,512,n60,new.img"]
    subprocess.run(command, input=MAKE, stdout=subprocess.PIPE, stderr=subprocess.PIPE, timeout=SECONDS, check=True)
    calls = [line.split("(")[0] for line in pathlib.Path("log").read_text(errors="replace").splitlines()]
    if calls[:5] != ["flock", "ftruncate", "fdatasync", "fsync", "write"]:
        raise Failed(f"the first calls are {calls[:8]}")
    return "as it must be"


def write_fails(nth, behind):
    """No room in the middle of a block of an update: its line says so, the next one goes on as it must, and the minidisk stands."""
    image()
    expect(session([WORD], CHANGE, fail=f"pwrite={nth}:28"), 0, [], FAULT + behind)
    return after()


def no_room_in_system():
    """A file system that is full in the middle of updates."""
    os.makedirs("small", exist_ok=True)
    if subprocess.run(["mount", "-t", "tmpfs", "-o", "size=200k", "none", "small"], stderr=subprocess.DEVNULL, check=False).returncode:
        return "none: no file system can be mounted"
    try:
        fill = b"".join(b"EXECIO 100 DISKW F%d FILE A (STRING %s\n" % (n, b"X" * 100) for n in range(40))
        code, typed, said = session(["191,512,n4000,small/a.img"], MAKE + fill)
        if code or said or "CMS105" not in typed or not is_minidisk(pathlib.Path("small/a.img").read_bytes(), 512):
            raise Failed(f"status {code}, said {said}, typed {typed[-300:]!r}")
        return code
    finally:
        subprocess.run(["umount", "small"], check=True)


def few_bytes():
    plain()
    signal.signal(signal.SIGXFSZ, signal.SIG_IGN)
    resource.setrlimit(resource.RLIMIT_FSIZE, (LIMIT, LIMIT))


def limited_file():
    """The process may write only the front of a file, which ends within the first block of an update: no update is made."""
    before = image()
    expect(session([WORD], CHANGE * 3, prepare=few_bytes), 0, [], (FAULT + KEPT) * 3)
    if pathlib.Path("a.img").read_bytes()[:LABEL_ENDS] != before[:LABEL_ENDS]:
        raise Failed("the label was written")
    return after()


def without_output(lines):
    """A line isn't carried out once the lines before it can't be typed: an image is as it was."""
    before = image()
    with open("/dev/full", "wb") as full:
        got = session([WORD], lines, output=full)
    expect(got, 4, ["what was typed can't be written to standard output"])
    if pathlib.Path("a.img").read_bytes() != before:
        raise Failed("an update was made whose lines before it couldn't be typed")
    return got[0]


def closed_pipe(words, text):
    """Nobody reads standard output: status 4 and one line, and no signal."""
    image()
    reader, writer = os.pipe()
    os.close(reader)
    try:
        got = session(words, text, output=writer)
    finally:
        os.close(writer)
    return expect(got, 4, ["what was typed can't be written to standard output"])


def old_clock():
    """A clock before 1970 counts as its first second."""
    image()
    return expect(session([WORD], CHANGE + b"LISTFILE SECOND FILE A (DATE\n", fail="1969"), 0, [], "01/01/70 00:00:00")


def no_clock():
    image()
    return expect(session([WORD], CHANGE, fail="clock=*:22"), 4, ["the clock can't be read"])


def all_cases():
    yield "two programs at once", two_programs
    yield "two that only read", two_readers
    yield "two names of one image", two_names
    for number in (signal.SIGKILL, signal.SIGINT, signal.SIGTERM, signal.SIGHUP):
        yield f"a session that is ended by {number.name}", functools.partial(let_go_by, number)
    yield "a lock of another tool", held_by_another
    for error in (37, 38, 95):
        yield f"no locks, by error {error}", functools.partial(no_locks, error)
    yield "a lock that fails", lock_fails
    yield "the sync before a label fails", functools.partial(first_sync_fails, 1, CHANGE * 4)
    yield "the sync behind a label fails", functools.partial(first_sync_fails, 2, CHANGE + b"ACCESS 191 A\n" * 3)
    yield "a folder that can't be synced", folder_fails
    yield "a folder that can't be opened", closed_folder
    yield "the order of the calls that make an image", folder_is_synced
    for nth, behind in enumerate([KEPT, KEPT, KEPT, GIVEN_UP], 1):
        yield f"write {nth} of an update has no room", functools.partial(write_fails, nth, behind)
    yield "a file system that is full", no_room_in_system
    yield "a file that may not grow", limited_file
    yield "updates behind lines that can't be typed", lambda: without_output(b"LISTFILE\n" + CHANGE)
    yield "a pipe that nobody reads", lambda: closed_pipe([WORD], b"LISTFILE\n" * 9)
    yield "help for nobody", lambda: closed_pipe(["--help"], b"")
    yield "a refusal for nobody", lambda: closed_pipe(["x"], b"")
    yield "a clock before 1970", old_clock
    yield "a clock that can't be read", no_clock


def failures():
    count = 0
    for what, case in all_cases():
        begun = time.monotonic()
        try:
            print(f"{what}: {case()}", flush=True)
        except (Failed, subprocess.SubprocessError, OSError) as failed:
            print(f"FAILED: {what}, after {time.monotonic() - begun:.0f} s: {failed}", flush=True)
            count += 1
    return count


def main():
    if not PROGRAM.exists():
        sys.exit("edge: build the program first, by ./cms --version")
    with tempfile.TemporaryDirectory() as folder:
        os.chdir(folder)
        compiled()
        failed = failures()
        os.chdir(ROOT)
    if failed:
        sys.exit(f"edge: {failed} cases failed")


if __name__ == "__main__":
    main()
