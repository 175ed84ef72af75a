"""Single cases that tests/hostile.py tries behind its images. Each is a text and a call that gives a status, or raises Failed."""

import functools
import itertools
import os
import pathlib
import random
import resource
import signal
import subprocess

import volumes
from runs import PROGRAM, ROOT, SECONDS, STATUSES, Failed, is_minidisk, limits, run

WORD = "191,512,rw,a.img"
LOOK = b"QUERY DISK\nLISTFILE * * * (ALLOC\nTYPE LETTER TEXT\n"


def files_image():
    """The example's image with files, as a.img."""
    image = (ROOT / "examples/files.img").read_bytes()
    pathlib.Path("a.img").write_bytes(image)
    return image


def on_files(text, **given):
    """A session on the example's image with files."""
    files_image()
    return run([WORD], text, **given)


def scripts():
    """Scripts that nobody would write."""
    chosen = random.Random(7)
    long = b"A" * 10_000_000
    texts = {
        "a million bytes at random": bytes(chosen.randrange(256) for _ in range(1 << 20)),
        "a million characters at random": bytes(chosen.choice(b"\n" * 3 + bytes(range(32, 127))) for _ in range(1 << 20)),
        "a line of 10 MB": b"TYPE " + long + b"\nLISTFILE\n",
        "an answer of 10 MB": b"FORMAT 191 A\n" + long + b"\nNO\n",
        "a record of 10 MB": b"EXECIO 2 DISKW NEW FILE A\n" + long + b"\nshort\nLISTFILE\n",
        "ten million empty lines": b"\n" * 10_000_000,
        "no line's end": b"LISTFILE",
        "nothing": b"",
    }
    for what, text in texts.items():
        yield what, functools.partial(on_files, text)


def random_words():
    """Words of the program at random."""
    chosen = random.Random(11)
    files_image()
    parts = "191,512,ro,a.img 192,512,rw,a.img 193,512,n9,n.img FFF,4096,ro,a.img 000,512,ro,a.img 191,512,n7,n.img".split()
    parts += "191,512,ro, 191,512,ro,missing.img 1,5 -t -z -g 5 E0100 W9999 -- - -h -t=9 99999999999 --turns a.img".split()
    parts += ["", "\udcff"]
    ended = {}
    for _ in range(500):
        pathlib.Path("n.img").unlink(missing_ok=True)
        code = run([chosen.choice(parts) for _ in range(chosen.randrange(20))], LOOK)
        ended[code] = ended.get(code, 0) + 1
    return ", ".join(f"{code} {count} times" for code, count in sorted(ended.items()))


def on_unplain(name):
    return " ".join(str(run([f"191,512,{access},{name}"], LOOK)) for access in ("ro", "rw", "n9"))


def unplain():
    """Images that are no plain files, or hold less than a volume."""
    os.mkfifo("pipe.img")
    os.mkdir("folder.img")
    os.symlink("loop.img", "loop.img")
    pathlib.Path("empty.img").write_bytes(b"")
    pathlib.Path("short.img").write_bytes(b"X" * 100)
    for name in ("pipe.img", "folder.img", "loop.img", "/dev/zero", "/dev/full", "/proc/self/mem", "empty.img", "short.img"):
        yield f"{name} as an image", functools.partial(on_unplain, name)


def cut_at_random():
    """An image is cut while a session runs on it."""
    pathlib.Path("a.img").write_bytes(volumes.make(volumes.VOLUMES["wide"])[0])
    cuts = iter([30_000, 3_000, 600, 0])

    def cut():
        length = next(cuts, None)
        if length is not None:
            os.truncate("a.img", length * 512 // 10)

    lines = b"TYPE F00003 DATA\nLISTFILE\nERASE F00004 DATA\nCOPYFILE F00003 DATA A X Y A (REPLACE\nEXECIO 1 DISKR F00003 DATA\n"
    return run([WORD], lines * 40, meanwhile=cut)


def too_long(_signal, _frame):
    raise Failed(f"no ready line after {SECONDS} s")


def cut_between_lines():
    """An image is cut between the lines of a session."""
    pathlib.Path("a.img").write_bytes(volumes.make(volumes.VOLUMES["listed"])[0])
    child = subprocess.Popen([PROGRAM, WORD], stdin=subprocess.PIPE, stdout=subprocess.PIPE, stderr=subprocess.DEVNULL, preexec_fn=limits)
    signal.signal(signal.SIGALRM, too_long)
    signal.alarm(SECONDS)
    lines = b"TYPE F00003 DATA A 800\nCOPYFILE F00002 DATA A C COPY A (REPLACE\nERASE F00005 DATA\nACCESS 191 A\nLISTFILE\n"
    for length, each in itertools.product((8200, 500, 40, 7, 3, 0), lines.splitlines(keepends=True)):
        os.truncate("a.img", length * 512)
        child.stdin.write(each)
        child.stdin.flush()
        while not (typed := child.stdout.readline()).startswith((b"R;", b"R(")):
            if not typed:
                raise Failed("a session on an image that is cut ended")
    child.stdin.close()
    signal.alarm(0)
    if child.wait() not in STATUSES:
        raise Failed(f"status {child.returncode} where an image is cut")
    return child.returncode


FILES = "".join(f"EXECIO 300 DISKW F{n} FILE A (STRING {'X' * 200}\nCOPYFILE F{n} FILE A C{n} FILE A\n" for n in range(4))
FILL = f"FORMAT 191 A\nYES\nWORK\n{FILES}"


def filled(name):
    """A new image is filled, as far as the file system has room, and looked at again: it is a minidisk, or wasn't made."""
    code = run([f"191,512,n4000,{name}"], FILL.encode())
    path = pathlib.Path(name)
    if not path.exists():
        return code
    image = path.read_bytes()
    if any(image) and not is_minidisk(image, 512):
        raise Failed(f"no minidisk is left where {name} is full")
    return f"{code}, {run([f'191,512,rw,{name}'], LOOK)}"


def few():
    limits()
    signal.signal(signal.SIGXFSZ, signal.SIG_IGN)
    resource.setrlimit(resource.RLIMIT_FSIZE, (60_000, 60_000))


def limited():
    """An image of which the process may write the first bytes alone."""
    run(["191,512,n4000,limited.img"], b"")
    code = run(["191,512,rw,limited.img"], FILL.encode(), prepare=few)
    if not is_minidisk(pathlib.Path("limited.img").read_bytes(), 512):
        raise Failed("no minidisk is left where the process may write no more")
    return f"{code}, {run(['191,512,rw,limited.img'], LOOK)}"


def in_small_system(room):
    """A new image in a file system of its own, where one may be mounted."""
    os.makedirs("small", exist_ok=True)
    mounting = ["mount", "-t", "tmpfs", "-o", room, "none", "small"]
    if subprocess.run(mounting, stderr=subprocess.DEVNULL, check=False).returncode:
        return "none: no file system can be mounted"
    try:
        return filled("small/new.img")
    finally:
        subprocess.run(["umount", "small"], check=True)


def full_systems():
    """Images for which there is no room: in a small file system, and by a limit of the process."""
    for room in ("nr_inodes=1", "size=4k", "size=16k", "size=64k", "size=256k"):
        yield f"a file system with {room}", functools.partial(in_small_system, room)
    yield "a new file of more than 60,000 bytes", lambda: run(["191,512,n4000,more.img"], FILL.encode(), prepare=few)
    yield "writes behind 60,000 bytes", limited


def full_output(lines):
    with open("/dev/full", "wb") as full:
        return on_files(lines, output=full)


def closed_output(lines):
    reader, writer = os.pipe()
    os.close(reader)
    try:
        return on_files(lines, output=writer)
    finally:
        os.close(writer)


def without(descriptor, lines):
    """A standard stream isn't there. Nothing of it may come into an image."""

    def prepare():
        limits()
        os.close(descriptor)

    image = files_image()
    code = run(["-t", "9", WORD], lines, prepare=prepare, told=descriptor != 2)
    if pathlib.Path("a.img").read_bytes() != image:
        raise Failed("the image was changed by what was typed")
    return code


def streams():
    """Standard streams that are full, closed or not there."""
    lines = b"LISTFILE\n" * 10_000
    yield "a full output", lambda: full_output(lines)
    yield "a closed output", lambda: closed_output(lines)
    for descriptor, what in enumerate(("input", "output", "error output")):
        yield f"no {what}", functools.partial(without, descriptor, lines)


BIG = f"EXECIO 5000 DISKW BIG FILE A (STRING {'X' * 200}\n"
LARGE = f"FORMAT 191 A\nYES\nWORK\n{BIG}COPYFILE BIG FILE A COPY FILE A\n{BIG}EXECIO * DISKR BIG FILE A\nLISTFILE\n"


def with_memory(mebibytes):
    """A session with so much memory: it ends with status 0 or 3, and its image stays a minidisk."""

    def prepare():
        limits()
        resource.setrlimit(resource.RLIMIT_AS, (mebibytes << 20, mebibytes << 20))

    try:
        run(["--version"], b"", prepare=prepare)
    except (Failed, OSError, subprocess.SubprocessError):
        return "none: the program doesn't begin"
    pathlib.Path("memory.img").unlink(missing_ok=True)
    code = run(["191,512,n9000,memory.img"], LARGE.encode(), prepare=prepare, statuses={0, 3})
    image = pathlib.Path("memory.img").read_bytes()
    if any(image) and not is_minidisk(image, 512):
        raise Failed("no minidisk is left")
    return code


def generated(seed):
    pathlib.Path("generated.img").unlink(missing_ok=True)
    return run(["-g", str(seed), "191,1024,n3000,generated.img"], b"", statuses={0})


def all_cases():
    yield from scripts()
    yield "words at random", random_words
    yield from unplain()
    yield "an image that is cut at random", cut_at_random
    yield "an image that is cut between lines", cut_between_lines
    yield from full_systems()
    yield from streams()
    for mebibytes in (100, 20, 14, 12, 11, 10, 9, 8, 7, 6, 5, 4, 3):
        yield f"{mebibytes} MiB of memory", functools.partial(with_memory, mebibytes)
    for seed in (0, 2, 77, 2_147_483_647):
        yield f"the session of seed {seed}", functools.partial(generated, seed)


def failures():
    """Tries all, and counts those that fail."""
    count = 0
    for what, case in all_cases():
        try:
            print(f"{what}: status {case()}", flush=True)
        except Failed as failed:
            print(f"FAILED: {what}: {failed}", flush=True)
            count += 1
    return count
