#!/usr/bin/env python3
"""Measures the program beside tools that do the like, and prints the ratios. No part of the gate.

    bench/bench.py              all of them
    bench/bench.py NAME ..      some: opening, files, copy, type, lines, append, execio, procedure

opening    a volume of 10,000 files in 262,144 blocks of 4,096 bytes, beside `dd` that reads the blocks that describe it
files      10,000 files of a volume listed with all columns, beside `ls -l` of as many; and one of them erased, beside as many blocks that
           are written with two syncs. Then one of 100, 1,000 and 10,000 files erased, and a line added to a small file among them, in
           volumes of 20,000 and of 200,000 blocks of 512 bytes that are in order: the blocks that are written, and the time. And one of
           10,000 files erased that sessions wrote one by one, and one where the blocks of the volume are scattered, which writes what
           tests/updates.py foretells
copy       a file of F 80 records of 64 MiB, and one of 1 MiB, by COPYFILE, beside `cp` and `sync` of a file of that size, each the fastest
           of three runs: of 64 MiB at most twice their time
type       a file of F 80 records of 64 MiB that TYPE writes into a file of the host, beside `dd conv=ascii,unblock`: at most half its time
lines      a session of 10,000 lines STATE, beside `sh` with as many lines that ask for a file and say so: at most its time
append     a record added to a file of 64 MiB and to one of 1 MiB, with blocks of 4,096 and of 512 bytes: the blocks that are written, and
           those that are read beside an opening, at most one of each level of the file's pointer blocks and one more
execio     2,000 lines of one record each, `EXECIO 1 DISKW`, beside as many transactions of one row in SQLite with synchronous=FULL; and
           10,000 beside 1,000. And 10,000 records read by a procedure, `EXECIO 1 DISKR` for each, beside one `EXECIO * DISKR`: records of
           80 and of 255 bytes, each behind its length and of one length, with blocks of 512 and of 4,096 bytes; the blocks that are read
procedure  procedures of 1,000,000 statements, two of them beside the same loop in REXX, where Regina's `rexx` is installed: at most three
           times its time, each the fastest of three runs

Blocks that are written and read are counted by strace, where it is installed. Where a count or a ratio is more than it may be at most,
that is told on standard error, and the status is 1. The program is built first by `./cms --build`, where it isn't built. All files are made
in a folder of their own in the folder in which this is started, so its file system is the one that is measured. Memory is told by
/usr/bin/time.
"""

import os
import pathlib
import random
import shutil
import sqlite3
import subprocess
import sys
import tempfile
import time

HOME = pathlib.Path(__file__).resolve().parent.parent
PROGRAM = HOME / "crates/cms_cli/out/cms_cli"
MEBIBYTE = 1 << 20
RECORD = 80
FILES = 10_000
QUESTIONS = ("CMS603R", "CMS605R", "CMS733I")

sys.path.insert(0, str(HOME / "tests"))


def spent(words, script="", status=0):
    """The seconds and the peak memory, in KiB, of a command that ends with this status; and what it types."""
    begun = time.monotonic()
    told = ["/usr/bin/time", "-q", "-o", "spent", "-f", "%M"]
    ended = subprocess.run([*told, *words], input=script, capture_output=True, text=True, check=False)
    seconds = time.monotonic() - begun
    if ended.returncode != status:
        sys.exit(f"bench: {words[0]} ended with {ended.returncode}: {ended.stdout[-300:]}{ended.stderr[-300:]}")
    return seconds, int(pathlib.Path("spent").read_text()), ended.stdout


def fastest(words, script="", status=0):
    """The seconds and the peak memory of the fastest of three runs of a command."""
    return min(spent(words, script, status)[:2] for _ in range(3))


def session(unit, lines):
    """A session of these lines, each of which is done."""
    seconds, memory, typed = spent([PROGRAM, unit], "\n".join(lines) + "\n")
    refused = [line for line in typed.splitlines() if line.startswith(("CMS", "R(")) and not line.startswith(QUESTIONS)]
    if refused:
        sys.exit(f"bench: {refused[:3]}")
    return seconds, memory


def said(what, seconds, memory=None):
    print(f"{what:<70} {seconds:8.3f} s" + (f" {memory:9,} KiB" if memory else ""))


def beside(seconds, plain):
    print(f"  ratio {seconds / plain:.2f}")


PASSED = []


def at_most(what, value, most):
    """What is said of a value that may be no more than a bound; where it is, the run fails."""
    if value > most:
        PASSED.append(what)
        print(f"bench: {what}: {value:,}, which is more than {most:,}", file=sys.stderr)
    return f"at most {most:,}"


def counted(unit, lines):
    """How many blocks a session of these lines writes, and how many it reads beside one of none; nothing without strace."""
    if not shutil.which("strace"):
        return None
    counts = []
    # the opening is that of the image before: an erased file is none that the next opening reads
    for script in ([], lines):
        traced = ["strace", "-qq", "-o", "calls", "-e", "trace=pwrite64,pread64", PROGRAM, unit]
        subprocess.run(traced, input="".join(line + "\n" for line in script), capture_output=True, text=True, check=True)
        calls = pathlib.Path("calls").read_text().splitlines()
        counts.append([sum(name in call for call in calls) for name in ("pwrite64(", "pread64(")])
    (none, opened), (written, read) = counts
    return written - none, read - opened


def said_counts(what, counts, written, read=None):
    """Tells how many blocks were written and read, and how many may be at most."""
    if counts:
        told = f"{counts[0]:,} blocks written, {at_most(what + ', blocks written', counts[0], written)}; {counts[1]:,} read"
        print(f"  {told}" + (f", {at_most(what + ', blocks read', counts[1], read)}" if read is not None else ""))


def opening():
    """The label, the directory, the map and all pointer blocks stand at the volume's front, as do the small files of varying records."""
    front = subprocess.run([HOME / "tests/volume.py", "large.img"], check=True, capture_output=True, text=True).stdout.split()[-1]
    opened = spent([PROGRAM, "191,4096,ro,large.img"])[:2]
    said("an opening of 10,000 files in 262,144 blocks of 4,096 bytes", *opened)
    words = ["dd", "if=large.img", "of=/dev/null", "bs=4096", "skip=2", f"count={int(front) - 2}", "status=none"]
    plain = spent(words)[0]
    said(f"blocks 3 to {front} of it by dd", plain)
    beside(opened[0], plain)
    os.unlink("large.img")


# The most blocks that the erasure of one of 10,000 files writes, with blocks of 512 bytes, where the volume is in order. Of the directory it
# writes the first data block, that of the file and that of the last entry, and over these at most three pointer blocks of the lower level
# and the root: 7. The label is one more. Of the map it writes the data blocks with the bits of the file's block, of the directory's and the
# map's old blocks, and of the lowest free ones. The latter three stand one behind another here, within fewer blocks than a data block of the
# map has bits for, so they are in one data block or two. With the pointer block over them that is 4 at most, and 12 in all.
MOST_ERASED = 15

# A line that is added to a small file, and files that are erased.
ADDED = "EXECIO 1 DISKW F00050 DATA A (STRING one line more"
ERASED = [f"ERASE F{nth:05} DATA A" for nth in range(7, 57)]


def in_order(blocks, count):
    """A volume of so many blocks with so many files of a line, whose blocks stand one behind another: the files, the map, the directory."""
    import volumes

    files = {(f"F{nth:05}", "DATA"): volumes.File("V", [f"FILE {nth}".encode("cp037")]) for nth in range(count)}
    kind = volumes.Kind(blocks=blocks, origin=4, files=count, lost=0, in_order=True)
    pathlib.Path("order.img").write_bytes(volumes.made(kind, files, random.Random(1)))


def said_each(what, unit, lines):
    """The time that each of these lines takes, by a session of them beside one of none."""
    opened = min(session(unit, [])[0] for _ in range(3))
    each = max(session(unit, lines)[0] - opened, 1e-6) / len(lines)
    print(f"{what:<70} {1000 * each:8.3f} ms")
    return each


def flatness():
    """A line added to a small file, and files erased, among more and more files and blocks."""
    unit, times = "191,512,rw,order.img", []
    for blocks in (20_000, 200_000):
        for count in (100, 1_000, FILES):
            where = f"{count:,} files in {blocks:,} blocks"
            in_order(blocks, count)
            counts = counted(unit, [ADDED])
            added = said_each(f"a line added to one of {where}", unit, [ADDED] * 100)
            said_counts(f"a line added to one of {where}", counts, MOST_WRITTEN[512], 1)
            in_order(blocks, count)
            counts = counted(unit, ERASED[:1])
            in_order(blocks, count)
            times.append((added, said_each(f"one of {where} erased", unit, ERASED)))
            said_counts(f"one of {where} erased", counts, MOST_ERASED, 0)
    for what, few, many in zip(("additions", "erasures"), times[0], times[-1]):
        print(f"  {what} among the most files and blocks beside those among the fewest: {many / few:.2f}")
    os.unlink("order.img")


def by_sessions():
    """One of 10,000 files erased that were written one by one, in a volume of 200,000 blocks."""
    unit = "191,512,rw,written.img"
    session("191,512,n200000,written.img", ["FORMAT 191 A", "YES", "BENCH"])
    seconds = session(unit, [f"EXECIO 1 DISKW F{nth:05} DATA A (STRING FILE {nth}" for nth in range(FILES)])[0]
    print(f"{f'{FILES:,} files of a line written one by one, each':<70} {1000 * seconds / FILES:8.3f} ms")
    said_counts("one of 10,000 files erased that sessions wrote", counted(unit, ERASED[:1]), MOST_ERASED, 0)
    os.unlink("written.img")


def scattered():
    """One of 10,000 files erased in a volume whose blocks are in a mixed order: the map's blocks that it writes are many."""
    import updates
    import volumes

    image, _ = volumes.make(volumes.Kind(blocks=200_000, origin=4, files=FILES, lost=0))
    written = len(updates.erase(image, volumes.SIZE, ("F00007", "DATA"), volumes.DATE))
    pathlib.Path("many.img").write_bytes(image)
    said_counts("one of 10,000 files erased in a scattered volume", counted("191,512,rw,many.img", ERASED[:1]), written, 0)
    os.unlink("many.img")


def files():
    in_order(200_000, FILES)
    os.mkdir("many")
    for nth in range(FILES):
        pathlib.Path(f"many/F{nth:05}.DATA").touch()
    os.sync()
    listed = session("191,512,ro,order.img", ["LISTFILE * * A (LABEL"])
    said(f"{FILES:,} files listed with all columns", *listed)
    plain = spent(["ls", "-l", "many"])[0]
    said(f"{FILES:,} files by ls -l", plain)
    beside(listed[0], plain)
    each = said_each(f"one of {FILES:,} files erased", "191,512,rw,order.img", ERASED)
    begun = time.monotonic()
    with open("blocks", "wb", buffering=0) as blocks:
        for _ in ERASED:
            blocks.write(bytes(512 * (MOST_ERASED - 1)))
            os.fdatasync(blocks.fileno())
            blocks.write(bytes(512))
            os.fdatasync(blocks.fileno())
    plain = (time.monotonic() - begun) / len(ERASED)
    print(f"{f'{MOST_ERASED} blocks written with two syncs':<70} {1000 * plain:8.3f} ms")
    beside(each, plain)
    shutil.rmtree("many")
    os.unlink("blocks")
    flatness()
    by_sessions()
    scattered()


def with_records(count):
    """The lines that make BIG FILE A, of so many records of 80 bytes, on a new volume."""
    lines = ["FORMAT 191 A", "YES", "BENCH", f"EXECIO 10000 DISKW SRC FILE A (STRING {'X' * RECORD}"]
    have = min(10_000, count)
    lines.append(f"COPYFILE SRC FILE A BIG FILE A (RECFM F LRECL {RECORD} FOR {have}")
    while have < count:
        more = min(have, count - have)
        lines.append(f"COPYFILE BIG FILE A BIG FILE A (APPEND FOR {more}")
        have += more
    return lines


# How many times the time of `cp` and `sync` COPYFILE of 64 MiB may take.
MOST_BESIDE_CP = 2


def copied(unit):
    """BIG FILE A copied by COPYFILE; the copy goes again, in a session of its own."""
    taken = session(unit, ["COPYFILE BIG FILE A OUT FILE A"])
    session(unit, ["ERASE OUT FILE A"])
    os.sync()
    return taken


def copied_by_cp():
    """The seconds in which `cp` copies the file `plain` and `sync` writes the copy."""
    begun = time.monotonic()
    subprocess.run(["cp", "plain", "plain2"], check=True)
    subprocess.run(["sync", "plain2"], check=True)
    taken = time.monotonic() - begun
    os.unlink("plain2")
    return taken


def copy():
    times = {}
    for size in (1, 64):
        count = size * MEBIBYTE // RECORD
        blocks = 3 * size * MEBIBYTE // 4096 + 4_000
        image = f"copy{size}.img"
        session(f"191,4096,n{blocks},{image}", with_records(count))
        pathlib.Path("plain").write_bytes(b"X" * (count * RECORD))
        os.sync()
        times[size] = min(copied(f"191,4096,rw,{image}") for _ in range(3))
        said(f"COPYFILE of {size} MiB of F {RECORD} records", *times[size])
        plain = min(copied_by_cp() for _ in range(3))
        said(f"cp and sync of {size} MiB", plain)
        beside(times[size][0], plain)
        if size == 64:
            at_most("COPYFILE of 64 MiB, times cp and sync", round(times[size][0] / plain, 2), MOST_BESIDE_CP)
        for name in (image, "plain"):
            os.unlink(name)
    print(f"  peak memory of 64 MiB beside that of 1 MiB: {times[64][1] / times[1][1]:.2f}")


def into_file(words, script=""):
    """The seconds of the fastest of three runs of a command whose output goes into the file `out`, and the bytes of it."""
    times = []
    for _ in range(3):
        with open("out", "wb") as out:
            begun = time.monotonic()
            subprocess.run(words, input=script.encode(), stdout=out, check=True)
            times.append(time.monotonic() - begun)
    return min(times), os.path.getsize("out")


# What part of the time of `dd` TYPE may take.
MOST_BESIDE_DD = 0.5


def type_into_file():
    count = 64 * MEBIBYTE // RECORD
    session(f"191,4096,n{2 * 64 * MEBIBYTE // 4096 + 4_000},type.img", with_records(count))
    pathlib.Path("plain").write_bytes(bytes([0xE7]) * (count * RECORD))
    typed, size = into_file([PROGRAM, "191,4096,ro,type.img"], "TYPE BIG FILE A\n")
    said("TYPE of 64 MiB of F 80 records into a file", typed)
    words = ["dd", "if=plain", "conv=ascii,unblock", f"cbs={RECORD}", "bs=4096", "status=none"]
    plain, of_dd = into_file(words)
    said("dd conv=ascii,unblock of 64 MiB", plain)
    if size < of_dd:
        sys.exit(f"bench: TYPE wrote {size:,} bytes, fewer than the {of_dd:,} of dd")
    beside(typed, plain)
    at_most("TYPE into a file, times dd", round(typed / plain, 2), MOST_BESIDE_DD)
    for name in ("type.img", "plain", "out"):
        os.unlink(name)


def lines():
    session("191,512,n2000,lines.img", ["FORMAT 191 A", "YES", "BENCH", "EXECIO 1 DISKW LOG FILE A (STRING x"])
    pathlib.Path("log").write_text("x\n")
    taken, _ = into_file([PROGRAM, "191,512,rw,lines.img"], "STATE LOG FILE A\n" * 10_000)
    said("10,000 lines STATE LOG FILE A", taken)
    plain, _ = into_file(["sh"], "[ -f log ] && echo 'R;'\n" * 10_000)
    said("10,000 lines of sh, [ -f log ] && echo 'R;'", plain)
    beside(taken, plain)
    at_most("10,000 lines STATE, times sh", round(taken / plain, 2), 1)
    for name in ("lines.img", "log", "out"):
        os.unlink(name)


# The most blocks that the addition of a record to a file of 64 MiB writes, by the size of a block.
MOST_WRITTEN = {4096: 10, 512: 16}


def height(size, stored):
    """The levels of pointer blocks over so many bytes at F."""
    levels, reached = 0, size
    while reached < stored:
        levels, reached = levels + 1, reached * (size // 4)
    return levels


def append():
    """A line is added to a file of F 80 records, ten short of the size, since no file is larger than 64 MiB."""
    line = "EXECIO 1 DISKW BIG FILE A (STRING one line more"
    for size, most in MOST_WRITTEN.items():
        times = {}
        for mebibytes in (1, 64):
            image = f"append{mebibytes}.img"
            blocks = 3 * mebibytes * MEBIBYTE // size + 4_000
            session(f"191,{size},n{blocks},{image}", with_records(mebibytes * MEBIBYTE // RECORD - 10))
            times[mebibytes] = session(f"191,{size},rw,{image}", [line])
            said(f"a line added to {mebibytes} MiB of F {RECORD} records, blocks of {size} bytes", *times[mebibytes])
            what = f"a line added to {mebibytes} MiB, blocks of {size} bytes"
            said_counts(what, counted(f"191,{size},rw,{image}", [line]), most, height(size, mebibytes * MEBIBYTE) + 1)
            os.unlink(image)
        beside(times[64][0], times[1][0])


def lines_written(count):
    """So many lines added to a file, one by one."""
    session("191,512,n20000,execio.img", ["FORMAT 191 A", "YES", "BENCH"])
    lines = [f"EXECIO 1 DISKW LOG FILE A (STRING line {n}" for n in range(count)]
    seconds, memory = session("191,512,rw,execio.img", lines)
    said(f"{count:,} times EXECIO 1 DISKW, {count / seconds:,.0f} updates a second", seconds, memory)
    os.unlink("execio.img")
    return seconds


READ_ONE = ["&TRACE OFF", f"&LOOP 2 {FILES}", "EXECIO 1 DISKR SRC FILE A", "&READ VARS &L"]
READ_ALL = ["&TRACE OFF", "EXECIO * DISKR SRC FILE A", f"&LOOP 1 {FILES}", "&READ VARS &L"]

# The most that records read one by one may cost beside all of them at once, in blocks that are read.
MOST_READ = 3


def records_read(recfm, width, size):
    """So many records of this width, read one by one and at once."""
    made = ["FORMAT 191 A", "YES", "BENCH", f"EXECIO {FILES} DISKW TEXT FILE A", *["X" * width] * FILES]
    made += [f"COPYFILE TEXT FILE A SRC FILE A (RECFM {recfm}" + (f" LRECL {width}" if recfm == "F" else ""), "ERASE TEXT FILE A"]
    for name, lines in (("ONE", READ_ONE), ("ALL", READ_ALL)):
        made += [f"EXECIO {len(lines)} DISKW {name} EXEC A", *lines]
    session(f"191,{size},n30000,read.img", made)
    unit = f"191,{size},ro,read.img"
    what = f"{FILES:,} records of {recfm} {width}, blocks of {size} bytes"
    for told, name in (("EXECIO * DISKR", "ALL"), ("EXECIO 1 DISKR", "ONE")):
        said(f"{what}, {told}", *session(unit, [name]))
    once, each = counted(unit, ["ALL"]), counted(unit, ["ONE"])
    if once and each:
        most = at_most(f"{what}, blocks read one by one", each[1], MOST_READ * once[1])
        print(f"  {once[1]:,} blocks read at once, {each[1]:,} one by one, {most}: {each[1] / once[1]:.2f} times as many")
    os.unlink("read.img")


# The most that ten times as many lines may take: ten times the time, and something for what else the machine does.
MOST_TIMES = 12


def execio():
    few, many = lines_written(1_000), lines_written(10_000)
    print(f"  10,000 lines beside 1,000: {many / few:.1f}, {at_most('10,000 lines beside 1,000', round(many / few, 1), MOST_TIMES)}")
    for recfm in "VF":
        for width in (RECORD, 255):
            for size in (512, 4096):
                records_read(recfm, width, size)
    count = 2_000
    seconds = lines_written(count)
    base = sqlite3.connect("execio.db", isolation_level=None)
    base.execute("PRAGMA synchronous=FULL")
    base.execute("CREATE TABLE log (line TEXT)")
    begun = time.monotonic()
    for n in range(count):
        base.execute("INSERT INTO log VALUES (?)", (f"line {n}",))
    rows = time.monotonic() - begun
    base.close()
    said(f"{count:,} transactions of one row, {count / rows:,.0f} a second", rows)
    beside(seconds, rows)


# How many times the time of REXX a procedure may take.
MOST_BESIDE_REXX = 3

# What is measured of procedures: the lines behind `&TRACE OFF`, and the program in REXX that does the like, where there is one.
LOOPS = {
    "a sum and a jump": (
        ["-L &I = &I + 1", "&GOTO -L"],
        "i = 0\nl:\ni = i + 1\nif i < {half} then signal l\n",
    ),
    "a loop of a sum and a copy": (
        ["&LOOP 2 *", "&I = &I + 1", "&X = &I"],
        "j = 0\ndo i = 1 to {half}\nj = j + 1\nx = j\nend\n",
    ),
    "a loop of 4,096 lines, most of them comments": (["-L &I = &I + 1", *["*"] * 4_093, "&GOTO -L"], None),
    "a loop of a sum beside 900 variables": (
        [*[f"&V{n} = {n}" for n in range(1, 901)], "&LOOP 1 *", "&I = &I + &V450"],
        None,
    ),
}


def procedure():
    turns = 1_000_000
    for what, (lines, rexx) in LOOPS.items():
        texts = ["&TRACE OFF", *lines]
        made = ["FORMAT 191 A", "YES", "BENCH", f"EXECIO {len(texts)} DISKW LOOP EXEC A", *texts]
        session("191,512,n2000,loop.img", made)
        seconds, memory = fastest([PROGRAM, "-t", str(turns), "191,512,ro,loop.img"], "LOOP\n", status=5)
        said(f"{what}: {turns / seconds:,.0f} statements a second", seconds, memory)
        os.unlink("loop.img")
        if rexx and shutil.which("rexx"):
            pathlib.Path("loop.rexx").write_text(rexx.format(half=turns // 2))
            plain, memory = fastest(["rexx", "./loop.rexx"])
            said("the same loop in REXX", plain, memory)
            beside(seconds, plain)
            at_most(f"{what}, times the loop in REXX", round(seconds / plain, 2), MOST_BESIDE_REXX)


BENCHES = {
    "opening": opening,
    "files": files,
    "copy": copy,
    "type": type_into_file,
    "lines": lines,
    "append": append,
    "execio": execio,
    "procedure": procedure,
}


def main():
    names = sys.argv[1:]
    if names in ([], ["all"]):
        names = list(BENCHES)
    unknown = [name for name in names if name not in BENCHES]
    if unknown:
        sys.exit(f"bench: no {unknown[0]}; there are {', '.join(BENCHES)}, and all")
    if not PROGRAM.exists():
        subprocess.run([HOME / "cms", "--build"], check=True)
    with tempfile.TemporaryDirectory(dir=".") as folder:
        os.chdir(folder)
        for name in names:
            BENCHES[name]()
        os.chdir("..")
    if PASSED:
        sys.exit(f"bench: {len(PASSED)} of what is measured is more than it may be: {'; '.join(PASSED)}")


if __name__ == "__main__":
    main()
