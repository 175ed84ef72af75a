#!/usr/bin/env python3
"""Lists the answers of want of memory that no test of sessions passes by, and those that one gives though there is memory.

    tests/memory_paths.py

Needs gdb, and rt with its kit; it is no part of the gate, and takes some minutes. A contract leaves want of memory free, so a body that
answers it where a text is long or a number large is proved all the same: a test alone shows that it isn't so. Each `Err(..)` of `Memory`
or `AllocError` in the sources, and each such `ok_or` or `map_err`, stands behind a decision: an `if`, a `let` with `else`, a `match`, or
the statement itself. In a copy of the sources a call of a mark, a function that does nothing, stands right behind what is decided upon,
and another one in the answer. The tests of the sessions and of `minidisk` are compiled from that copy without any proof, and run under
gdb, which notes the marks that they come to.

A decision that is passed by says only that it was made once: that it went the right way for every text, the rows say.
"""

import pathlib
import re
import shutil
import subprocess
import sys
import tempfile

ROOT = pathlib.Path(__file__).resolve().parent.parent
TESTS = ("cms_session_tests", "mini_tests")
# No part of the products, or of their edge, of which tests in memory know nothing.
OTHERS = re.compile(r"_tests$|^cms_(cases|images|cli|host)$|^mini_files$|^minidisk$")
MEMORY = r"(?:AllocError|\w+::Memory)"
# Such an answer, and not the pattern of an arm.
ANSWER = re.compile(rf"\bErr\({MEMORY}\)(?!\s*(?:=>|\|))|\.ok_or\({MEMORY}\)|\.map_err\(\|_\| {MEMORY}\)")
WORDS = re.compile(r"^\s*// ?(.*)$")
# A value of a struct, up to its brace.
VALUE = re.compile(r"(?<![\w>] )(?<!\w)[A-Z]\w*[a-z]\w* $")
# Why an answer is never given, where the source doesn't say so: by its file, and by what is decided upon.
NEVER = {
    ("cms_ext", "gathered.data(form.number, stamp)"): "there is a record, and none of more than 65,535 bytes",
    ("cms_files", "self.count.checked_add(1)"): "fewer than 2^32 lines are gathered, 10,000 asked for or one a file",
    ("cms_records", "into.len().checked_add(size)"): "no memory has 2^64 bytes",
    ("cms_line", "u32::try_from(place)"): "a line has fewer than 2^32 words",
    ("cms_line", "Err(LineFault::Memory)"): "no script has 2^64 pieces",
    ("cms_world", "u32::try_from(start.len())"): "a unit of 2^32 blocks would take 2 TB of memory",
}


def masked(text):
    """The text with blanks for its comments, strings and characters."""
    hidden = re.compile(r'//[^\n]*|b?"(?:[^"\\]|\\.)*"|b?\'(?:[^\'\\\n]|\\.[^\'\n]*)\'', re.DOTALL)
    return hidden.sub(lambda found: re.sub(r"[^\n]", " ", found[0]), text)


def opening(text, at):
    """Where the braces open within which a place stands."""
    depth = 0
    for place in range(at - 1, -1, -1):
        depth += {"}": 1, "{": -1}.get(text[place], 0)
        if depth < 0:
            return place
    return 0


def statement(text, at):
    """Where the statement begins in which a place stands: behind a semicolon or a brace of its own depth, but that of a value."""
    depth = 0
    for place in range(at - 1, -1, -1):
        sign = text[place]
        if sign == "{" and VALUE.search(text[:place]):
            continue
        if depth == 0 and sign in ";{}":
            break
        depth += {")": 1, "]": 1, "(": -1, "[": -1}.get(sign, 0)
        depth = max(depth, 0)
    return place + 1 + len(text[place + 1 : at]) - len(text[place + 1 : at].lstrip())


def decided(text, at):
    """The first and the last place of what is decided upon; both are one where it is the whole statement."""
    if text[at] == ".":
        begin = statement(text, at)
        return begin, begin
    brace = opening(text, at)
    head = text[statement(text, brace) : brace]
    if re.search(r"=>\s*$", head):
        brace = opening(text, brace)
        head = text[statement(text, brace) : brace]
    if head.strip() == "else":
        brace = opening(text, text.rindex("}", 0, brace))
        head = text[statement(text, brace) : brace]
    for pattern in (r"\bmatch\b", r"\blet\b(?:[^=]|=>)*=(?=.*\belse\s*$)", r"\bif let\b[^=]*=", r"\bif\b"):
        if found := list(re.finditer(pattern, head, re.DOTALL)):
            begin = brace - len(head) + found[-1].end()
            return begin, brace - (len(head) - len(re.sub(r"\s*\belse\s*$", "", head)))
    begin = statement(text, at)
    return begin, begin


class Place:
    """An answer of want of memory."""

    def __init__(self, number, path, text, at, end):
        self.number, self.path, self.at, self.end = number, path, at, end
        self.line = text.count("\n", 0, at) + 1
        self.begin, self.last = decided(masked(text), at)
        lines = text.splitlines()
        words = []
        for above in range(self.line - 1, max(self.line - 7, 0), -1):
            if told := WORDS.match(lines[above - 1]):
                words.insert(0, told[1])
            elif words:
                break
        told = " ".join(words)
        self.never = told if "never" in told else self.known(text)

    def known(self, text):
        """Why it is never given, by the table; nothing where it may be."""
        decision = text[self.begin : self.end if self.begin == self.last else self.last]
        for (crate, words), why in NEVER.items():
            if crate in self.path.parts and words in decision:
                return why
        return ""

    def inserts(self, text):
        """What is put into the text, and where."""
        passed, given = f"passed_{self.number}()", f"given_{self.number}()"
        if self.begin == self.last:
            yield self.begin, f"{passed}; "
        else:
            yield self.begin, " ({ let decided ="
            yield self.last, f"; {passed}; decided }}) "
        if text[self.at] != ".":
            yield self.at, f"({{ {given}; "
            yield self.end, " })"

    def told(self):
        return f"{self.path.relative_to(ROOT)}:{self.line}"


def found_places():
    places = []
    for path in sorted(ROOT.glob("crates/*/src/**/*.rt")):
        if OTHERS.search(path.relative_to(ROOT).parts[1]):
            continue
        text = path.read_text()
        for found in ANSWER.finditer(masked(text)):
            places.append(Place(len(places), path, text, found.start(), found.end()))
    return places


def marked(text, places):
    """The text with the marks of its places, which stand at its end."""
    inserts = [(at, number, what) for place in places for number, (at, what) in enumerate(place.inserts(text))]
    for at, _, what in sorted(inserts, key=lambda each: each[:2], reverse=True):
        text = text[:at] + what + text[at:]
    marks = (f"fn {kind}_{place.number}() {{}}\n" for place in places for kind in ("passed", "given"))
    return f"{text}\n{''.join(marks)}"


def copied(places, folder):
    """A copy of the sources with the marks."""
    folder.mkdir()
    for name in ("crates.txt", "HANDLES"):
        shutil.copy(ROOT / name, folder)
    for path in sorted((ROOT / "crates").iterdir()):
        shutil.copytree(path / "src", folder / "crates" / path.name / "src")
    for path in {place.path for place in places}:
        text = marked(path.read_text(), [place for place in places if place.path == path])
        (folder / path.relative_to(ROOT)).write_text(text)


# The compiler without the checks of addresses, and the linker, which keeps the program at fixed addresses and lets nothing run it.
CLANG = """#!/bin/bash
words=()
for word in "$@"; do [ "$word" = -fsanitize=address ] || words+=("$word"); done
exec {clang} "${{words[@]}}"
"""
LINKER = """#!/bin/bash
words=() whole=
for word in "$@"; do
    case $word in
        --whole-archive) whole=1 ;;
        --no-whole-archive) whole= ;;
        -pie) ;;
        *) [ "$whole" ] || words+=("$word") ;;
    esac
done
{linker} "${{words[@]}}" && cp program {program}
exit 1
"""


def kit_with(folder, program):
    """The kit by links, but for its compiler and its linker."""
    kit = pathlib.Path(shutil.which("rt")).resolve().parent.parent
    for name in ("bin", "toolchain", "toolchain/bin"):
        (folder / name).mkdir(parents=True)
    for part in (".", "bin", "toolchain", "toolchain/bin"):
        for path in (kit / part).iterdir():
            if not (folder / part / path.name).exists():
                (folder / part / path.name).symlink_to(path)
    for name in ("rt", "rtlib.py"):
        (folder / "bin" / name).unlink()
        shutil.copy(kit / "bin" / name, folder / "bin" / name)
    tools = {"clang": CLANG, "ld.lld": LINKER}
    for name, text in tools.items():
        path = folder / "toolchain/bin" / name
        path.unlink()
        real = kit / "toolchain/bin"
        path.write_text(text.format(clang=real / "clang", linker=real / "ld.lld", program=program))
        path.chmod(0o755)
    return folder / "bin/rt"


def built(places, folder, tests):
    """The tests of a crate, with the marks."""
    folder.mkdir()
    copied(places, folder / "copy")
    program = folder / "program"
    rt = kit_with(folder / "kit", program)
    made = subprocess.run([rt, "try", "--test"], cwd=folder / "copy/crates" / tests, capture_output=True, text=True, check=False)
    if not program.exists():
        sys.exit(f"memory_paths: the marked copy of {tests} isn't compiled\n{made.stdout}{made.stderr}")
    return program


def addresses(program):
    """Where the marks stand in the program: by address, their kind and number. A mark that no test can come to has no place."""
    symbols = subprocess.run(["nm", program], capture_output=True, text=True, check=True).stdout
    found = re.findall(r"^([0-9a-f]+) \w .*::(passed|given)_(\d+)$", symbols, re.MULTILINE)
    return {int(at, 16): (kind, int(number)) for at, kind, number in found}


def tests_of(program):
    listed = subprocess.run([program, "--list"], capture_output=True, text=True, check=True).stdout
    return re.findall(r"^(\S+): test$", listed, re.MULTILINE)


WATCH = """
import gdb
def stopped(event):
    if isinstance(event, gdb.BreakpointEvent):
        print("MARK", hex(gdb.selected_frame().pc()), flush=True)
gdb.events.stop.connect(stopped)
gdb.execute("run")
while gdb.selected_inferior().pid:
    gdb.execute("continue")
print("STATUS", gdb.convenience_variable("_exitcode"), flush=True)
"""


def watched(program, test, marks, folder):
    """The marks to which a test comes."""
    script = folder / "watch.py"
    script.write_text(WATCH)
    breaks = [word for at in marks for word in ("-ex", f"tbreak *{at:#x}")]
    words = ["gdb", "-nx", "-batch", *breaks, "-x", script, "--args", program, test]
    said = subprocess.run(words, cwd=folder, capture_output=True, text=True, errors="replace", check=False).stdout
    if not re.search(r"^STATUS 0$", said, re.MULTILINE):
        sys.exit(f"memory_paths: {test} failed\n{said[-2000:]}")
    return {marks[int(at, 16)] for at in re.findall(r"^MARK 0x([0-9a-f]+)$", said, re.MULTILINE)}


def main():
    if len(sys.argv) != 1 or not (shutil.which("gdb") and shutil.which("rt")):
        sys.exit(__doc__)
    places = found_places()
    seen = set()
    with tempfile.TemporaryDirectory() as name:
        for tests in TESTS:
            folder = pathlib.Path(name) / tests
            program = built(places, folder, tests)
            left = {at: mark for at, mark in addresses(program).items() if mark not in seen}
            for test in tests_of(program):
                seen |= watched(program, test, left, folder)
                left = {at: mark for at, mark in left.items() if mark not in seen}
                print(f"{test}: {len(seen)} marks by now", flush=True)
    for place in places:
        if place.never:
            print(f"never given: {place.told()}: {place.never}")
    missed = [place for place in places if not place.never and ("passed", place.number) not in seen]
    given = [place for place in places if ("given", place.number) in seen]
    for place in missed:
        print(f"not passed by: {place.told()}")
    for place in given:
        print(f"given though there is memory: {place.told()}")
    print(f"{len(places)} places, {len(missed)} neither passed by nor known as never given, {len(given)} given")
    sys.exit(1 if given else 0)


if __name__ == "__main__":
    main()
