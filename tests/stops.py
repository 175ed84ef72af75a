"""What the crash tests share: a session that is stopped at each write and each sync, and what a stop of the machine may leave of its units.

Needs strace. First the program is killed on its way into each write and each sync, in turn, and what it leaves is looked at. Then a whole
session is recorded, and for its moments images are made that a stop of the machine may leave: what was synced stays, and each block that
was written since is as before or as written. Where there are more than MOST, those with a front of the writes are taken, and others at
random.
"""

import itertools
import math
import pathlib
import random
import re
import subprocess
import sys
import tempfile

ROOT = pathlib.Path(__file__).resolve().parent.parent
PROGRAM = ROOT / "crates/cms_cli/out/cms_cli"
MOST = 256

READY = b"R;\n"
DEVICES = {"a": "191", "b": "192"}

WRITE = re.compile(r'pwrite64\(\d+<([^>]*)>, "((?:\\x[0-9a-f]{2})*)", \d+, (\d+)\)\s+= ')
SYNCED = re.compile(r"f(?:data)?sync\(\d+<([^>]*)>\)\s+= 0")
SHOWN = re.compile(r'write\(1(?:<[^>]*>)?, "((?:\\x[0-9a-f]{2})*)"')


def images(base, pending, chosen):
    """Images in which each block written since the last sync is as before or as one of these writes: every one, or many of them."""
    places = sorted({place for place, _ in pending})
    choices = [[None, *(data for place, data in pending if place == at)] for at in places]
    if math.prod(map(len, choices)) <= MOST:
        picks = itertools.product(*choices)
    else:
        fronts = [dict(pending[:count]) for count in range(len(pending) + 1)]
        picks = [[front.get(place) for place in places] for front in fronts]
        picks += [[chosen.choice(choice) for choice in choices] for _ in range(MOST - len(picks))]
    for pick in picks:
        image = bytearray(base)
        for place, data in zip(places, pick):
            if data is not None:
                image[place : place + len(data)] = data
        yield bytes(image)


def decoded(text):
    return bytes.fromhex(text.replace("\\x", ""))


def unit_in(path):
    """The unit of an image by the name of its file, which strace may give in hexadecimal."""
    name = decoded(path).decode() if path.startswith("\\x") else path
    return pathlib.PurePath(name).stem


class Trial:
    """A session with a script on units with these images; what may be left of them is said by `state` and `allowed` of each test."""

    def __init__(self, folder, starts, size, script):
        self.folder, self.starts, self.size, self.script = folder, starts, size, script
        self.ready = script.count(b"\n")

    def state(self, unit, image):
        """The number of the state that an image of a unit is in; none where it is in none that is known."""
        raise NotImplementedError

    def allowed(self, unit, typed):
        """The numbers of the states in which a unit may be, once these bytes are typed."""
        raise NotImplementedError

    def looked(self, folder, states):
        """Whether a session on the images of a folder finds these states."""
        raise NotImplementedError

    def looked_at(self, unit, image, state):
        """The same of an image of one unit, where each that is made is looked at so."""

    def laid(self, name, **given):
        """A folder of this name with the images, each as it was at the start or as given."""
        folder = self.folder / name
        folder.mkdir(exist_ok=True)
        for unit, start in self.starts.items():
            (folder / f"{unit}.img").write_bytes(given.get(unit, start))
        return folder

    def session(self, folder, access, script, before=()):
        units = [f"{DEVICES[unit]},{self.size},{access},{folder}/{unit}.img" for unit in self.starts]
        return subprocess.run([*before, str(PROGRAM), *units], input=script, stdout=subprocess.PIPE, check=False)

    def place(self, unit, image, typed):
        """The state of an image, which must be one that is allowed."""
        state = self.state(unit, image)
        if state is None:
            sys.exit(f"not allowed: unit {unit} is in no state that it may have")
        if state not in self.allowed(unit, typed):
            sys.exit(f"not allowed: unit {unit} is in state {state} where {typed[-40:]!r} is typed")
        return state

    def killed(self, call):
        """Kills the program on its way into each such call, until there is none more."""
        for number in itertools.count(1):
            folder = self.laid("killed")
            inject = f"inject={call}:signal=KILL:when={number}"
            ended = self.session(folder, "rw", self.script, ["strace", "-qq", "-o", "/dev/null", "-e", inject])
            states = {unit: self.place(unit, (folder / f"{unit}.img").read_bytes(), ended.stdout) for unit in self.starts}
            self.looked(folder, states)
            if ended.returncode == 0:
                return number - 1
            print(f"killed at {call} {number}: {states}")

    def is_whole(self, ended):
        """Whether a session that wasn't stopped came to its end."""
        return ended.returncode == 0 and ended.stdout.endswith(READY)

    def recorded(self):
        """The writes, syncs and typed bytes of a whole session, in order."""
        folder, log = self.laid("recorded"), self.folder / "log"
        traced = ["strace", "-qq", "-y", "-xx", "-s", "65536", "-o", str(log), "-e", "trace=pwrite64,fsync,fdatasync,write"]
        ended = self.session(folder, "rw", self.script, traced)
        if not self.is_whole(ended):
            sys.exit(f"the session failed: status {ended.returncode}, {ended.stdout!r}")
        for line in log.read_text().splitlines():
            if found := WRITE.search(line):
                yield ("write", unit_in(found[1]), int(found[3]), decoded(found[2]))
            elif found := SYNCED.search(line):
                yield ("sync", unit_in(found[1]), 0, b"")
            elif found := SHOWN.search(line):
                yield ("typed", "", 0, decoded(found[1]))

    def are_meant(self, moments):
        """Whether the writes and syncs of the session are those that they must be, where a test says so."""

    def replayed(self):
        """Looks at the images that a stop of the machine may leave at each moment of a session, and counts them."""
        moments = list(self.recorded())
        self.are_meant(moments)
        base = {unit: bytearray(start) for unit, start in self.starts.items()}
        pending = {unit: [] for unit in self.starts}
        typed, chosen, count = b"", random.Random(1), 0
        for (kind, unit, place, data), behind in zip(moments, [*moments[1:], ("end", "", 0, b"")]):
            if kind == "write":
                pending[unit].append((place, data))
            elif kind == "sync":
                for at, written in pending[unit]:
                    base[unit][at : at + len(written)] = written
                pending[unit] = []
            else:
                typed += data
            # A further write without a sync leaves all these images, and more.
            if kind == behind[0] == "write":
                continue
            for each in self.starts if kind == "typed" else unit:
                shown = set()
                for image in images(base[each], pending[each], chosen):
                    state = self.place(each, image, typed)
                    self.looked_at(each, image, state)
                    shown.add(state)
                    count += 1
                print(f"after {kind} {unit}: unit {each} in state {' or '.join(map(str, sorted(shown)))}")
        return count


def run(make, tool="cms"):
    """Builds the program, or that of another tool, and runs a trial that is made in a new folder."""
    subprocess.run([ROOT / tool, "--build"], stdout=subprocess.DEVNULL, check=True)
    with tempfile.TemporaryDirectory() as folder:
        trial = make(pathlib.Path(folder))
        stops = trial.killed("pwrite64") + trial.killed("fdatasync")
        print(f"{stops} stops and {trial.replayed()} images: each is as allowed")
