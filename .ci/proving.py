"""Proves and builds a program of this repository by `rt lib` and `rt run`, for ./serve.

One run of the kit at a time works on a crate and on those below it. So each crate is proved in a room of its own, a repository of the crate
and those below it with their built libraries, by hard links. What the kit keeps of a crate to prove only what changed (`out/incremental`)
moves from the clone into the room and back, and the built library (`out/rlib`) is put into the clone: there `rt check` and the next ./serve
go on from them. The kit's stamp on each library tells of which sources it was built. The run that builds the program looks at all of them,
and builds what isn't of the sources in its room anew: so whatever was kept, the program is that of the sources.

How many processors a proof may use is said where it begins. A crate of few functions gains nothing by more than one: each further one begins
with all that was read. So the crate on which most of what is left waits, one behind the other, gets as many as its lines are worth and those
beside it leave, and at least two of them; each of these gets one. They stand back behind it by their priority, the more the less waits for
them: so the longest chain goes on as if it were alone, and the others take what it leaves."""

import contextlib
import fcntl
import functools
import os
import re
import shutil
import subprocess
import sys
import tempfile
import time

KEPT = "out/incremental"
BUILT = "out/rlib"
# Beside the kit's stamp: the checksum of all sources that the library was built of. It goes where the kit builds the library anew.
MARK = f"{BUILT}/sources"
# The most processors of which a proof still gains, and so many lines of the sources give one work.
MOST_JOBS = 4
LINES_OF_JOB = 500
# What each further job of a proof takes of memory.
FURTHER_JOB = 7e8
# By how much a proof stands back (`nice`) for which nothing waits, beside the one for which most does.
FURTHEST_BACK = 12


@functools.lru_cache(maxsize=None)
def takes(*words):
    """Whether `rt ci` takes these words, looked at where it finds nothing to prove: words that rt doesn't take it answers by its help."""
    with tempfile.TemporaryDirectory() as room:
        ran = subprocess.run(["rt", "ci", *words], cwd=room, stdin=subprocess.DEVNULL, capture_output=True, text=True)
    return "usage: rt" not in ran.stdout + ran.stderr


def text_of(file):
    try:
        with open(file, encoding="utf-8", errors="replace") as it:
            return it.read()
    except OSError:
        return ""


def lines_of(folder, ending):
    """How many lines the files of a crate have whose names end so."""
    walked = [(at, names) for part in ("src", "specs", "proofs") for at, _, names in os.walk(f"{folder}/{part}")]
    return sum(text_of(f"{at}/{name}").count("\n") for at, names in walked for name in names if name.endswith(ending))


def free_memory():
    """The bytes that the system has left for programs."""
    return 1024 * int(re.search(r"MemAvailable:\s+(\d+)", text_of("/proc/meminfo"))[1])


def link_tree(tree, to):
    """Links each file of a tree to the same place of another, or copies it where the place is on another disk."""

    def link(file, to):
        try:
            os.link(file, to)
        except OSError:
            shutil.copy2(file, to)

    shutil.copytree(tree, to, copy_function=link)


def replace_tree(tree, to):
    """Has the files of a tree stand in the place of another."""
    shutil.rmtree(to, ignore_errors=True)
    os.makedirs(os.path.dirname(to), exist_ok=True)
    link_tree(tree, to)


def place_of_rooms(top):
    """Where rooms are made: in the folder of git, which is on the same disk and which the kit's gate doesn't read."""
    ran = subprocess.run(["git", "rev-parse", "--absolute-git-dir"], cwd=top, capture_output=True, text=True)
    return f"{ran.stdout.strip() if ran.returncode == 0 else tempfile.gettempdir()}/serve-rooms"


@contextlib.contextmanager
def crates_to_oneself(top, crates):
    """Keeps other runs of the kit out of these crates, by the lock that each takes on their folders, and waits for those that are there."""
    held = [os.open(f"{top}/crates/{it}", os.O_RDONLY) for it in sorted(crates)]
    try:
        for it in held:
            try:
                fcntl.flock(it, fcntl.LOCK_EX | fcntl.LOCK_NB)
            except BlockingIOError:
                print("serve: waiting for another run of rt in this clone", file=sys.stderr, flush=True)
                fcntl.flock(it, fcntl.LOCK_EX)
        yield
    finally:
        for it in held:
            os.close(it)


class Room:
    """A crate that is being proved, in a room of its own."""

    def __init__(self, rooms, crate, jobs, back):
        self.crate, self.jobs, self.top = crate, jobs, rooms.top
        self.place = f"{rooms.place}/{crate}"
        self.folder = f"{self.place}/crates/{crate}"
        for it in rooms.below(crate):
            link_tree(f"{rooms.sources}/crates/{it}", f"{self.place}/crates/{it}")
        lines = text_of(f"{rooms.sources}/crates.txt").splitlines(keepends=True)
        with open(f"{self.place}/crates.txt", "w", encoding="utf-8") as file:
            file.writelines(it for it in lines if it.partition(":")[0] in rooms.below(crate))
        move_kept(f"{self.top}/crates/{crate}", self.folder)
        is_program = os.path.isfile(f"{self.folder}/src/main.rt")
        words = ["run", "--jobs", str(jobs), "--", *rooms.words] if is_program else ["lib", "--jobs", str(jobs)]
        with open(f"{self.place}/said", "wb") as said:
            streams = {"stdin": subprocess.DEVNULL, "stdout": said, "stderr": subprocess.STDOUT}
            self.running = subprocess.Popen(["nice", "-n", str(back), "rt", *words], cwd=self.folder, **streams)

    def said(self):
        return f"== {self.crate}, with {self.jobs} jobs\n" + text_of(f"{self.place}/said").replace(self.place, self.top)

    def leave(self):
        """Ends the run, where it hasn't ended, and gives the clone back what was kept of the crate."""
        self.running.terminate()
        self.running.wait()
        move_kept(self.folder, f"{self.top}/crates/{self.crate}")


def move_kept(folder, to):
    """Moves what the kit keeps of a crate to another folder of it, unless there is some."""
    if os.path.isdir(f"{folder}/{KEPT}") and not os.path.exists(f"{to}/{KEPT}"):
        os.makedirs(f"{to}/out", exist_ok=True)
        shutil.move(f"{folder}/{KEPT}", f"{to}/{KEPT}")


class Rooms:
    """The rooms of one build."""

    def __init__(self, top, below, copy, crates, words):
        """`below` gives the crates that one stands on, lowest first, and itself; `copy` copies the sources of all to a folder; `words` are
        those that the program is run with, and ends well by."""
        self.top, self.below, self.words = top, below, words
        self.place = place_of_rooms(top)
        self.sources = f"{self.place}/sources of all"
        for it in crates:
            # of a build that was killed, once what it had begun has ended
            if os.path.isdir(f"{self.place}/{it}/crates/{it}"):
                with crates_to_oneself(f"{self.place}/{it}", [it]):
                    move_kept(f"{self.place}/{it}/crates/{it}", f"{top}/crates/{it}")
        self.clear()
        os.makedirs(self.sources)
        copy(self.sources)
        for it in crates:
            if os.path.isfile(f"{top}/crates/{it}/{BUILT}/stamp"):
                replace_tree(f"{top}/crates/{it}/{BUILT}", f"{self.sources}/crates/{it}/{BUILT}")

    def clear(self):
        shutil.rmtree(self.place, ignore_errors=True)

    def is_built(self, crate, mark):
        return text_of(f"{self.sources}/crates/{crate}/{MARK}") == mark

    def keep(self, room, mark):
        """Puts the library that was built in a room where the next rooms take it from, and into the clone."""
        if os.path.isfile(f"{room.folder}/{BUILT}/stamp"):
            with open(f"{room.folder}/{MARK}", "w", encoding="utf-8") as it:
                it.write(mark)
            for to in (self.sources, self.top):
                replace_tree(f"{room.folder}/{BUILT}", f"{to}/crates/{room.crate}/{BUILT}")


class Lanes:
    """What is proved at once: as many crates as there are processors and memory, those with the longest chain of others above them first."""

    def __init__(self, rooms, plan, memory):
        self.rooms, self.plan, self.memory, self.running = rooms, plan, memory, {}
        self.ways = {it: plan.way_up(it) for it in plan.crates}
        self.left = sorted((it for it in plan.crates if plan.weights[it]), key=lambda it: -self.ways[it])
        self.needs = {it: self.need(it) for it in self.left}
        self.under = {it: {*rooms.below(it)} - {it} for it in self.left}

    def need(self, crate):
        """What the proof of a crate takes of memory, as far as its lines tell: more than what was seen of most crates."""
        lines = {it: lines_of(f"{self.rooms.sources}/crates/{it}", ".rt") for it in self.rooms.below(crate)}
        own = lines[crate] + 0.2 * lines_of(f"{self.rooms.sources}/crates/{crate}", ".antt")
        return 2e9 + 3e5 * own + 3e4 * sum(lines.values())

    def taken(self, crate, jobs):
        """The memory of a crate with so many jobs: what is read of the crates below is there once for all of them."""
        return self.needs[crate] + FURTHER_JOB * (jobs - 1)

    def fill(self):
        """Begins what can begin: at most as many crates as there are processors."""
        undone = {*self.left, *self.running}
        ready = [it for it in self.left if not undone & self.under[it]]
        for at, crate in enumerate(ready):
            spare = self.memory - sum(self.taken(it, room.jobs) for it, room in self.running.items())
            if len(self.running) >= self.plan.lanes or self.running and self.taken(crate, 1) > spare:
                continue
            jobs = min(self.useful(crate), self.share(crate, undone, len(ready) - at))
            while jobs > 1 and self.taken(crate, jobs) > spare:
                jobs -= 1
            self.left.remove(crate)
            self.running[crate] = Room(self.rooms, crate, jobs, self.back(crate, undone))

    def back(self, crate, undone):
        """How far a crate stands back beside those that are left, by how much shorter the chain is that waits for it."""
        return round(FURTHEST_BACK * (1 - self.ways[crate] / max(self.ways[it] for it in undone)))

    def useful(self, crate):
        """How many processors a crate gains of."""
        return max(1, min(MOST_JOBS, lines_of(f"{self.rooms.sources}/crates/{crate}", ".rt") // LINES_OF_JOB))

    def share(self, crate, undone, ready):
        """How many processors a crate gets beside which so many others, and itself, can begin: what those that run leave, shared out; and two
        at least where the longest chain of what is left begins with it."""
        idle = self.plan.lanes - sum(room.jobs for room in self.running.values())
        above = [self.ways[it] - (self.plan.weights[it] if it in self.running else 0) for it in undone - {crate}]
        least = 2 if self.ways[crate] >= max(above, default=0) else 1
        return max(least, idle - ready + 1 if least == 2 else idle // ready)

    def ended(self):
        return [room for room in self.running.values() if room.running.poll() is not None]


def prove(rooms, marks, plan, progress, log):
    """Proves the crates of a plan, builds its last one, and returns the folder of that, or None where one isn't proved. What is built of the
    same sources, by their checksums `marks`, is taken."""
    for crate in plan.crates[:-1]:
        if rooms.is_built(crate, marks[crate]):
            progress.take(crate)
    lanes, shown = Lanes(rooms, plan, 0.85 * free_memory()), time.monotonic()
    try:
        while lanes.left or lanes.running:
            lanes.fill()
            time.sleep(0.1)
            for room in lanes.ended():
                room.leave()
                del lanes.running[room.crate]
                log.write(room.said())
                log.flush()
                if room.running.returncode:
                    return None
                if room.crate == plan.crates[-1]:
                    return room.folder
                rooms.keep(room, marks[room.crate])
                shutil.rmtree(room.place)
                progress.prove(room.crate)
            if time.monotonic() > shown + 1:
                progress.show()
                shown = time.monotonic()
    finally:
        for room in lanes.running.values():
            room.leave()
            log.write(room.said())
