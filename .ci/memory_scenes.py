"""The scenes of a program that may have so much memory and no more, by a limit of the system's, which .ci/sockets plays: the start of a server, a
restart to a larger site, and a command. The limit is stepped through all that the program takes where no limit is, so that memory lacks at many
places, and from each of them on for all that is larger than what is left. Of each step is wanted what is wanted where a single allocation fails: the
program ends with its status and its text, or goes on, and no client gets a wrong byte.

The limit is one on all addresses (`ulimit -v`) or on data (`ulimit -d`). By the first the stack can't grow either, and where it has to the system
ends a program, which can't be told of that: so these scenes show besides that it has all that it needs from its start on."""

import contextlib
import os
import re
import resource
import subprocess
import tempfile
import types

import real_server
from fault_scenes import GET_LETTERS, LETTERS_ANSWER, PAGES, act, answers, played
from real_server import (
    DEADLINE, GET, MISSING, Wrong, connect, expect, lay_out, long_scene, request, response, scene, serving, until,
)
from restart_scenes import DONE, STATUS

# The least step of a limit.
STEP = resource.getpagesize()
# More than any program here takes.
NO_LIMIT = 1 << 36
# Files that a restart finds besides: some of a size for which the C library asks the system for a place of its own, and many small ones.
LARGER = {f"large/{number}.bin": bytes([number]) * 300_000 for number in range(4)} | {f"small/{number}.bin": b"s" * 9_000 for number in range(40)}
GET_LARGER = request("GET", "/large/3.bin")
LARGER_ANSWER = response("200 OK", "application/octet-stream", LARGER["large/3.bin"])


class Limit:
    """A limit of the system's: its name, its number, and what the system says of a process that counts for it."""

    def __init__(self, name, number, counted):
        self.name, self.number, self.counted = name, number, counted

    def before(self, most):
        """The words that start a program which may have so many bytes of memory."""
        return ["prlimit", f"--{self.name}={most}:", "--"]

    def set(self, process, most):
        """The process may have so many bytes from now on; what it has it keeps."""
        if process.poll() is None:
            resource.prlimit(process.pid, self.number, (most, resource.RLIM_INFINITY))

    def memory_of(self, process):
        """How many bytes that count the process has, and how many it had at most."""
        told = {}
        # a process that is just becoming another program tells none for a moment
        while "VmSize" not in told and process.poll() is None:
            with open(f"/proc/{process.pid}/status") as file:
                told = dict(line.split(":", 1) for line in file.read().splitlines())
        all_now, counted, most = (1024 * int(told[name].split()[0]) for name in ("VmSize", self.counted, "VmPeak"))
        return counted, most - all_now + counted


LIMITS = [Limit("as", resource.RLIMIT_AS, "VmSize"), Limit("data", resource.RLIMIT_DATA, "VmData")]


class Bounds:
    """How much memory a program may have, by the words that it is started with, or from some moment on."""

    def __init__(self, limit, most=None):
        self.limit = limit
        self.before = [] if most is None else limit.before(most)
        self.process = None
        # Nothing stands between this program and the system.
        self.page = types.SimpleNamespace(strayed=0)

    def set(self, most):
        """It may have so many bytes from now on."""
        self.limit.set(self.process, most)

    def heal(self):
        """It may have as many as it likes."""
        self.set(resource.RLIM_INFINITY)


def least_of(succeeds):
    """The least limit, in whole steps, by which it succeeds."""
    low, high = 0, NO_LIMIT // STEP
    while high - low > 1:
        middle = (low + high) // 2
        if succeeds(middle * STEP):
            high = middle
        else:
            low = middle
    return high * STEP


def ends_with(limit, statuses, folder, *words):
    """Whether the program ends with one of the statuses, where it may have so much."""
    return lambda most: run_by(limit, folder, words, most)[0] in statuses


def run_by(limit, folder, words, most):
    """The status of the program and what it prints, where it may have so much, by which the system may not even begin it."""
    words = [*limit.before(most), real_server.PROGRAM, *words]
    told = subprocess.run(words, cwd=folder, stdin=subprocess.DEVNULL, capture_output=True, timeout=DEADLINE)
    return told.returncode, told.stdout


def least_of_program(limit):
    """The least limit by which the program begins at all: it says that it has no words, or that memory lacks for that."""
    with tempfile.TemporaryDirectory() as folder:
        return least_of(ends_with(limit, (2, 6), folder))


def even(first, last, count):
    """So many limits from the first to the last, in whole steps."""
    return sorted({first + (last - first) * turn // (count - 1) // STEP * STEP for turn in range(count)})


@contextlib.contextmanager
def begun(limit, most=None):
    """A server that may have so many bytes of memory, once it takes connections or has ended. It is started anew where its ports were taken."""
    for _ in range(real_server.STARTS):
        bounds = Bounds(limit, most)
        with played(bounds) as play:
            bounds.process = play.process
            serves = play.serves()
            if serves or play.text(play.output) != b"front fault\n":
                yield play, bounds, serves
                return
    raise Wrong(f"a server: wanted one within {real_server.STARTS} starts, and each printed 'front fault'")


def start_by(limit, most):
    """Starts a server that may have so much, and plays what clients and an operator do. Whether it served, and its status."""
    with begun(limit, most) as (play, _, serves):
        try:
            if serves:
                act(play)
            status = play.judge()[0]
            expect("whether the status is one of memory that lacks", status in ((0, 6) if serves else (6,)), True)
            return serves, status
        except Wrong as wrong:
            raise Wrong(f"a server by {most} bytes ({limit.name}): {wrong}") from None


def peak_of_play(limit):
    """How much memory a server has at most that has no limit."""
    with begun(limit) as (play, _, _):
        act(play)
        _, peak = limit.memory_of(play.process)
        play.judge()
        return peak


def start_by_each(limit, places_of):
    """Starts servers that may have from the least by which the program begins to what it takes where it has none. How often what came."""
    first, last = least_of_program(limit), peak_of_play(limit) + 64 * STEP
    came = [start_by(limit, most) for most in places_of(first, last)]
    counts = {what: came.count(what) for what in sorted(set(came))}
    expect("whether one ended at its start, and the last one served to its end", (came[0], came[-1]), ((False, 6), (True, 0)))
    return counts


def generation_of(play):
    """The newest generation of the server, and goes on where what it serves is of that one; None where it has ended."""
    with contextlib.suppress(OSError), connect(play.port) as client:
        client.send(STATUS)
        generation = int(re.search(rb"\r\n\r\nGeneration: (\d+)\n", client.reply())[1])
        client.send(GET + GET_LARGER + GET_LETTERS)
        expect(f"the page of generation {generation}", client.reply(), answers()[generation])
        expect(f"a file of generation {generation}", client.reply(), LARGER_ANSWER if generation else MISSING)
        expect("the file of both", client.reply(), LETTERS_ANSWER)
        return generation
    play.process.wait(DEADLINE)
    return None


def grow(play):
    """Has the site of the server more files, and another page."""
    lay_out(play.folder, LARGER)
    with open(f"{play.folder}/beside", "wb") as file:
        file.write(PAGES[1])
    os.rename(f"{play.folder}/beside", f"{play.folder}/htdocs/index.html")


def restart_by(limit, more):
    """Restarts a server to a larger site that may have so many bytes more than it has. The generation that it has behind that, None where it has
    ended, and its status."""
    with begun(limit) as (play, bounds, _):
        try:
            play.ask(GET, answers())
            grow(play)
            bounds.set(limit.memory_of(play.process)[0] + more)
            told = play.tell(b"graceful\n")
            # What is served meanwhile is of one generation, or cut short.
            play.ask(GET + GET_LETTERS, [each + LETTERS_ANSWER for each in answers()] + answers(True))
            bounds.heal()
            generation = generation_of(play)
            status = play.judge()[0]
            expect("the status", status, 6 if generation is None else 0)
            if generation is not None and told:
                # A folder that can't be listed for want of memory is one that the store can't read.
                answers_to = (b"generation 1\n",) if generation else (b"refused: memory\n", b"refused: store\n")
                expect(f"whether the restart is answered as it was done, by {told}", told in answers_to, True)
            if generation is not None:
                expect("the generation of the report", f"Generation: {generation}\n" in play.text(play.output).decode(), True)
            return generation, status
        except Wrong as wrong:
            raise Wrong(f"a restart by {more} bytes more ({limit.name}): {wrong}") from None


def need_of_restart(limit):
    """How many bytes more a restart takes at most."""
    with begun(limit) as (play, _, _):
        play.ask(GET, answers())
        grow(play)
        before, _ = limit.memory_of(play.process)
        play.tell(b"graceful\n")
        expect("the generation", generation_of(play), 1)
        _, peak = limit.memory_of(play.process)
        play.judge()
        return max(peak - before, STEP)


def restart_by_each(limit, places_of):
    """Restarts servers that may have from nothing more to what a restart takes. How often what came."""
    came = [restart_by(limit, more) for more in places_of(0, need_of_restart(limit) + 64 * STEP)]
    counts = {str(what): came.count(what) for what in set(came)}
    expect("whether the last one was restarted", came[-1], (1, 0))
    expect("whether one was refused", counts.get("(0, 0)", 0) > 0, True)
    return counts


def send_by(limit, server, word, most):
    """Sends the word by a program that may have so many bytes of memory: whether that succeeded."""
    came = run_by(limit, server.folder, ("-k", word, "-f", "httpd.conf"), most)
    if came != (6, b"") and (came[0] != 0 or not re.fullmatch(DONE[word], came[1])):
        raise Wrong(f"-k {word} by {most} bytes ({limit.name}): came {came}")
    return came[0] == 0


def send_by_each(limit, places_of):
    """Sends commands by programs that may have from the least by which one begins to what one takes, to a server, which ends by the first `stop` that is
    sent. How many were sent, and not."""
    with serving() as server:
        first = least_of_program(limit)
        last = least_of(ends_with(limit, (0,), server.folder, "-k", "graceful", "-f", "httpd.conf"))
        places = places_of(first, last)
        came = [send_by(limit, server, "graceful", most) for most in places]
        with connect(server.port) as client:
            client.send(GET)
            expect("a response", client.reply(), answers()[0])
        until("a server without a connection", lambda: server.connections() == 0)
        tried = next(number for number, most in enumerate([*places, last], 1) if send_by(limit, server, "stop", most))
        printed, _ = server.process.communicate(timeout=DEADLINE)
        expect("the status, and the front of the report", (server.process.returncode, printed[:12]), (0, b"Generation: "))
        return {"graceful": (came.count(True), came.count(False)), "stop": (1, tried - 1)}


@scene
def a_server_that_may_have_so_much_memory_serves_or_ends_with_its_status():
    for limit in LIMITS:
        start_by_each(limit, lambda first, last: even(first, last, 8))


@scene
def a_restart_for_which_a_server_may_have_so_much_memory_is_made_or_refused():
    for limit in LIMITS:
        restart_by_each(limit, lambda first, last: even(first, last, 6))


@scene
def a_command_that_may_have_so_much_memory_is_sent_or_ends_with_its_status():
    for limit in LIMITS:
        send_by_each(limit, lambda first, last: even(first, last, 8))


def by_each(what, tried_by, step):
    """Tries what may have each much of memory, in such steps, and says how often what came."""
    for limit in LIMITS:
        counts = tried_by(limit, lambda first, last: range(first, last + step, step))
        print(f"sockets: {what} by each limit ({limit.name}, steps of {step} bytes): {counts}", flush=True)


@long_scene
def a_server_is_started_by_each_limit_of_memory():
    by_each("servers, by whether they served and their status,", start_by_each, 4 * STEP)


@long_scene
def a_server_is_restarted_by_each_limit_of_memory():
    by_each("restarts, by the generation behind them and the status of the server,", restart_by_each, STEP)


@long_scene
def a_command_is_sent_by_each_limit_of_memory():
    by_each("commands, sent and not,", send_by_each, STEP)
