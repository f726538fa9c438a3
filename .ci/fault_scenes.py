"""The scenes in which each call that the program makes of the system fails in turn, alone or with all behind it, or any of them at random, while
clients and an operator do what they do; .ci/sockets plays them where there is a C compiler. Of a call that fails nothing is wanted but that the
server doesn't crash or hang, that no client gets a wrong byte, and that the report tells of all that was taken."""

import contextlib
import errno
import os
import random
import re
import subprocess
import tempfile
import threading
import time

import real_server
from failing_scenes import GET_LETTERS, LETTERS, LETTERS_ANSWER
from outside import KINDS
from real_server import (
    ANSWER, CAUSES, CORRECTED, DEADLINE, GET, GET_LAST, HOST, LAST_ANSWER, PAGE, REPORT_HEAD, SITE, WARNING, Wrong, configure, connect, expect,
    free_ports, lay_out, long_scene, refusal, request, response, short, told_lines, until, where_compiled,
)
from refusing_scenes import outside, outside_scene

# The error with which a call of each kind fails.
ERRORS = {
    "socket": errno.EMFILE, "bind": errno.EADDRINUSE, "listen": errno.EADDRINUSE, "accept4": errno.EMFILE, "connect": errno.ECONNREFUSED,
    "setsockopt": errno.EINVAL, "getsockname": errno.EINVAL, "shutdown": errno.ENOTCONN,
    "fcntl": errno.EMFILE, "ioctl": errno.ENOTTY, "eventfd": errno.EMFILE, "epoll_create1": errno.EMFILE,
    "epoll_ctl": errno.ENOSPC, "epoll_wait": errno.EBADF, "recv": errno.ECONNRESET, "read": errno.EIO, "send": errno.EPIPE, "sendmsg": errno.EPIPE,
    "write": errno.ENOSPC, "writev": errno.EPIPE, "open": errno.EMFILE, "openat": errno.EMFILE, "close": errno.EIO, "getdents64": errno.EIO,
    "statx": errno.EACCES, "clock_gettime": errno.EINVAL, "sched_yield": errno.ENOSYS, "syscall": errno.EINTR, "malloc": errno.ENOMEM,
}
SOCKETS = "socket bind listen accept4 setsockopt getsockname shutdown fcntl ioctl eventfd epoll_create1 epoll_ctl epoll_wait recv read send sendmsg write writev".split()
FILES = "open openat close getdents64 statx clock_gettime sched_yield syscall".split()
ALL_BEHIND = 1_000_000_000
NOT_ALLOWED = refusal("405 Method Not Allowed", "Allow: GET, HEAD, OPTIONS")
# The same where a restart came before them.
LETTERS_LAST = response("200 OK", "text/plain", LETTERS, "Connection: close")
NOT_ALLOWED_LAST = refusal("405 Method Not Allowed", "Connection: close", "Allow: GET, HEAD, OPTIONS")
POST = request("POST", "/", "Content-Length: 5") + b"12345"
# The pages of the two generations.
PAGES = [PAGE, b"other\n"]
# Texts with which a program ends that doesn't serve, by its status.
REFUSALS = {3: rb"store fault: (httpd\.conf|htdocs)\n", 4: rb"front fault\n", 6: rb""}
# For how many seconds a server is soaked in faults, and how long one server lasts of these.
SOAK = int(os.environ.get("SOAK_SECONDS", "600"))
LASTS = 60


class Play:
    """A server some of whose calls fail, what its clients get, and what is left of it."""

    def __init__(self, folder, system):
        self.folder, self.system = folder, system
        # How many seconds a client waits for more, and whether more has to come then, or the end.
        self.patience, self.is_owed = 10, True
        self.port, self.control = free_ports(2)
        configure(folder, f"Listen {HOST}:{self.port}", f"ControlListen {self.control}", CORRECTED, "Timeout 5", "KeepAliveTimeout 5")
        words = [*system.before, real_server.PROGRAM, "-f", "httpd.conf"]
        self.errors = open(f"{folder}/errors.txt", "w+b")
        self.output = open(f"{folder}/output", "w+b")
        self.process = subprocess.Popen(words, cwd=folder, stdin=subprocess.DEVNULL, stdout=self.output, stderr=self.errors)

    def close(self):
        """Ends what is left."""
        self.process.kill()
        self.process.wait()
        self.errors.close()
        self.output.close()

    def text(self, file):
        """What the file has so far."""
        file.flush()
        return os.pread(file.fileno(), 1 << 20, 0)

    def serves(self):
        """Whether it takes connections, once it does or has ended."""
        def is_there():
            with contextlib.suppress(OSError):
                connect(self.port).close()
                return True
            return self.process.poll() is not None
        until("a server, or its end", is_there)
        return self.process.poll() is None

    def descriptors(self):
        """How many descriptors it has, or none where it has ended."""
        with contextlib.suppress(OSError):
            return len(os.listdir(f"/proc/{self.process.pid}/fd"))
        return 0

    def tell(self, word):
        """Sends the command line, whether it is heard or not. What it is answered, or nothing where that didn't come."""
        with contextlib.suppress(OSError), connect(self.control) as caller:
            caller.stream.settimeout(min(self.patience, 2))
            caller.send(word)
            return caller.answer()
        return b""

    def ask(self, requests, wanted, closes=False):
        """Sends requests, and goes on where what comes of it is the front of one of the answers, or all of it."""
        with contextlib.suppress(ConnectionError), connect(self.port) as client:
            client.stream.settimeout(self.patience)
            came = self.taken(client, requests, wanted, closes)
            if not any(each.startswith(as_undated(came)) for each in wanted):
                raise Wrong(f"what came of {short(requests)}: wanted the front of {short(wanted[0])}, and came {short(as_undated(came))}")

    def taken(self, client, requests, wanted, closes):
        """What comes of the requests, up to one of the answers, or to the end where one is to come, or where the connection fails."""
        came = b""
        try:
            client.send(requests)
            while len(came) < max(map(len, wanted)) + 1_000 and (piece := client.stream.recv(65_536)):
                came += piece
                if not closes and as_undated(came) in wanted:
                    break
        except TimeoutError:
            if self.is_owed:
                raise Wrong(f"what came of {short(requests)}: came {short(as_undated(came))}, and nothing behind it") from None
        except ConnectionError:
            pass
        return came

    def stop(self):
        """Has it stop, once no call fails any more, and answers its status."""
        self.system.heal()
        ending = time.monotonic() + DEADLINE
        while self.process.poll() is None:
            if time.monotonic() > ending:
                raise Wrong("the end of a server that is told to stop: it didn't come")
            self.tell(b"stop\n")
            with contextlib.suppress(subprocess.TimeoutExpired):
                self.process.wait(0.3)
        return self.process.returncode

    def judge(self):
        """Goes on where it ended with a status that it may have, and with the text of that; answers the status and how many it took."""
        status, text = self.stop(), self.text(self.output)
        expect("how many closes were of a descriptor that wasn't open", self.system.page.strayed, 0)
        said = told_lines(self.text(self.errors))
        if status in REFUSALS and re.fullmatch(REFUSALS[status], text):
            return status, 0
        lines = (text.removeprefix(WARNING)).decode().split("\n")
        head = lines[:REPORT_HEAD]
        names = ["Generation", "Accepted", "Closed", "Responses", *CAUSES, "ChildrenStarted"]
        if status in (5, 6) and not text.removeprefix(WARNING):
            return status, 0
        expect(f"the lines of the report, status {status}, said {said[-2:]}", [line.split(": ")[0] for line in head], names)
        told = {name: int(line.split(": ")[1]) for name, line in zip(names, head)}
        taken = told["Accepted"]
        expect("how many were closed", (told["Closed"], sum(told[cause] for cause in CAUSES)), (taken, taken))
        expect("how many lines the report has", len(lines), REPORT_HEAD + min(taken, 64) + 1)
        expect(f"whether {status} is a status of a run that opened", status in (0, 4, 5, 6), True)
        return status, taken


def as_undated(came):
    """What came with * for each date, and without one that isn't whole."""
    return re.sub(rb"\r\nDate: [^\r]*\r?$", b"\r\nDate: *", re.sub(rb"\r\nDate: [^\r]*\r\n", b"\r\nDate: *\r\n", came))


def answers(last=False):
    """The answers to a request for the page, of either generation, of a connection that goes on or ends."""
    return [response("200 OK", "text/html", page, *["Connection: close"] * last) for page in PAGES]


def act(play):
    """What clients and the operator do: requests of each kind, one that is reset, a restart with another page, and requests behind it."""
    play.ask(GET, answers() + answers(True))
    play.ask(GET_LETTERS + GET_LAST, [LETTERS_ANSWER + each for each in answers(True)], closes=True)
    play.ask(POST + GET_LAST, [NOT_ALLOWED + each for each in answers(True)], closes=True)
    with contextlib.suppress(OSError), connect(play.port) as client:
        client.send(GET_LETTERS)
        client.reset()
    with open(f"{play.folder}/beside", "wb") as file:
        file.write(PAGES[1])
    os.rename(f"{play.folder}/beside", f"{play.folder}/htdocs/index.html")
    play.tell(b"graceful\n")
    play.ask(GET + GET, [each + other for each in answers() for other in answers()] + answers(True))
    play.ask(b"GET /\r\n\r\n", [refusal("400 Bad Request", "Connection: close")], closes=True)


@contextlib.contextmanager
def played(system):
    """A server of a folder of its own over that outside, up to the end of the block."""
    with tempfile.TemporaryDirectory() as folder:
        lay_out(folder, {**SITE, "letters.txt": LETTERS})
        play = Play(folder, system)
        try:
            yield play
        finally:
            play.close()


@contextlib.contextmanager
def served(system):
    """The same of a server no call of which fails at first, once it takes connections. It is started anew where its ports were taken."""
    for _ in range(real_server.STARTS):
        for name in KINDS:
            getattr(system, name).made = 0
        with played(system) as play:
            if play.serves():
                yield play
                return
            expect("the text of one that doesn't serve", play.text(play.output), b"front fault\n")
    raise Wrong(f"a server: wanted one within {real_server.STARTS} starts, and each printed 'front fault'")


def calls_of_play():
    """How many calls of each kind are made from the start to the end where none fails."""
    with outside() as system, served(system) as play:
        act(play)
        status, taken = play.judge()
        expect("the status, and whether all were taken", (status, taken >= 6), (0, True))
        return {name: getattr(system, name).made for name in KINDS}


def fail_one(system, name, number, count):
    """Has the call of that number fail, and so many from it on, and plays the rest. The status of the server."""
    system.heal()
    system.fail(name, number, ERRORS[name], count)
    with played(system) as play:
        if count > 1:
            # Where each call fails nothing may come at all.
            play.patience, play.is_owed = 0.3, False
        try:
            if play.serves():
                act(play)
            return play.judge()[0]
        except Wrong as wrong:
            raise Wrong(f"where {name} {number} fails, and {count - 1} behind it: {wrong}") from None


def fail_in_turn(names, places_of, counts):
    """Has calls of these kinds fail, which are chosen of how many are made, alone and with so many behind each."""
    calls = calls_of_play()
    with outside() as system:
        for name in names:
            for number in places_of(calls[name]):
                for count in counts:
                    fail_one(system, name, number, count)


def few(count):
    """Some of so many places."""
    return sorted({1, 2, count // 2, count - 1, count} & set(range(1, count + 1)))


@outside_scene
def a_call_for_sockets_that_fails_ends_no_server_but_by_its_status():
    fail_in_turn(SOCKETS, few, [1])


@outside_scene
def a_call_for_files_that_fails_ends_no_server_but_by_its_status():
    fail_in_turn(FILES, few, [1, ALL_BEHIND])


@outside_scene
def a_want_of_memory_ends_no_server_but_by_its_status():
    fail_in_turn(["malloc"], lambda count: range(1, count + 1, count // 20 + 1), [1, ALL_BEHIND])


def each_call_of(names, counts):
    """A scene in which each call of these kinds fails."""
    fail_in_turn(names, lambda count: range(1, count + 1), counts)


@where_compiled(long_scene)
def each_call_for_sockets_fails_in_turn():
    each_call_of(SOCKETS, [1, ALL_BEHIND])


@where_compiled(long_scene)
def each_call_for_files_fails_in_turn():
    each_call_of(FILES, [1, ALL_BEHIND])


@where_compiled(long_scene)
def each_allocation_fails_in_turn_alone():
    each_call_of(["malloc"], [1])


@where_compiled(long_scene)
def each_allocation_fails_in_turn_with_all_behind_it():
    each_call_of(["malloc"], [ALL_BEHIND])


def soak_system(system, drawn):
    """Has any call fail from now on, most of them now and then, and those by which a server may end seldom."""
    system.page.drawn = drawn
    for name, each in [(name, 200) for name in KINDS] + [("clock_gettime", 50), ("epoll_wait", 20), ("malloc", 20_000)]:
        kind = getattr(system, name)
        # A wait that failed ends a server, so one is interrupted.
        kind.error = errno.EINTR if name in ("epoll_wait", "close") else ERRORS[name]
        kind.one_in = each


def soak_by(play, ends, number, wrongs):
    """What one client does up to the end."""
    chosen = random.Random(number)
    while time.monotonic() < ends and play.process.poll() is None and not wrongs:
        try:
            soak_once(play, chosen)
        except Wrong as wrong:
            wrongs.append(str(wrong))
        except OSError:
            # It has ended.
            time.sleep(0.01)


def soak_once(play, chosen):
    """One thing that a client does."""
    kind = chosen.randrange(6)
    if kind == 0:
        play.tell(chosen.choice([b"graceful\n", b"halt\n", b"x" * 40]))
    elif kind == 1:
        with contextlib.suppress(OSError), connect(play.port) as client:
            client.send(GET_LETTERS)
            client.stream.recv(chosen.randrange(1, 70_000))
            client.reset()
    elif kind == 2:
        play.ask(GET_LETTERS + GET_LAST, [LETTERS_ANSWER + LAST_ANSWER, LETTERS_LAST], closes=True)
    elif kind == 3:
        play.ask(POST + GET_LAST, [NOT_ALLOWED + LAST_ANSWER, NOT_ALLOWED_LAST], closes=True)
    else:
        count = chosen.randrange(1, 20)
        wanted = ANSWER * count
        # A restart in between ends the connection with the response that is decided behind it.
        play.ask(GET * count, [wanted, *(ANSWER * before + LAST_ANSWER for before in range(count))])


def soak(seconds, drawn):
    """Soaks one server in faults for these seconds. Its status, and how many it took."""
    wrongs = []
    with outside() as system, served(system) as play:
        own = play.descriptors()
        # Eight clients and a server want more time on a machine that has other work.
        play.patience = 60
        soak_system(system, drawn)
        ends = time.monotonic() + seconds
        clients = [threading.Thread(target=soak_by, args=(play, ends, drawn * 100 + number, wrongs)) for number in range(8)]
        for client in clients:
            client.start()
        for client in clients:
            client.join()
        failed = {name: getattr(system, name).failed for name in KINDS if getattr(system, name).failed}
        system.heal()
        until("a server without a descriptor that its start didn't have", lambda: play.descriptors() <= own)
        status, taken = play.judge()
        expect("what was wrong", wrongs[:3], [])
        expect("whether the status is one of a server that was soaked", status in (0, 6), True)
        return status, taken, failed


@outside_scene
def a_server_that_is_soaked_in_faults_for_a_second_tells_all_that_it_took():
    soak(1, 1)


@where_compiled(long_scene)
def a_server_that_is_soaked_in_faults_for_ten_minutes_tells_all_that_it_took():
    begun, failed, statuses, all_taken = time.monotonic(), {}, {}, 0
    for drawn in range(2, 1_000_000):
        left = SOAK - (time.monotonic() - begun)
        if left <= 0:
            break
        status, taken, told = soak(min(left, LASTS), drawn)
        statuses[status] = statuses.get(status, 0) + 1
        all_taken += taken
        for name, count in told.items():
            failed[name] = failed.get(name, 0) + count
    print(f"sockets: soaked {sum(statuses.values())} servers, of which {statuses} ended so by their status; {all_taken} connections were taken; calls failed: {failed}")
