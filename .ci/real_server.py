"""What the scenes of .ci/sockets and of the files beside it are made of: a server with a folder and ports of its own, its clients, and what is
expected of both. And the lists of the scenes."""

import collections
import contextlib
import email.utils
import os
import re
import select
import shutil
import signal
import socket
import struct
import subprocess
import tempfile
import time

from outside import compiler

PROGRAM = "crates/event_server/out/event_server"
# What each line on standard error begins with, and the file of a server's folder that has them.
TELLS = "event_server: "
ERRORS = "errors.txt"
HOST = "127.0.0.1"
# Seconds after which what didn't come is a failure. Where all is well nothing is waited for so long.
DEADLINE = 20
# How often a server is started anew where its ports were taken meanwhile.
STARTS = 20
# A number that acts on nothing yet and is corrected. The warning is printed once the sockets are open: so the server is there.
CORRECTED = "MinSpareThreads 0"
WARNING = b"warning: MinSpareThreads 0 changed to 1\n"
CAUSES = "ClientDone LastSent KeepAliveLate ReadLate WriteLate Retiring LinkFailed Stopped NoMemory".split()
# How many lines a report has before those of its connections.
REPORT_HEAD = 5 + len(CAUSES)
PAGE = b"hello\n"
# More than the system keeps for a client that doesn't read. It comes round every 251 bytes, so a piece in a wrong place is seen.
LARGE = (bytes(range(251)) * 25_066)[:6_291_456]
SITE = {"index.html": PAGE}
LARGE_SITE = {"index.html": PAGE, "large.bin": LARGE}
# The receive buffer of a client that is to take little at once.
LITTLE = 16_384
CONTINUE = b"HTTP/1.1 100 Continue\r\n\r\n"
# How many descriptors a server may have that is to be in want of them, and the words that start it so.
FEW = 40
FEW_DESCRIPTORS = ["sh", "-c", f'ulimit -n {FEW} && exec "$@"', "sh"]
SCENES = []
# Those that take long, or try a thing in each of its places. They are played before a release.
LONG_SCENES = []
# The names of those that can't be played here, and what each of them lacks.
LEFT_OUT = []


def scene(play):
    """Adds the scene to those that are played."""
    SCENES.append(play)
    return play


def long_scene(play):
    """Adds the scene to those that take long."""
    LONG_SCENES.append(play)
    return play


def where_compiled(add):
    """Adds the scene so where there is the C compiler that it needs, to have calls of the system fail."""
    return add if compiler() else lambda play: LEFT_OUT.append((play.__name__, "C compiler"))


def where_there_are(*programs):
    """Adds the scene to those that are played where there are the programs that it needs."""
    lacking = [program for program in programs if not shutil.which(program)]
    return (lambda play: LEFT_OUT.append((play.__name__, lacking[0]))) if lacking else scene


class Wrong(Exception):
    """Something else came than was wanted."""


def short(value):
    """The value, or its ends where it is long."""
    told = value.decode(errors="backslashreplace") if isinstance(value, bytes) else str(value)
    return repr(told) if len(told) < 2000 else f"{told[:200]!r} .. {told[-100:]!r} of {len(told)}"


def expect(what, came, wanted):
    """Goes on only where just what was wanted came."""
    if came != wanted:
        raise Wrong(f"{what}: wanted {short(wanted)}, and came {short(came)}")


def until(what, holds):
    """Asks again until it holds."""
    end = time.monotonic() + DEADLINE
    while not holds():
        if time.monotonic() > end:
            raise Wrong(f"{what}: wanted within {DEADLINE} seconds, and it didn't come")
        time.sleep(0.01)


def request(method="GET", path="/", *fields):
    """The head of a request."""
    return "\r\n".join([f"{method} {path} HTTP/1.1", "Host: localhost", *fields, "", ""]).encode()


def response(status, kind, body, *fields):
    """A response with these fields behind its date, for which * stands."""
    lines = [f"HTTP/1.1 {status}", "Date: *", *fields, f"Content-Type: {kind}", f"Content-Length: {len(body)}", "", ""]
    return "\r\n".join(lines).encode() + body


def refusal(status, *fields):
    """A response whose body says its status."""
    return response(status, "text/plain", f"{status}\n".encode(), *fields)


GET = request()
GET_LARGE = request("GET", "/large.bin")
GET_LAST = request("GET", "/", "Connection: close")
ANSWER = response("200 OK", "text/html", PAGE)
LARGE_ANSWER = response("200 OK", "application/octet-stream", LARGE)
LAST_ANSWER = response("200 OK", "text/html", PAGE, "Connection: close")
MISSING = refusal("404 Not Found")


def undated(head):
    """The head with * for its date, which has to be the present one in the form of HTTP."""
    date = re.search(rb"\r\nDate: ([^\r\n]*)\r\n", head)
    if not date:
        raise Wrong(f"a response: wanted one with a date, and came {short(head)}")
    moment = email.utils.parsedate_to_datetime(date[1].decode()).timestamp()
    expect("the form of a date", date[1].decode(), email.utils.formatdate(moment, usegmt=True))
    if abs(moment - time.time()) > DEADLINE:
        raise Wrong(f"a date: wanted the present one, and came {short(date[1])}")
    return head.replace(date[1], b"*", 1)


class Client:
    """A connection to a port of this machine. A call that isn't answered within the deadline fails."""

    def __init__(self, stream):
        self.stream = stream
        self.stream.settimeout(DEADLINE)
        self.stream.setsockopt(socket.IPPROTO_TCP, socket.TCP_NODELAY, 1)
        self.incoming = stream.makefile("rb")

    def __enter__(self):
        return self

    def __exit__(self, *_):
        self.close()

    def send(self, data):
        """Sends the bytes."""
        self.stream.sendall(data)

    def half_close(self):
        """Sends no more."""
        self.stream.shutdown(socket.SHUT_WR)

    def close(self):
        """Closes the connection."""
        self.incoming.close()
        self.stream.close()

    def reset(self):
        """Closes the connection so that the other side finds it reset."""
        self.stream.setsockopt(socket.SOL_SOCKET, socket.SO_LINGER, struct.pack("ii", 1, 0))
        self.close()

    def take(self, count):
        """The next bytes that come: so many, or fewer up to the end."""
        return self.incoming.read(count)

    def reply(self, only_head=False):
        """The next response whole, with * for its date."""
        head = b""
        while not head.endswith(b"\r\n\r\n"):
            line = self.incoming.readline()
            if not line:
                raise Wrong(f"a response: wanted one, and came {short(head)} and the end")
            head += line
        size = re.search(rb"\r\nContent-Length: (\d+)\r\n", head)
        return undated(head) + (self.take(int(size[1])) if size and not only_head else b"")

    def answer(self):
        """What comes up to the close of the connection, whether the other side has read all or not: of a control port its answer."""
        came = b""
        with contextlib.suppress(ConnectionError):
            while piece := self.stream.recv(4096):
                came += piece
        return came

    def expect_answer(self, wanted):
        """Goes on where just this is answered, and then the connection closed."""
        expect("the answer", self.answer(), wanted)

    def expect_end(self):
        """Goes on where nothing more comes, but the end."""
        expect("behind what came", self.take(-1), b"")

    def expect_close(self):
        """Goes on where the other side closes the connection, whether it has read all or not."""
        with contextlib.suppress(ConnectionError):
            self.expect_end()

    def has_come(self, seconds=0):
        """Whether something has come, or comes within these seconds."""
        poll = select.poll()
        poll.register(self.stream, select.POLLIN)
        return bool(poll.poll(1000 * seconds))


def connect(port, room=None):
    """A client of that port, with a receive buffer of so many bytes where that is said."""
    stream = socket.socket()
    if room:
        stream.setsockopt(socket.SOL_SOCKET, socket.SO_RCVBUF, room)
    stream.settimeout(DEADLINE)
    stream.connect((HOST, port))
    return Client(stream)


def connect_at_once(port, count):
    """So many clients, each of which begins to connect before one is connected."""
    streams = [socket.socket() for _ in range(count)]
    for stream in streams:
        stream.setblocking(False)
        stream.connect_ex((HOST, port))
    for stream in streams:
        poll = select.poll()
        poll.register(stream, select.POLLOUT)
        expect("clients that connect within the deadline", len(poll.poll(1000 * DEADLINE)), 1)
        expect("the fault of a client that connects", stream.getsockopt(socket.SOL_SOCKET, socket.SO_ERROR), 0)
    return [Client(stream) for stream in streams]


def hold_ports(count):
    """Sockets that hold so many ports of this machine, at which nobody listens."""
    held = [socket.socket() for _ in range(count)]
    for one in held:
        one.bind((HOST, 0))
    return held


def port_of(held):
    """The port that the socket has."""
    return held.getsockname()[1]


def free_ports(count):
    """So many ports of this machine that nobody has."""
    held = hold_ports(count)
    ports = [port_of(one) for one in held]
    for one in held:
        one.close()
    return ports


def lay_out(folder, files, root="htdocs"):
    """Makes the files of a site, and where a text stands for the bytes a link to that."""
    for name, content in files.items():
        path = f"{folder}/{root}/{name}"
        os.makedirs(os.path.dirname(path), exist_ok=True)
        if isinstance(content, str):
            os.symlink(content, path)
        else:
            with open(path, "wb") as file:
                file.write(content)


def configure(folder, *lines):
    """Writes the configuration."""
    with open(f"{folder}/httpd.conf", "w") as file:
        file.writelines(f"{line}\n" for line in lines)


def run_told(folder, *words, before=(), **others):
    """The status with which the program ends, with these words before its own, what it prints, and what it says on standard error, of which
    each line begins alike."""
    how = {"stdin": subprocess.DEVNULL, "stdout": subprocess.PIPE, "stderr": subprocess.PIPE, "timeout": DEADLINE, **others}
    told = subprocess.run([*before, PROGRAM, *words], cwd=folder, **how)
    return told.returncode, told.stdout, told_lines(told.stderr)


def run(folder, *words):
    """The status with which the program ends, and what it prints."""
    return run_told(folder, *words)[:2]


def told_lines(said):
    """The lines on standard error, without what each has to begin with."""
    lines = said.decode().splitlines()
    expect("lines that don't begin with the program's name", [line for line in lines if not line.startswith(TELLS)], [])
    return [line.removeprefix(TELLS) for line in lines]


def copy_of_program(folder):
    """A copy of the program in the folder. Another process makes it: a file that this one had open to write could not be run while a process
    that was begun meanwhile has it too."""
    copy = os.path.join(os.path.abspath(folder), "program")
    subprocess.run(["cp", PROGRAM, copy], check=True)
    return copy


def begin(folder, before, program=None):
    """Starts a server by the configuration of the folder, with these words before the program's, which may be a copy of it. What it says on
    standard error comes into a file of its own."""
    words = [*before, program or PROGRAM, "-f", "httpd.conf"]
    with open(f"{folder}/{ERRORS}", "wb") as errors:
        return subprocess.Popen(words, cwd=folder, stdin=subprocess.DEVNULL, stdout=subprocess.PIPE, stderr=errors, bufsize=0)


def end(process):
    """Kills the process where it still runs."""
    process.kill()
    process.wait()
    process.stdout.close()


def first_line(process, seconds=DEADLINE):
    """The first line that the process prints within these seconds, or what it prints where it ends before."""
    line = b""
    poll = select.poll()
    poll.register(process.stdout, select.POLLIN)
    while not line.endswith(b"\n"):
        if not poll.poll(1000 * seconds):
            raise Wrong(f"the first line: wanted {short(WARNING)}, and came {short(line)} within {seconds} seconds")
        byte = os.read(process.stdout.fileno(), 1)
        if not byte:
            break
        line += byte
    return line


class Server:
    """A server: its process, its folder, and its ports for connections and for command lines."""

    def __init__(self, process, folder, port, control):
        self.process = process
        self.folder = folder
        self.port = port
        self.control = control
        self.own_descriptors = self.descriptors()

    def tell(self, line):
        """Sends the bytes to the control port, and what is answered, once the server has closed that connection."""
        with connect(self.control) as caller:
            caller.send(line)
            return caller.answer()

    def told_operator(self):
        """The lines that the server said on standard error so far."""
        with open(f"{self.folder}/{ERRORS}", "rb") as file:
            return told_lines(file.read())

    def descriptors(self):
        """How many descriptors the server has."""
        return len(os.listdir(f"/proc/{self.process.pid}/fd"))

    def connections(self):
        """How many connections the server has."""
        return self.descriptors() - self.own_descriptors

    def worked(self):
        """The processor seconds that the server took."""
        fields = self.told()
        return (int(fields[11]) + int(fields[12])) / os.sysconf("SC_CLK_TCK")

    def told(self):
        """What the system tells of the server, behind its name: first a letter, which is T where it stands still."""
        with open(f"/proc/{self.process.pid}/stat") as file:
            return file.read().rpartition(")")[2].split()

    @contextlib.contextmanager
    def standing_still(self):
        """The server, once it waits, does nothing up to the end of the block."""
        until("a server that waits", lambda: self.told()[0] == "S")
        self.process.send_signal(signal.SIGSTOP)
        until("a server that stands still", lambda: self.told()[0] == "T")
        yield
        self.process.send_signal(signal.SIGCONT)

    def stop(self, left=0):
        """Stops it by its control port, once so many connections are left."""
        until(f"a server that has {left} connections", lambda: self.connections() == left)
        self.tell(b"stop\n")

    def expect_report(self, *lines, children=3, status=0, generation=0, in_order=False, told=()):
        """Goes on where the server ends with the report of connections that have these lines, in this order or in any, in that generation, behind
        what it told of its state."""
        try:
            printed, _ = self.process.communicate(timeout=DEADLINE)
        except subprocess.TimeoutExpired:
            raise Wrong(f"the server's end: wanted within {DEADLINE} seconds, and it didn't come") from None
        came = printed.decode(errors="backslashreplace").splitlines(keepends=True)
        expect("the lines before the report", came[:len(told)], list(told))
        came = came[len(told):]
        if not in_order:
            lines = sorted(lines)
            came[REPORT_HEAD:] = sorted(came[REPORT_HEAD:])
        wanted = report(lines, children, generation)
        if came != wanted:
            raise Wrong(f"the report: wanted {behind(wanted, came)}, and came {behind(came, wanted)}")
        expect("the status of the server", self.process.returncode, status)


def report(lines, children, generation):
    """The report of connections that have these lines. Of more than 64 those that end first have to be the first ones."""
    ends = [line.split() for line in lines]
    responses = sum(len(codes.split(",")) for _, _, _, codes in ends if codes != "-")
    told = [f"Generation: {generation}", f"Accepted: {len(ends)}", f"Closed: {len(ends)}", f"Responses: {responses}"]
    told += [f"{cause}: {sum(of == cause for _, of, _, _ in ends)}" for cause in CAUSES]
    return [f"{line}\n" for line in [*told, f"ChildrenStarted: {children}", *lines[:64]]]


def behind(some, others):
    """The lines that some have and the others don't."""
    return list((collections.Counter(some) - collections.Counter(others)).elements())


def start(folder, lines, before=(), seconds=DEADLINE, program=None):
    """A server that serves the folder by these further lines of configuration, once it has begun to, within these seconds. It is started anew
    where its ports were taken."""
    for _ in range(STARTS):
        port, control = free_ports(2)
        # On a slow machine no client is to be late that isn't meant to be.
        configure(folder, f"Listen {HOST}:{port}", f"ControlListen {control}", CORRECTED, "KeepAliveTimeout 60", *lines)
        process = begin(folder, before, program)
        line = b""
        try:
            line = first_line(process, seconds)
        finally:
            if line != WARNING:
                end(process)
        if line == WARNING:
            return Server(process, folder, port, control)
        if line != b"front fault\n":
            raise Wrong(f"the first line: wanted {short(WARNING)}, and came {short(line)}")
    raise Wrong(f"a server: wanted one within {STARTS} starts, and each printed 'front fault'")


@contextlib.contextmanager
def serving(*lines, files=SITE, before=()):
    """A server that serves these files by these further lines of configuration, up to the end of the scene."""
    with tempfile.TemporaryDirectory() as folder:
        lay_out(folder, files)
        server = start(folder, lines, before)
        try:
            yield server
        finally:
            end(server.process)
