"""The scenes of what the program promises of the system and no clause can say, which .ci/sockets plays: where a server listens and where it
doesn't, how its sockets are set, which lines of its control port are lost, what a command waits for, and that a server at rest rests."""

import contextlib
import ctypes
import os
import resource
import signal
import socket
import subprocess
import tempfile
import time

import real_server
from real_server import (
    ANSWER, CORRECTED, DEADLINE, GET, HOST, LAST_ANSWER, SITE, Client, Wrong, begin, configure, connect, end, expect, free_ports, lay_out, long_scene,
    run_told, scene, serving, told_lines, until,
)
from restart_scenes import command, expect_generation

# Addresses of this machine beside HOST, and one of the net of examples, which no machine has.
BESIDE = ["127.0.0.2", "127.1.2.3"]
FOREIGN = "192.0.2.250"
NOBODY_LISTENS = "Connection refused (os error 111)"
# What a file descriptor's flags say, as the system shows them.
NON_BLOCKING, CLOSED_ON_EXEC = 0o4000, 0o2000000
# How many lines a control port keeps that wait.
MOST_LINES = 64
PIDFD_GETFD = 438


def is_refused(host, port):
    """Whether nobody listens there."""
    with socket.socket() as stream:
        stream.settimeout(DEADLINE)
        return stream.connect_ex((host, port)) != 0


def said_by(folder):
    """What the server of the folder has said on standard error so far."""
    with open(f"{folder}/{real_server.ERRORS}", "rb") as file:
        return told_lines(file.read())


@contextlib.contextmanager
def listening(folder, host):
    """A server that listens at that address, or by its port alone, once it says so, up to the end of the block: what it said, and its ports."""
    for _ in range(real_server.STARTS):
        port, control = free_ports(2)
        configure(folder, f"Listen {host}{port}", f"ControlListen {control}")
        process = begin(folder, [])
        try:
            until("a server that says something", lambda: len(said_by(folder)) > 1 or process.poll() is not None)
            if process.poll() is None:
                yield said_by(folder), port, control
                return
        finally:
            end(process)
    raise Wrong(f"a server at {host}: wanted one that listens, and came {said_by(folder)}")


@scene
def a_server_listens_at_the_address_of_its_configuration_alone():
    with tempfile.TemporaryDirectory() as folder:
        lay_out(folder, SITE)
        rows = [(f"{HOST}:", HOST, [HOST], BESIDE), ("", HOST, [HOST], BESIDE), ("127.0.0.2:", "127.0.0.2", ["127.0.0.2"], [HOST, "127.1.2.3"])]
        rows += [("0.0.0.0:", "0.0.0.0", [HOST, *BESIDE], [])]
        for listen, told, hosts, others in rows:
            with listening(folder, listen) as (said, port, control):
                expect(f"what a server at '{listen}' says", said[:1], [f"listening on {told}:{port}"])
                for host in hosts:
                    with Client(socket.create_connection((host, port), DEADLINE)) as client:
                        client.send(GET)
                        expect(f"the response at {host} of a server at '{listen}'", client.reply(), ANSWER)
                for host in others:
                    expect(f"whether {host} is refused by a server at '{listen}'", is_refused(host, port), True)
                # Command lines are taken at one address, whatever that of connections is.
                for host in BESIDE:
                    expect(f"whether {host} is refused at the control port", is_refused(host, control), True)
                expect("whether the control port is", is_refused(HOST, control), False)


@scene
def a_server_whose_address_is_none_of_this_machine_ends():
    with tempfile.TemporaryDirectory() as folder:
        lay_out(folder, SITE)
        port, control = free_ports(2)
        configure(folder, f"Listen {FOREIGN}:{port}", f"ControlListen {control}", CORRECTED)
        why = f"cannot listen on {FOREIGN}:{port}: Cannot assign requested address (os error 99)"
        expect("a server at a foreign address", run_told(folder, "-f", "httpd.conf"), (4, b"front fault\n", [why]))


@scene
def a_command_goes_to_this_machine_alone():
    with tempfile.TemporaryDirectory() as folder, socket.create_server(("127.0.0.2", 0)) as listener:
        port = listener.getsockname()[1]
        configure(folder, f"Listen 127.0.0.2:{port}", f"ControlListen {port}", CORRECTED)
        why = f"cannot send a command to {HOST}:{port}: {NOBODY_LISTENS}"
        expect("a command where another address listens", run_told(folder, "-k", "stop", "-f", "httpd.conf"), (4, b"front fault\n", [why]))


def taken_from(process, number):
    """The socket that the process has under that number, which both have from then on."""
    watched = os.pidfd_open(process.pid)
    try:
        taken = ctypes.CDLL(None, use_errno=True).syscall(PIDFD_GETFD, watched, number, 0)
        if taken < 0:
            raise OSError(ctypes.get_errno(), "pidfd_getfd")
        return socket.socket(fileno=taken)
    finally:
        os.close(watched)


def sockets_of(process):
    """Of each socket that listens or is connected over TCP: whether it listens, its port, its number, and the flags of the descriptor."""
    found = []
    for name in os.listdir(f"/proc/{process.pid}/fd"):
        if not os.readlink(f"/proc/{process.pid}/fd/{name}").startswith("socket:"):
            continue
        with taken_from(process, int(name)) as taken, open(f"/proc/{process.pid}/fdinfo/{name}") as told:
            flags = int(dict(line.split(":\t") for line in told.read().splitlines() if ":\t" in line)["flags"], 8)
            listens = taken.getsockopt(socket.SOL_SOCKET, socket.SO_ACCEPTCONN)
            found.append((bool(listens), taken.getsockname()[1], int(name), flags))
    return found


@scene
def sockets_wait_for_nothing_send_at_once_and_are_closed_on_exec():
    with open("/proc/sys/net/core/somaxconn") as file:
        longest = int(file.read())
    with serving() as server, connect(server.port) as client, connect(server.control) as caller:
        client.send(GET)
        expect("a response", client.reply(), ANSWER)
        caller.send(b"sto")
        until("a server that has taken both", lambda: server.connections() == 2)
        found = sockets_of(server.process)
        ports = sorted((listens, port) for listens, port, _, _ in found)
        expect("the sockets", ports, sorted((listens, port) for listens in (False, True) for port in (server.port, server.control)))
        for listens, port, number, flags in found:
            what = f"of the socket of port {port}, listening {listens}"
            expect(f"the flags {what}", flags & (NON_BLOCKING | CLOSED_ON_EXEC), NON_BLOCKING | CLOSED_ON_EXEC)
            with taken_from(server.process, number) as taken:
                if listens:
                    expect(f"the reuse of the address {what}", taken.getsockopt(socket.SOL_SOCKET, socket.SO_REUSEADDR), 1)
                    # Of one that listens the system tells in this place how many may wait to be taken.
                    told = taken.getsockopt(socket.IPPROTO_TCP, socket.TCP_INFO, 32)
                    expect(f"how many may wait {what}", int.from_bytes(told[28:32], "little"), longest)
                else:
                    expect(f"no delay {what}", taken.getsockopt(socket.IPPROTO_TCP, socket.TCP_NODELAY), 1)


@scene
def a_command_ends_only_when_its_connection_is_closed():
    # Of what is answered the first 512 bytes are printed.
    answers = {"stop": b"", "graceful": b"refused: store\n" * 10_000, "graceful-stop": b"generation 7\n" * 10_000, "status": b"refused: x"}
    with tempfile.TemporaryDirectory() as folder, socket.create_server((HOST, 0)) as listener:
        listener.settimeout(DEADLINE)
        configure(folder, f"ControlListen {listener.getsockname()[1]}", CORRECTED)
        for word, answer in answers.items():
            words = [real_server.PROGRAM, "-k", word, "-f", "httpd.conf"]
            process = subprocess.Popen(words, cwd=folder, stdin=subprocess.DEVNULL, stdout=subprocess.PIPE, stderr=subprocess.STDOUT)
            try:
                with Client(listener.accept()[0]) as heard:
                    came = b""
                    while not came.endswith(b"\n"):
                        came += heard.stream.recv(1_000)
                    expect("what is sent", came, f"{word}\n".encode())
                    heard.send(answer)
                    expect("whether more is sent", heard.has_come(0.1), False)
                    expect("whether the command has ended", process.poll(), None)
                expect("what is printed", process.communicate(timeout=DEADLINE)[0], answer[:512])
                expect("the status", process.returncode, 12 if answer.startswith(b"refused: ") else 0)
            finally:
                end(process)


@scene
def a_command_waits_for_a_server_that_stands_still():
    with serving() as server:
        words = [real_server.PROGRAM, "-k", "stop", "-f", "httpd.conf"]
        with server.standing_still():
            process = subprocess.Popen(words, cwd=server.folder, stdin=subprocess.DEVNULL, stdout=subprocess.PIPE, stderr=subprocess.STDOUT)
            time.sleep(0.2)
            expect("whether the command has ended", process.poll(), None)
        expect("what is printed", process.communicate(timeout=DEADLINE)[0], b"stopping\n")
        expect("the status", process.returncode, 0)
        server.expect_report()


def send_lines(server, early, late):
    """What lines are answered that come at once: so many over connections that are open before, and so many over further ones."""
    told = [connect(server.control) for _ in range(early)]
    for caller in told:
        caller.send(b"gracefu")
    until("a server that has taken the callers", lambda: server.connections() == early)
    with server.standing_still():
        for caller in told:
            caller.send(b"l\n")
        told += [connect(server.control) for _ in range(late)]
        for caller in told[early:]:
            caller.send(b"graceful\n")
    answers = [caller.answer() for caller in told]
    for caller in told:
        caller.close()
    return answers


@scene
def of_command_lines_that_come_at_once_64_wait_and_further_ones_are_lost():
    with serving("ServerLimit 1", "StartServers 1", "MaxRequestWorkers 25") as server:
        # One wait reads on from 16 connections, and takes 64 further ones.
        for generation, early in [(MOST_LINES, 16), (2 * MOST_LINES, 0)]:
            answers = send_lines(server, early, 64)
            made = [b"generation %d\n" % number for number in range(generation - MOST_LINES + 1, generation + 1)]
            expect("what the lines are answered, and those that are lost", answers, made + [b""] * early)
            with connect(server.port) as client:
                expect_generation(client, generation)
        server.stop()
        server.expect_report("128 ClientDone Direct 200", "64 ClientDone Direct 200", children=3, generation=128)


@scene
def each_signal_that_ends_other_servers_or_restarts_them_ends_this_one_without_a_report():
    for number in (signal.SIGHUP, signal.SIGINT, signal.SIGUSR1, signal.SIGUSR2):
        with serving() as server, connect(server.port) as client:
            client.send(GET)
            expect("a response", client.reply(), ANSWER)
            server.process.send_signal(number)
            printed, _ = server.process.communicate(timeout=DEADLINE)
            expect("the signal and what was printed", (server.process.returncode, printed), (-number, b""))
            client.expect_close()


def pauses(server, *ways):
    """How often the server stopped to wait, or was stopped, by these names of the system's."""
    with open(f"/proc/{server.process.pid}/status") as file:
        lines = dict(line.split(":\t", 1) for line in file.read().splitlines() if ":\t" in line)
    return sum(int(lines[way]) for way in ways)


def turns(server):
    """How often the server came out of a wait, or was stopped otherwise."""
    return pauses(server, "voluntary_ctxt_switches", "nonvoluntary_ctxt_switches")


def rests(server):
    """Whether the server did nothing for longer than it would wait for a descriptor."""
    begun = turns(server)
    time.sleep(0.15)
    return turns(server) == begun


def expect_rest(server, seconds):
    """Goes on where the server does nothing for these seconds: it comes out of no wait, and takes no processor time."""
    until("a server that has come to rest", lambda: rests(server))
    begun, worked = turns(server), server.worked()
    time.sleep(seconds)
    expect(f"how often it came out of a wait in {seconds} seconds", turns(server) - begun, 0)
    expect(f"the processor time of {seconds} seconds", server.worked() - worked, 0)


def come_to_rest(server, seconds):
    """Has a server rest in each way in which it can: with nobody, with clients that wait, behind a restart, and behind a want of descriptors."""
    expect_rest(server, seconds)
    with connect(server.port) as kept, connect(server.port) as silent, connect(server.port) as asking, connect(server.control) as caller:
        kept.send(GET)
        expect("a response", kept.reply(), ANSWER)
        asking.send(b"GET / HT")
        caller.send(b"sto")
        until("a server that has taken all", lambda: server.connections() == 4)
        expect_rest(server, seconds)
        command(server, "graceful")
        kept.expect_end()
        expect_rest(server, seconds)
        with without_descriptors(server):
            late = connect(server.port)
            late.send(GET)
            expect_pace(server)
            expect("whether one without a descriptor has a response", late.has_come(), False)
        expect("its response once there is one", late.reply(), ANSWER)
        late.close()
        silent.send(GET)
        expect("a response of before", silent.reply(), LAST_ANSWER)
        silent.expect_end()
        expect_rest(server, seconds)


@contextlib.contextmanager
def without_descriptors(server):
    """The system gives the server no further descriptor, up to the end of the block. It keeps those that it has."""
    number = server.process.pid
    kept, greatest = resource.prlimit(number, resource.RLIMIT_NOFILE)
    resource.prlimit(number, resource.RLIMIT_NOFILE, (0, greatest))
    try:
        yield
    finally:
        if server.process.poll() is None:
            resource.prlimit(number, resource.RLIMIT_NOFILE, (kept, greatest))


def expect_pace(server):
    """Goes on where a server that has no descriptor for a client tries again and again, and no more often than ten times a second."""
    begun, first = time.monotonic(), pauses(server, "voluntary_ctxt_switches")
    until("a server that tries five times", lambda: pauses(server, "voluntary_ctxt_switches") >= first + 5)
    took = time.monotonic() - begun
    # Of the first of these tries a part was over.
    if took < 0.35:
        raise Wrong(f"the time of five tries: wanted half a second at least but for the first, and came {took}")


@scene
def a_server_at_rest_comes_out_of_no_wait():
    with serving("Timeout 60") as server:
        come_to_rest(server, 0.2)


@long_scene
def a_server_at_rest_comes_out_of_no_wait_in_ten_seconds():
    with serving("Timeout 300", "KeepAliveTimeout 300") as server:
        come_to_rest(server, 10)
