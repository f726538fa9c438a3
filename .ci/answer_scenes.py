"""The scenes of what command lines are answered over the control port, which .ci/sockets plays: each answer, callers that go away or never
read, many at once, and a deployment that goes by the answers."""

import concurrent.futures
import contextlib
import os

from real_server import (
    ANSWER, DEADLINE, GET, LAST_ANSWER, Wrong, connect, expect, long_scene, response, run, scene, serving, until,
)
from restart_scenes import command, replace

# How many connections of a control port speak at once.
MOST_CALLERS = 16
# How many places the table has, and the words that start a server with descriptors for all of them.
PLACES = 8_192
MANY_DESCRIPTORS = ["sh", "-c", 'ulimit -n 8300 && exec "$@"', "sh"]
NAMES = ["Generation", "BusyWorkers", "IdleWorkers", "ConnsTotal", "ConnsAsyncWriting", "ConnsAsyncKeepAlive", "ConnsAsyncClosing"]


def state(*numbers):
    """The answer to `status` of these numbers, in the order of the status page."""
    return "".join(f"{name}: {number}\n" for name, number in zip(NAMES, numbers)).encode()


def open_line(*numbers):
    """The line that the output has of such a line."""
    return f"open: {' '.join(map(str, numbers))}\n"


@scene
def each_command_line_is_answered():
    with serving() as server, connect(server.port) as client:
        client.send(GET)
        expect("a response", client.reply(), ANSWER)
        for line in (b"\n", b"stop \n", b"stop\r\n", b"Status\n", b"\xc3\xa4\n", b"GET / HTTP/1.1\r\n"):
            expect(f"what {line} is answered", server.tell(line), b"no such command\n")
        # What isn't text, or has 33 bytes without a line's end, is no line.
        for line in (b"\xff\xfe\n", b"x" * 33 + b"\n"):
            expect(f"what {line} is answered", server.tell(line), b"")
        expect("the state", server.tell(b"status\n"), state(0, 0, 75, 1, 0, 1, 0))
        expect("a restart", server.tell(b"graceful\n"), b"generation 1\n")
        client.expect_end()
        expect("what -k status prints", run(server.folder, "-k", "status", "-f", "httpd.conf"), (0, state(1, 0, 75, 1, 0, 0, 1)))
        client.close()
        until("a server without a connection", lambda: server.connections() == 0)
        expect("a stop", server.tell(b"stop\n"), b"stopping\n")
        told = [open_line(0, 0, 75, 1, 0, 1, 0), open_line(1, 0, 75, 1, 0, 0, 1)]
        server.expect_report("0 Retiring Drained 200", children=6, generation=1, told=told)
        expect("what the operator is told", server.told_operator()[2:], ["generation 1"])


@scene
def each_reason_of_a_restart_that_is_refused_is_answered():
    with serving() as server, connect(server.port) as client:
        path, root = f"{server.folder}/httpd.conf", f"{server.folder}/htdocs"
        with open(path) as file:
            right = file.read()

        def graceful_by(text, answer):
            with open(path, "w") as file:
                file.write(text)
            expect("the answer", server.tell(b"graceful\n"), answer)

        client.send(GET[:-7])
        until("a server that has taken a client", lambda: server.connections() == 1)
        rows = [("KeepAlive Maybe\n", b"BadValue"), ("Nothing 1\n", b"UnknownDirective"), ("</IfModule>\n", b"BadSection"),
                ("<IfModule x>\n", b"Unclosed"), ("<IfModule core_module>\n" * 9, b"TooDeep")]
        for text, word in rows:
            line = 9 if word == b"TooDeep" else 3
            before = "" if word == b"TooDeep" else "# one\n# two\n"
            graceful_by(before + text, b"refused: conf at %d: %s\n" % (line, word))
        graceful_by("# a\0", b"refused: conf at 3: NotText\n")
        graceful_by("#" * 1_048_577, b"refused: conf at 0: BadValue\n")
        os.remove(path)
        expect("the answer", server.tell(b"graceful\n"), b"refused: absent\n")
        # A name is cut so that the answer has 512 bytes.
        folders = "/".join(["x" * 200] * 3)
        os.makedirs(f"{root}/{folders}")
        with open(f"{root}/{folders}/large.bin", "wb") as file:
            file.truncate(16_777_217)
        graceful_by(right, f"refused: site htdocs/{folders}"[:511].encode() + b"\n")
        os.remove(f"{root}/{folders}/large.bin")
        graceful_by(right, b"generation 1\n")
        expect("-k graceful", run(server.folder, "-k", "graceful", "-f", "httpd.conf"), (0, b"generation 2\n"))
        expect("-k graceful-stop", run(server.folder, "-k", "graceful-stop", "-f", "httpd.conf"), (0, b"ending\n"))
        expect("a further one", run(server.folder, "-k", "graceful-stop", "-f", "httpd.conf"), (0, b"ending already\n"))
        expect("-k graceful", run(server.folder, "-k", "graceful", "-f", "httpd.conf"), (12, b"refused: late\n"))
        client.send(GET[-7:])
        expect("a response", client.reply(), LAST_ANSWER)
        client.close()
        server.expect_report("0 LastSent Drained 200", children=9, generation=2)


@scene
def lines_that_come_in_one_moment_are_answered_in_order():
    with serving() as server, connect(server.port) as client:
        client.send(GET)
        expect("a response", client.reply(), ANSWER)
        with server.standing_still():
            callers = [connect(server.control) for _ in range(4)]
            for caller, line in zip(callers, (b"graceful\n", b"status\n", b"stop\n", b"graceful\n")):
                caller.send(line)
        # The children of the new generation are started behind the last line.
        for caller, answer in zip(callers, (b"generation 1\n", state(1, 0, 0, 1, 0, 1, 0), b"stopping\n", b"")):
            caller.expect_answer(answer)
            caller.close()
        server.expect_report("0 Stopped Direct 200", generation=1, told=[open_line(1, 0, 0, 1, 0, 1, 0)])


@scene
def a_caller_that_goes_away_before_its_answer_ends_alone():
    with serving() as server:
        for leave in (lambda caller: caller.close(), lambda caller: caller.reset(), lambda caller: caller.half_close()):
            with server.standing_still():
                gone, other = connect(server.control), connect(server.control)
                gone.send(b"graceful\n")
                leave(gone)
                other.send(b"status\n")
            expect("the answer of another one", other.answer()[:12], b"Generation: ")
            other.close()
        expect("the restarts", server.tell(b"graceful\n"), b"generation 4\n")
        server.stop()
        server.process.wait(timeout=DEADLINE)


@scene
def a_caller_that_never_reads_keeps_nobody_waiting():
    with serving() as server:
        silent = []
        for _ in range(40):
            # each sends its line at once: of those whose line isn't there yet the server keeps no more than 16
            silent.append(connect(server.control, room=1))
            silent[-1].send(b"status\n")
        expect("a restart", server.tell(b"graceful\n"), b"generation 1\n")
        with connect(server.port) as client:
            client.send(GET)
            expect("a response", client.reply(), ANSWER)
        # What was sent to one is there when it reads.
        for caller in silent:
            caller.expect_answer(state(0, 0, 75, 0, 0, 0, 0))
            caller.close()
        server.stop()
        server.expect_report("1 ClientDone Direct 200", children=6, generation=1, told=[open_line(0, 0, 75, 0, 0, 0, 0)] * 40)


@scene
def callers_whose_lines_are_whole_are_all_answered_however_many_speak():
    with serving() as server:
        # 17 whose lines aren't whole: the oldest one is closed, and each other one is answered.
        callers = [connect(server.control) for _ in range(MOST_CALLERS)]
        for caller in callers:
            caller.send(b"hal")
        callers.append(connect(server.control))
        callers[-1].send(b"hal")
        callers[0].expect_answer(b"")
        for caller in callers[1:]:
            caller.send(b"t\n")
            caller.expect_answer(b"no such command\n")
        for caller in callers:
            caller.close()
        # 17 whose lines are whole, while as many as may speak say nothing more.
        speaking = [connect(server.control) for _ in range(MOST_CALLERS)]
        for caller in speaking:
            caller.send(b"hal")
        until("a server that has taken them", lambda: server.connections() == MOST_CALLERS)
        with server.standing_still():
            whole = [connect(server.control) for _ in range(MOST_CALLERS + 1)]
            for caller in whole:
                caller.send(b"halt\n")
        for caller in whole:
            caller.expect_answer(b"no such command\n")
            caller.close()
        for caller in speaking:
            caller.close()
        server.stop()
        server.expect_report()


@scene
def a_server_of_which_no_child_takes_connections_tells_its_state():
    with serving("ServerLimit 1", "StartServers 1", "MaxRequestWorkers 25") as server:
        with connect(server.port) as old:
            old.send(GET[:-7])
            until("a server that has taken a client", lambda: server.connections() == 1)
            replace(server, "index.html", b"other\n")
            command(server, "graceful")
            with connect(server.port) as waiting:
                waiting.send(GET)
                expect("-k status", run(server.folder, "-k", "status", "-f", "httpd.conf"), (0, state(1, 0, 0, 1, 0, 0, 0)))
                expect("whether one that waits has a response", waiting.has_come(), False)
                old.send(GET[-7:])
                expect("the response of the old child", old.reply(), LAST_ANSWER)
                old.close()
                expect("the response of the new child", waiting.reply(), response("200 OK", "text/html", b"other\n"))
        server.stop()
        told = [open_line(1, 0, 0, 1, 0, 0, 0)]
        server.expect_report("0 LastSent Drained 200", "1 ClientDone Direct 200", children=2, generation=1, told=told)


@scene
def a_server_whose_children_are_full_tells_its_state():
    with serving("StartServers 1", "ThreadsPerChild 1", "MaxRequestWorkers 1", "AsyncRequestWorkerFactor 1") as server:
        clients = [connect(server.port) for _ in range(3)]
        for client in clients:
            client.send(GET)
        for client in clients[:2]:
            expect("a response", client.reply(), ANSWER)
        expect("-k status", run(server.folder, "-k", "status", "-f", "httpd.conf"), (0, state(0, 0, 1, 2, 0, 2, 0)))
        for client in clients:
            client.close()
        until("a server without a connection", lambda: server.connections() == 0)
        server.tell(b"stop\n")
        printed, _ = server.process.communicate(timeout=DEADLINE)
        expect("the first line", printed.split(b"\n")[0] + b"\n", open_line(0, 0, 1, 2, 0, 2, 0).encode())


@long_scene
def a_server_whose_table_is_full_tells_its_state():
    great = ("StartServers 8", "ThreadsPerChild 64", "MaxRequestWorkers 512", "AsyncRequestWorkerFactor 15", "Timeout 600")
    with serving(*great, before=MANY_DESCRIPTORS) as server, contextlib.ExitStack() as clients:
        for _ in range(PLACES):
            clients.enter_context(connect(server.port))
        until("a server whose table is full", lambda: server.connections() >= PLACES)
        waiting = clients.enter_context(connect(server.port))
        waiting.send(GET)
        expect("-k status", run(server.folder, "-k", "status", "-f", "httpd.conf"), (0, state(0, 0, 512, PLACES, 0, 0, 0)))
        expect("whether one that waits has a response", waiting.has_come(), False)
        expect("a restart", server.tell(b"graceful\n"), b"generation 1\n")
        expect("a stop", server.tell(b"stop\n"), b"stopping\n")
        printed, _ = server.process.communicate(timeout=DEADLINE)
        expect("the first line", printed.split(b"\n")[0] + b"\n", open_line(0, 0, 512, PLACES, 0, 0, 0).encode())


@scene
def a_page_that_is_asked_for_behind_a_restart_is_the_new_one_in_each_of_100_restarts_under_load():
    with serving("MaxKeepAliveRequests 0") as server:
        replace(server, "index.html", b"page 0\n")
        expect("a restart", server.tell(b"graceful\n"), b"generation 1\n")
        stopped = []

        def ask_again_and_again():
            """Asks over one connection behind the other, as often as each is kept, until it is told to stop. How many responses came."""
            came = 0
            while not stopped:
                # A request may cross the end of a connection that a restart lets go of: then there is no response to it.
                with contextlib.suppress(ConnectionError, Wrong), connect(server.port) as client:
                    for _ in range(20):
                        client.send(GET)
                        came += client.reply().startswith(b"HTTP/1.1 200 OK")
            return came

        with concurrent.futures.ThreadPoolExecutor(8) as pool:
            load = [pool.submit(ask_again_and_again) for _ in range(8)]
            try:
                for number in range(1, 101):
                    replace(server, "index.html", b"page %d\n" % number)
                    told = run(server.folder, "-k", "graceful", "-f", "httpd.conf")
                    expect("what -k graceful prints", told, (0, b"generation %d\n" % (number + 1)))
                    with connect(server.port) as client:
                        client.send(GET)
                        expect("the page", client.reply(), response("200 OK", "text/html", b"page %d\n" % number))
            finally:
                stopped.append(True)
            if not all(one.result() for one in load):
                raise Wrong("the load: wanted responses of each client, and one had none")
        server.stop()
        server.process.wait(timeout=DEADLINE)
