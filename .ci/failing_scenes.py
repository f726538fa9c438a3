"""The scenes in which what the program asks of the system is refused, which .ci/sockets plays: there is no descriptor, an output is full or
nobody reads it, a client resets anywhere in its response. What can only be refused by a library between both stands in
.ci/refusing_scenes.py."""

import contextlib
import os
import resource
import subprocess
import tempfile

import real_server
from edge_scenes import without_descriptors
from real_server import (
    ANSWER, CORRECTED, DEADLINE, FEW, FEW_DESCRIPTORS, GET, HOST, SITE, WARNING, Wrong, configure, connect, expect, free_ports, lay_out, long_scene,
    report, response, run_told, scene, serving, until,
)
from restart_scenes import command, expect_generation, replace

NONE_FREE = "Too many open files (os error 24)"
# The words that start a program so that a file which is full is an error to it, and no signal, and whose outputs have so many bytes at most.
FULL_AT = ["sh", "-c", """trap '' XFSZ && exec prlimit --fsize="$0:" -- "$@" """]
# A script with a warning, and what it prints.
SCRIPT = "file htdocs/index.html hello\\n\nconf MinSpareThreads 0\nconn a\nsend a GET / HTTP/1.1\\r\\nHost: a\\r\\n\\r\\n\nend a\n"
SCRIPT_TEXT = WARNING + "".join(report(["0 ClientDone Direct 200"], 3, 0)).encode()
# A response of some 200 KB, and how many bytes it has.
LETTERS = bytes(range(97, 123)) * 7_693
LETTERS_ANSWER = response("200 OK", "text/plain", LETTERS)
GET_LETTERS = real_server.request("GET", "/letters.txt")


@scene
def a_client_for_which_there_was_no_descriptor_is_taken_though_nothing_else_comes():
    with serving() as server:
        with without_descriptors(server):
            client = connect(server.port)
            client.send(GET)
            expect("whether it has a response", client.has_come(0.3), False)
        # Nothing tells the server that there is one again: it tries by itself.
        expect("the response", client.reply(), ANSWER)
        client.close()
        server.stop()
        server.expect_report("0 ClientDone Direct 200")


@scene
def a_command_for_which_there_was_no_descriptor_is_heard_though_nothing_else_comes():
    with serving() as server:
        with without_descriptors(server):
            caller = connect(server.control)
            caller.send(b"stop\n")
            expect("whether it is heard", caller.has_come(0.3), False)
        caller.expect_answer(b"stopping\n")
        server.expect_report()


@scene
def a_command_is_heard_without_a_descriptor_where_its_connection_was_open():
    with serving() as server, connect(server.port) as waiting, connect(server.control) as caller:
        caller.send(b"st")
        until("a server that has taken both", lambda: server.connections() == 2)
        with without_descriptors(server):
            caller.send(b"op\n")
            caller.expect_answer(b"stopping\n")
        server.expect_report("0 Stopped Direct -")
        waiting.expect_close()


@scene
def a_restart_for_which_there_is_no_descriptor_is_refused():
    with serving() as server, connect(server.port) as client, connect(server.control) as caller:
        caller.send(b"gracefu")
        until("a server that has taken both", lambda: server.connections() == 2)
        replace(server, "index.html", b"other\n")
        with without_descriptors(server):
            caller.send(b"l\n")
            caller.expect_answer(b"refused: store\n")
            # It is done before what comes behind it is served.
            client.send(GET)
            expect("the page of before", client.reply(), ANSWER)
            expect_generation(client, 0)
        expect("what the operator is told", server.told_operator()[2:], [f"cannot read httpd.conf: {NONE_FREE}", "refused: store"])
        command(server, "graceful")
        client.expect_end()
        with connect(server.port) as other:
            other.send(GET)
            expect("the new page", other.reply(), response("200 OK", "text/html", b"other\n"))
            expect_generation(other, 1)
        client.close()
        server.stop()
        server.expect_report("0 Retiring Drained 200,200", "1 ClientDone Direct 200,200", children=6, generation=1)


@scene
def a_server_without_a_descriptor_is_restarted():
    with serving(before=FEW_DESCRIPTORS) as server:
        most = FEW - server.own_descriptors
        clients = [connect(server.port) for _ in range(most)]
        until("a server that has all descriptors", lambda: server.descriptors() == FEW)
        replace(server, "index.html", b"other\n")
        for generation in (1, 2):
            command(server, "graceful")
            expect_generation(clients[0] if generation == 1 else clients[1], generation)
        # What a command took is given back.
        until("a server that has all descriptors", lambda: server.descriptors() == FEW)
        clients[2].close()
        with connect(server.port) as late:
            late.send(GET)
            expect("the new page", late.reply(), response("200 OK", "text/html", b"other\n"))
        for client in clients:
            client.close()
        until("a server without a connection", lambda: server.connections() == 0)
        command(server, "stop")
        expect("the status", server.process.wait(timeout=DEADLINE), 0)


@scene
def a_client_is_answered_without_a_descriptor_where_its_connection_was_open():
    with serving() as server, connect(server.port) as client:
        client.send(GET)
        expect("a response", client.reply(), ANSWER)
        with without_descriptors(server):
            waiting = connect(server.port)
            for _ in range(20):
                client.send(GET)
                expect("a response without a descriptor", client.reply(), ANSWER)
            # Its own place isn't taken by the one that waits: none was free at its close, and none is now.
            client.close()
            waiting.send(GET)
            expect("whether the other one has a response", waiting.has_come(0.15), False)
        expect("the response of the other one", waiting.reply(), ANSWER)
        waiting.close()
        server.stop()
        server.expect_report("0 ClientDone Direct " + ",".join(["200"] * 21), "0 ClientDone Direct 200")


@contextlib.contextmanager
def started(folder, before, output, **others):
    """A program that serves the folder, with these words before its own and this output, up to the end of the block; and what it says on
    standard error. It is started anew where its ports were taken."""
    words = [*before, real_server.PROGRAM, "-f", "httpd.conf"]
    how = {"stdin": subprocess.DEVNULL, "stdout": output, "stderr": subprocess.PIPE, "bufsize": 0, **others}
    for _ in range(real_server.STARTS):
        port, control = free_ports(2)
        configure(folder, f"Listen {HOST}:{port}", f"ControlListen {control}", CORRECTED, "KeepAliveTimeout 60")
        process = subprocess.Popen(words, cwd=folder, **how)
        try:
            said = [process.stderr.readline().decode() for _ in range(2)]
            if "cannot listen" not in said[0]:
                yield real_server.Server(process, folder, port, control), said
                return
        finally:
            process.kill()
            process.wait()
            process.stderr.close()
    raise Wrong(f"a server: wanted one within {real_server.STARTS} starts, and the last one said {said}")


def status_of(server):
    """The status with which a server ends that was told to."""
    server.tell(b"stop\n")
    return server.process.wait(timeout=DEADLINE)


def kept(folder):
    """What the output of the folder has."""
    with open(f"{folder}/output", "rb") as file:
        return file.read()


def expect_full(folder, words, text, places):
    """Goes on where a program whose output is full at each of these places ends with status 5, and its output has just what there was room for."""
    for most in places:
        with open(f"{folder}/output", "wb") as output:
            status, _, said = run_told(folder, *words, before=[*FULL_AT, str(most)], stdout=output)
        expect(f"the status of {words} at {most} of {len(text)} bytes", status, 5 if most < len(text) else 0)
        expect(f"the output of {words} at {most} bytes", kept(folder), text[:most])
        expect(f"what {words} says at {most} bytes", said, [])


@scene
def an_output_that_is_full_has_what_there_was_room_for():
    with tempfile.TemporaryDirectory() as folder:
        configure(folder, CORRECTED)
        with open(f"{folder}/script", "w") as file:
            file.write(SCRIPT)
        test = WARNING + b"Syntax OK\n"
        expect_full(folder, ("-t", "-f", "httpd.conf"), test, range(0, len(test) + 2, 3))
        lines = [place for place, byte in enumerate(SCRIPT_TEXT, 1) if byte == 10]
        expect_full(folder, ("--script", "script"), SCRIPT_TEXT, sorted({0, 1, *lines, len(SCRIPT_TEXT) - 1}))


@long_scene
def an_output_that_is_full_at_each_byte_has_what_there_was_room_for():
    with tempfile.TemporaryDirectory() as folder:
        configure(folder, CORRECTED)
        with open(f"{folder}/script", "w") as file:
            file.write(SCRIPT)
        test = WARNING + b"Syntax OK\n"
        expect_full(folder, ("-t", "-f", "httpd.conf"), test, range(len(test) + 2))
        expect_full(folder, ("--script", "script"), SCRIPT_TEXT, range(len(SCRIPT_TEXT) + 2))


@scene
def a_refusal_that_cannot_be_written_stays_one():
    with tempfile.TemporaryDirectory() as folder:
        configure(folder, "Timeout 0")
        rows = [(("-t", "-f", "httpd.conf"), 1), (("-f", "none"), 3), (("-k", "stop", "-f", "none"), 3), (("nothing",), 2)]
        for words, status in rows:
            for most in (0, 3):
                with open(f"{folder}/output", "wb") as output:
                    came = run_told(folder, *words, before=[*FULL_AT, str(most)], stdout=output)[0]
                expect(f"the status of {words}", came, status)
                expect(f"how many bytes {words} wrote", len(kept(folder)), most)


@scene
def a_server_whose_output_is_full_at_its_start_goes_on_and_writes_its_report():
    with tempfile.TemporaryDirectory() as folder:
        lay_out(folder, SITE)
        for most in (0, 17):
            with open(f"{folder}/output", "ab") as output:
                os.ftruncate(output.fileno(), 0)
                with started(folder, [*FULL_AT, str(most)], output) as (server, _):
                    with connect(server.port) as client:
                        client.send(GET)
                        expect("a response", client.reply(), ANSWER)
                    until("a server without a connection", lambda: server.connections() == 0)
                    # There is room again.
                    _, greatest = resource.prlimit(server.process.pid, resource.RLIMIT_FSIZE)
                    resource.prlimit(server.process.pid, resource.RLIMIT_FSIZE, (greatest, greatest))
                    expect("the status", status_of(server), 5)
            wanted = WARNING[:most] + "".join(report(["0 ClientDone Direct 200"], 3, 0)).encode()
            expect("the output", kept(folder), wanted)


@scene
def a_server_whose_output_is_full_at_its_end_has_what_there_was_room_for():
    with tempfile.TemporaryDirectory() as folder:
        lay_out(folder, SITE)
        text = WARNING + "".join(report([], 3, 0)).encode()
        for most in (len(WARNING), len(WARNING) + 1, len(text) - 1, len(text)):
            with open(f"{folder}/output", "wb") as output, started(folder, [*FULL_AT, str(most)], output) as (server, _):
                expect("the status", status_of(server), 5 if most < len(text) else 0)
            expect("the output", kept(folder), text[:most])


def filled_pipe():
    """Both ends of a pipe that has no room."""
    reading, writing = os.pipe()
    os.set_blocking(writing, False)
    with contextlib.suppress(BlockingIOError):
        while True:
            os.write(writing, b"\0" * 65_536)
    return reading, writing


@scene
def an_output_that_nobody_reads_holds_a_server_up_until_somebody_does():
    with tempfile.TemporaryDirectory() as folder:
        lay_out(folder, SITE)
        reading, writing = filled_pipe()
        os.set_blocking(writing, True)
        with started(folder, [], writing) as (server, said):
            os.close(writing)
            expect("what it has said", [line.partition(" ")[2].split()[0] for line in said], ["listening", "takes"])
            with connect(server.port) as client:
                client.send(GET)
                expect("whether there is a response", client.has_come(0.2), False)
                came = b""
                while not came.endswith(b"\n"):
                    came = came[-100:] + os.read(reading, 65_536)
                expect("the warnings", came.strip(b"\0"), WARNING)
                expect("the response", client.reply(), ANSWER)
            until("a server without a connection", lambda: server.connections() == 0)
            expect("the status", status_of(server), 0)
        with open(reading, "rb") as pipe:
            expect("the report", pipe.read(), "".join(report(["0 ClientDone Direct 200"], 3, 0)).encode())


@scene
def an_output_that_nobody_reads_and_that_waits_for_nothing_is_a_status():
    with tempfile.TemporaryDirectory() as folder:
        lay_out(folder, SITE)
        reading, writing = filled_pipe()
        with started(folder, [], writing) as (server, _):
            os.close(writing)
            with connect(server.port) as client:
                client.send(GET)
                expect("the response", client.reply(), ANSWER)
            until("a server without a connection", lambda: server.connections() == 0)
            expect("the status", status_of(server), 5)
        with open(reading, "rb") as pipe:
            expect("what it wrote", pipe.read().strip(b"\0"), b"")


@scene
def an_operator_who_goes_away_changes_nothing_of_a_restart():
    with tempfile.TemporaryDirectory() as folder:
        lay_out(folder, SITE)
        with started(folder, [], subprocess.PIPE) as (server, _):
            server.process.stderr.close()
            os.rename(f"{folder}/httpd.conf", f"{folder}/away")
            server.tell(b"graceful\n")
            with connect(server.port) as client:
                expect_generation(client, 0)
            os.rename(f"{folder}/away", f"{folder}/httpd.conf")
            command(server, "graceful")
            with connect(server.port) as client:
                expect_generation(client, 1)
            expect("the status", status_of(server), 0)
            with server.process.stdout as printed:
                expect("the first lines", printed.read(len(WARNING) + 14), WARNING + b"Generation: 1\n")


def reset_at(server, place):
    """Has a client reset behind so many bytes of the large response."""
    client = connect(server.port, room=real_server.LITTLE)
    client.send(GET_LETTERS)
    left = place
    while left > 0:
        piece = client.stream.recv(left)
        if not piece:
            raise Wrong(f"a response: wanted {place} bytes, and came the end {left} before that")
        left -= len(piece)
    client.reset()


def reset_at_each(places):
    """Has clients reset behind so many bytes of a response, one behind the other, and another one be served between them."""
    with serving("MaxKeepAliveRequests 0", files={**SITE, "letters.txt": LETTERS}) as server:
        with connect(server.port) as other:
            for turn, place in enumerate(places):
                reset_at(server, place)
                if turn % 50 == 0:
                    other.send(GET)
                    expect("the response of another client", other.reply(), ANSWER)
            until("a server that has one connection", lambda: server.connections() == 1)
            other.send(GET_LETTERS)
            expect("the whole response", other.reply(), LETTERS_ANSWER)
            other.reset()
        server.stop()
        asked = ",".join(["200"] * (len(range(0, len(places), 50)) + 1))
        server.expect_report(*["0 LinkFailed Direct 200"] * len(places), f"0 LinkFailed Direct {asked}")


@scene
def a_client_that_resets_anywhere_in_a_large_response_ends_alone():
    size = len(LETTERS_ANSWER) + len("Sun, 06 Nov 1994 08:49:37 GMT") - len("*")
    near = [range(1, 30), range(100, 160), *(range(at - 20, at + 180, 10) for at in (4_096, 16_384, 65_536, 131_072, 196_608)), range(size - 20, size + 1)]
    reset_at_each([place for some in near for place in some] + list(range(1_000, size, 5_003)))


@long_scene
def a_client_that_resets_at_each_byte_of_a_large_response_ends_alone():
    size = len(LETTERS_ANSWER) + len("Sun, 06 Nov 1994 08:49:37 GMT") - len("*")
    reset_at_each(range(1, size + 1))
