"""The scenes of graceful restarts and of graceful stops, which .ci/sockets plays."""

import os
import re
import time

from real_server import (
    ANSWER, GET, GET_LARGE, LARGE, LARGE_SITE, LAST_ANSWER, LITTLE, Wrong, connect, connect_at_once, expect, request, response, run, scene,
    serving, until,
)

STATUS = request("GET", "/server-status?auto")
# The front of a request, and what is left of it.
BEGUN, REST = GET[:-7], GET[-7:]
REFUSED = (1, b"configuration refused at 5: BadValue\n")
# What is answered where a word is carried out.
DONE = {"graceful": rb"generation \d+\n", "graceful-stop": rb"ending\n", "stop": rb"stopping\n"}


def page(letter, last=False):
    """The response whose body is that of a page of this letter."""
    return response("200 OK", "text/html", body(letter), *["Connection: close"] * last)


def body(letter):
    """A page of one letter, longer than one piece of a file."""
    return letter * 200_000


def replace(server, name, content):
    """Writes a file beside the site and renames it over the one of that name."""
    with open(f"{server.folder}/new", "wb") as file:
        file.write(content)
    os.rename(f"{server.folder}/new", f"{server.folder}/htdocs/{name}")


def command(server, word, answer=None):
    """Has the program send the word, and print what is answered: this, or that the word was carried out. Where a restart is refused its status
    says that."""
    status, printed = run(server.folder, "-k", word, "-f", "httpd.conf")
    if answer is None and re.fullmatch(DONE[word], printed):
        answer = printed
    expect(f"what -k {word} prints", printed, answer)
    expect(f"the status of -k {word}", status, 12 if printed.startswith(b"refused: ") else 0)


def expect_generation(client, generation):
    """Goes on where a status page tells that this generation is the newest."""
    client.send(STATUS)
    told = client.reply()
    expect("the first line of the status page", re.search(rb"\r\n\r\n(.*)\n", told)[1], b"Generation: %d" % generation)


@scene
def a_restart_serves_new_files_and_ends_no_request():
    with serving(files=LARGE_SITE) as server:
        kept, taking, asking = connect(server.port), connect(server.port, room=LITTLE), connect(server.port)
        with kept, taking, asking, connect(server.port) as silent:
            kept.send(GET)
            expect("a response", kept.reply(), ANSWER)
            taking.send(GET_LARGE)
            expect("the front of a large response", taking.take(17), b"HTTP/1.1 200 OK\r\n")
            asking.send(BEGUN)
            until("a server that has taken all clients", lambda: server.connections() == 4)
            replace(server, "index.html", body(b"n"))
            replace(server, "large.bin", b"new")
            command(server, "graceful")
            kept.expect_end()
            with connect(server.port) as client:
                expect_generation(client, 1)
                client.send(GET + GET_LARGE)
                expect("the new page", client.reply(), page(b"n"))
                expect("the new file", client.reply(), response("200 OK", "application/octet-stream", b"new"))
            # What was begun before is of the old files, and so is what comes over a connection that was there before.
            head, _, front = (b"HTTP/1.1 200 OK\r\n" + taking.take(400_000)).partition(b"\r\n\r\n")
            expect("the large response", front + taking.take(len(LARGE) - len(front)) == LARGE, True)
            expect("whether its head says that it is the last", b"Connection: close" in head, False)
            taking.expect_end()
            asking.send(REST)
            silent.send(GET)
            for client in (asking, silent):
                expect("a response of the old page", client.reply(), LAST_ANSWER)
                client.expect_end()
        server.stop()
        old = ["0 Retiring Drained 200", "0 Retiring Drained 200", "0 LastSent Drained 200", "0 LastSent Drained 200"]
        server.expect_report(*old, "1 ClientDone Direct 200,200,200", children=6, generation=1)


@scene
def a_restart_ends_no_request_where_more_has_come_than_a_wait_takes():
    with serving("StartServers 4", "ThreadsPerChild 64", "MaxRequestWorkers 256") as server:
        kept = connect_at_once(server.port, 600)
        for client in kept:
            client.send(GET)
        for client in kept:
            expect("a response", client.reply(), ANSWER)
        # A wait takes 192 events. One of the first wait is that of the command line, and one of the second, behind the restart, is that
        # of the new client: so each of the two gives a slot less. Those behind it have the rest.
        with server.standing_still():
            caller = connect(server.control)
            caller.send(b"graceful\n")
            for client in kept[:300]:
                client.send(GET)
            late = connect(server.port)
            for client in kept[300:]:
                client.send(GET)
        for client in kept:
            expect("a second response", client.reply(), LAST_ANSWER)
            client.expect_end()
            client.close()
        caller.expect_answer(b"generation 1\n")
        caller.close()
        expect_generation(late, 1)
        # It ends behind all others, so it isn't among those of which the report has a line.
        until("a server that has one connection", lambda: server.connections() == 1)
        late.close()
        server.stop()
        server.expect_report(*["0 LastSent Drained 200,200"] * 600, "1 ClientDone Direct 200", children=8, generation=1)


@scene
def each_of_many_restarts_has_its_own_page():
    letters = [bytes([letter]) for letter in b"abcdefghijklmnopqrst"]
    with serving(files={"index.html": body(b"a")}) as server:
        for before, now in zip(letters, letters[1:]):
            with connect(server.port) as early:
                early.send(BEGUN)
                until("a server that has taken a client", lambda: server.connections() == 1)
                replace(server, "index.html", body(now))
                # What follows the line means nothing.
                expect("the answer", server.tell(b"graceful\nstop\n"), b"generation %d\n" % (letters.index(now)))
                with connect(server.port) as late:
                    late.send(GET)
                    expect("a response behind the restart", late.reply(), page(now))
                early.send(REST)
                expect("a response of before", early.reply(), page(before, last=True))
                early.expect_end()
            until("a server without a connection", lambda: server.connections() == 0)
        server.stop()
        turns = range(len(letters) - 1)
        ends = [f"{turn} LastSent Drained 200" for turn in turns] + [f"{turn + 1} ClientDone Direct 200" for turn in turns]
        server.expect_report(*ends, children=3 * len(letters), generation=len(letters) - 1)


@scene
def a_restart_that_is_refused_changes_nothing():
    with serving("Timeout 50") as server, connect(server.port) as client:
        path, root = f"{server.folder}/httpd.conf", f"{server.folder}/htdocs"
        with open(path) as file:
            right = file.read()
        replace(server, "index.html", b"other\n")

        def expect_old(why):
            expect_generation(client, 0)
            client.send(GET)
            expect(f"the page where {why}", client.reply(), ANSWER)

        with open(path, "w") as file:
            file.write(right.replace("Timeout 50", "Timeout 0"))
        expect("-k graceful", run(server.folder, "-k", "graceful", "-f", "httpd.conf"), REFUSED)
        expect_old("no word was sent")
        expect("the answer", server.tell(b"graceful\n"), b"refused: conf at 5: BadValue\n")
        expect_old("the configuration is refused")
        os.remove(path)
        expect("the answer", server.tell(b"graceful\n"), b"refused: absent\n")
        expect_old("there is no configuration")
        with open(path, "w") as file:
            file.write(right)
        with open(f"{root}/large.bin", "wb") as file:
            file.truncate(16_777_217)
        command(server, "graceful", b"refused: site htdocs/large.bin\n")
        expect_old("a file is too large")
        os.remove(f"{root}/large.bin")
        command(server, "graceful")
        client.expect_end()
        with connect(server.port) as other:
            other.send(GET)
            expect("the new page", other.reply(), response("200 OK", "text/html", b"other\n"))
            expect_generation(other, 1)
        client.close()
        server.stop()
        answered = ",".join(["200"] * 8)
        server.expect_report(f"0 Retiring Drained {answered}", "1 ClientDone Direct 200,200", children=6, generation=1)


@scene
def a_restart_takes_over_times_and_keeps_the_ports():
    with serving() as server:
        # Of lines of one name the last one counts.
        with open(f"{server.folder}/httpd.conf", "a") as file:
            file.write("Listen 1\nControlListen 2\nServerLimit 1\nMaxRequestWorkers 50\nKeepAliveTimeout 1ms\nDocumentRoot other\n")
        os.mkdir(f"{server.folder}/other")
        with open(f"{server.folder}/other/index.html", "wb") as file:
            file.write(b"other\n")
        server.tell(b"graceful\n")
        with connect(server.port) as client:
            client.send(GET)
            expect("a page of the other folder", client.reply(), response("200 OK", "text/html", b"other\n"))
            client.expect_end()
        server.stop()
        # By the new ServerLimit one child alone would have been started anew.
        server.expect_report("1 KeepAliveLate Drained 200", children=5, generation=1)


@scene
def where_no_child_number_is_vacant_connections_wait():
    with serving("ServerLimit 1", "StartServers 1", "MaxRequestWorkers 25") as server:
        with connect(server.port) as old:
            old.send(BEGUN)
            until("a server that has taken a client", lambda: server.connections() == 1)
            replace(server, "index.html", b"other\n")
            command(server, "graceful")
            with connect(server.port) as waiting:
                waiting.send(GET)
                server.tell(b"round\n")
                expect("whether one that waits has a response", waiting.has_come(), False)
                old.send(REST)
                expect("the response of the old child", old.reply(), LAST_ANSWER)
                server.tell(b"round\n")
                expect("whether it has one while the old connection lingers", waiting.has_come(), False)
                old.close()
                expect("the response of the new child", waiting.reply(), response("200 OK", "text/html", b"other\n"))
        server.stop()
        server.expect_report("0 LastSent Drained 200", "1 ClientDone Direct 200", children=2, generation=1)


@scene
def a_graceful_stop_ends_with_the_last_connection():
    with serving() as server:
        with connect(server.port) as kept, connect(server.port) as asking:
            kept.send(GET)
            expect("a response", kept.reply(), ANSWER)
            asking.send(BEGUN)
            until("a server that has taken both", lambda: server.connections() == 2)
            command(server, "graceful-stop")
            kept.expect_end()
            try:
                connect(server.port).close()
                raise Wrong("a client that comes behind a graceful stop: wanted a refusal, and it was taken")
            except ConnectionRefusedError:
                pass
            # Neither of these changes a thing.
            command(server, "graceful", b"refused: late\n")
            command(server, "graceful-stop", b"ending already\n")
            asking.send(REST)
            expect("the last response", asking.reply(), LAST_ANSWER)
            asking.expect_end()
            expect("whether the server goes on while one lingers", server.process.poll(), None)
        server.expect_report("0 Retiring Drained 200", "0 LastSent Drained 200")


@scene
def a_graceful_stop_ends_when_its_time_is_over():
    with serving("GracefulShutdownTimeout 1") as server, connect(server.port) as asking:
        asking.send(BEGUN)
        until("a server that has taken a client", lambda: server.connections() == 1)
        begun = time.monotonic()
        command(server, "graceful-stop")
        asking.expect_close()
        if time.monotonic() - begun < 0.9:
            raise Wrong(f"the time of a graceful stop: wanted a second, and came {time.monotonic() - begun}")
        server.expect_report("0 Stopped Direct -")


@scene
def a_stop_ends_a_graceful_stop():
    with serving() as server, connect(server.port) as asking:
        asking.send(BEGUN)
        until("a server that has taken a client", lambda: server.connections() == 1)
        command(server, "graceful-stop")
        server.tell(b"stop\n")
        asking.expect_close()
        server.expect_report("0 Stopped Direct -")
