"""The scenes in which a call of the system is refused, cut short or held at an exact place, or the system's time set, by the library of
.ci/outside.py: which .ci/sockets plays where there is a C compiler."""

import contextlib
import email.utils
import errno
import os
import re
import tempfile
import time

import real_server
from edge_scenes import rests
from outside import Outside
from real_server import (
    ANSWER, CORRECTED, DEADLINE, GET, HOST, LAST_ANSWER, PAGE, SITE, Wrong, configure, connect, end, expect, lay_out, request, response,
    run_told, scene, serving, start, until, where_compiled,
)
from restart_scenes import command

DAY = 86_400
# How often a call that is interrupted is made, and how often the system is asked for a connection in a turn.
CALLS = 65
outside_scene = where_compiled(scene)


@contextlib.contextmanager
def outside():
    """The outside of a program, up to the end of the block."""
    with tempfile.TemporaryDirectory() as folder:
        os.chmod(folder, 0o755)
        yield Outside(folder)


@contextlib.contextmanager
def serving_by(*lines, files=SITE):
    """A server of these files whose calls of the system may be refused, and its outside."""
    with outside() as system, serving(*lines, files=files, before=system.before) as server:
        yield server, system


def fail(server, system, name, error, count=1):
    """Has the next calls of that kind fail, so many of them, once the server stands in a wait."""
    until("a server that stands in a wait", lambda: rests(server))
    system.fail(name, 1, error, count)


def dated(client):
    """The moment of the date of the next response, which has to be that of the page."""
    client.send(GET)
    head = b""
    while not head.endswith(b"\r\n\r\n"):
        head += client.take(1)
    expect("the body of a response", client.take(len(PAGE)), PAGE)
    return email.utils.parsedate_to_datetime(re.search(rb"\r\nDate: ([^\r\n]*)\r\n", head)[1].decode()).timestamp()


@outside_scene
def a_clock_that_is_set_by_a_day_moves_nothing():
    with serving_by("Timeout 60") as (server, system), connect(server.port) as kept:
        for ahead in (0, DAY, -DAY, 0):
            system.set_ahead(ahead)
            # The date has to be the present one, as each has.
            kept.send(GET)
            expect(f"the response to a client that was there, {ahead} seconds ahead", kept.reply(), ANSWER)
            with connect(server.port) as client:
                client.send(GET)
                expect(f"the response to one that comes, {ahead} seconds ahead", client.reply(), ANSWER)
        system.set_ahead(-DAY)
        command(server, "graceful")
        kept.expect_end()
        with connect(server.port) as client:
            client.send(GET)
            expect("the response behind a restart", client.reply(), ANSWER)
        kept.close()
        server.stop()
        ends = ["0 Retiring Drained 200,200,200,200", *["0 ClientDone Direct 200"] * 4, "1 ClientDone Direct 200"]
        server.expect_report(*ends, children=6, generation=1)


@outside_scene
def a_clock_that_is_set_back_or_forth_brings_no_deadline_and_puts_off_none():
    with serving_by("Timeout 1") as (server, system):
        for ahead in (DAY, -DAY):
            begun = time.monotonic()
            with connect(server.port) as silent:
                until("a server that has taken it", lambda: server.connections() == 1)
                system.set_ahead(ahead)
                silent.expect_end()
            took = time.monotonic() - begun
            # One that is put off comes within no deadline of this scene.
            if took < 0.9:
                raise Wrong(f"the time of a client that sends nothing, {ahead} seconds ahead: wanted one second, and came {took}")
        server.stop()
        server.expect_report("0 ReadLate Drained -", "0 ReadLate Drained -")


@outside_scene
def a_server_has_the_time_of_its_start():
    with outside() as system, tempfile.TemporaryDirectory() as folder:
        lay_out(folder, SITE)
        system.set_ahead(DAY)
        server = start(folder, [], system.before)
        try:
            system.set_ahead(0)
            command(server, "graceful")
            with connect(server.port) as client:
                ahead = dated(client) - time.time()
            if not DAY - DEADLINE < ahead < DAY + DEADLINE:
                raise Wrong(f"the date of a server that began a day ahead: wanted one a day ahead, and came {ahead} seconds")
        finally:
            end(server.process)


@outside_scene
def a_call_that_is_interrupted_is_made_65_times_at_most():
    with serving_by() as (server, system):
        for name in ("recv", "sendmsg"):
            for count in (CALLS - 1, CALLS):
                with connect(server.port) as client:
                    client.send(GET)
                    expect("a response", client.reply(), ANSWER)
                    fail(server, system, name, errno.EINTR, count)
                    client.send(GET)
                    if count < CALLS:
                        expect(f"the response behind {count} interrupted calls of {name}", client.reply(), ANSWER)
                    else:
                        client.expect_close()
                    expect(f"how many calls of {name} failed", getattr(system, name).failed, count)
                    system.heal()
        server.stop()
        ends = ["0 ClientDone Direct 200,200", "0 LinkFailed Direct 200", "0 ClientDone Direct 200,200", "0 LinkFailed Direct 200,200"]
        server.expect_report(*ends)


@outside_scene
def a_wait_that_is_interrupted_goes_on_and_one_that_fails_ends_the_server():
    with serving_by() as (server, system), connect(server.port) as client:
        # The wait that stands comes back for a request, and those behind it are interrupted.
        fail(server, system, "epoll_wait", errno.EINTR, 1_000)
        for _ in range(2):
            client.send(GET)
            expect("a response", client.reply(), ANSWER)
        expect("how many waits were interrupted", system.epoll_wait.failed, 1_000)
        fail(server, system, "epoll_wait", errno.EBADF)
        client.send(GET)
        expect("the response of the wait before", client.reply(), ANSWER)
        client.expect_close()
        server.expect_report("0 Stopped Direct 200,200,200", status=4)


@outside_scene
def connections_that_are_given_up_are_passed_over():
    with serving_by() as (server, system):
        # Behind 64 that are given up the next one is taken in the same turn; behind 65 a turn later, though nothing else comes. A call that is
        # interrupted isn't one of these.
        rows = [(CALLS - 1, errno.ECONNABORTED, 1), (CALLS, errno.ECONNABORTED, 0), (3 * CALLS, errno.EINTR, 1)]
        for count, error, taken in rows:
            fail(server, system, "accept4", error, count)
            # The server stands in a wait, and the next one is held.
            system.hold("epoll_wait", 1)
            with connect(server.port) as client:
                until("a server that comes to its next wait", lambda: system.is_held("epoll_wait"))
                expect(f"how many calls failed with {error}", system.accept4.failed, count)
                expect(f"how many are taken behind {count} calls that failed with {error}", server.connections(), taken)
                system.let_go("epoll_wait")
                client.send(GET)
                expect(f"the response behind {count} calls that failed with {error}", client.reply(), ANSWER)
            until("a server without a connection", lambda: server.connections() == 0)
        # One whose options can't be set is closed.
        fail(server, system, "setsockopt", errno.EINVAL)
        with connect(server.port) as client:
            client.expect_close()
        server.stop()
        server.expect_report(*["0 ClientDone Direct 200"] * 3)


@outside_scene
def a_connection_that_cannot_be_watched_ends_alone():
    with serving_by() as (server, system), connect(server.port) as other:
        other.send(GET)
        expect("a response", other.reply(), ANSWER)
        fail(server, system, "epoll_ctl", errno.ENOSPC)
        with connect(server.port) as client:
            client.expect_close()
        fail(server, system, "epoll_ctl", errno.ENOSPC)
        with connect(server.control) as caller:
            caller.expect_close()
        other.send(GET)
        expect("the response of another client", other.reply(), ANSWER)
        other.close()
        server.stop()
        server.expect_report("0 LinkFailed Direct -", "0 ClientDone Direct 200,200")


@outside_scene
def a_half_close_that_fails_ends_its_connection_alone():
    with serving_by() as (server, system), connect(server.port) as other:
        fail(server, system, "shutdown", errno.ENOTCONN)
        with connect(server.port) as client:
            client.send(request("GET", "/", "Connection: close"))
            expect("the last response", client.reply(), LAST_ANSWER)
            client.expect_close()
        other.send(GET)
        expect("the response of another client", other.reply(), ANSWER)
        other.close()
        server.stop()
        server.expect_report("0 LinkFailed Direct 200", "0 ClientDone Direct 200")


@outside_scene
def responses_are_whole_where_the_system_moves_a_byte_at_a_time():
    files = {"index.html": PAGE, "long.txt": b"0123456789" * 100}
    with serving_by(files=files) as (server, system):
        for name in ("recv", "send", "sendmsg", "write", "read"):
            getattr(system, name).most = 1
        # an answer is one write, and what that doesn't take is lost
        command(server, "graceful", b"g")
        # a read of a connection takes all that is there, so here a byte comes at a time
        system.recv.most = 0
        with connect(server.port) as client:
            for byte in GET + request("GET", "/long.txt") + request("POST", "/", "Content-Length: 3") + b"abc" + GET:
                client.send(bytes([byte]))
            expect("the first", client.reply(), ANSWER)
            expect("the second", client.reply(), response("200 OK", "text/plain", files["long.txt"]))
            expect("the third", client.reply(), real_server.refusal("405 Method Not Allowed", "Allow: GET, HEAD, OPTIONS"))
            expect("the fourth", client.reply(), ANSWER)
        server.stop()
        server.expect_report("1 ClientDone Direct 200,200,405,200", children=6, generation=1)


@outside_scene
def waits_and_lines_that_ask_for_nothing_take_no_memory():
    with serving_by() as (server, system):
        server.tell(b"halt\n")
        until("a server that stands in a wait", lambda: rests(server))
        begun = system.malloc.made
        for line in [b"halt\n", b"x" * 40, b"\xff\n", b""] * 20:
            with connect(server.control) as caller:
                if line:
                    caller.send(line)
                else:
                    caller.half_close()
                expect("what is answered", caller.answer(), b"no such command\n" if line == b"halt\n" else b"")
        until("a server that stands in a wait", lambda: rests(server))
        # each wait may add a moment to the history, whose room doubles
        expect("whether more allocations were made than the history's", system.malloc.made - begun > 4, False)
        command(server, "graceful")
        expect("whether a restart makes some", system.malloc.made > begun, True)
        server.stop()
        server.expect_report(children=6, generation=1)


def sent_with(name, number, error, count):
    """What -k comes to where these calls of it fail: its status, and the reasons that it says on standard error."""
    with outside() as system, serving() as server:
        system.fail(name, number, error, count)
        status, printed, said = run_told(server.folder, "-k", "graceful", "-f", "httpd.conf", before=system.before)
        expect("what is printed", printed, b"generation 1\n" if status == 0 else b"front fault\n")
        return status, [line.rpartition(": ")[2] for line in said]


@outside_scene
def a_command_whose_call_fails_is_refused():
    rows = [("socket", 1, errno.EMFILE, 1), ("connect", 1, errno.ECONNREFUSED, 1), ("setsockopt", 1, errno.EINVAL, 1), ("recv", 1, errno.EIO, 1)]
    rows += [("send", 1, errno.EPIPE, 1), ("recv", 1, errno.EINTR, CALLS)]
    for row in rows:
        expect(f"-k where {row} fails", sent_with(*row), (4, [f"{os.strerror(row[2])} (os error {row[2]})"]))
    expect("-k whose read is interrupted 64 times", sent_with("recv", 1, errno.EINTR, CALLS - 1), (0, []))


@outside_scene
def a_command_for_which_memory_lacks_changes_nothing_of_a_server():
    with serving() as server:
        words = ("-k", "graceful", "-f", "httpd.conf")
        with outside() as own:
            expect("-k", run_told(server.folder, *words, before=own.before), (0, b"generation 1\n", []))
            made, generation = own.malloc.made, 1
            for count in (1, 1_000_000):
                for number in range(1, made + 1):
                    own.fail("malloc", number, errno.ENOMEM, count)
                    came = run_told(server.folder, *words, before=own.before)[:2]
                    generation += came[0] == 0
                    if came not in [(0, b"generation %d\n" % generation), (4, b"front fault\n"), (6, b"")]:
                        raise Wrong(f"-k where allocation {number} fails, and {count - 1} behind it: came {came}")
        with connect(server.port) as client:
            client.send(GET)
            expect("a response", client.reply(), ANSWER)
        command(server, "stop")
        expect("the status", server.process.wait(timeout=DEADLINE), 0)


@outside_scene
def a_start_whose_call_fails_has_its_status():
    with tempfile.TemporaryDirectory() as folder, outside() as system:
        lay_out(folder, SITE)
        rows = [("epoll_create1", errno.EMFILE, 6, b""), ("eventfd", errno.EMFILE, 6, b""), ("socket", errno.EMFILE, 4, b"front fault\n")]
        rows += [("bind", errno.EADDRINUSE, 4, b"front fault\n"), ("listen", errno.EADDRINUSE, 4, b"front fault\n"), ("epoll_ctl", errno.ENOSPC, None, b"")]
        rows += [("statx", errno.EACCES, 3, b"store fault: httpd.conf\n"), ("open", errno.EMFILE, 3, b"store fault: httpd.conf\n"), ("malloc", errno.ENOMEM, 6, b"")]
        for name, error, wanted, text in rows:
            port, control = real_server.free_ports(2)
            configure(folder, f"Listen {HOST}:{port}", f"ControlListen {control}", CORRECTED)
            system.heal()
            system.fail(name, 1, error, 1_000_000)
            status, printed, _ = run_told(folder, "-f", "httpd.conf", before=system.before)
            expect(f"the status where each {name} fails", status in (4, 6) if wanted is None else status, True if wanted is None else wanted)
            if wanted is not None:
                expect(f"what is printed where each {name} fails", printed, text)
