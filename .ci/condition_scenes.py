"""The scenes of requests with conditions, and of the types of files, which .ci/sockets plays."""

import email.utils
import hashlib
import os
import re
import subprocess
import time

from real_server import DEADLINE, HOST, connect, expect, request, response, refusal, scene, serving, until, where_there_are

MARKED = ["FileETag Digest", "LastModified On"]
A, TEN = b"A\n", b"0123456789"
FILES = {"a.txt": A, "ten.txt": TEN}
# The second in which both were changed, and its date.
SECOND = 1_000_000_000
CHANGED = "Sun, 09 Sep 2001 01:46:40 GMT"


def tag_of(data):
    """The tag of a file with these bytes."""
    return f'"{hashlib.sha256(data).hexdigest()[:32]}"'


def date(the_file, seconds):
    """Has the file have been changed in that second."""
    os.utime(the_file, (seconds, seconds))


def lay_dates(server):
    """Has both files have been changed in the second, and the server find it so."""
    for name in FILES:
        date(f"{server.folder}/htdocs/{name}", SECOND)
    expect("the answer to a restart", server.tell(b"graceful\n"), b"generation 1\n")


def marked(status, data, body=None, *fields):
    """The response that sends this of a file with these bytes."""
    marks = [f"ETag: {tag_of(data)}", f"Last-Modified: {CHANGED}", "Accept-Ranges: bytes"]
    return response(status, "text/plain", data if body is None else body, *fields, *marks)


def unmodified(data):
    """The response that says the client has the file with these bytes."""
    return f"HTTP/1.1 304 Not Modified\r\nDate: *\r\nETag: {tag_of(data)}\r\nLast-Modified: {CHANGED}\r\n\r\n".encode()


@scene
def conditions_are_answered_by_tags_and_times():
    failed = refusal("412 Precondition Failed")
    asked = [
        (request("GET", "/a.txt"), marked("200 OK", A)),
        (request("GET", "/a.txt", f"If-None-Match: {tag_of(A)}"), unmodified(A)),
        (request("GET", "/a.txt", 'If-None-Match: "x"', f"If-None-Match: W/{tag_of(A)}"), unmodified(A)),
        (request("GET", "/a.txt", f"If-None-Match: {tag_of(TEN)}", f"If-Modified-Since: {CHANGED}"), marked("200 OK", A)),
        (request("GET", "/a.txt", f"If-Modified-Since: {CHANGED}"), unmodified(A)),
        (request("GET", "/a.txt", "If-Modified-Since: Sun, 09 Sep 2001 01:46:39 GMT"), marked("200 OK", A)),
        (request("GET", "/a.txt", "If-Unmodified-Since: Sun, 09 Sep 2001 01:46:39 GMT"), failed),
        (request("GET", "/a.txt", f"If-Match: {tag_of(TEN)}"), failed),
        (request("GET", "/none", f"If-Match: {tag_of(TEN)}"), refusal("404 Not Found")),
        (request("GET", "/ten.txt", "Range: bytes=2-4", f"If-Range: {tag_of(TEN)}"),
            marked("206 Partial Content", TEN, TEN[2:5], "Content-Range: bytes 2-4/10")),
        (request("GET", "/ten.txt", "Range: bytes=2-4", f"If-Range: {CHANGED}"), marked("200 OK", TEN)),
        (request("GET", "/ten.txt", "Range: bytes=2-4", f"If-None-Match: {tag_of(TEN)}"), unmodified(TEN)),
    ]
    with serving(*MARKED, files=FILES) as server:
        lay_dates(server)
        with connect(server.port) as client:
            for sent, wanted in asked:
                client.send(sent)
                expect(f"what {sent} is answered", client.reply(), wanted)
        server.stop()
        codes = ",".join(re.match(rb"HTTP/1.1 (\d+)", wanted)[1].decode() for _, wanted in asked)
        server.expect_report(f"1 ClientDone Direct {codes}", children=6, generation=1)


@scene
def a_file_of_a_time_before_1970_was_changed_in_the_first_second():
    first = "Thu, 01 Jan 1970 00:00:00 GMT"
    whole = response("200 OK", "text/plain", A, f"Last-Modified: {first}", "Accept-Ranges: bytes")
    same = f"HTTP/1.1 304 Not Modified\r\nDate: *\r\nLast-Modified: {first}\r\n\r\n".encode()
    asked = [
        (request("GET", "/a.txt"), whole),
        (request("GET", "/a.txt", f"If-Modified-Since: {first}"), same),
        (request("GET", "/a.txt", f"If-Unmodified-Since: {first}"), whole),
    ]
    with serving("LastModified On", files=FILES) as server:
        path = f"{server.folder}/htdocs/a.txt"
        date(path, -5)
        expect("the second that the folder keeps", os.stat(path).st_mtime, -5)
        expect("the answer to a restart", server.tell(b"graceful\n"), b"generation 1\n")
        with connect(server.port) as client:
            for sent, wanted in asked:
                client.send(sent)
                expect(f"what {sent} is answered", client.reply(), wanted)
        server.stop()
        server.expect_report("1 ClientDone Direct 200,304,200", children=6, generation=1)


@scene
def without_the_directives_no_condition_counts():
    fields = ["If-None-Match: *", 'If-Match: "x"', f"If-Modified-Since: {email.utils.formatdate(usegmt=True)}"]
    with serving(files=FILES) as server:
        with connect(server.port) as client:
            client.send(request("GET", "/a.txt", *fields))
            expect("the file", client.reply(), response("200 OK", "text/plain", A))
        server.stop()
        server.expect_report("0 ClientDone Direct 200")


@scene
def a_file_that_is_written_anew_keeps_its_tag_until_its_bytes_change():
    with serving("FileETag Digest", files=FILES) as server:
        path = f"{server.folder}/htdocs/a.txt"
        turns = [(A, b"304 Not Modified"), (b"B\n", b"200 OK"), (b"B\n", b"200 OK"), (A, b"304 Not Modified")]
        for generation, (data, wanted) in enumerate(turns, 1):
            with open(path, "wb") as file:
                file.write(data)
            expect("the answer", server.tell(b"graceful\n"), b"generation %d\n" % generation)
            with connect(server.port) as client:
                client.send(request("GET", "/a.txt", f"If-None-Match: {tag_of(A)}"))
                came = client.reply()
                expect("the status", re.match(rb"HTTP/1.1 ([^\r]*)", came)[1], wanted)
                expect("the tag", re.search(rb"ETag: ([^\r]*)", came)[1], tag_of(data).encode())
            until("a server without a connection", lambda: server.connections() == 0)
        server.stop()
        ends = [f"{generation} ClientDone Direct {wanted[:3].decode()}" for generation, (_, wanted) in enumerate(turns, 1)]
        server.expect_report(*ends, children=15, generation=4)


@scene
def a_file_that_is_to_be_changed_later_is_told_with_the_present_second_and_sent_each_time():
    with serving("LastModified On", files=FILES) as server:
        date(f"{server.folder}/htdocs/a.txt", int(time.time()) + 86_400)
        expect("the answer to a restart", server.tell(b"graceful\n"), b"generation 1\n")
        with connect(server.port) as client:
            fields = []
            for _ in range(2):
                client.send(request("GET", "/a.txt", *fields))
                came = client.reply()
                expect("the status", came[:15], b"HTTP/1.1 200 OK")
                told = re.search(rb"\r\nLast-Modified: ([^\r]*)\r\n", came)[1].decode()
                # It is the date of the response, which reply() has looked at, to a second or so.
                late = email.utils.parsedate_to_datetime(told).timestamp() - time.time()
                expect(f"whether {told} is the present second", -DEADLINE < late < 1, True)
                fields = [f"If-Modified-Since: {told}"]
        server.stop()
        server.expect_report("1 ClientDone Direct 200,200", children=6, generation=1)


@scene
def files_have_the_types_of_the_long_table_and_those_that_are_added():
    lines = ["MimeTable Long", "AddType text/x-log .LOG log2", 'AddType "text/css; charset=utf-8" css', "AddDefaultCharset utf-8"]
    types = {
        "a.mjs": "text/javascript", "a.WASM": "application/wasm", "a.tar.gz": "application/gzip",
        "a.log": "text/x-log", "a.Log2": "text/x-log", "a.css": "text/css; charset=utf-8",
        "a.html": "text/html; charset=utf-8", "a.txt": "text/plain; charset=utf-8",
        "a.none": "application/octet-stream", "log": "application/octet-stream",
    }
    with serving(*lines, files={name: A for name in types}) as server:
        with connect(server.port) as client:
            for name, kind in types.items():
                client.send(request("GET", f"/{name}"))
                expect(f"the response of {name}", client.reply(), response("200 OK", kind, A))
            client.send(request("GET", "/none"))
            expect("what isn't there", client.reply(), refusal("404 Not Found"))
        server.stop()
        server.expect_report(f"0 ClientDone Direct {','.join(['200'] * len(types))},404")


def says(*words, folder):
    """What the command writes on its output, where it ends well."""
    done = subprocess.run(words, cwd=folder, capture_output=True, timeout=60, env={"PATH": os.environ["PATH"], "LC_ALL": "C"})
    expect(f"the status of {words[0]}, which told {done.stderr!r}", done.returncode, 0)
    return done.stdout + (done.stderr if words[0] == "wget" else b"")


def curl(server, *words):
    """The code that curl tells of the file with these words."""
    address = f"http://{HOST}:{server.port}/a.txt"
    return says("curl", "-sS", "-q", "--noproxy", "*", "-w", "%{http_code}", *words, address, folder=server.folder)


@where_there_are("curl", "wget")
def what_curl_and_wget_have_they_do_not_take_again():
    with serving(*MARKED, files=FILES) as server:
        lay_dates(server)
        expect("a file with its time", curl(server, "-R", "-o", "copy.txt"), b"200")
        expect("its second", os.stat(f"{server.folder}/copy.txt").st_mtime, SECOND)
        expect("the same by its time", curl(server, "-z", "copy.txt", "-o", "again.txt"), b"304")
        expect("a file with its tag", curl(server, "--etag-save", "tag", "-o", "copy.txt"), b"200")
        expect("the same by its tag", curl(server, "--etag-compare", "tag", "-o", "again.txt"), b"304")
        expect("a part of it", curl(server, "-r", "1-", "-H", f"If-Range: {tag_of(A)}", "-o", "part.txt"), b"206")
        address = f"http://{HOST}:{server.port}/ten.txt"
        wget = ["wget", "--no-config", "--no-proxy", "-N", address]
        for wanted in [b"200 OK", b"304 Not Modified"]:
            told = says(*wget, folder=server.folder)
            expect(f"whether wget, which told {told!r}, had that answer", wanted in told, True)
        with open(f"{server.folder}/ten.txt", "rb") as file:
            expect("the file of wget", file.read(), TEN)
        server.stop()
        ends = [f"1 ClientDone Direct {code}" for code in [200, 304, 200, 304, 206, 200, 304]]
        server.expect_report(*ends, children=6, generation=1)
