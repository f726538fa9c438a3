"""The scenes of real folders, files and links, of words and of outputs that fail, which .ci/sockets plays. What a folder has is seen by what a
server serves of it, and why something can't be read by what it says on standard error."""

import contextlib
import os
import socket
import subprocess
import tempfile
import urllib.parse

import real_server
from real_server import (
    CORRECTED, DEADLINE, HOST, MISSING, SITE, WARNING, Wrong, configure, connect, end, expect, free_ports, lay_out, request, response, run, run_told,
    scene, start, told_lines,
)

# The greatest file that is served, and how many files a site has at most.
MOST_BYTES = 16_777_216
MOST_FILES = 65_536
# Seconds in which a site of so many files is to be loaded.
PATIENCE = 100
NO_SUCH = "No such file or directory (os error 2)"
DENIED = "Permission denied (os error 13)"
# The user whom a file's mode binds, as it doesn't bind who plays the scenes where that is root.
NOBODY = 65_534


@contextlib.contextmanager
def laid_out(files):
    """A folder with these files, and where a text stands for the bytes a link to that, up to the end of the scene."""
    with tempfile.TemporaryDirectory() as folder:
        lay_out(folder, files, ".")
        yield folder


@contextlib.contextmanager
def serving_root(folder, root, seconds=DEADLINE):
    """A server whose site is what stands below the root in the folder, up to the end of the block. It is to serve within these seconds."""
    server = start(folder, [f"DocumentRoot {root}"], seconds=seconds)
    try:
        yield server
    finally:
        end(server.process)


def get(name):
    """The request for the file of that name, which is text or bytes."""
    return request("GET", "/" + urllib.parse.quote(name))


def answer(body):
    """The response whose body is a file that has no extension."""
    return response("200 OK", "application/octet-stream", body)


def expect_site(folder, root, files, absent):
    """Goes on where the root is served with these files, without those that are absent, and where nothing is wrong with it."""
    with serving_root(folder, root) as server, connect(server.port) as client:
        for name, body in files.items():
            client.send(get(name))
            expect(f"{root}/{name}", client.reply(), answer(body))
        for name in absent:
            client.send(get(name))
            expect(f"{root}/{name}", client.reply(), MISSING)
        expect("what the server says behind its start", server.told_operator()[2:], [])


def run_as_nobody(folder, *words):
    """The same as `run_told`, for a user who may not read what the modes forbid."""
    if os.getuid() != 0:
        return run_told(folder, *words)
    # Nobody may not come to where the program stands.
    program = real_server.copy_of_program(folder)
    os.chmod(folder, 0o755)
    told = subprocess.run(
        [program, *words], cwd=folder, stdin=subprocess.DEVNULL, capture_output=True, timeout=DEADLINE,
        user=NOBODY, group=NOBODY, extra_groups=[],
    )
    return told.returncode, told.stdout, told_lines(told.stderr)


# Files, folders, and links to both, each file with its own name as its bytes.
KINDS = {name: name.encode() for name in ["kinds/a", "kinds/docs/b", "kinds/docs/deep/é c", "beside/d"]}
LINKS = {
    "kinds/to-file": "a",
    "kinds/to-link": "to-file",
    "kinds/to-file-beside": "../beside/d",
    "kinds/to-file-through-link": "to-folder/b",
    "kinds/to-folder": "docs",
    "kinds/to-folder-beside": "../beside",
    "kinds/docs/to-itself": "../docs",
    "kinds/docs/deep/to-top": "..",
    "kinds/to-nothing": "none",
    "kinds/to-link-itself": "to-link-itself",
    "kinds/to-file-as-folder": "a/b",
    "kinds/to-device": "/dev/null",
}


def add_others(folder):
    """Puts into the folder what is no file of a site: an empty folder, a named pipe and a socket, links to these, and what has no name that
    is UTF-8."""
    os.makedirs(f"{folder}/kinds/empty")
    os.mkfifo(f"{folder}/kinds/pipe")
    os.symlink("pipe", f"{folder}/kinds/to-pipe")
    with socket.socket(socket.AF_UNIX) as listener:
        listener.bind(f"{folder}/kinds/socket")
    root = os.fsencode(f"{folder}/kinds")
    os.makedirs(root + b"/folder\xff")
    for name in (b"file\xff", b"folder\xff/a"):
        with open(root + b"/" + name, "wb") as file:
            file.write(b"x")
    os.symlink(b"a", root + b"/to-file\xff")


@scene
def files_and_links_to_files_are_served_and_nothing_else_is():
    with laid_out(KINDS | LINKS) as folder:
        add_others(folder)
        files = {name: name for name in ["a", "docs/b", "docs/deep/é c"]}
        files |= {"to-file": "a", "to-link": "a", "to-file-beside": "../beside/d", "to-file-through-link": "docs/b"}
        # Behind a link to a folder nothing is sought, though the same file is served by its own name.
        absent = ["to-folder/b", "to-folder-beside/d", "docs/to-itself/b", "docs/deep/to-top/b", "docs/deep/to-top/deep/é c"]
        absent += ["to-nothing", "to-link-itself", "to-file-as-folder", "to-device", "pipe", "to-pipe", "socket", "none", "docs/none"]
        expect_site(folder, "kinds", {name: file_bytes(of) for name, of in files.items()}, absent)
        expect_site(folder, "kinds/docs", {"b": b"kinds/docs/b", "deep/é c": "kinds/docs/deep/é c".encode()}, ["to-itself/b", "deep/to-top/b"])


def file_bytes(name):
    """The bytes of a file of `KINDS`, by its name as it is seen from the folder `kinds`."""
    return KINDS[os.path.normpath(f"kinds/{name}")]


@scene
def a_root_may_be_a_link_and_may_be_empty():
    with laid_out(KINDS | LINKS) as folder:
        os.makedirs(f"{folder}/kinds/empty")
        expect_site(folder, "kinds/to-folder-beside", {"d": b"beside/d"}, ["a", "docs/b"])
        expect_site(folder, "kinds/empty", {}, ["a", "d"])


@scene
def names_that_are_not_utf_8_are_left_out():
    with laid_out(KINDS | LINKS) as folder:
        add_others(folder)
        with serving_root(folder, "kinds") as server, connect(server.port) as client:
            for name in (b"file\xff", b"folder\xff/a", b"to-file\xff"):
                client.send(get(name))
                expect(f"the kind of the response to {name}", client.reply()[:10], b"HTTP/1.1 4")
            client.send(get("a"))
            expect("a file beside them", client.reply(), answer(b"kinds/a"))


@scene
def a_root_that_is_missing_is_told_and_has_no_files():
    with laid_out(SITE) as folder:
        for root in ("none", "none/none"):
            with serving_root(folder, root) as server, connect(server.port) as client:
                client.send(get("index.html"))
                expect("a file of a root that is missing", client.reply(), MISSING)
                why = f"cannot list {root}: {NO_SUCH}"
                expect("what the server says", server.told_operator(), [why, f"listening on {HOST}:{server.port}", "takes 225 connections at its start"])
                expect("-k graceful", run(folder, "-k", "graceful", "-f", "httpd.conf"), (0, b"generation 1\n"))
                expect("what it says behind a restart", server.told_operator()[3:], [why, "generation 1"])


@scene
def what_is_no_regular_file_is_no_configuration():
    with laid_out(KINDS | LINKS) as folder:
        add_others(folder)
        irregular = ["kinds/docs", "kinds/pipe", "kinds/to-pipe", "kinds/socket", "kinds/to-device"]
        rows = [(name, "not a regular file") for name in irregular]
        rows += [(name, NO_SUCH) for name in ("none", "kinds/none", "kinds/to-nothing")]
        rows += [("kinds/to-link-itself", "Too many levels of symbolic links (os error 40)")]
        rows += [("kinds/to-file-as-folder", "Not a directory (os error 20)")]
        for name, why in rows:
            wanted = (3, f"store fault: {name}\n".encode(), [f"cannot read {name}: {why}"])
            expect(f"-f {name}", run_told(folder, "-f", name), wanted)
            expect(f"-k stop -f {name}", run_told(folder, "-k", "stop", "-f", name), wanted)
            # A test says nothing on standard error.
            expect(f"-t -f {name}", run_told(folder, "-t", "-f", name), (3, wanted[1], []))


@scene
def a_configuration_may_be_a_link():
    with laid_out({"conf": f"{CORRECTED}\n".encode(), "to-conf": "conf", "to-link": "to-conf"}) as folder:
        for name in ("conf", "to-conf", "to-link"):
            expect(f"-t -f {name}", run_told(folder, "-t", "-f", name), (0, WARNING + b"Syntax OK\n", []))


@scene
def what_may_not_be_read_refuses_the_site():
    files = {name: name.encode() for name in ["modes/a", "shut/in/a", "dark/in/a"]} | {"far/a": "../shut/in/a"}
    with laid_out(files) as folder:
        modes = {"modes/a": 0, "shut/in": 0, "dark/in": 0o444}
        for name, mode in modes.items():
            os.chmod(f"{folder}/{name}", mode)
        try:
            rows = [("modes", f"cannot read modes/a: {DENIED}"), ("shut", f"cannot list shut/in: {DENIED}")]
            rows += [("dark", f"cannot list dark/in/a: {DENIED}"), ("far", f"cannot list far/a: {DENIED}")]
            for root, why in rows:
                port, control = free_ports(2)
                configure(folder, f"Listen {HOST}:{port}", f"ControlListen {control}", f"DocumentRoot {root}")
                expect(f"a site below {root}", run_as_nobody(folder, "-f", "httpd.conf"), (3, f"store fault: {root}\n".encode(), [why]))
            for name in ("modes/a", "shut/in/a"):
                expect(f"-f {name}", run_as_nobody(folder, "-f", name), (3, f"store fault: {name}\n".encode(), [f"cannot read {name}: {DENIED}"]))
        finally:
            for name in modes:
                os.chmod(f"{folder}/{name}", 0o755)


@scene
def a_file_of_any_size_is_served_whole_up_to_the_greatest():
    front = bytes(place % 251 for place in range(200_000))
    sizes = [0, 1, 65_535, 65_536, 65_537, 131_072, 200_000]
    with laid_out({f"sized/{size}": front[:size] for size in sizes} | {"sized/large": front}) as folder:
        os.truncate(f"{folder}/sized/large", MOST_BYTES)
        expect_site(folder, "sized", {str(size): front[:size] for size in sizes} | {"large": front.ljust(MOST_BYTES, b"\0")}, [])
        os.truncate(f"{folder}/sized/large", MOST_BYTES + 1)
        expect("a file of one byte more", run_told(folder, "-f", "httpd.conf"), (9, b"site refused: sized/large\n", []))


@scene
def each_of_65_536_files_is_served_and_one_more_is_too_many():
    with tempfile.TemporaryDirectory() as folder:
        os.makedirs(f"{folder}/many")
        for number in range(MOST_FILES):
            with open(f"{folder}/many/{number}", "wb"):
                pass
        with serving_root(folder, "many", PATIENCE) as server:
            # No more than 64 on one connection, and each of them at once.
            for first in range(0, MOST_FILES, 4096):
                with connect(server.port) as client:
                    client.send(b"".join(get(str(number)) for number in range(first, first + 4096, 64)))
                    for number in range(first, first + 4096, 64):
                        expect(f"the file {number}", client.reply(), answer(b""))
            with connect(server.port) as client:
                for number, wanted in [(MOST_FILES - 1, answer(b"")), (MOST_FILES, MISSING)]:
                    client.send(get(str(number)))
                    expect(f"the file {number}", client.reply(), wanted)
            with open(f"{folder}/many/{MOST_FILES}", "wb"):
                pass
            expect("a restart with one file more", server.tell(b"graceful\n"), b"refused: site many\n")
        expect("one file more", run_told(folder, "-f", "httpd.conf", timeout=PATIENCE), (9, b"site refused: many\n", []))


@scene
def words_that_are_not_utf_8_are_none_of_the_forms():
    with tempfile.TemporaryDirectory() as folder:
        wanted = run_told(folder)
        expect("the status without words", wanted[0], 2)
        for words in [(b"-f", b"\xff"), (b"\xff", b"-f", b"httpd.conf"), (b"-t", b"-f", b"httpd\xff.conf")]:
            expect(f"the words {words}", run_told(folder, *words), wanted)


@scene
def an_output_that_takes_nothing_is_a_status():
    with tempfile.TemporaryDirectory() as folder:
        configure(folder, CORRECTED)
        words = ("-t", "-f", "httpd.conf")
        with open("/dev/full", "wb") as full:
            expect("a device that is full", run_told(folder, *words, stdout=full)[0], 5)
        reading, writing = os.pipe()
        os.close(reading)
        with open(writing, "wb") as pipe:
            expect("a pipe that nobody reads", run_told(folder, *words, stdout=pipe)[0], 5)
        expect("an output that takes all", run(folder, *words), (0, WARNING + b"Syntax OK\n"))


@scene
def an_operator_who_can_not_be_told_changes_nothing():
    with tempfile.TemporaryDirectory() as folder, open("/dev/full", "wb") as full:
        words = [real_server.PROGRAM, "-f", "none"]
        told = subprocess.run(words, cwd=folder, stdin=subprocess.DEVNULL, stdout=subprocess.PIPE, stderr=full, timeout=DEADLINE)
        if (told.returncode, told.stdout) != (3, b"store fault: none\n"):
            raise Wrong(f"a server whose standard error is full: came {told.returncode} and {told.stdout}")
