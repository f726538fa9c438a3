"""The scenes of a folder and a configuration that change while a restart reads them, which .ci/sockets plays where there is a C compiler: the
restart is held at one of its calls of the system, the change is made, and the restart goes on. And those of sites of many and deep folders."""

import errno
import os
import shutil
import tempfile

import real_server
from folder_scenes import NOBODY, PATIENCE, answer, get
from real_server import (
    MISSING, Wrong, connect, end, expect, lay_out, long_scene, run_told, scene, serving, start, until, where_compiled,
)
from refusing_scenes import outside, outside_scene
from restart_scenes import STATUS, command

# The kinds of calls that read a configuration and a folder.
READING = ["statx", "open", "openat", "getdents64", "read"]
PIECE = 65_536
FILES = {"a": b"a" * 100, "docs/b": b"b" * (PIECE + 5_000), "docs/deep/c": b"c" * 10, "z": b""}
# The site of another root, by which a configuration serves that takes the place of the first one.
OTHERS = {name: b"other " + name.encode() for name in FILES}
GREATEST = 16_777_216


class Change:
    """A change of the folder: what is done to it, which bytes a file may have behind it besides those of before, None where it isn't there, and
    whether a restart that meets it may be refused."""

    def __init__(self, what, make, may=lambda name, came: False, refused=False):
        self.what, self.make, self.may, self.refused = what, make, may, refused


def path_in(folder, name):
    """The path of the file of the site."""
    return f"{folder}/htdocs/{name}"


def write_in_place(folder, name, mode, content):
    """Changes the file where it stands."""
    with open(path_in(folder, name), mode) as file:
        file.write(content)


def put_in_place(folder, name, make):
    """Removes what has that name, and makes something else of it."""
    at = path_in(folder, name)
    if os.path.isdir(at):
        shutil.rmtree(at)
    else:
        os.remove(at)
    make(at)


def rename_over(folder, name, content):
    """Writes a file beside the one of that name, and renames it over that."""
    with open(f"{folder}/beside", "wb") as file:
        file.write(content)
    os.rename(f"{folder}/beside", f"{folder}/{name}")


def is_gone(*names):
    """Whether a file is one of these, or lies below one, and isn't there or was empty when it was read."""
    return lambda name, came: any(f"{name}/".startswith(f"{gone}/") for gone in names) and came in (None, b"")


CHANGES = [
    Change("a file vanishes", lambda folder: os.remove(path_in(folder, "a")), is_gone("a")),
    Change("the largest file vanishes", lambda folder: os.remove(path_in(folder, "docs/b")), is_gone("docs/b")),
    Change(
        "a file grows", lambda folder: write_in_place(folder, "docs/b", "ab", b"x" * 1_000),
        lambda name, came: name == "docs/b" and came == FILES[name] + b"x" * 1_000,
    ),
    Change(
        "a file shrinks", lambda folder: os.truncate(path_in(folder, "docs/b"), 50),
        lambda name, came: name == "docs/b" and came in (FILES[name][:50], FILES[name][:PIECE]),
    ),
    Change(
        "a file is written anew in place", lambda folder: write_in_place(folder, "docs/b", "r+b", b"n" * (PIECE + 5_000)),
        lambda name, came: name == "docs/b" and came is not None and len(came) == PIECE + 5_000 and set(came) <= set(b"bn"),
    ),
    Change(
        "a file is replaced", lambda folder: rename_over(folder, "htdocs/docs/b", b"new" * PIECE),
        lambda name, came: name == "docs/b" and came == b"new" * PIECE,
    ),
    Change("a file becomes too large", lambda folder: os.truncate(path_in(folder, "docs/b"), GREATEST + 1), refused=True),
    Change("a file becomes a folder", lambda folder: put_in_place(folder, "a", os.mkdir), is_gone("a"), refused=True),
    Change(
        "a folder becomes a file", lambda folder: put_in_place(folder, "docs", lambda at: open(at, "wb").close()), is_gone("docs"), refused=True,
    ),
    Change("a folder vanishes", lambda folder: shutil.rmtree(path_in(folder, "docs")), is_gone("docs"), refused=True),
    Change("the root vanishes", lambda folder: shutil.rmtree(f"{folder}/htdocs"), is_gone("a", "docs", "z"), refused=True),
    Change("folders come", lambda folder: lay_out(folder, {"new/d": b"d", "docs/new/e": b"e"})),
    Change("the configuration vanishes", lambda folder: os.remove(f"{folder}/httpd.conf"), refused=True),
    Change(
        # Of a front of the old one and the rest of this one no line is right.
        "the configuration is replaced", lambda folder: rename_over(folder, "httpd.conf", b"#" * 1_000 + b"\nDocumentRoot other\n"),
        lambda name, came: came == OTHERS[name],
    ),
    Change("the configuration becomes a wrong one", lambda folder: rename_over(folder, "httpd.conf", b"Timeout 0\n"), refused=True),
]


def lay_out_anew(folder, configuration):
    """Puts the folder as it was."""
    shutil.rmtree(f"{folder}/htdocs", ignore_errors=True)
    lay_out(folder, FILES)
    rename_over(folder, "httpd.conf", configuration)


def generation_of(client):
    """The number of the newest generation."""
    client.send(STATUS)
    return int(client.reply().partition(b"Generation: ")[2].split()[0])


def served(client):
    """What the client gets of each file: its bytes, or None where it isn't there."""
    found = {}
    for name, old in FILES.items():
        client.send(get(name))
        came = client.reply()
        found[name] = None if came == MISSING else came.partition(b"\r\n\r\n")[2]
        if found[name] is not None:
            expect(f"the response for {name}", came, answer(found[name]))
    return found


def calls_of_restart(server, system):
    """How many calls of each kind a restart makes."""
    with connect(server.port) as client:
        generation = generation_of(client)
    for name in READING:
        getattr(system, name).made = 0
    server.tell(b"graceful\n")
    with connect(server.port) as client:
        expect("the generation", generation_of(client), generation + 1)
    return {name: getattr(system, name).made for name in READING}


def restart_held_at(server, system, name, number, change):
    """Makes the change while a restart is held at that call, and what the restart is answered once it went on."""
    system.hold(name, number)
    with connect(server.control) as caller:
        caller.send(b"graceful\n")
        until(f"a restart that is held at {name} {number}", lambda: system.is_held(name))
        change()
        system.let_go(name)
        return caller.answer()


def change_at(server, system, change, name, number):
    """Makes the change at that call of a restart, and looks at what is served behind it."""
    what = f"{change.what} before {name} {number}"
    with connect(server.port) as client:
        before = generation_of(client)
    answered = restart_held_at(server, system, name, number, lambda: change.make(server.folder))
    with connect(server.port) as client:
        behind = generation_of(client)
        if behind == before:
            expect(f"whether the restart may be refused: {what}", change.refused, True)
            expect(f"the beginning of what is answered: {what}", answered[:9], b"refused: ")
        else:
            expect(f"the generation: {what}", behind, before + 1)
            expect(f"what is answered: {what}", answered, b"generation %d\n" % behind)
        found = served(client)
        for file, came in found.items():
            if came != FILES[file] and (behind == before or not change.may(file, came)):
                raise Wrong(f"{what}: of {file} came {real_server.short(came)}")
        expect(f"what is served a second time: {what}", served(client), found)
        roots = {came == OTHERS[file] for file, came in found.items()}
        expect(f"how many roots are served at once: {what}", len(roots), 1)
    return behind


def play_changes(places_of):
    """Makes each change at some calls of a restart, which are chosen of how many it makes of a kind."""
    with outside() as system, serving(files=FILES, before=system.before) as server:
        lay_out(server.folder, OTHERS, "other")
        with open(f"{server.folder}/httpd.conf", "rb") as file:
            configuration = file.read()
        calls = calls_of_restart(server, system)
        expect("whether the calls of a restart are seen", min(calls["statx"], calls["getdents64"], calls["read"]) > 0, True)
        for change in CHANGES:
            for name in READING:
                for number in places_of(calls[name]):
                    behind = change_at(server, system, change, name, number)
                    lay_out_anew(server.folder, configuration)
                    server.tell(b"graceful\n")
                    with connect(server.port) as client:
                        expect(f"the generation once {change.what} is undone", generation_of(client), behind + 1)
                        expect(f"what is served once {change.what} is undone", served(client), FILES)
        until("a server without a connection", lambda: server.connections() == 0)
        server.tell(b"stop\n")
        printed, _ = server.process.communicate(timeout=real_server.DEADLINE)
        expect("the status and the first line", (server.process.returncode, printed.split(b"\n")[0]), (0, f"Generation: {behind + 1}".encode()))


@outside_scene
def a_folder_that_changes_while_a_restart_reads_it_is_served_as_it_was_or_became():
    play_changes(lambda count: sorted({1, count // 2 + 1, count} - {0, count + 1}) if count else [])


@where_compiled(long_scene)
def a_folder_that_changes_at_each_call_of_a_restart_is_served_as_it_was_or_became():
    play_changes(lambda count: range(1, count + 1))


@outside_scene
def a_file_that_becomes_a_pipe_just_before_it_is_opened_holds_a_server_up_until_somebody_writes():
    with outside() as system, serving(files=FILES, before=system.before) as server:
        # The configuration is opened first, and then the files in the order of their names. What a name is was looked at before that.
        system.hold("open", 2)
        with connect(server.control) as caller:
            caller.send(b"graceful\n")
            until("a restart that is held", lambda: system.is_held("open"))
            put_in_place(server.folder, "a", os.mkfifo)
            system.let_go("open")
            with connect(server.port) as client:
                client.send(get("a"))
                expect("whether there is a response", client.has_come(0.2), False)
                with open(path_in(server.folder, "a"), "wb") as pipe:
                    pipe.write(b"piped")
                expect("what the caller is answered", caller.answer(), b"generation 1\n")
                expect("the response", client.reply(), answer(b"piped"))
                expect("the generation", generation_of(client), 1)
        server.stop()
        server.expect_report("1 ClientDone Direct 200,200", children=6, generation=1)


@outside_scene
def what_loses_its_rights_while_a_restart_reads_it_refuses_that():
    with outside() as system, tempfile.TemporaryDirectory() as folder:
        lay_out(folder, FILES)
        os.chmod(folder, 0o755)
        before, program = system.before, real_server.PROGRAM
        if os.getuid() == 0:
            os.chmod(system.path, 0o666)
            program = real_server.copy_of_program(folder)
            before = ["setpriv", f"--reuid={NOBODY}", f"--regid={NOBODY}", "--clear-groups", *before]
        server = start(folder, [], before, program=program)
        try:
            rows = [("htdocs/a", "cannot read htdocs/a: "), ("htdocs/docs", "cannot list htdocs/docs: "), ("httpd.conf", "cannot read httpd.conf: ")]
            for name, why in rows:
                mode = os.stat(f"{folder}/{name}").st_mode
                said = len(server.told_operator())
                # Before the first call of a restart.
                answered = restart_held_at(server, system, "statx", 1, lambda: os.chmod(f"{folder}/{name}", 0))
                expect(f"what is answered without rights to {name}", answered, b"refused: store\n")
                with connect(server.port) as client:
                    expect(f"the generation behind a restart without rights to {name}", generation_of(client), 0)
                    expect("what is served", served(client), FILES)
                why = f"{why}{os.strerror(errno.EACCES)} (os error {errno.EACCES})"
                expect("what the operator is told", server.told_operator()[said:], [why, "refused: store"])
                os.chmod(f"{folder}/{name}", mode)
            command(server, "graceful")
            with connect(server.port) as client:
                expect("the generation once it has its rights", generation_of(client), 1)
        finally:
            end(server.process)


@scene
def a_site_of_some_thousand_folders_is_served_and_read_anew():
    # Folders side by side, and some of them below one another.
    names = [f"{number % 60}/{number % 7}/{number}/file" for number in range(3_000)] + ["deep/" * 200 + "file"]
    with tempfile.TemporaryDirectory() as folder:
        lay_out(folder, {name: name.encode() for name in names})
        server = start(folder, [], seconds=PATIENCE)
        try:
            expect_thousands(server, names, 0)
            shutil.rmtree(f"{folder}/htdocs/1")
            command(server, "graceful")
            expect_thousands(server, [name for name in names if not name.startswith("1/")], 1)
            with connect(server.port) as client:
                client.send(get("1/1/1/file"))
                expect("a file of a folder that is gone", client.reply(), MISSING)
        finally:
            end(server.process)


def expect_thousands(server, names, generation):
    """Goes on where each of these files is served, as the newest generation is this."""
    with connect(server.port) as client:
        expect("the generation", generation_of(client), generation)
    for first in range(0, len(names), 90):
        some = names[first : first + 90]
        with connect(server.port) as client:
            client.send(b"".join(get(name) for name in some))
            for name in some:
                expect(f"the file {name[-20:]}", client.reply(), answer(name.encode()))


@scene
def a_site_has_as_many_bytes_as_one_may_and_one_more_is_too_many():
    with tempfile.TemporaryDirectory() as folder:
        lay_out(folder, {name: b"" for name in "abcd"})
        for name in "abcd":
            os.truncate(path_in(folder, name), GREATEST)
        server = start(folder, [])
        try:
            with connect(server.port) as client:
                client.send(get("d"))
                expect("the size of the last file", len(client.reply()), len(answer(b"")) + len(str(GREATEST)) - 1 + GREATEST)
            lay_out(folder, {"e": b"e"})
            # It is refused, and changes nothing.
            command(server, "graceful", b"refused: site htdocs/e\n")
            with connect(server.port) as client:
                expect("the generation", generation_of(client), 0)
                client.send(get("e"))
                expect("the file too many", client.reply(), MISSING)
        finally:
            end(server.process)
        expect("a start with one byte more", run_told(folder, "-f", "httpd.conf"), (9, b"site refused: htdocs/e\n", []))


@scene
def a_path_that_is_longer_than_the_system_takes_refuses_the_site():
    with tempfile.TemporaryDirectory() as folder:
        lay_out(folder, {"a": b"a"})
        at = os.open(f"{folder}/htdocs", os.O_RDONLY)
        names = ["n" * 200] * 25
        try:
            for name in names:
                os.mkdir(name, dir_fd=at)
                below = os.open(name, os.O_RDONLY, dir_fd=at)
                os.close(at)
                at = below
        finally:
            os.close(at)
        port, control = real_server.free_ports(2)
        real_server.configure(folder, f"Listen {real_server.HOST}:{port}", f"ControlListen {control}")
        status, printed, said = run_told(folder, "-f", "httpd.conf")
        expect("the status and the output", (status, printed), (3, b"store fault: htdocs\n"))
        expect("the end of what the operator is told", [line.rpartition(": ")[2] for line in said], ["File name too long (os error 36)"])
