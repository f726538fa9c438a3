"""The scenes of the file of a log, which .ci/sockets plays. They give rows to the program of crates/log_tests, in folders that have what its own
rows can't make: named pipes, what may not be written, files outside, and a disk that is full. The head of its main.rt says what the rows are."""

import contextlib
import os
import socket
import subprocess
import tempfile
import threading

from real_server import DEADLINE, Wrong, expect, lay_out, scene, told_lines

CRATE = os.path.join(os.path.dirname(os.path.abspath(__file__)), "../crates/log_tests")
PROGRAM = os.path.join(CRATE, "out/log_tests")
# One scene alone has the program built.
BUILDING = threading.Lock()
# The user whom a file's mode binds, as it doesn't bind who plays the scenes where that is root.
NOBODY = 65_534
# Bytes that a file may have, in a shell where it may have one block.
BLOCK = 512
NOT_REGULAR = "not a regular file"
# Starts the program where a file may have one block, and where that it would have more is an error and no signal.
LITTLE_DISK = ["sh", "-c", 'trap "" XFSZ; ulimit -f 1; exec "$@"', "sh"]


def built_program():
    """The path of the program, as the gate has built it; else it is built."""
    with BUILDING:
        if not os.access(PROGRAM, os.X_OK):
            subprocess.run(["rt", "run"], cwd=CRATE, stdin=subprocess.DEVNULL, stdout=subprocess.DEVNULL, stderr=subprocess.DEVNULL)
        if not os.access(PROGRAM, os.X_OK):
            raise Wrong(f"there is no {PROGRAM}: run rt ci first, or rt run in crates/log_tests")
    return PROGRAM


@contextlib.contextmanager
def folder_beside(files):
    """A folder in which a log is to lie, and beside it these files, up to the end of the scene."""
    with tempfile.TemporaryDirectory() as top:
        lay_out(top, files, ".")
        folder = f"{top}/folder"
        os.mkdir(folder)
        yield folder


def play(folder, rows, before=(), program=None, **others):
    """What comes of the rows, line by line without the rows themselves, and what the operator is told. It has to end in time."""
    words = [*before, program or built_program()]
    text = "\n== rows\n" + "".join(f"{row}\n" for row in rows)
    told = subprocess.run(words, cwd=folder, input=text.encode(), capture_output=True, timeout=DEADLINE, **others)
    expect("how the program ends", told.returncode, 0)
    lines = told.stdout.decode().splitlines()[1:]
    return [line.removeprefix(row).removeprefix(" => ") for row, line in zip(rows, lines, strict=True)], told_lines(told.stderr)


def content(path):
    """The bytes of the file."""
    with open(path, "rb") as file:
        return file.read()


@scene
def a_log_that_would_keep_who_opens_it_is_refused():
    with folder_beside({}) as folder:
        os.mkfifo(f"{folder}/pipe")
        os.symlink("pipe", f"{folder}/to-pipe")
        with socket.socket(socket.AF_UNIX) as listener:
            listener.bind(f"{folder}/socket")
        names = ["pipe", "to-pipe", "socket"]
        rows = ["begin first.log", *(f"begin {name}" for name in names), "write behind|"]
        came, told = play(folder, rows)
        expect("what is no regular file", came, ["true", "false", "false", "false", "Put(7)"])
        expect("why", told, [f"cannot open {name}: {NOT_REGULAR}" for name in names])
        expect("the log that was opened before", content(f"{folder}/first.log"), b"behind\n")


@scene
def a_link_out_of_the_folder_is_no_log():
    with folder_beside({"beside.log": b"beside\n", "other/own.log": b"own\n"}) as folder:
        os.symlink("../beside.log", f"{folder}/to-file")
        os.symlink(os.path.abspath(f"{folder}/../beside.log"), f"{folder}/to-path")
        os.symlink("to-file", f"{folder}/to-link")
        os.symlink("../other", f"{folder}/to-folder")
        # Its path begins as that of the folder does, and it isn't below it.
        os.mkdir(f"{folder}-2")
        os.symlink("../folder-2", f"{folder}/to-second")
        names = ["to-file", "to-path", "to-link", "to-folder/own.log", "to-folder/new.log", "to-second/new.log"]
        came, told = play(folder, [row for name in names for row in (f"begin {name}", "write lost|")])
        expect("links out of the folder", came, ["false", "Failed"] * len(names))
        expect("why", told, [f"cannot open {name}: a link leads out of the folder" for name in names])
        expect("what is beside it", content(f"{folder}/../beside.log") + content(f"{folder}/../other/own.log"), b"beside\nown\n")
        expect("no file is made there", [os.listdir(f"{folder}/../other"), os.listdir(f"{folder}-2")], [["own.log"], []])


@scene
def a_log_that_may_not_be_written_is_refused():
    with folder_beside({}) as folder:
        lay_out(folder, {"read-only.log": b"kept\n", "closed/old.log": b"old\n"}, ".")
        # Nobody may not come to where the program stands.
        subprocess.run(["cp", built_program(), f"{folder}/program"], check=True)
        is_root = os.getuid() == 0
        who = {"user": NOBODY, "group": NOBODY, "extra_groups": []} if is_root else {}
        for path, mode in [("..", 0o755), ("", 0o777), ("read-only.log", 0o444), ("closed", 0o555), ("program", 0o755)]:
            os.chmod(f"{folder}/{path}", mode)
        names = ["read-only.log", "closed/new.log"]
        rows = ["begin first.log", *(f"begin {name}" for name in names), "write behind|"]
        try:
            came, told = play(folder, rows, program=f"{folder}/program", **who)
        finally:
            os.chmod(f"{folder}/closed", 0o755)
        expect("what may not be written", came, ["true", "false", "false", "Put(7)"])
        expect("why", told, [f"cannot open {name}: Permission denied (os error 13)" for name in names])
        expect("the file that may be read alone", content(f"{folder}/read-only.log"), b"kept\n")
        expect("the log that was opened before", content(f"{folder}/first.log"), b"behind\n")


@scene
def a_log_on_a_disk_that_is_full_takes_what_fits():
    with folder_beside({}) as folder:
        piece = "a" * 300
        rows = ["begin full.log", *[f"write {piece}"] * 4, "begin other.log", "write behind|", "begin full.log", "write x"]
        came, told = play(folder, rows, before=LITTLE_DISK)
        fits = f"Put({BLOCK - len(piece)})"
        expect("writes", came, ["true", "Put(300)", fits, "Failed", "Failed", "true", "Put(7)", "true", "Failed"])
        expect("why", told, ["cannot write the log: File too large (os error 27)"] * 3)
        expect("what fitted", content(f"{folder}/full.log"), b"a" * BLOCK)
        expect("another log", content(f"{folder}/other.log"), b"behind\n")


@scene
def a_log_is_written_behind_what_others_write_there():
    with folder_beside({}) as folder:
        lay_out(folder, {"access.log": b"old\n"}, ".")
        for number in range(3):
            expect("a line", play(folder, ["begin access.log", f"write {number}|"]), (["true", "Put(2)"], []))
            with open(f"{folder}/access.log", "ab") as log:
                log.write(b"between\n")
        expect("all lines", content(f"{folder}/access.log"), b"old\n" + b"".join(b"%d\nbetween\n" % number for number in range(3)))
