"""Has the calls that a program makes of the system fail, be cut short or be held, one by one or at random, and sets the system's time for it
alone: by a library that is loaded before the C library (.ci/outside.c), which needs a C compiler, and nothing of the system's rights."""

import ctypes
import errno
import mmap
import os
import shutil
import subprocess
import tempfile
import threading

# The kinds of calls, in the order of their numbers. `malloc` is `realloc` too.
KINDS = (
    "socket bind listen accept4 connect setsockopt getsockname shutdown fcntl ioctl eventfd epoll_create1 epoll_ctl epoll_wait recv read send "
    "sendmsg write writev open openat close getdents64 statx clock_gettime sched_yield syscall malloc"
).split()
SOURCE = f"{os.path.dirname(os.path.abspath(__file__))}/outside.c"
COMPILERS = ["cc", "gcc", "clang"]
FIELDS = "made fails_at fails error one_in failed holds_at held most".split()


class Kind(ctypes.Structure):
    """What a kind of call shares with the library: `struct kind` of .ci/outside.c says what its numbers mean."""

    _fields_ = [(name, ctypes.c_uint64) for name in FIELDS]


class Page(ctypes.Structure):
    """What all kinds share: `struct page`."""

    _fields_ = [("ahead", ctypes.c_int64), ("drawn", ctypes.c_uint64), ("strayed", ctypes.c_uint64), ("kinds", Kind * len(KINDS))]


def compiler():
    """The path of a C compiler, or None."""
    return next(filter(None, map(shutil.which, COMPILERS)), None)


# The folder of the library, and who makes it first.
FOLDER = tempfile.TemporaryDirectory()
COMPILING = threading.Lock()


def library():
    """The path of the library, which is compiled once."""
    to = f"{FOLDER.name}/outside.so"
    with COMPILING:
        if not os.path.exists(to):
            # Others may use it too.
            os.chmod(FOLDER.name, 0o755)
            numbers = [f"-DNUMBER_{name}={number}" for number, name in enumerate(KINDS)]
            words = [compiler(), "-shared", "-fPIC", "-O1", "-w", *numbers, "-o", to, SOURCE, "-ldl"]
            subprocess.run(words, check=True, stdin=subprocess.DEVNULL, stdout=subprocess.DEVNULL)
    return to


class Outside:
    """The outside of one program, which is started with the words `before` before its own. Its kinds of calls are attributes."""

    def __init__(self, folder):
        self.path = f"{folder}/outside.page"
        with open(self.path, "wb") as file:
            file.truncate(ctypes.sizeof(Page))
        with open(self.path, "r+b") as file:
            self.memory = mmap.mmap(file.fileno(), ctypes.sizeof(Page))
        self.page = Page.from_buffer(self.memory)
        self.before = ["env", f"LD_PRELOAD={library()}", f"OUTSIDE_PAGE={self.path}"]
        for number, name in enumerate(KINDS):
            setattr(self, name, self.page.kinds[number])

    def set_ahead(self, seconds):
        """The system's time is so many seconds ahead of the true one from now on."""
        self.page.ahead = seconds

    def fail(self, name, number, error=errno.EIO, count=1):
        """Of the calls of that kind, counted from now on, the one of that number fails, and so many from it on."""
        kind = getattr(self, name)
        kind.error, kind.fails, kind.made, kind.failed = error, count, 0, 0
        kind.fails_at = number

    def hold(self, name, number):
        """Of the calls of that kind, counted from now on, the one of that number stands still until it is let go."""
        kind = getattr(self, name)
        kind.made, kind.held = 0, 0
        kind.holds_at = number

    def is_held(self, name):
        """Whether the call of that kind stands still."""
        return getattr(self, name).held > 0

    def let_go(self, name):
        """The call goes on."""
        getattr(self, name).holds_at = 0

    def heal(self):
        """No call fails, is cut short or stands still from now on."""
        for kind in self.page.kinds:
            kind.fails_at = kind.one_in = kind.most = kind.holds_at = 0
