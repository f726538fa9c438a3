/* What stands between the program and the system where a scene has calls of the system fail, be cut short or be held, or the system's time set.
   .ci/outside.py compiles it to a library that is loaded before the C library, numbers the calls (-DNUMBER_accept4=0 and so on), and shares
   a page with it: so a scene says at any moment which call of which kind is to fail, and sees how many were made. */

#define _GNU_SOURCE
#include <dlfcn.h>
#include <errno.h>
#include <fcntl.h>
#include <linux/futex.h>
#include <sched.h>
#include <stdarg.h>
#include <stdint.h>
#include <stdlib.h>
#include <sys/epoll.h>
#include <sys/mman.h>
#include <sys/socket.h>
#include <sys/stat.h>
#include <sys/syscall.h>
#include <sys/uio.h>
#include <time.h>
#include <unistd.h>

/* A kind of call. The numbers of calls count from 1, from when `made` was last set to 0. */
struct kind {
    uint64_t made;     /* how many were made */
    uint64_t fails_at; /* the call of this number fails; 0: none does */
    uint64_t fails;    /* and so many from that one on */
    uint64_t error;    /* with this error */
    uint64_t one_in;   /* each fails where a number drawn for it divides by this one; 0: none does */
    uint64_t failed;   /* how many failed */
    uint64_t holds_at; /* the call of this number stands still until this is another number */
    uint64_t held;     /* how many stood still */
    uint64_t most;     /* a read or a write moves so many bytes at most; 0: as many as it is asked for */
};

struct page {
    int64_t ahead; /* how many seconds the system's time is ahead of the true one */
    uint64_t drawn;
    uint64_t strayed; /* how many closes were of a descriptor that wasn't open */
    struct kind kinds[];
};

static struct page *page;

/* The size of each allocation in their order, as far as there is place, where somebody wants to know. */
static uint32_t *sizes;
static uint64_t most_sizes, made_sizes;

/* The file of that name in memory, or NULL, and how many bytes it has. */
static void *shared(const char *name, uint64_t *size) {
    int file = name ? open(name, O_RDWR | O_CLOEXEC) : -1;
    struct stat found;
    void *at = MAP_FAILED;
    if (file < 0) return NULL;
    if (fstat(file, &found) == 0) {
        *size = (uint64_t)found.st_size;
        at = mmap(NULL, (size_t)found.st_size, PROT_READ | PROT_WRITE, MAP_SHARED, file, 0);
    }
    close(file);
    return at == MAP_FAILED ? NULL : at;
}

__attribute__((constructor)) static void begin(void) {
    uint64_t size = 0;
    sizes = shared(getenv("OUTSIDE_SIZES"), &size);
    most_sizes = size / sizeof *sizes;
    page = shared(getenv("OUTSIDE_PAGE"), &size);
}

/* A number that looks random, and is the same in each run. */
static uint64_t draw(void) {
    uint64_t it = __atomic_add_fetch(&page->drawn, 0x9e3779b97f4a7c15u, __ATOMIC_SEQ_CST);
    it = (it ^ it >> 30) * 0xbf58476d1ce4e5b9u;
    it = (it ^ it >> 27) * 0x94d049bb133111ebu;
    return it ^ it >> 31;
}

static uint64_t now_in(uint64_t *place) {
    return __atomic_load_n(place, __ATOMIC_SEQ_CST);
}

/* Counts a call of the kind, and answers whether it fails. */
static int fails(int number) {
    if (!page) return 0;
    struct kind *kind = &page->kinds[number];
    uint64_t call = __atomic_add_fetch(&kind->made, 1, __ATOMIC_SEQ_CST);
    if (now_in(&kind->holds_at) == call) {
        struct timespec pause = {0, 200000};
        __atomic_add_fetch(&kind->held, 1, __ATOMIC_SEQ_CST);
        while (now_in(&kind->holds_at) == call) nanosleep(&pause, NULL);
    }
    uint64_t first = now_in(&kind->fails_at), each = now_in(&kind->one_in);
    int is_listed = first != 0 && call >= first && call - first < now_in(&kind->fails);
    if (!is_listed && (each == 0 || draw() % each != 0)) return 0;
    __atomic_add_fetch(&kind->failed, 1, __ATOMIC_SEQ_CST);
    errno = (int)now_in(&kind->error);
    return 1;
}

/* How many bytes a call of the kind moves, of so many. */
static size_t cut(int number, size_t size) {
    uint64_t most = page ? now_in(&page->kinds[number].most) : 0;
    return most != 0 && most < size ? (size_t)most : size;
}

/* How many of the pieces a call of the kind moves, of so many. The first one may be cut short, in `first`. */
static size_t cut_pieces(int number, const struct iovec *pieces, size_t count, struct iovec *first) {
    size_t whole = 0;
    for (size_t i = 0; i < count; i++) whole += pieces[i].iov_len;
    if (cut(number, whole) == whole) return count;
    size_t at = 0;
    while (at + 1 < count && pieces[at].iov_len == 0) at++;
    *first = pieces[at];
    first->iov_len = cut(number, first->iov_len);
    return 0;
}

static void *real_of(const char *name) {
    return dlsym(RTLD_NEXT, name);
}

/* A call that answers -1 where it fails. */
#define CALL(type, name, parameters, arguments)                 \
    type name parameters {                                      \
        static type (*real) parameters;                         \
        if (!real) real = (type(*) parameters)real_of(#name);   \
        return fails(NUMBER_##name) ? (type)-1 : real arguments; \
    }

CALL(int, socket, (int domain, int type, int protocol), (domain, type, protocol))
CALL(int, bind, (int fd, const struct sockaddr *address, socklen_t size), (fd, address, size))
CALL(int, listen, (int fd, int backlog), (fd, backlog))
CALL(int, accept4, (int fd, struct sockaddr *address, socklen_t *size, int flags), (fd, address, size, flags))
CALL(int, connect, (int fd, const struct sockaddr *address, socklen_t size), (fd, address, size))
CALL(int, setsockopt, (int fd, int level, int name, const void *value, socklen_t size), (fd, level, name, value, size))
CALL(int, getsockname, (int fd, struct sockaddr *address, socklen_t *size), (fd, address, size))
CALL(int, shutdown, (int fd, int how), (fd, how))
CALL(int, eventfd, (unsigned int count, int flags), (count, flags))
CALL(int, epoll_create1, (int flags), (flags))
CALL(int, epoll_ctl, (int poll, int what, int fd, struct epoll_event *event), (poll, what, fd, event))
CALL(int, epoll_wait, (int poll, struct epoll_event *events, int most, int time), (poll, events, most, time))
CALL(ssize_t, recv, (int fd, void *to, size_t size, int flags), (fd, to, cut(NUMBER_recv, size), flags))
CALL(ssize_t, read, (int fd, void *to, size_t size), (fd, to, cut(NUMBER_read, size)))
CALL(ssize_t, send, (int fd, const void *from, size_t size, int flags), (fd, from, cut(NUMBER_send, size), flags))
CALL(ssize_t, write, (int fd, const void *from, size_t size), (fd, from, cut(NUMBER_write, size)))
CALL(ssize_t, getdents64, (int fd, void *to, size_t size), (fd, to, size))
CALL(int, sched_yield, (void), ())
CALL(int, statx, (int folder, const char *restrict path, int flags, unsigned int mask, struct statx *restrict to), (folder, path, flags, mask, to))

/* The C library's own name of write, by which some compilers call it. */
ssize_t __write(int fd, const void *from, size_t size) {
    return write(fd, from, size);
}

ssize_t sendmsg(int fd, const struct msghdr *message, int flags) {
    static ssize_t (*real)(int, const struct msghdr *, int);
    if (!real) real = (ssize_t(*)(int, const struct msghdr *, int))real_of("sendmsg");
    if (fails(NUMBER_sendmsg)) return -1;
    struct iovec first;
    struct msghdr part = *message;
    if (cut_pieces(NUMBER_sendmsg, message->msg_iov, message->msg_iovlen, &first) == 0 && message->msg_iovlen != 0) {
        part.msg_iov = &first;
        part.msg_iovlen = 1;
    }
    return real(fd, &part, flags);
}

ssize_t writev(int fd, const struct iovec *pieces, int count) {
    static ssize_t (*real)(int, const struct iovec *, int);
    if (!real) real = (ssize_t(*)(int, const struct iovec *, int))real_of("writev");
    if (fails(NUMBER_writev)) return -1;
    struct iovec first;
    if (count > 0 && cut_pieces(NUMBER_writev, pieces, (size_t)count, &first) == 0) return real(fd, &first, 1);
    return real(fd, pieces, count);
}

int open(const char *path, int flags, ...) {
    static int (*real)(const char *, int, ...);
    va_list rest;
    va_start(rest, flags);
    mode_t mode = va_arg(rest, mode_t);
    va_end(rest);
    if (!real) real = (int (*)(const char *, int, ...))real_of("open");
    return fails(NUMBER_open) ? -1 : real(path, flags, mode);
}

int openat(int folder, const char *path, int flags, ...) {
    static int (*real)(int, const char *, int, ...);
    va_list rest;
    va_start(rest, flags);
    mode_t mode = va_arg(rest, mode_t);
    va_end(rest);
    if (!real) real = (int (*)(int, const char *, int, ...))real_of("openat");
    return fails(NUMBER_openat) ? -1 : real(folder, path, flags, mode);
}

int fcntl(int fd, int what, ...) {
    static int (*real)(int, int, ...);
    va_list rest;
    va_start(rest, what);
    void *argument = va_arg(rest, void *);
    va_end(rest);
    if (!real) real = (int (*)(int, int, ...))real_of("fcntl");
    return fails(NUMBER_fcntl) ? -1 : real(fd, what, argument);
}

int ioctl(int fd, unsigned long what, ...) {
    static int (*real)(int, unsigned long, ...);
    va_list rest;
    va_start(rest, what);
    void *argument = va_arg(rest, void *);
    va_end(rest);
    if (!real) real = (int (*)(int, unsigned long, ...))real_of("ioctl");
    return fails(NUMBER_ioctl) ? -1 : real(fd, what, argument);
}

/* A close that fails has closed all the same, as one of the system's has. */
int close(int fd) {
    static int (*real)(int);
    if (!real) real = (int (*)(int))real_of("close");
    int failed = fails(NUMBER_close), error = errno, answer = real(fd);
    if (page && answer != 0 && errno == EBADF) __atomic_add_fetch(&page->strayed, 1, __ATOMIC_SEQ_CST);
    if (!failed) return answer;
    errno = error;
    return -1;
}

/* Of the calls that have no function of their own those fail that wait for a word. */
long syscall(long number, ...) {
    static long (*real)(long, ...);
    long words[6];
    va_list rest;
    va_start(rest, number);
    for (int i = 0; i < 6; i++) words[i] = va_arg(rest, long);
    va_end(rest);
    if (!real) real = (long (*)(long, ...))real_of("syscall");
    long what = words[1] & FUTEX_CMD_MASK;
    int waits = number == SYS_futex && (what == FUTEX_WAIT || what == FUTEX_WAIT_BITSET);
    if (waits && fails(NUMBER_syscall)) return -1;
    return real(number, words[0], words[1], words[2], words[3], words[4], words[5]);
}

int clock_gettime(clockid_t clock, struct timespec *time) {
    static int (*real)(clockid_t, struct timespec *);
    if (!real) real = (int (*)(clockid_t, struct timespec *))real_of("clock_gettime");
    if (fails(NUMBER_clock_gettime)) return -1;
    int answer = real(clock, time);
    if (answer == 0 && page && clock == CLOCK_REALTIME) time->tv_sec += __atomic_load_n(&page->ahead, __ATOMIC_SEQ_CST);
    return answer;
}

/* The C library's own names of these, which need no search: that would take memory itself. */
void *__libc_malloc(size_t size);
void *__libc_realloc(void *old, size_t size);

static void note(size_t size) {
    if (!sizes) return;
    uint64_t place = __atomic_fetch_add(&made_sizes, 1, __ATOMIC_SEQ_CST);
    if (place < most_sizes) sizes[place] = (uint32_t)size;
}

void *malloc(size_t size) {
    note(size);
    return fails(NUMBER_malloc) ? NULL : __libc_malloc(size);
}

void *realloc(void *old, size_t size) {
    note(size);
    return fails(NUMBER_malloc) ? NULL : __libc_realloc(old, size);
}
