"""Libraries that are loaded with a program, in front of the system's: calls that fail, and allocations that are refused, each in turn."""
import itertools
import os
import subprocess
from collections.abc import Callable

from common.tried import at_once

# Each thread leaves a byte in the file STARTED, and `chmod` first waits for MODE_WAITS microseconds.
SHIM = r"""
#define _GNU_SOURCE
#include <dlfcn.h>
#include <fcntl.h>
#include <pthread.h>
#include <stdlib.h>
#include <sys/stat.h>
#include <sys/syscall.h>
#include <unistd.h>

int pthread_create(pthread_t *thread, const pthread_attr_t *attributes, void *(*start)(void *), void *given) {
    static int (*next)(pthread_t *, const pthread_attr_t *, void *(*)(void *), void *);
    if (!next) next = (int (*)(pthread_t *, const pthread_attr_t *, void *(*)(void *), void *))dlsym(RTLD_NEXT, "pthread_create");
    int noted = open(getenv("STARTED"), O_CREAT | O_WRONLY | O_APPEND, 0600);
    syscall(SYS_write, noted, ".", 1);
    close(noted);
    return next(thread, attributes, start, given);
}

int chmod(const char *path, mode_t mode) {
    usleep(atoi(getenv("MODE_WAITS")));
    return fchmodat(AT_FDCWD, path, mode, 0);
}
"""


def built_library(folder: str, name: str, source: str) -> str:
    """Builds a library of a source in C in a folder, and answers its path."""
    text, library = os.path.join(folder, f"{name}.c"), os.path.join(folder, f"{name}.so")
    with open(text, "w", encoding="utf-8") as file:
        file.write(source)
    subprocess.run(["cc", "-O1", "-shared", "-fPIC", "-o", library, text], check=True)
    return library


def with_library(library: str, words: dict[str, str]) -> dict[str, str]:
    """An environment in which a program has the library, and these words for it."""
    return {**os.environ, "LD_PRELOAD": library, **words}


class Watched:
    """The environment of a program in a folder, of which each thread that starts is noted, and a file waits for its mode."""

    def __init__(self, folder: str, mode_waits: float = 0) -> None:
        self.noted = os.path.join(folder, "started")
        words = {"STARTED": self.noted, "MODE_WAITS": str(int(mode_waits * 1_000_000))}
        self.environment = with_library(built_library(folder, "watched", SHIM), words)

    def threads(self) -> int:
        """How many threads have started."""
        return os.path.getsize(self.noted) if os.path.exists(self.noted) else 0


# Of the calls named FAILING_CALL, on standard input, standard output or a socket, each takes at most FAILING_BYTES, and the one of
# the number FAILING_AT fails, as all after it, unless FAILING_ONCE is 1. Of `epoll_ctl` those that add a socket are such calls. One of
# `epoll_wait` fails after FAILING_PAUSE milliseconds.
FAILING = r"""
#define _GNU_SOURCE
#include <errno.h>
#include <stdatomic.h>
#include <stdlib.h>
#include <string.h>
#include <sys/epoll.h>
#include <sys/socket.h>
#include <sys/syscall.h>
#include <sys/types.h>
#include <unistd.h>

static const char *failing;
static long failing_at;
static int is_once;
static size_t bytes;
static unsigned pause_of;
static atomic_long at = 0;

__attribute__((constructor)) static void read_words(void) {
    failing = getenv("FAILING_CALL");
    failing_at = atol(getenv("FAILING_AT"));
    is_once = !strcmp(getenv("FAILING_ONCE"), "1");
    bytes = strtoul(getenv("FAILING_BYTES"), NULL, 10);
    pause_of = strtoul(getenv("FAILING_PAUSE"), NULL, 10);
}

// How many bytes a call may take, or none where it fails.
static size_t taken(const char *call, size_t size) {
    if (strcmp(call, failing)) return size;
    long number = atomic_fetch_add(&at, 1) + 1;
    if (is_once ? number == failing_at : number >= failing_at) return 0;
    return size < bytes ? size : bytes;
}

static ssize_t failed(void) {
    errno = EIO;
    return -1;
}

ssize_t read(int file, void *buffer, size_t size) {
    size_t most = file == STDIN_FILENO ? taken("read", size) : size;
    return most || !size ? syscall(SYS_read, file, buffer, most) : failed();
}

ssize_t write(int file, const void *text, size_t size) {
    size_t most = file == STDOUT_FILENO ? taken("write", size) : size;
    return most || !size ? syscall(SYS_write, file, text, most) : failed();
}

ssize_t recv(int socket, void *buffer, size_t size, int flags) {
    size_t most = taken("recv", size);
    return most ? syscall(SYS_recvfrom, socket, buffer, most, flags, NULL, NULL) : failed();
}

ssize_t send(int socket, const void *text, size_t size, int flags) {
    size_t most = taken("send", size);
    return most ? syscall(SYS_sendto, socket, text, most, flags, NULL, 0) : failed();
}

static int is_socket(int file) {
    int kind;
    socklen_t size = sizeof kind;
    return !getsockopt(file, SOL_SOCKET, SO_TYPE, &kind, &size);
}

int epoll_ctl(int poll, int what, int file, struct epoll_event *event) {
    int fails = what == EPOLL_CTL_ADD && is_socket(file) && !taken("epoll_ctl", 1);
    return fails ? failed() : syscall(SYS_epoll_ctl, poll, what, file, event);
}

int epoll_wait(int poll, struct epoll_event *events, int most, int milliseconds) {
    if (taken("epoll_wait", 1)) return syscall(SYS_epoll_wait, poll, events, most, milliseconds);
    usleep(1000 * pause_of);
    return failed();
}
"""


def failing_library(folder: str) -> str:
    """Builds the library in a folder by the C compiler, and answers its path."""
    return built_library(folder, "failing", FAILING)


def environment(library: str, call: str, number: int, size: int, once: bool = False, pause: int = 0) -> dict[str, str]:
    """An environment in which the call of a number fails, alone or with all after it, and each takes at most a size.

    A call of `epoll_wait` fails after a pause, in milliseconds.
    """
    words = {"FAILING_CALL": call, "FAILING_AT": str(number), "FAILING_BYTES": str(size), "FAILING_ONCE": str(int(once)), "FAILING_PAUSE": str(pause)}
    return with_library(library, words)


# The allocation of the number REFUSED answers that there is no memory, and leaves a file at REFUSED_MARK. With REFUSED_ON, so do
# all after it. With REFUSED_IN_THREADS, only those count from where a thread starts until more input is read.
REFUSING = r"""
#define _GNU_SOURCE
#include <dlfcn.h>
#include <fcntl.h>
#include <limits.h>
#include <pthread.h>
#include <stdatomic.h>
#include <stdbool.h>
#include <stdlib.h>
#include <sys/syscall.h>
#include <unistd.h>

static atomic_long at = 0;
static long first = -1, last = -1;
static bool in_threads = false;
static atomic_bool counts = false;

__attribute__((constructor)) static void read_number(void) {
    first = atol(getenv("REFUSED"));
    last = getenv("REFUSED_ON") ? LONG_MAX : first;
    in_threads = getenv("REFUSED_IN_THREADS");
    counts = !in_threads;
}

static bool is_refused(void) {
    if (!counts) return false;
    long number = atomic_fetch_add(&at, 1) + 1;
    if (number == first) close(open(getenv("REFUSED_MARK"), O_CREAT | O_WRONLY, 0600));
    return first <= number && number <= last;
}

void *malloc(size_t size) {
    static void *(*next)(size_t);
    if (!next) next = (void *(*)(size_t))dlsym(RTLD_NEXT, "malloc");
    return is_refused() ? NULL : next(size);
}

void *realloc(void *old, size_t size) {
    static void *(*next)(void *, size_t);
    if (!next) next = (void *(*)(void *, size_t))dlsym(RTLD_NEXT, "realloc");
    return is_refused() ? NULL : next(old, size);
}

int pthread_create(pthread_t *thread, const pthread_attr_t *attributes, void *(*start)(void *), void *given) {
    static int (*next)(pthread_t *, const pthread_attr_t *, void *(*)(void *), void *);
    if (!next) next = (int (*)(pthread_t *, const pthread_attr_t *, void *(*)(void *), void *))dlsym(RTLD_NEXT, "pthread_create");
    counts = true;
    return next(thread, attributes, start, given);
}

ssize_t read(int file, void *bytes, size_t size) {
    if (in_threads) counts = false;
    return syscall(SYS_read, file, bytes, size);
}
"""

# Which allocations are refused: one, all from it on, or one of those that count while threads work.
ONE: dict[str, str] = {}
FOR_GOOD = {"REFUSED_ON": "1"}
IN_THREADS = {"REFUSED_IN_THREADS": "1"}


def refusing_library(folder: str) -> str:
    """Builds the library in a folder by the C compiler, and answers its path."""
    return built_library(folder, "refusing", REFUSING)


def refusing_environment(library: str, number: int, mark: str, which: dict[str, str]) -> dict[str, str]:
    """An refusing_environment in which the allocation of a number is refused, which leaves a file at the mark."""
    return with_library(library, {"REFUSED": str(number), "REFUSED_MARK": mark, **which})


# What is wrong in this refusing_environment, or None.
FindFault = Callable[[dict[str, str]], str | None]
# Threads take allocations in another order each time, so that none of this many in turn has to be there at the end.
NOT_THERE = 64


class Refusals:
    """Refuses each allocation of a program in turn, where nothing may be wrong."""

    def __init__(self, folder: str) -> None:
        self.folder, self.library = folder, refusing_library(folder)

    def attempt(self, number: int, find_fault: FindFault, which: dict[str, str]) -> tuple[str | None, bool]:
        """What is wrong where the allocation of a number is refused, and whether there was such an allocation."""
        mark = os.path.join(self.folder, f"mark-{number}")
        fault = find_fault(refusing_environment(self.library, number, mark, which))
        is_met = os.path.exists(mark)
        if is_met:
            os.remove(mark)
        return fault, is_met

    def count(self, name: str, find_fault: FindFault, which: dict[str, str] = ONE) -> int:
        """How many allocations were refused, until of many in turn none was there."""
        count, last = 0, 0
        for number, (fault, is_met) in enumerate(at_once(lambda each: self.attempt(each, find_fault, which), itertools.count(1)), 1):
            if fault is not None:
                raise AssertionError(f"{name}: allocation {number} refused: {fault}")
            count, last = count + is_met, number if is_met else last
            if number - last == NOT_THERE:
                break
        if not count:
            raise AssertionError(f"{name}: no allocation was refused")
        return count
