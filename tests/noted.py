"""A run of a built program with `--store` of which each file that is made, each write, cut and sync, and each answer is noted, in order.

A few lines of C before the C library note a call once it was made, and an answer before it is written. What they do not know (another
call that writes, another program) shows when the noted events do not lead to the files as they are.
"""
import subprocess
from collections.abc import Iterator
from contextlib import AbstractContextManager
from pathlib import Path

from served import digest
from stored import AUTHS, Run, started
from torn import Event

SHIM = r"""
#define _GNU_SOURCE
#include <fcntl.h>
#include <stdarg.h>
#include <stdio.h>
#include <stdlib.h>
#include <sys/syscall.h>
#include <sys/uio.h>
#include <unistd.h>
static int trace;
__attribute__((constructor)) static void begin(void) {
    trace = syscall(SYS_openat, AT_FDCWD, getenv("TRACE"), O_WRONLY | O_APPEND | O_CREAT, 0600);
}
static void note(const char *kind, int fd, off_t at, const void *bytes, size_t count) {
    char link[64], path[4096] = "", head[4200];
    snprintf(link, sizeof link, "/proc/self/fd/%d", fd);
    syscall(SYS_readlink, link, path, sizeof path - 1);
    int length = snprintf(head, sizeof head, "%s %ld %zu %s\n", kind, (long)at, count, path);
    struct iovec parts[] = {{head, length}, {(void *)bytes, count}};
    syscall(SYS_writev, trace, parts, 2);
}
int open(const char *path, int flags, ...) {
    va_list rest;
    va_start(rest, flags);
    int fd = syscall(SYS_openat, AT_FDCWD, path, flags, va_arg(rest, int));
    va_end(rest);
    if (fd >= 0 && flags & O_CREAT) note("make", fd, 0, "", 0);
    return fd;
}
ssize_t write(int fd, const void *bytes, size_t count) {
    note("answer", fd, 0, bytes, count);
    return syscall(SYS_write, fd, bytes, count);
}
ssize_t send(int fd, const void *bytes, size_t count, int flags) {
    note("answer", fd, 0, bytes, count);
    return syscall(SYS_sendto, fd, bytes, count, flags, NULL, 0);
}
ssize_t pwrite(int fd, const void *bytes, size_t count, off_t at) {
    ssize_t put = syscall(SYS_pwrite64, fd, bytes, count, at);
    if (put > 0) note("write", fd, at, bytes, put);
    return put;
}
int ftruncate(int fd, off_t length) {
    int status = syscall(SYS_ftruncate, fd, length);
    if (status == 0) note("cut", fd, length, "", 0);
    return status;
}
int fsync(int fd) {
    int status = syscall(SYS_fsync, fd);
    if (status == 0) note("sync", fd, 0, "", 0);
    return status;
}
int fdatasync(int fd) {
    int status = syscall(SYS_fdatasync, fd);
    if (status == 0) note("sync", fd, 0, "", 0);
    return status;
}
"""


def make_shim(folder: Path) -> Path:
    """What is put before the C library."""
    shim = folder / "shim.so"
    subprocess.run(["cc", "-shared", "-fPIC", "-O1", "-x", "c", "-", "-o", shim], input=SHIM.encode(), check=True)
    return shim


def noted(file: Path, shim: Path, trace: Path, program: Path, connections: int, *more: str) -> AbstractContextManager[Run]:
    """A run over the store in a file, with more words behind the usual ones, of which the events come to stand in another."""
    words = ["--root", digest("root"), "--store", str(file), *more, *AUTHS]
    return started(*words, program=program, connections=connections, environment={"LD_PRELOAD": str(shim), "TRACE": str(trace)})


def events_in(trace: bytes, folder: Path) -> Iterator[Event]:
    """The events of a run over a store in a folder. Of what is written to a pipe, the lines of `st_served` are no answers."""
    at = 0
    while at < len(trace):
        end = trace.index(b"\n", at)
        kind, offset, count, path = trace[at:end].decode().split(" ", 3)
        at = end + 1 + int(count)
        text = trace[end + 1:at]
        if path == str(folder):
            yield Event("sync_folder")
        elif kind != "answer":
            yield Event(kind, Path(path).name, int(offset), text)
        elif not text.startswith((b"listening", b"served")):
            yield Event(kind, path, 0, text)
