"""A library that is loaded before a program starts, and makes growths of the heap, starts of threads, reads and writes fail.

It is built by the C compiler of the system. By the environment of a run:

FAILING_COUNTS  a file of five numbers of 64 bits, where it counts: growths; those that were refused; those of them that were
                refused before anything was read; threads that were to start; calls of write
GROWTHS         `N` or `N-`: the growth of this number is refused, or each from this one on
STARTS          `N` or `N-`: the thread of this number doesn't start, or each from this one on
READS           `N:K`: at most K octets are read at a time, and each read after N octets fails
WRITES          `N:K`: at most K octets are written at a time, and the write of number N and each after it fail

Numbers count from 1 and begin when the library is loaded; memory that is released or made smaller is no growth.
"""

import os
import shutil
import struct
import subprocess
from pathlib import Path

SOURCE = r"""
#define _GNU_SOURCE
#include <dlfcn.h>
#include <errno.h>
#include <fcntl.h>
#include <malloc.h>
#include <pthread.h>
#include <stdatomic.h>
#include <stdio.h>
#include <stdlib.h>
#include <sys/mman.h>
#include <sys/syscall.h>
#include <unistd.h>

extern void *__libc_malloc(size_t), *__libc_calloc(size_t, size_t), *__libc_realloc(void *, size_t);
extern void *__libc_memalign(size_t, size_t);

struct counts { atomic_ulong growths, refused, early, starts, writes; };
static struct counts own, *counts = &own;
static atomic_int has_read;
struct range { unsigned long first, last; };
static struct range growths, starts;
static unsigned long reads = -1, at_a_read = -1, octets_read, write_number, at_a_write = -1;

static struct range range_of(const char *name) {
    struct range range = {0, 0};
    char more = 0, *text = getenv(name);
    if (text && sscanf(text, "%lu%c", &range.first, &more) < 1) _exit(99);
    range.last = more == '-' ? -1UL : range.first;
    return range;
}

static int is_in(struct range range, unsigned long number) { return range.first <= number && number <= range.last; }

__attribute__((constructor)) static void start(void) {
    const char *file = getenv("FAILING_COUNTS"), *text;
    int fd = file ? open(file, O_RDWR) : -1;
    void *at = fd < 0 ? MAP_FAILED : mmap(NULL, sizeof own, PROT_READ | PROT_WRITE, MAP_SHARED, fd, 0);
    if (at == MAP_FAILED) _exit(99);
    close(fd);
    if ((text = getenv("READS")) && sscanf(text, "%lu:%lu", &reads, &at_a_read) != 2) _exit(99);
    if ((text = getenv("WRITES")) && sscanf(text, "%lu:%lu", &write_number, &at_a_write) != 2) _exit(99);
    growths = range_of("GROWTHS");
    starts = range_of("STARTS");
    counts = at;
}

static int refused(void) {
    unsigned long number = atomic_fetch_add(&counts->growths, 1) + 1;
    if (counts == &own || !is_in(growths, number)) return 0;
    atomic_fetch_add(&counts->refused, 1);
    atomic_fetch_add(&counts->early, !has_read);
    errno = ENOMEM;
    return 1;
}

void *malloc(size_t size) { return refused() ? NULL : __libc_malloc(size); }
void *calloc(size_t count, size_t size) { return refused() ? NULL : __libc_calloc(count, size); }
void *memalign(size_t to, size_t size) { return refused() ? NULL : __libc_memalign(to, size); }
void *aligned_alloc(size_t to, size_t size) { return memalign(to, size); }

int posix_memalign(void **given, size_t to, size_t size) {
    void *block = memalign(to, size);
    if (block) *given = block;
    return block ? 0 : ENOMEM;
}

void *realloc(void *block, size_t size) {
    int grows = !block || size > malloc_usable_size(block);
    return grows && refused() ? NULL : __libc_realloc(block, size);
}

int pthread_create(pthread_t *thread, const pthread_attr_t *how, void *(*body)(void *), void *with) {
    int (*start_thread)(pthread_t *, const pthread_attr_t *, void *(*)(void *), void *) = dlsym(RTLD_NEXT, "pthread_create");
    return is_in(starts, atomic_fetch_add(&counts->starts, 1) + 1) ? EAGAIN : start_thread(thread, how, body, with);
}

static size_t least(size_t one, size_t other) { return one < other ? one : other; }

ssize_t read(int fd, void *buffer, size_t size) {
    has_read = 1;
    if (reads == -1UL) return syscall(SYS_read, fd, buffer, size);
    if (octets_read >= reads && size) { errno = EIO; return -1; }
    ssize_t count = syscall(SYS_read, fd, buffer, least(least(size, at_a_read), reads - octets_read));
    octets_read += count > 0 ? count : 0;
    return count;
}

ssize_t write(int fd, const void *buffer, size_t size) {
    unsigned long number = atomic_fetch_add(&counts->writes, fd == 1) + 1;
    if (fd == 1 && write_number && number >= write_number) { errno = EIO; return -1; }
    return syscall(SYS_write, fd, buffer, fd == 1 ? least(size, at_a_write) : size);
}

ssize_t __write(int fd, const void *buffer, size_t size) { return write(fd, buffer, size); }
"""
COUNTS = struct.Struct("=5Q")


class NoCompiler(Exception):
    """There is no C compiler, or it can't build the library."""


def built(folder):
    """Builds the library in a folder, and returns its file."""
    compiler = os.environ.get("CC") or shutil.which("cc") or shutil.which("gcc") or shutil.which("clang")
    if not compiler:
        raise NoCompiler("no C compiler was found, so nothing was run")
    source, library = Path(folder, "failing.c"), Path(folder, "failing.so")
    source.write_text(SOURCE, encoding="ascii")
    words = [compiler, "-O2", "-Wall", "-fno-builtin", "-shared", "-fPIC", "-o", str(library), str(source)]
    done = subprocess.run(words, capture_output=True, text=True, check=False)
    if done.returncode:
        raise NoCompiler(f"{compiler} can't build the library, so nothing was run: {done.stderr[-500:]}")
    return library


def status_of(main):
    """The status of a script that builds the library: it fails where the library can't be built."""
    try:
        return main()
    except NoCompiler as fault:
        print(f"{fault}\n0 passed, 1 failed")
        return 1


class Run:
    """What a run gave, and what the library counted: growths, refused ones, those of them before the first read, starts of
    threads, and writes to standard output."""

    def __init__(self, library, words, data, seconds=60, **told):
        with open(library.parent / f"counts{os.getpid()}.{id(self)}", "w+b") as file:
            file.write(bytes(COUNTS.size))
            file.flush()
            env = {"PATH": os.environ.get("PATH", ""), "LD_PRELOAD": str(library), "FAILING_COUNTS": file.name, **told}
            how = {"input": data, "capture_output": True, "timeout": seconds, "env": env, "check": False}
            try:
                done = subprocess.run(words, **how)
            except subprocess.TimeoutExpired as late:
                done = subprocess.CompletedProcess(words, None, late.stdout or b"", b"no end in %d seconds" % seconds)
            file.seek(0)
            self.growths, self.refused, self.early, self.starts, self.writes = COUNTS.unpack(file.read(COUNTS.size))
        os.unlink(file.name)
        self.status, self.text, self.faults = done.returncode, done.stdout, done.stderr

    def ended(self):
        """How the run ended: its status, and what is on standard error."""
        return self.status, self.faults
