"""Runs of programs of which one allocation is refused, by a library that stands in front of the C library and is compiled with `cc`."""

import collections
import subprocess

# Refuses the allocation that FAILING names; where AMONG names a word, only in a process that has it among its words, so that one is meant
# of a process and those that it starts. What is asked for before the words are known is not counted. Behind each write to standard output,
# and at the end, it tells in the file COUNTED how many bytes were written by then, and how many allocations were asked for.
REFUSING = r"""
#define _GNU_SOURCE
#include <dlfcn.h>
#include <fcntl.h>
#include <stdio.h>
#include <stdlib.h>
#include <string.h>
#include <unistd.h>
static long asked, written;
static int counted = -1, meant;
static ssize_t write_on(int file, const void *bytes, size_t size) {
    return ((ssize_t (*)(int, const void *, size_t))dlsym(RTLD_NEXT, "write"))(file, bytes, size);
}
static void tell(void) {
    char line[64];
    int size = snprintf(line, sizeof line, "%ld %ld\n", written, asked);
    if (counted >= 0 && write_on(counted, line, size) != size) abort();
}
static int refused(void) { const char *n = getenv("FAILING"); return n && meant && ++asked == atol(n); }
void *malloc(size_t size) { return refused() ? 0 : ((void *(*)(size_t))dlsym(RTLD_NEXT, "malloc"))(size); }
void *realloc(void *old, size_t size) {
    return refused() ? 0 : ((void *(*)(void *, size_t))dlsym(RTLD_NEXT, "realloc"))(old, size);
}
ssize_t write(int file, const void *bytes, size_t size) {
    ssize_t done = write_on(file, bytes, size);
    if (file == 1 && done > 0) { written += done; tell(); }
    return done;
}
__attribute__((constructor)) static void begin(int count, char **words) {
    const char *among = getenv("AMONG");
    meant = !among;
    while (count-- > 1) if (among && !strcmp(words[count], among)) meant = 1;
    if (meant) counted = open(getenv("COUNTED"), O_WRONLY | O_CREAT | O_TRUNC, 0600);
}
__attribute__((destructor)) static void end(void) { tell(); }
"""

# How a program ended, what it printed, and how many allocations it had asked for by so many bytes of that, and at its end.
Run = collections.namedtuple("Run", "status printed asked")


def refusing_library(folder):
    """The library, compiled in a folder."""
    source, library = folder / "refusing.c", folder / "refusing.so"
    source.write_text(REFUSING)
    subprocess.run(["cc", "-shared", "-fPIC", "-o", library, source, "-ldl"], check=True)
    return library


def refusal(library, counted, failing, among=None):
    """The environment of a program that is refused an allocation, or none where that is 0; and that tells in a file what it asked for.
    Where a word is named, the program is the one of those that are started that has it among its words."""
    words = {"LD_PRELOAD": str(library), "COUNTED": str(counted), "FAILING": str(failing)}
    return words | ({"AMONG": among} if among else {})


def asked_in(counted):
    """What such a program told."""
    return [tuple(map(int, line.split())) for line in counted.read_text().splitlines()]


def refuses(program, folder):
    """A function that runs the program on rows, with an allocation refused, or with none where that is 0."""
    library, counted = refusing_library(folder), folder / "counted"

    def run(rows, failing):
        words = refusal(library, counted, failing)
        done = subprocess.run([program], input=rows, env=words, capture_output=True, text=True, check=False)
        return Run(done.returncode, done.stdout, asked_in(counted))

    return run
