"""A library that stands before the C library and refuses a program's allocations.

It refuses the allocation number REFUSE_AT, counted from 1, and each of REFUSE_FROM bytes or more. What it refused is
told by a byte written to the file REFUSE_TOLD, so that a run in which nothing was refused is known. How many bytes the
program has asked for, and by how many allocations, stand in the files ASKED_TOLD and MADE_TOLD.
"""
import os
import subprocess

SOURCE = r"""
#define _GNU_SOURCE
#include <dlfcn.h>
#include <errno.h>
#include <fcntl.h>
#include <stdlib.h>
#include <sys/mman.h>
#include <unistd.h>

static long counted, *asked, *made;

/* The number of a file that a variable of the environment names, or none. */
static long *number_of(const char *name)
{
    const char *told = getenv(name);
    int file = told ? open(told, O_RDWR | O_CREAT | O_TRUNC, 0600) : -1;
    if (file < 0)
        return 0;
    if (ftruncate(file, sizeof(long)) != 0)
        abort();
    long *place = mmap(0, sizeof(long), PROT_READ | PROT_WRITE, MAP_SHARED, file, 0);
    close(file);
    if (place == MAP_FAILED)
        abort();
    return place;
}

__attribute__((constructor)) static void open_numbers(void)
{
    asked = number_of("ASKED_TOLD");
    made = number_of("MADE_TOLD");
}

static int is_refused(size_t size)
{
    const char *at = getenv("REFUSE_AT"), *from = getenv("REFUSE_FROM"), *told = getenv("REFUSE_TOLD");
    long count = __atomic_add_fetch(&counted, 1, __ATOMIC_SEQ_CST);
    if (asked)
        __atomic_add_fetch(asked, size, __ATOMIC_SEQ_CST);
    if (made)
        __atomic_add_fetch(made, 1, __ATOMIC_SEQ_CST);
    if (!(at && count == atol(at)) && !(from && size >= (size_t)atol(from)))
        return 0;
    int file = told ? open(told, O_WRONLY | O_CREAT | O_APPEND, 0600) : -1;
    if (file >= 0) {
        if (write(file, "1", 1) != 1)
            abort();
        close(file);
    }
    errno = ENOMEM;
    return 1;
}

void *malloc(size_t size)
{
    static void *(*real)(size_t);
    if (!real)
        real = dlsym(RTLD_NEXT, "malloc");
    return is_refused(size) ? 0 : real(size);
}

void *realloc(void *old, size_t size)
{
    static void *(*real)(void *, size_t);
    if (!real)
        real = dlsym(RTLD_NEXT, "realloc");
    return is_refused(size) ? 0 : real(old, size);
}

void *aligned_alloc(size_t align, size_t size)
{
    static void *(*real)(size_t, size_t);
    if (!real)
        real = dlsym(RTLD_NEXT, "aligned_alloc");
    return is_refused(size) ? 0 : real(align, size);
}

int posix_memalign(void **to, size_t align, size_t size)
{
    static int (*real)(void **, size_t, size_t);
    if (!real)
        real = dlsym(RTLD_NEXT, "posix_memalign");
    return is_refused(size) ? ENOMEM : real(to, align, size);
}
"""


def make(folder):
    """Makes the library in a folder by gcc, and gives its path."""
    library = folder / "refuser.so"
    source = folder / "refuser.c"
    source.write_text(SOURCE)
    subprocess.run(["gcc", "-O1", "-shared", "-fPIC", "-o", str(library), str(source), "-ldl"], check=True)
    return library


def environment(library, told, **refused):
    """The environment in which what is named by REFUSE_AT, REFUSE_FROM, ASKED_TOLD or MADE_TOLD is done, and a refusal
    is told in a file."""
    named = {name: str(value) for name, value in refused.items()}
    return dict(os.environ) | {"LD_PRELOAD": str(library), "REFUSE_TOLD": str(told)} | named
