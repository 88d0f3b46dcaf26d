#!/usr/bin/env python3
"""Refuses each growth of memory in turn, one a run, and looks at what the program answers.

    tools/fail_alloc.py build/sgmlesis [WORDS ..] FILE

Each run must end with status 5 and a front of the lines of a run without a refusal, until the number of the refused
call is beyond the last: that run must give these lines and status again. A library that stands before the C library's
counts the calls, so a C compiler is needed.
"""
import os
import subprocess
import sys
import tempfile

SHIM = r"""
#define _GNU_SOURCE
#include <dlfcn.h>
#include <errno.h>
#include <stddef.h>
#include <stdlib.h>
static long calls = 0, refused = -1;
static int is_refused(void) {
    if (refused < 0) {
        const char *number = getenv("REFUSED");
        refused = number ? atol(number) : 0;
    }
    if (++calls != refused) return 0;
    errno = ENOMEM;
    return 1;
}
#define NEXT(name) static void *(*next)() = NULL; if (!next) next = dlsym(RTLD_NEXT, name)
void *malloc(size_t size) { NEXT("malloc"); return is_refused() ? NULL : next(size); }
void *calloc(size_t count, size_t size) { NEXT("calloc"); return is_refused() ? NULL : next(count, size); }
void *realloc(void *old, size_t size) { NEXT("realloc"); return is_refused() ? NULL : next(old, size); }
void *aligned_alloc(size_t align, size_t size) { NEXT("aligned_alloc"); return is_refused() ? NULL : next(align, size); }
int posix_memalign(void **out, size_t align, size_t size) {
    static int (*next)(void **, size_t, size_t) = NULL;
    if (!next) next = dlsym(RTLD_NEXT, "posix_memalign");
    return is_refused() ? ENOMEM : next(out, align, size);
}
"""


def run(words, shim, number):
    place = {**os.environ, "LD_PRELOAD": shim, "REFUSED": str(number)}
    ran = subprocess.run(words, env=place, stdout=subprocess.PIPE, stderr=subprocess.PIPE, timeout=120)
    return ran.returncode, ran.stdout, ran.stderr


def main():
    words = sys.argv[1:]
    if len(words) < 2:
        sys.exit(__doc__)
    with tempfile.TemporaryDirectory() as folder:
        source, shim = f"{folder}/shim.c", f"{folder}/shim.so"
        with open(source, "w", encoding="ascii") as file:
            file.write(SHIM)
        subprocess.run(["cc", "-O1", "-w", "-shared", "-fPIC", "-o", shim, source, "-ldl"], check=True)
        status, lines, log = run(words, shim, 0)
        number = wrong = 0
        while True:
            number += 1
            found, written, told = run(words, shim, number)
            if (found, written, told) == (status, lines, log):
                break
            if found != 5 or not lines.startswith(written):
                wrong += 1
                print(f"call {number}: status {found}, {len(written)} bytes, {told[:80]!r}")
        print(f"{number - 1} calls refused, {wrong} answered wrongly; without a refusal status {status}, {len(lines)} bytes")
    return 1 if wrong else 0


if __name__ == "__main__":
    sys.exit(main())
