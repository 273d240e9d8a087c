#!/usr/bin/env python3
"""Lets each allocation of a run of faissb fail in turn, and says what it saw.

    python3 tests/hostile/allocations.py PROGRAM [SCRIPT ..]

PROGRAM is a built faissb. Without scripts, those of examples/ are run. A run whose n-th allocation
fails ends with status 6 and with a front of the output of the whole run, or, where the program can
do without, like the whole run; and no file is there that the whole run does not make, but for
`.faissb-part`. The last line counts the runs that ended otherwise, and the status is 1 if there are
any. This is no part of the gate: it needs a C compiler and a dynamic loader with LD_PRELOAD.
"""

import collections
import os
import subprocess
import sys
import tempfile

SHIM = r"""
#define _GNU_SOURCE
#include <dlfcn.h>
#include <errno.h>
#include <stdio.h>
#include <stdlib.h>

static long failing, seen;

static int fails(void) {
    if (!failing) { const char *n = getenv("FAIL_ALLOCATION"); failing = n ? atol(n) : -1; }
    if (++seen != failing) return 0;
    errno = ENOMEM;
    return 1;
}
#define REAL(name) ((__typeof__(&name))dlsym(RTLD_NEXT, #name))
void *malloc(size_t n) { return fails() ? NULL : REAL(malloc)(n); }
void *realloc(void *p, size_t n) { return fails() ? NULL : REAL(realloc)(p, n); }
void *aligned_alloc(size_t a, size_t n) { return fails() ? NULL : REAL(aligned_alloc)(a, n); }
int posix_memalign(void **p, size_t a, size_t n) {
    return fails() ? ENOMEM : REAL(posix_memalign)(p, a, n);
}
__attribute__((destructor)) static void tell(void) {
    if (getenv("COUNT_ALLOCATIONS")) fprintf(stderr, "allocations %ld\n", seen);
}
"""

MEMORY = 6


def build_shim(folder):
    source, shim = os.path.join(folder, "shim.c"), os.path.join(folder, "shim.so")
    with open(source, "w") as out:
        out.write(SHIM)
    subprocess.run(["cc", "-O1", "-shared", "-fPIC", "-o", shim, source, "-ldl"], check=True)
    return shim


def files_in(folder):
    found = {}
    for name in os.listdir(folder):
        with open(os.path.join(folder, name), "rb") as file:
            found[name] = file.read()
    return found


def run(program, shim, script, failing=0):
    """The status, the output, the files and the number of allocations of one run."""
    with tempfile.TemporaryDirectory() as folder:
        ran = subprocess.run(
            [program, "script"], input=script, capture_output=True, cwd=folder, timeout=600,
            env=dict(os.environ, LD_PRELOAD=shim, FAIL_ALLOCATION=str(failing),
                     COUNT_ALLOCATIONS="1"))
        files = files_in(folder)
    return ran.returncode, ran.stdout, files, int(ran.stderr.split(b"allocations")[1].split()[0])


def is_right(whole, cut):
    if cut[:3] == whole[:3]:
        return True
    strange = set(cut[2]) - set(whole[2]) - {".faissb-part"}
    return cut[0] == MEMORY and whole[1].startswith(cut[1]) and not strange


def main():
    program = os.path.abspath(sys.argv[1])
    examples = os.path.join(os.path.dirname(os.path.abspath(__file__)), "..", "..", "examples")
    scripts = sys.argv[2:] or sorted(
        os.path.join(examples, name) for name in os.listdir(examples) if name.endswith(".faissb"))
    bad = 0
    with tempfile.TemporaryDirectory() as folder:
        shim = build_shim(folder)
        for path in scripts:
            with open(path, "rb") as file:
                script = file.read()
            whole = run(program, shim, script)
            statuses = collections.Counter()
            for failing in range(1, whole[3] + 1):
                cut = run(program, shim, script, failing)
                statuses[cut[0]] += 1
                if not is_right(whole, cut):
                    bad += 1
                    print("BAD  %s: allocation %d, status %d" % (path, failing, cut[0]))
            print("%-24s %4d allocations, statuses %s"
                  % (os.path.basename(path), whole[3], dict(statuses)), flush=True)
    print("%d runs ended otherwise" % bad)
    return 1 if bad else 0


if __name__ == "__main__":
    sys.exit(main())
