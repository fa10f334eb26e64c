#!/usr/bin/env python3
"""Refuses memory to scram, one allocation at a time, and looks at what each run leaves.

    benchmarks/refused_memory.py [PROGRAM]

PROGRAM is ./scram if left out. Each run of examples/ below is made once for each of its allocations, which finds no
memory then. It has to leave its whole report, or `scram: out of memory` and the status of that line, with nothing
on standard output or the head of the report and whole sections. A line a run tells how many allocations there were.
The script fails where a run leaves something else. It wants a C compiler, and a program that takes its memory from
the system's C library.
"""
import os
import subprocess
import sys
import tempfile

ROOT = os.path.dirname(os.path.dirname(os.path.abspath(__file__)))
RUNS = (["--mcub", "real.xml"], ["--ccf", "--rare-event", "mgl.xml"], ["tree.xml"],
        ["--zbdd", "tree.xml"], ["--prime-implicants", "real.xml"])
OUT_OF_MEMORY = 5
LINE = b"scram: out of memory\n"
SECTIONS = (b"top-event ", b"sequence ")
# Takes the place of the C library's calls: the allocation with the number REFUSED finds no memory, and the number of
# all goes to the file COUNT at the end.
SHIM = r"""
#include <errno.h>
#include <stddef.h>
#include <stdio.h>
#include <stdlib.h>

extern void *__libc_malloc(size_t), *__libc_calloc(size_t, size_t), *__libc_realloc(void *, size_t);
extern void *__libc_memalign(size_t, size_t);
static long refused = -1, count;

__attribute__((constructor)) static void begin(void) {
    const char *it = getenv("REFUSED");
    refused = it ? atol(it) : 0;
    count = 0;
}
__attribute__((destructor)) static void end(void) {
    const char *name = getenv("COUNT");
    long all = count;
    refused = 0;
    FILE *file = name ? fopen(name, "w") : 0;
    if (file) { fprintf(file, "%ld", all); fclose(file); }
}
static int is_refused(void) { return refused >= 0 && ++count == refused; }
void *malloc(size_t size) { return is_refused() ? 0 : __libc_malloc(size); }
void *calloc(size_t n, size_t size) { return is_refused() ? 0 : __libc_calloc(n, size); }
void *realloc(void *old, size_t size) { return is_refused() ? 0 : __libc_realloc(old, size); }
void *aligned_alloc(size_t align, size_t size) { return is_refused() ? 0 : __libc_memalign(align, size); }
int posix_memalign(void **to, size_t align, size_t size) {
    void *got = is_refused() ? 0 : __libc_memalign(align, size);
    if (!got) return ENOMEM;
    *to = got;
    return 0;
}
"""


def starts(report):
    """What a run without memory may leave: nothing, or the head and whole sections."""
    at, places = 0, [0]
    for line in report.splitlines(keepends=True):
        if line.startswith(SECTIONS):
            places.append(at)
        at += len(line)
    return {report[:place] for place in [*places, len(report)]}


def run(program, words, shim, refused, count):
    env = {**os.environ, "LD_PRELOAD": shim, "REFUSED": str(refused), "COUNT": count}
    return subprocess.run([program, *words], cwd=f"{ROOT}/examples", env=env, capture_output=True, timeout=60)


def count_refused(program, words, shim, count):
    """How many allocations a run makes, and what is wrong of the runs in which one is refused."""
    whole = run(program, words, shim, 0, count)
    with open(count, encoding="ascii") as file:
        number = int(file.read())
    allowed, wrong = starts(whole.stdout), []
    if whole.returncode or whole.stderr:
        wrong.append(f"status {whole.returncode}: {whole.stderr!r}")
    for refused in range(1, number + 1):
        it = run(program, words, shim, refused, count)
        is_whole = not it.returncode and it.stdout == whole.stdout and not it.stderr
        if not is_whole and not (it.returncode == OUT_OF_MEMORY and it.stderr == LINE and it.stdout in allowed):
            wrong.append(f"allocation {refused}: status {it.returncode}, {len(it.stdout)} bytes, {it.stderr!r}")
    return number, wrong


def main():
    program = os.path.abspath(sys.argv[1] if len(sys.argv) > 1 else f"{ROOT}/scram")
    failed = False
    with tempfile.TemporaryDirectory() as folder:
        shim = f"{folder}/shim.so"
        subprocess.run(["cc", "-shared", "-fPIC", "-O1", "-fno-builtin", "-x", "c", "-", "-o", shim], input=SHIM.encode(), check=True)
        for words in RUNS:
            number, wrong = count_refused(program, words, shim, f"{folder}/count")
            print(f"{' '.join(words)}: {number} allocations, {len(wrong)} runs wrong")
            print(*wrong, sep="\n", end="\n" if wrong else "")
            failed = failed or bool(wrong)
    return failed


if __name__ == "__main__":
    sys.exit(main())
