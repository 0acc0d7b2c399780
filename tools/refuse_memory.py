#!/usr/bin/env python3
"""Refuses a program's requests in turn, and sees that it says so and that nothing else happens.

    python3 tools/refuse_memory.py [--program FILE] [--calls KIND ..] [--quiet] [SCRIPT ..]

Runs `ndnrepo run` on each script with the first request of a kind refused, then with the second alone, and so on up
to the run that makes no more. The kinds, all of them unless some are named:

    memory    no memory is given once. The run ends with 5 (out of memory) and has written a prefix of the report, or
              it ends as without the refusal: where a list then asks for less, and where no thread could be started.
    shortage  no memory is given from here on. The run ends in the same ways.
    threads   no thread is started. The run ends as without the refusal: who wanted the thread does its work. One more
              run has all threads refused.
    reads     the input, which comes by pieces of 20 octets, can't be read from here on. The run ends with 3, and has
              written the report of the lines that were read whole.
    writes    the output, which goes by pieces of 8 octets, can't be written from here on. The run ends with 4, and
              has written a prefix of the report, and not all.
    signals   a signal interrupts one read or write, which is made again. The run ends as without it.

Without scripts it takes three short ones and tools/every_line.script, which has every kind of line. Of each kind and
script it prints how many requests there were, how many were refused, and how those runs ended; with --quiet only the
runs that ended otherwise, and how many there were in all. The exit status is 1 where there is such a run, and 3 where
there is no C compiler (`cc`). It needs Linux, and a program that was built (`cd crates/ndnrepo && rt run`). All takes
about ten seconds on one processor.
"""
import argparse
import itertools
import pathlib
import shutil
import struct
import subprocess
import sys
import tempfile

TOP = pathlib.Path(__file__).resolve().parent.parent
READ_FAULT, WRITE_FAULT, NO_MEMORY = 3, 4, 5
NO_COMPILER = 3

TWO = """\
group /g
member alice /alice 6b31
member bob /bob 6b32
"""
ONE_OBJECT = TWO + """\
publish alice /doc 10 text:abc
settle 2
catalogue alice
catalogue bob
traffic
"""
CLAIMS = TWO + """\
publish alice /doc 1 text:abc
deliver 1 bob
claim bob 1
answer bob 1 alice
claim bob 1
answer bob 1 alice
claim bob 1
settle 2
catalogue bob
claim bob 1
"""
INSERTION = TWO + """\
client carl /carl 6b34
insert alice carl /in 5 6
status alice carl 1
block alice 1 5 text:ab
status alice carl 1
block alice 1 6 text:c
status alice carl 1
status alice carl 9
settle 1
delete alice carl /in
delete alice carl /in
settle 1
catalogue alice
catalogue bob
"""

# Stands before the C library's own calls. COUNTS is a file of the number of calls made so far.
SHIM = r"""
#define _GNU_SOURCE
#include <dlfcn.h>
#include <errno.h>
#include <fcntl.h>
#include <pthread.h>
#include <stdatomic.h>
#include <stdlib.h>
#include <string.h>
#include <sys/mman.h>
#include <unistd.h>

static _Atomic long *made;
static const char *kind = "";
static long refused = -1;
static size_t piece = (size_t)-1;

__attribute__((constructor)) static void begin(void) {
    const char *counts = getenv("COUNTS");
    if (!counts) return;
    kind = getenv("KIND");
    refused = atol(getenv("REFUSED"));
    if (getenv("PIECE")) piece = (size_t)atol(getenv("PIECE"));
    int file = open(counts, O_RDWR);
    made = mmap(NULL, sizeof *made, PROT_READ | PROT_WRITE, MAP_SHARED, file, 0);
    close(file);
}

/* Whether this call is of the kind, and its number is the refused one, or after it where those are refused too. */
static int refuses(const char *of, int and_after) {
    if (!made || strcmp(of, kind)) return 0;
    long number = atomic_fetch_add(made, 1) + 1;
    return number == refused || (and_after && refused > 0 && number > refused);
}
static int refuses_memory(void) { return refuses("memory", 0) || refuses("shortage", 1); }

#define REAL(name) static __typeof__(&name) real; if (!real) real = (__typeof__(&name))dlsym(RTLD_NEXT, #name)

void *malloc(size_t n) {
    REAL(malloc);
    if (refuses_memory()) { errno = ENOMEM; return NULL; }
    return real(n);
}
void *realloc(void *at, size_t n) {
    REAL(realloc);
    if (refuses_memory()) { errno = ENOMEM; return NULL; }
    return real(at, n);
}
void *aligned_alloc(size_t align, size_t n) {
    REAL(aligned_alloc);
    if (refuses_memory()) { errno = ENOMEM; return NULL; }
    return real(align, n);
}
int posix_memalign(void **at, size_t align, size_t n) {
    REAL(posix_memalign);
    return refuses_memory() ? ENOMEM : real(at, align, n);
}
int pthread_create(pthread_t *thread, const pthread_attr_t *how, void *(*start)(void *), void *given) {
    REAL(pthread_create);
    return refuses("threads", getenv("ALL") != NULL) ? EAGAIN : real(thread, how, start, given);
}
ssize_t read(int file, void *room, size_t n) {
    REAL(read);
    if (refuses("reads", 1)) { errno = EIO; return -1; }
    if (refuses("signals", 0)) { errno = EINTR; return -1; }
    return real(file, room, n < piece ? n : piece);
}
static ssize_t put(int file, const void *octets, size_t n) {
    REAL(write);
    if (refuses("writes", 1)) { errno = EIO; return -1; }
    if (refuses("signals", 0)) { errno = EINTR; return -1; }
    return real(file, octets, n < piece ? n : piece);
}
ssize_t write(int file, const void *octets, size_t n) { return put(file, octets, n); }
ssize_t __write(int file, const void *octets, size_t n) { return put(file, octets, n); }
"""

PIECES = {"reads": 20, "writes": 8, "signals": 64}


class Trial:
    """A program, the shim before it, and a file in which the shim counts."""

    def __init__(self, program, room, quiet):
        self.program, self.quiet, self.refused = str(program), quiet, 0
        self.shim, self.counts = room / "refuse.so", room / "counts"
        (room / "refuse.c").write_text(SHIM)
        subprocess.run(["cc", "-O1", "-shared", "-fPIC", "-o", self.shim, room / "refuse.c", "-ldl"], check=True)

    def run(self, kind, script, refused, more=()):
        """How the run ended, what it wrote, and how many calls of the kind it made."""
        self.counts.write_bytes(bytes(8))
        how = {"LD_PRELOAD": str(self.shim), "COUNTS": str(self.counts), "KIND": kind, "REFUSED": str(refused)}
        how.update(more)
        if kind in PIECES:
            how["PIECE"] = str(PIECES[kind])
        ran = subprocess.run([self.program, "run"], input=script, stdout=subprocess.PIPE, stderr=subprocess.DEVNULL,
                             env=how, timeout=60)
        return ran.returncode, ran.stdout, struct.unpack("l", self.counts.read_bytes())[0]

    def plain(self, script):
        ran = subprocess.run([self.program, "run"], input=script, stdout=subprocess.PIPE, stderr=subprocess.DEVNULL)
        return ran.returncode, ran.stdout

    def is_well(self, kind, script, plain, refused, said, wrote):
        """Whether a run may end so, of which one call was refused."""
        status, report = plain
        if kind in ("memory", "shortage") and said == NO_MEMORY:
            return report.startswith(wrote)
        if kind == "reads":
            whole = script[: PIECES[kind] * (refused - 1)].rpartition(b"\n")[0]
            whole = whole + b"\n" if whole else b""
            return said == READ_FAULT and (0, wrote) == self.plain(whole)
        if kind == "writes":
            return said == WRITE_FAULT and report.startswith(wrote) and len(wrote) < len(report)
        return (said, wrote) == (status, report)

    def refuse_each(self, kind, name, script):
        plain = self.plain(script)
        _, _, made = self.run(kind, script, -1)
        ends, wrong = {}, 0
        for refused in itertools.count(1):
            said, wrote, calls = self.run(kind, script, refused)
            if calls < refused:
                break
            ends[said] = ends.get(said, 0) + 1
            if not self.is_well(kind, script, plain, refused, said, wrote):
                wrong += 1
                print(f"{kind} {name}: without request {refused} it ended with {said} and wrote {len(wrote)} octets",
                      flush=True)
        self.refused += sum(ends.values())
        if not self.quiet:
            how = ", ".join(f"{count} ended with {end}" for end, count in sorted(ends.items()))
            print(f"{kind:8} {name:12} {made} requests, {sum(ends.values())} refused in turn: {how or 'none'}; "
                  f"{wrong} wrong", flush=True)
        return wrong

    def refuse_all_threads(self, name, script):
        said, wrote, made = self.run("threads", script, 1, [("ALL", "1")])
        is_well = (said, wrote) == self.plain(script)
        self.refused += made
        if not self.quiet or not is_well:
            print(f"{'threads':8} {name:12} {made} requests, all refused in one run: ended with {said}; "
                  f"{int(not is_well)} wrong", flush=True)
        return int(not is_well)


def main():
    asked = argparse.ArgumentParser(description=__doc__, formatter_class=argparse.RawDescriptionHelpFormatter)
    asked.add_argument("--program", default=TOP / "crates/ndnrepo/out/ndnrepo")
    kinds = ["memory", "shortage", "threads", "reads", "writes", "signals"]
    asked.add_argument("--calls", action="append", choices=kinds, help="what is refused")
    asked.add_argument("--quiet", action="store_true", help="print only what is wrong, and one line at the end")
    asked.add_argument("scripts", nargs="*", type=pathlib.Path)
    given = asked.parse_args()
    if not shutil.which("cc"):
        print("refuse_memory.py: there is no C compiler (cc)", file=sys.stderr)
        sys.exit(NO_COMPILER)
    scripts = {it.stem: it.read_bytes() for it in given.scripts}
    if not scripts:
        scripts = {"one_object": ONE_OBJECT.encode(), "claims": CLAIMS.encode(), "insertion": INSERTION.encode(),
                   "every_line": (TOP / "tools/every_line.script").read_bytes()}
    wrong = 0
    with tempfile.TemporaryDirectory() as room:
        trial = Trial(given.program, pathlib.Path(room), given.quiet)
        for kind in given.calls or kinds:
            for name, script in scripts.items():
                wrong += trial.refuse_each(kind, name, script)
                if kind == "threads":
                    wrong += trial.refuse_all_threads(name, script)
    print(f"refuse_memory.py: {trial.refused} requests refused, {wrong} runs ended otherwise than they must", flush=True)
    if not trial.refused and not given.calls:
        sys.exit("refuse_memory.py: the program made no request that can be refused")
    sys.exit(1 if wrong else 0)


if __name__ == "__main__":
    main()
