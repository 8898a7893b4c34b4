#!/usr/bin/env python3
"""Refuses the memory of the program, once at each place where it asks for some, and from each place on.

    bench/refused_growths.py PROGRAM [--places FROM TO STEP]

PROGRAM is a built code_tables. A small C library, which is compiled here, is loaded before it: it counts what asks the system for memory
(malloc, calloc, realloc, aligned_alloc, posix_memalign), and gives nothing at one place, or from one place on. The program runs a session
with each kind of document and each command, derivations that it verifies or doesn't, entries of `find`, a sample, and command lines that are
refused. Each run has to end as the run without a refusal, with the same output, or with the status 6, a prefix of that output and a line on
standard error. Prints how many runs did which, and ends with 1 where one did neither. Places of a session are many: --places tries some of
them. A mode that the program doesn't have yet is passed over. Wants cc."""

import argparse
import collections
import os
import shlex
import subprocess
import sys
import tempfile
from pathlib import Path

TOP = Path(__file__).resolve().parent.parent
USAGE, MEMORY = 2, 6
SAID = b"code_tables: out of memory\n"

SHIM = r"""
#define _GNU_SOURCE
#include <dlfcn.h>
#include <errno.h>
#include <stdlib.h>
#include <stdio.h>
#include <unistd.h>

/* Refuses the place number REFUSE_AT, from 1, and all later ones where REFUSE_ON is set. Says how many places there were on the file number REFUSE_TELL. */
static long at = -1, asked;
static int on, ready;
static char early[65536];
static size_t used;

static void start(void) {
    if (ready) return;
    ready = 1;
    const char *text = getenv("REFUSE_AT");
    at = text ? atol(text) : 0;
    on = getenv("REFUSE_ON") != NULL;
}
static int is_refused(void) {
    start();
    asked++;
    if (at > 0 && (asked == at || (on && asked > at))) { errno = ENOMEM; return 1; }
    return 0;
}
static void *next(const char *name) { return dlsym(RTLD_NEXT, name); }

void *malloc(size_t size) {
    static void *(*real)(size_t);
    if (!real) real = next("malloc");
    return is_refused() ? NULL : real(size);
}
void *calloc(size_t count, size_t size) {
    static void *(*real)(size_t, size_t);
    static int looking;
    if (!real) {
        if (looking) { void *gives = early + used; used += (count * size + 15) & ~15UL; return gives; }
        looking = 1;
        real = next("calloc");
        looking = 0;
    }
    return is_refused() ? NULL : real(count, size);
}
void *realloc(void *old, size_t size) {
    static void *(*real)(void *, size_t);
    if (!real) real = next("realloc");
    return is_refused() ? NULL : real(old, size);
}
void *aligned_alloc(size_t align, size_t size) {
    static void *(*real)(size_t, size_t);
    if (!real) real = next("aligned_alloc");
    return is_refused() ? NULL : real(align, size);
}
int posix_memalign(void **into, size_t align, size_t size) {
    static int (*real)(void **, size_t, size_t);
    if (!real) real = next("posix_memalign");
    return is_refused() ? ENOMEM : real(into, align, size);
}
void free(void *old) {
    static void (*real)(void *);
    if (!real) real = next("free");
    if ((char *)old < early || (char *)old >= early + sizeof early) real(old);
}
__attribute__((destructor)) static void tell(void) {
    char text[32];
    int length = snprintf(text, sizeof text, "%ld\n", asked);
    if (getenv("REFUSE_TELL")) (void)!write(atoi(getenv("REFUSE_TELL")), text, length);
}
"""

CITES = ", ".join(f'"page {i}"' for i in range(1, 17))
WORDS = f'submit hexa\nkind = "words"\nformat = 2\nn = 10\nd = 6\nwords = ["1111111111", "1111000000", "1000111000"]\ncites = [{CITES}]\nend\n'
WEIGHT = 'submit fano lines 5\nkind = "words"\nn = 6\nd = 4\nw = 3\nwords = ["111000", "100110", "010101", "001011"]\n'
DUALS = '''submit d13
kind = "dual"
n = 13
d = 6
even = true
c = [5, 1, 1]
y = [[10, 16], [12, 48]]
end
submit j8
kind = "jdual"
n = 8
d = 4
w = 4
c = [48, 21, 4]
end
'''
ODD = '''submit o9
kind = "odd"
n = 9
d = 4
even = true
m = 21
c = [3, 1, 1]
y = [[8, 16]]
end
'''
PARTITION = 'submit p4\nkind = "partition"\nn = 4\nd = 4\nd1 = 2\nclasses = [["0000", "1111"], ["0011", "1100"], ["0101", "1010"], ["0110", "1001"]]\nend\n'
PRODUCT = 'submit e8\nkind = "product"\nn = 8\nd = 4\npairs = [["p4", "p4"]]\nend\n'
BUILDS = [("lengthen", 11, 6, ""), ("append_one", 11, 6, ""), ("parity", 11, 6, ""), ("puncture", 9, 5, "places = [0]\n"),
          ("shorten", 9, 6, 'places = [0]\ndigits = "1"\n'), ("translate", 10, 6, 'by = "1111111111"\n'), ("complement", 10, 6, ""),
          ("select", 10, 6, 'w = 4\nby = "0000000000"\n'), ("uuv", 20, 6, 'other = "hexa"\n'), ("juxtapose", 20, 12, 'other = "hexa"\n'),
          ("trim", 10, 6, "size = 2\n")]
COMMANDS = "show 10 6\nshow 6 4 3\ntable 30\ntable 6 3\nexplain lower 10 6\nexplain upper 13 6\nexplain upper 9 4\nlist 10 6\nlist 6 4 3\nledger\ndump\n"
REFUSED = "submit hexa\nend\nsubmit a\nkind = 3\nend\nwithdraw none\nwithdraw hexa\nwithdraw none all\nshow 2 2\nfoo\n"


def session():
    """A session with each kind and each command that the program has."""
    builds = "".join(f'submit b-{op.replace("_", "-")}\nkind = "build"\nop = "{op}"\nn = {n}\nd = {d}\npart = "hexa"\n{more}end\n'
                     for op, n, d, more in BUILDS)
    golay = (TOP / "examples/golay.session").read_text()
    return WORDS + WEIGHT + golay + DUALS + ODD + PARTITION + PRODUCT + builds + COMMANDS + "withdraw b-trim\n" + REFUSED + "withdraw hexa all\nsubmit c\n"


# The words of a command line, and the input.
MODES = [
    (["session"], session()),
    (["verify"], "derivation\nline 1 lower 3 4 value 1 by L1\nline 2 lower 6 4 value 4 by L8 from 1\nline 3 lower 5 3 value 4 by L6 from 2\ndone\n"),
    (["verify"], "derivation\nevidence d13\n" + DUALS.split("end\n")[0].removeprefix("submit d13\n") + "end\nline 1 upper 13 6 value 32 by U11 d13\ndone\n"),
    (["verify"], "derivation\nevidence o9\n" + ODD.removeprefix("submit o9\n") + "line 1 upper 9 4 8 value 1 by V1\n"
                 "line 2 upper 9 4 value 20 by U12 o9 from 1\ndone\n"),
    (["verify"], "derivation\nevidence a\nkind = 'dual'\nn = 13\nd = 6\nc = [1]\nend\nline 1 lower 3 4 value 1 by L1\ndone\n"),
    (["find"], "16 6\n8 4 4\n6 6\n40 4\nfoo\n"),
    (["sample", "--number", "3"], ""),
    (["tables"], ""),
    ([], ""),
]
# Words that are no command in any case.
NO_COMMANDS = (["tables"], [])


class Trial:
    """A program that is run with refusals."""

    def __init__(self, program, library, words, text, folder):
        self.command = [*shlex.split(program), *words]
        self.library, self.input, self.told = library, folder / "input", folder / "told"
        self.input.write_text(text)
        self.said = b""

    def run(self, at=0, on=False):
        """The status, the output and how many places asked for memory; keeps what was said on standard error."""
        more = {"LD_PRELOAD": str(self.library), "REFUSE_AT": str(at)} | ({"REFUSE_ON": "1"} if on else {})
        with open(self.input, "rb") as source, open(self.told, "wb") as told:
            more["REFUSE_TELL"] = str(told.fileno())
            ended = subprocess.run(self.command, stdin=source, capture_output=True, pass_fds=(told.fileno(),), env=os.environ | more, timeout=600)
        self.said = ended.stderr
        return ended.returncode, ended.stdout, int(self.told.read_bytes() or 0)


def places(count, options):
    """The places that are tried."""
    start, stop, step = options.places or (1, count, 1)
    return range(start, min(stop, count) + 1, step)


def main():
    parser = argparse.ArgumentParser(description=__doc__, formatter_class=argparse.RawDescriptionHelpFormatter)
    parser.add_argument("program")
    parser.add_argument("--places", nargs=3, type=int, metavar=("FROM", "TO", "STEP"), help="which places are tried, from 1 on")
    options = parser.parse_args()
    wrong = 0
    with tempfile.TemporaryDirectory() as folder:
        folder = Path(folder)
        (folder / "refuse.c").write_text(SHIM)
        library = folder / "refuse.so"
        subprocess.run(["cc", "-O2", "-shared", "-fPIC", "-o", library, folder / "refuse.c", "-ldl"], check=True)
        for words, text in MODES:
            trial = Trial(options.program, library, words, text, folder)
            status, output, count = trial.run()
            if status == USAGE and words not in NO_COMMANDS:
                print(f"{' '.join(words)}: no command of this program, passed over", flush=True)
                continue
            ends = collections.Counter()
            for on in (False, True):
                for at in places(count, options):
                    came, wrote, _ = trial.run(at, on)
                    if (came, wrote) == (status, output):
                        ends["whole"] += 1
                    elif came == MEMORY and output.startswith(wrote) and trial.said == SAID:
                        ends["memory"] += 1
                    else:
                        ends["wrong"] += 1
                        print(f"{' '.join(words) or 'no words'}: place {at}{' and all later' if on else ''}: status {came}, {len(wrote)} bytes of output")
            wrong += ends["wrong"]
            print(f"{' '.join(words) or 'no words'}: status {status}, {count} places: {ends['memory']} runs ended with status {MEMORY} and a prefix, "
                  f"{ends['whole']} as without a refusal, {ends['wrong']} otherwise", flush=True)
    sys.exit(bool(wrong))


if __name__ == "__main__":
    main()
