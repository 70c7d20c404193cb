#!/usr/bin/env python3
"""Refuses each allocation of a set of commands in turn, and each read, write and thread of the system, and looks at
every end.

    refuse.py PROGRAM [NAME..]

PROGRAM is the path of the built program. A library that is loaded before the system's (it is made by `cc`) counts the
calls that take memory, or that open, read, write or begin a thread, and lets the call of a number fail. Each command
first runs undisturbed, which tells its text, its status and how many calls it makes; then it runs once for each call. A
run ends well with the status and the text from before, or where memory is refused with 9 and a first part of a right
text, where a read fails with 3 and the line that names the file, where a write fails with 7 and a first part. Anything
else, a signal among it, is told with the command and the number. With NAMEs only commands that have one of them in
their words run. Of two callers each order of their steps is a right text. It is no part of the gate.
"""

import collections
import itertools
import os
import struct
import subprocess
import sys
import tempfile

SHIM = r"""
#define _GNU_SOURCE
#include <dlfcn.h>
#include <errno.h>
#include <fcntl.h>
#include <pthread.h>
#include <stdarg.h>
#include <stdatomic.h>
#include <stdlib.h>
#include <sys/mman.h>
#include <unistd.h>

/* How many calls were made of each sort: those that take memory, read, write, open and begin a thread. */
static atomic_long own[5], *seen = own;
static long wanted;
static int sort = -1;

extern void *__libc_malloc(size_t), *__libc_calloc(size_t, size_t), *__libc_realloc(void *, size_t);
extern void *__libc_memalign(size_t, size_t);

__attribute__((constructor)) static void begin(void) {
    const char *refused = getenv("REFUSE"), *name = getenv("REFUSE_COUNTS");
    int (*real)(const char *, int, ...) = dlsym(RTLD_NEXT, "open");
    int file = name ? real(name, O_RDWR) : -1;
    void *shared = mmap(0, sizeof own, PROT_READ | PROT_WRITE, MAP_SHARED, file, 0);
    close(file);
    if (shared == MAP_FAILED) abort();
    seen = shared;
    if (refused) {
        wanted = atol(refused + 1);
        sort = refused[0] - '0';
    }
}

static int fails(int of) { return atomic_fetch_add(&seen[of], 1) + 1 == wanted && of == sort; }

#define TAKES(call) if (fails(0)) { errno = ENOMEM; return 0; } return call
void *malloc(size_t size) { TAKES(__libc_malloc(size)); }
void *calloc(size_t n, size_t size) { TAKES(__libc_calloc(n, size)); }
void *realloc(void *at, size_t size) { TAKES(__libc_realloc(at, size)); }
void *aligned_alloc(size_t to, size_t size) { TAKES(__libc_memalign(to, size)); }
int posix_memalign(void **at, size_t to, size_t size) {
    if (fails(0)) return ENOMEM;
    *at = __libc_memalign(to, size);
    return *at ? 0 : ENOMEM;
}

#define REAL(type, name, ...) type (*real)(__VA_ARGS__) = dlsym(RTLD_NEXT, name)
ssize_t read(int file, void *at, size_t size) {
    REAL(ssize_t, "read", int, void *, size_t);
    if (fails(1)) { errno = EIO; return -1; }
    return real(file, at, size);
}
ssize_t write(int file, const void *at, size_t size) {
    REAL(ssize_t, "write", int, const void *, size_t);
    if (fails(2)) { errno = EIO; return -1; }
    return real(file, at, size);
}
int open(const char *path, int flags, ...) {
    va_list more;
    va_start(more, flags);
    int mode = va_arg(more, int);
    va_end(more);
    REAL(int, "open", const char *, int, ...);
    if (fails(3)) { errno = EACCES; return -1; }
    return real(path, flags, mode);
}
int pthread_create(pthread_t *id, const pthread_attr_t *how, void *(*what)(void *), void *of) {
    REAL(int, "pthread_create", pthread_t *, const pthread_attr_t *, void *(*)(void *), void *);
    return fails(4) ? EAGAIN : real(id, how, what, of);
}
"""

SORTS = ("memory", "read", "write", "open", "thread")
SECONDS = 60

LOAN = ('[{"contractID":"R1","contractType":"PAM","contractRole":"RPA","statusDate":"2019-12-31","currency":"EUR",'
        '"initialExchangeDate":"2020-01-01","maturityDate":"2022-01-01","notionalPrincipal":1000,"nominalInterestRate":0.05,'
        '"dayCountConvention":"30E360","cycleOfInterestPayment":"P1YL1","cycleAnchorDateOfRateReset":"2021-01-01",'
        '"marketObjectCodeOfRateReset":"EUR12M"}]\n')
FILES = {
    "loan.json": LOAN,
    "low.txt": '{"rate":{"code":"EUR12M","date":"2020-06-01","value":0.03}}\n{"ask":"R1"}\n',
    "high.txt": '{"rate":{"code":"EUR12M","date":"2020-06-01","value":0.04}}\n{"ask":"R1"}\n',
    "wrong.json": '[{"contractID":"R1","contractType":"PAM","x":[1,{"y":"z"}]}]\n',
    "wrong.txt": '{"ask":"R1"}\n{"ask":"R2"}\n',
}
FILES["long.json"] = "[%s]\n" % ",\n".join(
    '{"contractID":"L%d","contractType":"PAM","contractRole":"RPA","statusDate":"2019-12-31","currency":"EUR",'
    '"initialExchangeDate":"2020-01-01","maturityDate":"2050-01-01","notionalPrincipal":1000,"nominalInterestRate":0.05,'
    '"dayCountConvention":"30E360","cycleOfInterestPayment":"P1ML1"}' % number for number in range(12))
EXAMPLES = ("swap", "guarantee", "option", "mortgage", "collateral")
COMMANDS = [
    ["check", "loan.json"], ["check", "wrong.json"], ["check", "swap.json"], ["check", "guarantee.json"],
    ["eval", "loan.json"], ["eval", "loan.json", "low.txt"], ["eval", "loan.json", "wrong.txt"], ["eval", "wrong.json"],
    ["eval"], ["eval", "long.json"],
] + [["eval", f"{name}.json", f"{name}.txt"] for name in EXAMPLES] + [
    ["desk", "1", "loan.json", "low.txt"], ["desk", "4", "loan.json", "low.txt", "high.txt"],
    ["desk", "2", "guarantee.json", "guarantee.txt"], ["desk", "1", "loan.json", "low.txt", "wrong.txt"],
    ["big", "1", "1"], ["big", "3", "4"],
]

End = collections.namedtuple("End", "status text")


class Runner:
    def __init__(self, program, folder):
        self.program, self.folder = os.path.abspath(program), folder
        source = os.path.join(folder, "refuse.c")
        with open(source, "w", encoding="ascii") as out:
            out.write(SHIM)
        self.shim = os.path.join(folder, "refuse.so")
        subprocess.run(["cc", "-O1", "-shared", "-fPIC", "-o", self.shim, source, "-ldl"], check=True)

    def run(self, words, refused=None):
        """How a command ends, and how many calls of each sort it made."""
        counts = os.path.join(self.folder, "counts")
        with open(counts, "wb") as out:
            out.write(bytes(8 * len(SORTS)))
        more = {"LD_PRELOAD": self.shim, "REFUSE_COUNTS": counts}
        if refused:
            more["REFUSE"] = refused
        try:
            ended = subprocess.run([self.program, *words], cwd=self.folder, env=os.environ | more, timeout=SECONDS,
                                   stdout=subprocess.PIPE, stderr=subprocess.DEVNULL, check=False)
        except subprocess.TimeoutExpired:
            return End("no end", b""), [0] * len(SORTS)
        with open(counts, "rb") as told:
            made = struct.unpack(f"{len(SORTS)}q", told.read())
        return End(ended.returncode, ended.stdout), made

    def right(self, words):
        """The right ends of a command: of a desk one for each order of its callers' steps, by what `eval` says of it."""
        end, _ = self.run(words)
        if words[0] != "desk" or end.status not in (0, 8):
            return [end]
        scripts = []
        for name in words[3:]:
            with open(os.path.join(self.folder, name), encoding="ascii") as lines:
                scripts.append([line for line in lines if line.strip()])
        callers = [caller for caller, script in enumerate(scripts) for _ in script]
        return [self.played(words[2], scripts, order) for order in sorted(set(itertools.permutations(callers)))] \
            if len(scripts) > 1 else [end]

    def played(self, portfolio, scripts, order):
        rests = [iter(script) for script in scripts]
        with open(os.path.join(self.folder, "order.txt"), "w", encoding="ascii") as out:
            out.writelines(next(rests[caller]) for caller in order)
        end, _ = self.run(["eval", portfolio, "order.txt"])
        head, *blocks = end.text.decode().split("\nanswer ")
        lines = head.split("\n")
        journal = [f"{caller + 1} {line.split(' ', 1)[1]}" for caller, line in zip(order, lines[1:])]
        asks = [caller for caller, line in zip(order, lines[1:]) if line.split(" ")[1] == "ask"]
        blocks[-1] = blocks[-1].split("\nwork ")[0]
        answers, given = [], collections.Counter()
        for caller, block in zip(asks, blocks):
            given[caller] += 1
            _, _, rest = block.split(" ", 2)
            answers.append((caller, given[caller], f"answer {caller + 1} {given[caller]} {rest}"))
        text = "\n".join([lines[0], *journal, lines[-1], *(answer[2] for answer in sorted(answers))]) + "\n"
        return End(end.status, text.encode())


def judged(sort, words, end, right):
    """What sort of end it is, or None where it is none that may be."""
    if end in right and sort != "write":
        return "as before"
    is_part = any(one.text.startswith(end.text) for one in right)
    if sort == "memory" and end.status == 9 and is_part:
        return "9, and " + ("a first part" if end.text else "nothing")
    if sort in ("read", "open") and end.status == 3 and end.text.decode() in [f"read {word}\n" for word in words[1:]]:
        return "3, and the file's name"
    if sort == "write" and end.status == 7 and is_part:
        return "7, and " + ("a first part" if end.text else "nothing")
    return None


def main(arguments):
    if not arguments:
        sys.exit(__doc__)
    names = arguments[1:]
    examples = os.path.join(os.path.dirname(os.path.abspath(__file__)), "..", "..", "examples")
    wrong = 0
    totals = collections.Counter()
    with tempfile.TemporaryDirectory() as folder:
        for name, text in FILES.items():
            with open(os.path.join(folder, name), "w", encoding="ascii") as out:
                out.write(text)
        for name in EXAMPLES:
            for end in (".json", ".txt"):
                os.symlink(os.path.join(examples, name + end), os.path.join(folder, name + end))
        runner = Runner(arguments[0], folder)
        for words in COMMANDS:
            if names and not any(name in " ".join(words) for name in names):
                continue
            right = runner.right(words)
            _, made = runner.run(words)
            for place, sort in enumerate(SORTS):
                ends = collections.Counter()
                for number in range(1, made[place] + 1):
                    end, _ = runner.run(words, f"{place}{number}")
                    kind = judged(sort, words, end, right)
                    if kind is None:
                        wrong += 1
                        print(f"wrong: {' '.join(words)}: {sort} {number}: {end.status} {end.text[-60:]!r}", flush=True)
                    ends[kind or "wrong"] += 1
                    totals[sort, kind or "wrong"] += 1
                told = "; ".join(f"{count} {kind}" for kind, count in sorted(ends.items()))
                print(f"{' '.join(words)}: {made[place]} of {sort}: {told}", flush=True)
    for (sort, kind), count in sorted(totals.items()):
        print(f"all, {sort}: {count} {kind}")
    return 1 if wrong else 0


if __name__ == "__main__":
    sys.exit(main(sys.argv[1:]))
