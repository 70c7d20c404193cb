/* Counts how long the threads of a run of `desk` sleep for turns and hold them, and writes a table of it at the end.
 *
 * It is loaded before the system's library, and stands in for its `syscall`, by which the program lets threads sleep at
 * a word of memory and wakes those that sleep there. parts.h, which `watch` makes, says where in the program the
 * functions of turns and desks are: where a sleep is called from tells what it is for. A word at which somebody has
 * slept for a turn is a turn's word, and who wakes at such a word has given a turn. What needs no call isn't seen: a
 * turn that is free, and one that is given while nobody sleeps for the next. */
#define _GNU_SOURCE
#include <dlfcn.h>
#include <errno.h>
#include <link.h>
#include <linux/futex.h>
#include <pthread.h>
#include <stdarg.h>
#include <stdatomic.h>
#include <stdint.h>
#include <stdio.h>
#include <sys/syscall.h>
#include <time.h>
#include <unistd.h>

/* Whose a function of the program is: that of turns, of callers, of workers, of both of these, or of bells, by which
 * each of them may sleep. */
enum part { OTHER, TURN, CALLER, WORKER, BOTH, BELL };
static const struct { uintptr_t at, size; enum part part; } parts[] = {
#include <parts.h>
};

enum { MOST = 512, WORDS = 4096, STEPS = 8, NEAR = 24 };

/* How often, how long together and how long at most, in nanoseconds: turns that were slept for, the sleeps for them,
 * sleeps at bells, and turns held, by steps. */
struct spell { long count, total, longest; };
enum { TURNS, SLEEPS, BELLS, HELD, SPELLS = HELD + STEPS };

struct thread {
    void *(*begin)(void *);
    void *with;
    enum part part;
    struct spell spells[SPELLS];
    long wakes, woken, processor;
    /* Of the turn that it has last slept for, and hasn't given by a call: its word, how long it has slept for it, when it
     * woke last, and what the word said then. */
    uintptr_t word;
    long slept, since;
    uint32_t said;
};

static struct thread threads[MOST];
static atomic_int begun = 1;
static __thread struct thread *own;
static _Atomic uintptr_t words[WORDS], steps[STEPS];
static uintptr_t base;
static long opened;

static long now(clockid_t of) {
    struct timespec at;
    clock_gettime(of, &at);
    return at.tv_sec * 1000000000L + at.tv_nsec;
}

static void add(struct thread *to, int which, long count, long total, long longest) {
    struct spell *spell = &to->spells[which];
    spell->count += count;
    spell->total += total;
    if (longest > spell->longest) spell->longest = longest;
}

static enum part part_of(uintptr_t at) {
    for (size_t i = 0; i < sizeof parts / sizeof parts[0]; i += 1)
        if (at - base - parts[i].at < parts[i].size) return parts[i].part;
    return OTHER;
}

/* Whose the function is that a call comes from, whose return address is the first word of the stack. Where bells have a
 * function of their own, whose that came from is told by the next word of the stack that is in a known function. */
static enum part caller_of(const uintptr_t *stack) {
    enum part part = part_of(stack[0]);
    for (int i = 1; part == BELL && i < NEAR; i += 1) part = part_of(stack[i]) == OTHER ? BELL : part_of(stack[i]);
    return part;
}

/* The place of a number above 0 in a table, to which it is added where `adds`; -1 where it isn't there. */
static int place_of(_Atomic uintptr_t *table, size_t size, uintptr_t number, int adds) {
    for (size_t i = 0; i < size; i += 1) {
        size_t place = (number / 8 + i) % size;
        uintptr_t found = atomic_load(&table[place]);
        if (found == 0 && adds && atomic_compare_exchange_strong(&table[place], &found, number)) return place;
        if (found == number) return place;
        if (found == 0) return -1;
    }
    return -1;
}

static uint32_t look(uintptr_t word) { return atomic_load((_Atomic uint32_t *)word); }

/* A sleep is over. A turn may take several: a thread may be woken for the turn of another. */
static void count_sleep(uintptr_t word, enum part part, long from, long to) {
    if (part != TURN) {
        own->word = 0;
        if (part != OTHER) add(own, BELLS, 1, to - from, to - from);
        return;
    }
    int is_new = own->word != word;
    own->slept = (is_new ? 0 : own->slept) + to - from;
    add(own, TURNS, is_new, to - from, own->slept);
    add(own, SLEEPS, 1, to - from, to - from);
    own->word = word;
    own->since = to;
    own->said = look(word);
}

/* A turn was given, and who sleeps for the next one was woken. Is it the turn that this thread has slept for? Then the
 * next one's word is as far from its own as ever, by a step that the end of the run tells; or where all turns have one
 * word, it says one more. */
static void count_give(uintptr_t word, long at, long woken) {
    own->wakes += 1;
    own->woken += woken;
    uintptr_t step = word - own->word;
    if (own->word != 0 && (step != 0 || look(word) - own->said == 1)) {
        int place = place_of(steps, STEPS, step | 1, 1);
        if (place >= 0) add(own, HELD + place, 1, at - own->since, at - own->since);
    }
    own->word = 0;
}

long syscall(long number, ...) {
    static long (*real)(long, ...);
    if (!real) real = (long (*)(long, ...))dlsym(RTLD_NEXT, "syscall");
    long with[6];
    va_list rest;
    va_start(rest, number);
    for (int i = 0; i < 6; i += 1) with[i] = va_arg(rest, long);
    va_end(rest);
    enum part part = caller_of((uintptr_t *)__builtin_frame_address(0) + 1);
    int call = own && number == SYS_futex ? with[1] & FUTEX_CMD_MASK : -1;
    if (own && (part == CALLER || part == WORKER)) own->part = part;
    if (call == FUTEX_WAIT && part == TURN) place_of(words, WORDS, with[0], 1);
    long from = now(CLOCK_MONOTONIC);
    long answer = real(number, with[0], with[1], with[2], with[3], with[4], with[5]);
    int error = errno;
    if (call == FUTEX_WAIT && !(answer < 0 && error == EAGAIN)) count_sleep(with[0], part, from, now(CLOCK_MONOTONIC));
    if (call == FUTEX_WAKE && place_of(words, WORDS, with[0], 0) >= 0) count_give(with[0], from, answer);
    errno = error;
    return answer;
}

static void *run(void *with) {
    own = with;
    void *answer = own->begin(own->with);
    own->processor = now(CLOCK_THREAD_CPUTIME_ID);
    return answer;
}

int pthread_create(pthread_t *id, const pthread_attr_t *how, void *(*begin)(void *), void *with) {
    int (*real)(pthread_t *, const pthread_attr_t *, void *(*)(void *), void *) = dlsym(RTLD_NEXT, "pthread_create");
    int number = atomic_fetch_add(&begun, 1);
    if (number >= MOST) return real(id, how, begin, with);
    threads[number] = (struct thread){.begin = begin, .with = with};
    return real(id, how, run, &threads[number]);
}

static int seen(struct dl_phdr_info *program, size_t size, void *to) {
    (void)size;
    *(uintptr_t *)to = program->dlpi_addr;
    return 1;
}

__attribute__((constructor)) static void begin(void) {
    dl_iterate_phdr(seen, &base);
    own = &threads[0];
    opened = now(CLOCK_MONOTONIC);
}

#define MS(nanoseconds) ((nanoseconds) / 1e6)
static void tell_of(const char *name, const char *what, struct thread *of, int step) {
    struct spell turns = of->spells[TURNS], bells = of->spells[BELLS], held = of->spells[HELD + step];
    fprintf(stderr, "%3s %-6s |%7ld%8ld%9.1f%8.2f |%7ld%8.1f%7.2f |%6ld%9.1f%8.2f |%7ld%8ld |%8.1f\n", name, what,
            turns.count, of->spells[SLEEPS].count, MS(turns.total), MS(turns.longest), held.count, MS(held.total),
            MS(held.longest), bells.count, MS(bells.total), MS(bells.longest), of->wakes, of->woken, MS(of->processor));
}

static void add_all(struct thread *to, struct thread *of) {
    for (int i = 0; i < SPELLS; i += 1) add(to, i, of->spells[i].count, of->spells[i].total, of->spells[i].longest);
    to->wakes += of->wakes;
    to->woken += of->woken;
}

static void tell(void) {
    static atomic_int is_told;
    static const char *names[] = {"-", "-", "caller", "worker"};
    if (atomic_exchange(&is_told, 1)) return;
    struct thread all = {0};
    int count = begun < MOST ? begun : MOST, step = 0;
    threads[0].processor = now(CLOCK_THREAD_CPUTIME_ID);
    for (int i = 0; i < count; i += 1) add_all(&all, &threads[i]);
    for (int i = 1; i < STEPS; i += 1)
        if (all.spells[HELD + i].count > all.spells[HELD + step].count) step = i;
    fprintf(stderr, "           |%-32s |%-22s |%-23s |%-15s |%s\n", " slept for turns", " held", " slept otherwise",
            " gave turns", " processor");
    fprintf(stderr, "    is     |  turns  sleeps      all longest |  turns     all longest |sleeps      all longest |"
            "  wakes   woken |     all\n");
    /* Threads that only put text together never sleep for a turn, and are told in one line. */
    struct thread others = {0};
    for (int i = 0; i < count; i += 1) {
        char name[16];
        if (i && threads[i].part == OTHER && !threads[i].spells[TURNS].count) {
            others.processor += threads[i].processor;
            continue;
        }
        snprintf(name, sizeof name, "%d", i + 1);
        tell_of(name, names[threads[i].part], &threads[i], step);
    }
    if (others.processor) tell_of("-", "others", &others, step);
    all.processor = now(CLOCK_PROCESS_CPUTIME_ID);
    tell_of("all", "", &all, step);
    fprintf(stderr, "milliseconds; %.1f by the clock\n", MS(now(CLOCK_MONOTONIC) - opened));
}

__attribute__((destructor)) static void end(void) { tell(); }

void _exit(int status) {
    tell();
    syscall(SYS_exit_group, (long)status);
    __builtin_unreachable();
}
