/* Times two builds of the library beside each other where FORMAT keys are compared: records of one person with 3, 15 or 255
   FORMAT fields are read, and a build's last FORMAT turn is taken, with no key twice and with a last key that repeats another.
   The two are called by turns in one process, on the same buffers and from many depths of the stack: where a library's frame
   lies beside a buffer makes a build a tenth faster or slower, whichever of them it is.
   Prints a line for each case, its parts split by tabs: the least microseconds of a call before and now, and the median of
   now's samples divided by before's beside them.

     against BEFORE.so NOW.so */
#include <alloca.h>
#include <dlfcn.h>
#include <stdio.h>
#include <stdlib.h>
#include <string.h>
#include <time.h>

#include "../include/sikalumdo.h"

enum { SAMPLES = 101, STRINGS = 1024, CONTIGS = 1, PEOPLE = 1, GT = 0, MOST = 4096 };
static const double SAMPLE = 300; /* microseconds that a sample takes at least */

struct Library {
    __typeof__(&sikalumdo_read) read;
    __typeof__(&sikalumdo_fresh) fresh;
    __typeof__(&sikalumdo_begin) begin;
    __typeof__(&sikalumdo_id) id;
    __typeof__(&sikalumdo_allele) allele;
    __typeof__(&sikalumdo_filter) filter;
    __typeof__(&sikalumdo_format_integers) format_integers;
};

/* What both libraries work on: the record that is read, the build whose last turn is taken, and the number that is answered. */
struct Work {
    int fields;
    uint8_t record[MOST], buf[MOST];
    size_t length;
    uint32_t state[SIKALUMDO_STATE_NUMBERS];
    int32_t key;
    uint32_t number;
};

static void check(int holds, const char *what) {
    if (!holds) {
        fprintf(stderr, "against: %s\n", what);
        exit(1);
    }
}

static struct Library load(const char *path) {
    void *file = dlopen(path, RTLD_NOW | RTLD_LOCAL);
    check(file != NULL, "a library does not load");
    struct Library library = {
        dlsym(file, "sikalumdo_read"),   dlsym(file, "sikalumdo_fresh"),  dlsym(file, "sikalumdo_begin"),
        dlsym(file, "sikalumdo_id"),     dlsym(file, "sikalumdo_allele"), dlsym(file, "sikalumdo_filter"),
        dlsym(file, "sikalumdo_format_integers"),
    };
    check(library.read && library.format_integers, "a library has no such functions");
    return library;
}

/* Builds all fields but the last; their keys are 1, 2 and so on. */
static void build(const struct Library *by, struct Work *work) {
    uint8_t *buf = work->buf;
    uint32_t *state = work->state;
    size_t n = SIKALUMDO_STATE_NUMBERS;
    int32_t value = 1;
    by->fresh(state, n);
    by->begin(state, n, buf, MOST, STRINGS, CONTIGS, PEOPLE, GT, 0, 0, 1, SIKALUMDO_FLOAT_MISSING);
    by->id(state, n, buf, MOST, buf, 0);
    by->allele(state, n, buf, MOST, (const uint8_t *)"A", 1);
    by->filter(state, n, buf, MOST, &value, 0);
    for (int32_t key = 1; key < work->fields; key++)
        check(sikalumdo_number(by->format_integers(state, n, buf, MOST, key, 1, &value, 1)) == 0, "a turn is refused");
}

/* Lays the record out by hand, since no builder takes a key twice: each key of type 2, each value one element of type 1. */
static void lay_out(struct Work *work) {
    uint32_t fields = (uint32_t)work->fields;
    uint32_t words[] = {24 + 4, fields * 5, 0, 0, 1, SIKALUMDO_FLOAT_MISSING, 1 << 16, fields << 24 | PEOPLE};
    uint8_t *at = work->record;
    for (size_t word = 0; word < sizeof words / sizeof *words; word++)
        for (int byte = 0; byte < 4; byte++) *at++ = (uint8_t)(words[word] >> 8 * byte);
    memcpy(at, "\x07\x17" "A\x01", 4);
    at += 4;
    for (int field = 1; field <= work->fields; field++, at += 5) {
        int32_t key = field == work->fields ? work->key : field;
        memcpy(at, (uint8_t[]){0x12, (uint8_t)key, (uint8_t)(key >> 8), 0x11, 1}, 5);
    }
    work->length = (size_t)(at - work->record);
}

static uint64_t read_once(const struct Library *by, struct Work *work) {
    uint64_t site[SIKALUMDO_SITE_NUMBERS];
    return by->read(work->record, work->length, STRINGS, CONTIGS, PEOPLE, GT, site, SIKALUMDO_SITE_NUMBERS);
}

/* The turn is taken on a copy of the state, so that each finds the same. */
static uint64_t turn_once(const struct Library *by, struct Work *work) {
    uint32_t state[SIKALUMDO_STATE_NUMBERS];
    int32_t value = 1;
    memcpy(state, work->state, sizeof state);
    return by->format_integers(state, SIKALUMDO_STATE_NUMBERS, work->buf, MOST, work->key, 1, &value, 1);
}

/* The whole build, but for its end. */
static uint64_t build_once(const struct Library *by, struct Work *work) {
    build(by, work);
    return turn_once(by, work);
}

static double now(void) {
    struct timespec time;
    clock_gettime(CLOCK_MONOTONIC, &time);
    return time.tv_sec * 1e6 + time.tv_nsec / 1e3;
}

/* A record and a build with a last key, and the number that it must be answered with. */
static void prepare(const struct Library *by, struct Work *work, int32_t key, uint32_t number) {
    work->key = key;
    work->number = number;
    lay_out(work);
    build(by, work);
}

typedef uint64_t Once(const struct Library *, struct Work *);

/* Microseconds of a call, as the mean of some in a row, made so many bytes deeper on the stack. */
static double sample(Once *once, const struct Library *by, struct Work *work, int calls, size_t deeper) {
    *(volatile char *)alloca(deeper + 1) = 0;
    double start = now();
    for (int call = 0; call < calls; call++) check(sikalumdo_number(once(by, work)) == work->number, "another refusal");
    return (now() - start) / calls;
}

static int by_size(const void *a, const void *b) {
    double x = *(const double *)a, y = *(const double *)b;
    return (x > y) - (x < y);
}

/* Times both by turns, and prints their line. */
static void compare(const struct Library by[2], struct Work *work, const char *name, Once *once) {
    static double before[SAMPLES], after[SAMPLES], ratio[SAMPLES];
    int calls = 1;
    while (sample(once, &by[0], work, calls, 0) * calls < SAMPLE) calls *= 2;
    for (int turn = 0; turn < SAMPLES; turn++) {
        size_t deeper = (size_t)turn * 4096 / SAMPLES;
        before[turn] = sample(once, &by[0], work, calls, deeper);
        after[turn] = sample(once, &by[1], work, calls, deeper);
        ratio[turn] = after[turn] / before[turn];
    }
    qsort(before, SAMPLES, sizeof(double), by_size);
    qsort(after, SAMPLES, sizeof(double), by_size);
    qsort(ratio, SAMPLES, sizeof(double), by_size);
    printf("%3d FORMAT fields, %s\t%.3f\t%.3f\t%.3f\n", work->fields, name, before[0], after[0], ratio[SAMPLES / 2]);
}

int main(int count, char **words) {
    static struct Work work;
    static const int fields[] = {3, 15, 255};
    check(count == 3, "usage: against BEFORE.so NOW.so");
    const struct Library by[2] = {load(words[1]), load(words[2])};
    for (size_t each = 0; each < sizeof fields / sizeof *fields; each++) {
        work.fields = fields[each];
        prepare(&by[0], &work, fields[each], 0);
        compare(by, &work, "read, no key twice", read_once);
        compare(by, &work, "build, no key twice", build_once);
        compare(by, &work, "turn, no key twice", turn_once);
        prepare(&by[0], &work, fields[each] - 1, 11);
        compare(by, &work, "read, the neighbour's", read_once);
        compare(by, &work, "turn, the neighbour's", turn_once);
        prepare(&by[0], &work, 1, 11);
        compare(by, &work, "read, the first one's", read_once);
        compare(by, &work, "turn, the first one's", turn_once);
    }
    return 0;
}
