/* Times htslib at what the bench times: a file of one record many times, lent from memory, is read to its end, and each
   record is unpacked, tallied, cut to the people who stay, printed without its INFO field, or built again. Prints the
   median and the least microseconds for one record over samples of some records each. htslib judges less than the library
   does: descriptors and keys, but no elements.

     htslib (read|tally|choose|build|line) FILE RECORDS */
#include <htslib/hfile.h>
#include <htslib/vcf.h>
#include <htslib/vcfutils.h>
#include <stdio.h>
#include <stdlib.h>
#include <string.h>
#include <time.h>

enum { SAMPLES = 301, GONE = 40 };

static void *must(void *pointer) {
    if (!pointer) {
        perror("htslib");
        exit(1);
    }
    return pointer;
}

static void check(int holds, const char *what) {
    if (!holds) {
        fprintf(stderr, "htslib: %s\n", what);
        exit(1);
    }
}

static double now(void) {
    struct timespec time;
    clock_gettime(CLOCK_MONOTONIC, &time);
    return time.tv_sec * 1e6 + time.tv_nsec / 1e3;
}

static int by_size(const void *a, const void *b) {
    double x = *(const double *)a, y = *(const double *)b;
    return (x > y) - (x < y);
}

/* What a pass works with: the values that building gives, the map of people that choosing keeps. */
struct Work {
    const char *task;
    bcf_hdr_t *header, *chosen;
    int *map, stay;
    int32_t *gt, *dp, *gq;
    int ngt, ndp, ngq;
    bcf1_t *built;
    htsFile *nowhere;
    int calls[2];
    kstring_t line;
};

static void tally(struct Work *work, bcf1_t *record) {
    check(bcf_unpack(record, BCF_UN_ALL) == 0, "not unpacked");
    check(bcf_calc_ac(work->header, record, work->calls, BCF_UN_FMT) == 1, "not counted");
}

/* Prints the record over the line before, whose room is kept. */
static void print(struct Work *work, bcf1_t *record) {
    check(bcf_unpack(record, BCF_UN_ALL) == 0, "not unpacked");
    check(bcf_update_info_int32(work->header, record, "TD", NULL, 0) == 0, "INFO not removed");
    work->line.l = 0;
    check(vcf_format(work->header, record, &work->line) == 0, "not printed");
}

/* Encodes the record from plain numbers and writes it where nothing is kept. */
static void build(struct Work *work) {
    bcf1_t *record = work->built;
    int32_t depth = 14;
    bcf_clear(record);
    record->rid = 0;
    record->pos = 14369;
    record->qual = 29;
    bcf_update_alleles_str(work->header, record, "G,A");
    bcf_update_info_int32(work->header, record, "TD", &depth, 1);
    bcf_update_genotypes(work->header, record, work->gt, work->ngt);
    if (work->dp) bcf_update_format_int32(work->header, record, "DP", work->dp, work->ndp);
    if (work->gq) bcf_update_format_int32(work->header, record, "GQ", work->gq, work->ngq);
    check(bcf_write(work->nowhere, work->header, record) == 0, "not written");
}

static void do_task(struct Work *work, bcf1_t *record) {
    if (!strcmp(work->task, "read"))
        check(bcf_unpack(record, BCF_UN_ALL) == 0, "not unpacked");
    else if (!strcmp(work->task, "tally"))
        tally(work, record);
    else if (!strcmp(work->task, "line"))
        print(work, record);
    else
        check(bcf_subset(work->header, record, work->stay, work->map) == 0, "not cut");
}

/* The numbers that the first record holds, for building. */
static void take_values(struct Work *work, bcf1_t *record) {
    int gt = 0, dp = 0, gq = 0;
    work->ngt = bcf_get_genotypes(work->header, record, &work->gt, &gt);
    work->ndp = bcf_get_format_int32(work->header, record, "DP", &work->dp, &dp);
    work->ngq = bcf_get_format_int32(work->header, record, "GQ", &work->gq, &gq);
    check(work->ngt > 0, "no genotypes");
}

/* The map of those who stay where some people have gone, spread over all. */
static void take_choice(struct Work *work) {
    int people = bcf_hdr_nsamples(work->header), every = people / GONE;
    char **names = must(malloc(people * sizeof *names));
    work->map = must(malloc(people * sizeof *work->map));
    for (int person = 0; person < people; person++)
        if (every == 0 || person % every != every / 2) names[work->stay++] = work->header->samples[person];
    work->chosen = must(bcf_hdr_subset(work->header, work->stay, names, work->map));
    free(names);
}

/* Opens the file's bytes where they lie in memory; the reader frees the copy that it gets. */
static htsFile *open_bytes(const char *bytes, size_t length) {
    char *copy = must(malloc(length));
    memcpy(copy, bytes, length);
    return must(hts_hopen(must(hopen("mem:", "r:", copy, length)), "memory", "r"));
}

/* The file, opened again where it ends, and the record that is read from it. */
struct Reader {
    const char *bytes;
    size_t length;
    htsFile *file;
    bcf1_t *record;
};

/* Opens the file at its first record; the header is the same each time, so the first one is kept. */
static void reopen(struct Reader *reader, struct Work *work) {
    if (reader->file) hts_close(reader->file);
    reader->file = open_bytes(reader->bytes, reader->length);
    bcf_hdr_t *header = must(bcf_hdr_read(reader->file));
    if (work->header)
        bcf_hdr_destroy(header);
    else
        work->header = header;
}

/* Does the task some times; gives the microseconds for a record, or less than 0 where the file ends before. */
static double sample(struct Reader *reader, struct Work *work, int records) {
    int is_building = !strcmp(work->task, "build");
    double start = now();
    for (int number = 0; number < records; number++) {
        if (is_building)
            build(work);
        else if (bcf_read(reader->file, work->header, reader->record) == 0)
            do_task(work, reader->record);
        else
            return -1;
    }
    return (now() - start) / records;
}

/* The header, the choice, and the values of the first record, with a file to build into. */
static void prepare(struct Reader *reader, struct Work *work) {
    reopen(reader, work);
    take_choice(work);
    check(bcf_read(reader->file, work->header, reader->record) == 0, "no record");
    take_values(work, reader->record);
    work->built = must(bcf_init());
    work->nowhere = must(hts_open("/dev/null", "wbu"));
    check(bcf_hdr_write(work->nowhere, work->header) == 0, "no header written");
}

static char *whole_file(const char *name, size_t *length) {
    FILE *file = must(fopen(name, "rb"));
    fseek(file, 0, SEEK_END);
    *length = ftell(file);
    rewind(file);
    char *bytes = must(malloc(*length));
    check(fread(bytes, 1, *length, file) == *length, "a file that ends early");
    fclose(file);
    return bytes;
}

int main(int count, char **words) {
    check(count == 4, "usage: htslib (read|tally|choose|build|line) FILE RECORDS");
    struct Work work = {.task = words[1]};
    struct Reader reader = {.record = must(bcf_init())};
    reader.bytes = whole_file(words[2], &reader.length);
    int records = atoi(words[3]);
    prepare(&reader, &work);
    double times[SAMPLES];
    for (int number = 0; number < SAMPLES;) {
        times[number] = sample(&reader, &work, records);
        if (times[number] < 0)
            reopen(&reader, &work);
        else
            number++;
    }
    qsort(times, SAMPLES, sizeof *times, by_size);
    printf("%f %f\n", times[SAMPLES / 2], times[0]);
    return 0;
}
