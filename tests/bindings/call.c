/*
 * Calls every function of the library from C on the record of samples/two-people.hex and holds the answers, and what
 * stands in lent memory afterwards, to the rules. `call FILE` prints what is wrong and, last, how many tests ran.
 */
#include "sikalumdo.h"

#include <stdio.h>
#include <stdlib.h>
#include <string.h>

enum { RECORD = 50, BARE = 44, ROOM = 200 };

/* The places of the allele and INFO counts, and of the FORMAT and people counts. */
enum { SITE_COUNTS = 24, GENOTYPE_COUNTS = 28 };

static const uint32_t STRINGS = 4, CONTIGS = 1, PEOPLE = 2, GT = 3;

/* The sample's record, in memory of just its size, so that valgrind sees a byte read past it. */
static uint8_t *record;
static int wrong, tests;

#define CHECK(holds) check((holds) ? 1 : 0, #holds, __LINE__)

static void check(int holds, const char *what, int line)
{
    if (holds)
        return;
    wrong++;
    printf("call.c:%d: not so: %s\n", line, what);
}

/* Whether an answer is that of a refusal, or, with number 0, of that length. */
static int is(uint64_t answer, uint32_t number, uint32_t low)
{
    if (sikalumdo_number(answer) == number && sikalumdo_low(answer) == low)
        return 1;
    printf("call.c: %u %u instead of %u %u\n", (unsigned)sikalumdo_number(answer), (unsigned)sikalumdo_low(answer),
           (unsigned)number, (unsigned)low);
    return 0;
}

static uint64_t read_into(const uint8_t *s, size_t count, uint64_t *out, size_t room)
{
    return sikalumdo_read(s, count, STRINGS, CONTIGS, PEOPLE, GT, out, room);
}

static uint64_t fetch_into(uint32_t kind, uint32_t number, uint64_t *out, size_t room)
{
    return sikalumdo_fetch(record, RECORD, STRINGS, CONTIGS, PEOPLE, GT, kind, number, out, room);
}

static uint64_t field_into(const uint64_t *site, size_t numbers, uint32_t kind, uint32_t number, uint64_t *out,
                           size_t room)
{
    return sikalumdo_field_of(record, RECORD, site, numbers, kind, number, out, room);
}

static uint64_t tally_into(const uint8_t *s, size_t count, uint64_t *out, size_t room)
{
    return sikalumdo_tally(s, count, STRINGS, CONTIGS, PEOPLE, GT, out, room);
}

static uint64_t choose_into(const uint32_t *choice, size_t count, uint8_t *buf, size_t room)
{
    return sikalumdo_choose(record, RECORD, STRINGS, CONTIGS, PEOPLE, GT, choice, count, buf, room);
}

/* Whether every byte of memory is still the one that it was filled with. */
static int untouched(const void *memory, size_t count)
{
    const uint8_t *bytes = (const uint8_t *)memory;
    size_t i;
    for (i = 0; i < count; i++)
        if (bytes[i] != 0xA5)
            return 0;
    return 1;
}

/* Whether a field's numbers are key, type, length, place and stop as they are given. */
static int tells(const uint64_t *out, const uint32_t *given)
{
    size_t k;
    for (k = 0; k < SIKALUMDO_FIELD_NUMBERS; k++)
        if (out[k] != given[k])
            return 0;
    return 1;
}

static void test_reading(void)
{
    static const uint64_t told[SIKALUMDO_SITE_NUMBERS] = {50, 43, 0, 14369, 1, 0x41E80000, 2, 1, 1, 2, 1, 2, 46};
    uint64_t out[SIKALUMDO_SITE_NUMBERS + 1];
    memset(out, 0xA5, sizeof out);
    CHECK(is(read_into(record, RECORD, out, SIKALUMDO_SITE_NUMBERS + 1), 0, RECORD));
    CHECK(memcmp(out, told, sizeof told) == 0);
    CHECK(untouched(out + SIKALUMDO_SITE_NUMBERS, sizeof out[0]));
    CHECK(sikalumdo_vcf_pos((uint32_t)out[SIKALUMDO_SITE_POS]) == 14370);
    CHECK(sikalumdo_vcf_pos(UINT32_C(4294967295)) == 0 && sikalumdo_vcf_pos(2147483646) == INT32_MAX);
    CHECK(is(sikalumdo_read(record, RECORD, STRINGS, CONTIGS, PEOPLE, 0xFFFFFFFF, out, SIKALUMDO_SITE_NUMBERS), 0,
             RECORD));
    CHECK(out[SIKALUMDO_SITE_GT_TYPE] == 0 && out[SIKALUMDO_SITE_GT_LENGTH] == 0 && out[SIKALUMDO_SITE_GT_PLACE] == 0);
}

static void test_fetching(void)
{
    /* kind, number, bytes; then key, type, length, place, stop */
    static const uint32_t fields[6][8] = {{SIKALUMDO_KIND_ID, 0, 0, 0, SIKALUMDO_TYPE_TEXT, 0, 33, 33},
                                          {SIKALUMDO_KIND_ALLELE, 0, 1, 0, SIKALUMDO_TYPE_TEXT, 1, 34, 35},
                                          {SIKALUMDO_KIND_ALLELE, 1, 1, 0, SIKALUMDO_TYPE_TEXT, 1, 36, 37},
                                          {SIKALUMDO_KIND_FILTER, 0, 1, 0, SIKALUMDO_TYPE_INT8, 1, 38, 39},
                                          {SIKALUMDO_KIND_INFO, 0, 1, 2, SIKALUMDO_TYPE_INT8, 1, 42, 43},
                                          {SIKALUMDO_KIND_FORMAT, 0, 4, 3, SIKALUMDO_TYPE_INT8, 2, 46, 50}};
    uint64_t out[SIKALUMDO_FIELD_NUMBERS];
    size_t i;
    for (i = 0; i < 6; i++) {
        CHECK(is(fetch_into(fields[i][0], fields[i][1], out, SIKALUMDO_FIELD_NUMBERS), 0, fields[i][2]));
        CHECK(tells(out, fields[i] + 3));
    }
    memset(out, 0xA5, sizeof out);
    CHECK(is(fetch_into(SIKALUMDO_KIND_ID, 1, out, SIKALUMDO_FIELD_NUMBERS), 16, 0));
    CHECK(is(fetch_into(SIKALUMDO_KIND_ALLELE, 2, out, SIKALUMDO_FIELD_NUMBERS), 16, 0));
    CHECK(is(fetch_into(SIKALUMDO_KIND_FORMAT, 1, out, SIKALUMDO_FIELD_NUMBERS), 16, 0));
    CHECK(is(fetch_into(5, 0, out, SIKALUMDO_FIELD_NUMBERS), 16, 0));
    CHECK(is(fetch_into(0xFFFFFFFF, 0, out, 0), 16, 0));
    CHECK(untouched(out, sizeof out));
}

/* By the numbers that reading told, each field is the one that fetching gives, and so is each refusal but reading's. */
static void test_fetching_once_read(void)
{
    uint64_t site[SIKALUMDO_SITE_NUMBERS + 1], out[SIKALUMDO_FIELD_NUMBERS], told[SIKALUMDO_FIELD_NUMBERS];
    uint32_t kind, number;
    memset(site, 0xA5, sizeof site);
    CHECK(is(read_into(record, RECORD, site, SIKALUMDO_SITE_NUMBERS), 0, RECORD));
    for (kind = 0; kind < 7; kind++)
        for (number = 0; number < 4; number++) {
            uint64_t answer = fetch_into(kind, number, told, SIKALUMDO_FIELD_NUMBERS);
            memset(out, 0xA5, sizeof out);
            CHECK(field_into(site, SIKALUMDO_SITE_NUMBERS, kind, number, out, SIKALUMDO_FIELD_NUMBERS) == answer);
            CHECK(sikalumdo_number(answer) ? untouched(out, sizeof out) : memcmp(out, told, sizeof out) == 0);
            CHECK(field_into(site, SIKALUMDO_SITE_NUMBERS + 1, kind, number, out, SIKALUMDO_FIELD_NUMBERS) == answer);
        }
    memset(out, 0xA5, sizeof out);
    CHECK(is(field_into(site, SIKALUMDO_SITE_NUMBERS, 5, 0, out, SIKALUMDO_FIELD_NUMBERS), 16, 0));
    CHECK(is(field_into(site, SIKALUMDO_SITE_NUMBERS, 0xFFFFFFFF, 0, out, 0), 16, 0));
    CHECK(is(field_into(site, SIKALUMDO_SITE_NUMBERS, SIKALUMDO_KIND_INFO, 0, out, SIKALUMDO_FIELD_NUMBERS - 1), 13,
             0));
    CHECK(is(field_into(site, SIKALUMDO_SITE_NUMBERS, SIKALUMDO_KIND_INFO, 1, out, 0), 16, 0));
    CHECK(is(sikalumdo_field_of(record, 42, site, SIKALUMDO_SITE_NUMBERS, SIKALUMDO_KIND_INFO, 0, out,
                                SIKALUMDO_FIELD_NUMBERS), 16, 0));
    for (kind = 0; kind < 5; kind++)
        CHECK(is(field_into(site, SIKALUMDO_SITE_NUMBERS - 1, kind, 0, out, SIKALUMDO_FIELD_NUMBERS), 16, 0));
    CHECK(untouched(out, sizeof out));
}

/* Whether fields by these numbers are 16, with nothing written, or lie in the record. */
static int lie_inside(const uint64_t *site)
{
    uint32_t kind, number;
    for (kind = 0; kind < 6; kind++)
        for (number = 0; number < 4; number++) {
            uint64_t out[SIKALUMDO_FIELD_NUMBERS], answer;
            memset(out, 0xA5, sizeof out);
            answer = field_into(site, SIKALUMDO_SITE_NUMBERS, kind, number, out, SIKALUMDO_FIELD_NUMBERS);
            if (sikalumdo_number(answer) ? !is(answer, 16, 0) || !untouched(out, sizeof out)
                                         : out[SIKALUMDO_FIELD_PLACE] > out[SIKALUMDO_FIELD_STOP]
                                               || out[SIKALUMDO_FIELD_STOP] > RECORD)
                return 0;
        }
    return 1;
}

/* With any other numbers, one of them or all, no byte outside the record is read, and what is told lies in it. */
static void test_other_sites(void)
{
    static const uint64_t numbers[] = {0,   1,     32,         45,                51,        256,
                                       257, 65536, UINT32_MAX, (uint64_t)1 << 32, UINT64_MAX};
    uint64_t site[SIKALUMDO_SITE_NUMBERS], out[SIKALUMDO_FIELD_NUMBERS], was;
    size_t i, k;
    for (i = 0; i < sizeof numbers / sizeof numbers[0]; i++) {
        CHECK(is(read_into(record, RECORD, site, SIKALUMDO_SITE_NUMBERS), 0, RECORD));
        for (k = 0; k < SIKALUMDO_SITE_NUMBERS; k++) {
            was = site[k];
            site[k] = numbers[i];
            CHECK(lie_inside(site));
            site[k] = was;
        }
        for (k = 0; k < SIKALUMDO_SITE_NUMBERS; k++)
            site[k] = numbers[i];
        CHECK(lie_inside(site));
    }
    /* The counts are taken in as many bits as a record has for them, so these are 1 FORMAT field and 2 alleles. */
    CHECK(is(read_into(record, RECORD, site, SIKALUMDO_SITE_NUMBERS), 0, RECORD));
    site[SIKALUMDO_SITE_FORMATS] += 256;
    site[SIKALUMDO_SITE_ALLELES] += 65536;
    CHECK(is(field_into(site, SIKALUMDO_SITE_NUMBERS, SIKALUMDO_KIND_FORMAT, 0, out, SIKALUMDO_FIELD_NUMBERS), 0, 4));
    CHECK(is(field_into(site, SIKALUMDO_SITE_NUMBERS, SIKALUMDO_KIND_FILTER, 0, out, SIKALUMDO_FIELD_NUMBERS), 0, 1));
    site[SIKALUMDO_SITE_FORMATS]--;
    CHECK(is(field_into(site, SIKALUMDO_SITE_NUMBERS, SIKALUMDO_KIND_FORMAT, 0, out, SIKALUMDO_FIELD_NUMBERS), 16, 0));
}

static void test_showing(void)
{
    static const uint8_t marks[8] = {0x80, 0x81, 0x88, 0xFF, 0x00, 0x80, 0x01, 0x80};
    static const uint8_t quiet[4] = {0x01, 0x00, 0x80, 0x7F};
    CHECK(is(sikalumdo_shown(record + 46, 4, SIKALUMDO_TYPE_INT8, 0), 0, 2));
    CHECK(is(sikalumdo_shown(record + 46, 4, SIKALUMDO_TYPE_INT8, 3), 0, SIKALUMDO_END_OF_VECTOR));
    CHECK(is(sikalumdo_shown(record + 46, 4, SIKALUMDO_TYPE_INT8, 4), 16, 0));
    CHECK(is(sikalumdo_shown(marks, 8, SIKALUMDO_TYPE_INT8, 0), 0, SIKALUMDO_MISSING));
    CHECK(is(sikalumdo_shown(marks, 8, SIKALUMDO_TYPE_INT8, 2), 0, (uint32_t)-120));
    CHECK(is(sikalumdo_shown(marks, 8, SIKALUMDO_TYPE_INT16, 2), 0, SIKALUMDO_MISSING));
    CHECK(is(sikalumdo_shown(marks, 8, SIKALUMDO_TYPE_INT16, 3), 0, SIKALUMDO_END_OF_VECTOR));
    CHECK(is(sikalumdo_shown(marks, 8, SIKALUMDO_TYPE_INT32, 0), 0, UINT32_C(0xFF888180)));
    CHECK(is(sikalumdo_shown(quiet, 4, SIKALUMDO_TYPE_FLOAT, 0), 0, SIKALUMDO_FLOAT_MISSING));
    CHECK(is(sikalumdo_shown(record + 34, 1, SIKALUMDO_TYPE_TEXT, 0), 0, 'G'));
    CHECK(is(sikalumdo_shown(record + 34, 0, SIKALUMDO_TYPE_TEXT, 0), 16, 0));
    CHECK(is(sikalumdo_shown(marks, 8, 4, 0), 16, 0));
    CHECK(is(sikalumdo_shown(marks, 7, SIKALUMDO_TYPE_INT32, 1), 16, 0));
    CHECK(is(sikalumdo_shown(marks, 8, SIKALUMDO_TYPE_INT32, SIZE_MAX), 16, 0));
}

static void test_walking(void)
{
    static const uint64_t told[SIKALUMDO_FIELD_NUMBERS] = {2, SIKALUMDO_TYPE_INT8, 1, 42, 43};
    uint64_t out[SIKALUMDO_FIELD_NUMBERS];
    CHECK(is(sikalumdo_first_pair(record, RECORD, STRINGS, CONTIGS, PEOPLE, GT), 0, 39));
    CHECK(is(sikalumdo_first_pair(record, RECORD - 1, STRINGS, CONTIGS, PEOPLE, GT), 1, 0));
    CHECK(is(sikalumdo_pair(record, RECORD, 39, out, SIKALUMDO_FIELD_NUMBERS), 0, 1));
    CHECK(memcmp(out, told, sizeof told) == 0);
    memset(out, 0xA5, sizeof out);
    CHECK(is(sikalumdo_pair(record, RECORD, 43, out, SIKALUMDO_FIELD_NUMBERS), 16, 0));
    CHECK(is(sikalumdo_pair(record, 42, 39, out, SIKALUMDO_FIELD_NUMBERS), 16, 0));
    CHECK(is(sikalumdo_pair(record, 7, 0, out, SIKALUMDO_FIELD_NUMBERS), 16, 0));
    CHECK(is(sikalumdo_pair(record, RECORD, SIZE_MAX, out, SIKALUMDO_FIELD_NUMBERS), 16, 0));
    CHECK(untouched(out, sizeof out));
}

static void test_tallying(void)
{
    static const uint64_t told[SIKALUMDO_TALLY_NUMBERS] = {2, 2, 0, 0, 2, 1};
    uint64_t out[SIKALUMDO_TALLY_NUMBERS + 1];
    memset(out, 0xA5, sizeof out);
    CHECK(is(tally_into(record, RECORD, out, SIKALUMDO_TALLY_NUMBERS + 1), 0, RECORD));
    CHECK(memcmp(out, told, sizeof told) == 0);
    CHECK(untouched(out + SIKALUMDO_TALLY_NUMBERS, sizeof out[0]));
}

static void test_choosing(void)
{
    static const uint32_t second[1] = {1}, twice[2] = {1, 1}, beyond[1] = {2};
    uint64_t counts[SIKALUMDO_TALLY_NUMBERS];
    uint8_t buf[ROOM];
    memset(buf, 0xA5, sizeof buf);
    CHECK(is(choose_into(twice, 2, buf, ROOM), 14, 0));
    CHECK(is(choose_into(beyond, 1, buf, 0), 14, 0));
    CHECK(is(choose_into(second, 1, buf, 47), 13, 0));
    CHECK(untouched(buf, sizeof buf));
    CHECK(is(choose_into(second, 1, buf, 48), 0, 48));
    CHECK(untouched(buf + 48, ROOM - 48));
    CHECK(buf[4] == 5 && buf[GENOTYPE_COUNTS] == 1 && buf[GENOTYPE_COUNTS + 3] == 1);
    CHECK(memcmp(buf + 43, "\x11\x03\x21\x04\x81", 5) == 0);
    CHECK(is(sikalumdo_tally(buf, 48, STRINGS, CONTIGS, 1, GT, counts, SIKALUMDO_TALLY_NUMBERS), 0, 48));
    CHECK(counts[SIKALUMDO_TALLY_CALLS] == 0 && counts[SIKALUMDO_TALLY_CALLS + 1] == 1);
    CHECK(is(choose_into(second, 0, buf, 43), 0, 43));
    CHECK(buf[4] == 0 && memcmp(buf + GENOTYPE_COUNTS, "\0\0\0\0", 4) == 0);
}

/* The names PASS, q10, DP and GT, so many of them, and that of the one contig. */
static uint64_t line_into(const uint8_t *s, size_t count, size_t names, uint8_t *buf, size_t room)
{
    static const uint32_t string_ends[4] = {4, 7, 9, 11}, contig_ends[1] = {2};
    return sikalumdo_vcf_line(s, count, STRINGS, CONTIGS, PEOPLE, GT, (const uint8_t *)"PASSq10DPGT", 11, string_ends,
                              names, (const uint8_t *)"20", 2, contig_ends, 1, buf, room);
}

static void test_lines(void)
{
    static const char line[] = "20\t14370\t.\tG\tA\t29\tPASS\t.\tGT\t0|0\t1\n";
    const size_t length = sizeof line - 1;
    uint8_t half[RECORD], buf[ROOM];
    memcpy(half, record, RECORD);
    half[21] = 0x80; /* QUAL 29.0625 */
    memset(buf, 0xA5, sizeof buf);
    CHECK(is(line_into(record, RECORD - 1, 4, buf, ROOM), 1, 0));
    CHECK(is(line_into(half, RECORD, 3, buf, ROOM), 17, 0));
    CHECK(is(line_into(record, RECORD, 3, buf, 0), 18, 0));
    CHECK(is(line_into(record, RECORD, 4, buf, length - 1), 13, 0));
    CHECK(untouched(buf, sizeof buf));
    CHECK(is(line_into(record, RECORD, 4, buf, length), 0, (uint32_t)length));
    CHECK(is(line_into(record, RECORD, 4, buf, ROOM), 0, (uint32_t)length));
    CHECK(memcmp(buf, line, length) == 0 && untouched(buf + length, ROOM - length));
}

static uint32_t state[SIKALUMDO_STATE_NUMBERS];
static uint8_t buf[ROOM];

/* A fresh state, and the buffer filled anew. */
static void start(void)
{
    memset(buf, 0xA5, sizeof buf);
    CHECK(is(sikalumdo_fresh(state, SIKALUMDO_STATE_NUMBERS), 0, 0));
}

static uint64_t begin(int32_t chrom, int32_t pos, int32_t rlen, uint32_t qual, size_t room)
{
    return sikalumdo_begin(state, SIKALUMDO_STATE_NUMBERS, buf, room, STRINGS, CONTIGS, PEOPLE, GT, chrom, pos, rlen,
                           qual);
}

static uint64_t allele(const char *text)
{
    return sikalumdo_allele(state, SIKALUMDO_STATE_NUMBERS, buf, ROOM, (const uint8_t *)text, strlen(text));
}

static uint64_t info(int32_t key, const int32_t *values, size_t count)
{
    return sikalumdo_info_integers(state, SIKALUMDO_STATE_NUMBERS, buf, ROOM, key, values, count);
}

static uint64_t format(int32_t key, uint32_t len, const int32_t *values, size_t count)
{
    return sikalumdo_format_integers(state, SIKALUMDO_STATE_NUMBERS, buf, ROOM, key, len, values, count);
}

static uint64_t end(size_t room) { return sikalumdo_end(state, SIKALUMDO_STATE_NUMBERS, buf, room); }

/* The sample's turns up to FILTER. */
static void start_site(void)
{
    static const int32_t pass[1] = {0};
    start();
    CHECK(is(begin(0, 14369, 1, 0x41E80000, ROOM), 0, 32));
    CHECK(is(sikalumdo_id(state, SIKALUMDO_STATE_NUMBERS, buf, ROOM, record, 0), 0, 33));
    CHECK(is(allele("G"), 0, 35));
    CHECK(is(allele("A"), 0, 37));
    CHECK(is(sikalumdo_filter(state, SIKALUMDO_STATE_NUMBERS, buf, ROOM, pass, 1), 0, 39));
}

static void test_building(void)
{
    static const int32_t depth[1] = {14}, codes[4] = {2, 3, 4, INT32_MIN + 1};
    start_site();
    CHECK(is(info(2, depth, 1), 0, 43));
    CHECK(is(format(3, 2, codes, 4), 0, RECORD));
    CHECK(is(end(ROOM), 0, RECORD));
    CHECK(memcmp(buf, record, RECORD) == 0);
    CHECK(untouched(buf + RECORD, ROOM - RECORD));
    CHECK(is(end(ROOM), 12, 0));
}

static void test_building_other_types(void)
{
    static const int32_t wide[3] = {-121, INT32_MIN, 32768};
    static const uint32_t bits[2] = {0x3F800000, 0x7F800001};
    static const uint8_t text[5] = {'a', 'b', 0, 'c', 0};
    uint64_t out[SIKALUMDO_FIELD_NUMBERS];
    size_t n;
    start_site();
    CHECK(is(info(1, wide, 3), 0, 54));
    CHECK(is(sikalumdo_info_floats(state, SIKALUMDO_STATE_NUMBERS, buf, ROOM, 1, bits, 2), 0, 65));
    CHECK(is(sikalumdo_info_text(state, SIKALUMDO_STATE_NUMBERS, buf, ROOM, 2, text, 2), 0, 70));
    CHECK(is(sikalumdo_format_floats(state, SIKALUMDO_STATE_NUMBERS, buf, ROOM, 0, 1, bits, 2), 0, 81));
    CHECK(is(sikalumdo_format_text(state, SIKALUMDO_STATE_NUMBERS, buf, ROOM, 1, 2, text + 1, 4), 0, 88));
    CHECK(is(format(3, 0, wide, 0), 0, 91));
    CHECK(is(end(ROOM), 0, 91));
    n = sikalumdo_low(sikalumdo_fetch(buf, 91, STRINGS, CONTIGS, PEOPLE, GT, SIKALUMDO_KIND_INFO, 0, out,
                                      SIKALUMDO_FIELD_NUMBERS));
    CHECK(n == 12 && out[SIKALUMDO_FIELD_TYPE] == SIKALUMDO_TYPE_INT32);
    CHECK(is(sikalumdo_shown(buf + out[SIKALUMDO_FIELD_PLACE], n, SIKALUMDO_TYPE_INT32, 0), 0, (uint32_t)-121));
    n = sikalumdo_low(sikalumdo_fetch(buf, 91, STRINGS, CONTIGS, PEOPLE, GT, SIKALUMDO_KIND_FORMAT, 0, out,
                                      SIKALUMDO_FIELD_NUMBERS));
    CHECK(n == 8 && memcmp(buf + out[SIKALUMDO_FIELD_PLACE], "\0\0\x80\x3F\x01\0\x80\x7F", 8) == 0);
}

/* The sample's record with a bare 00 for FILTER, for the INFO value and for GT, in memory of just its size. */
static uint8_t *bare_record(void)
{
    uint8_t *bare = (uint8_t *)malloc(BARE);
    if (!bare)
        abort();
    memcpy(bare, record, 37);
    memcpy(bare + 37, "\0\x11\x02\0\x11\x03\0", 7);
    bare[0] = 33;
    bare[4] = 3;
    return bare;
}

/* A bare 00 is told with type 0, length 0 and the place just after it, and it shows nothing. */
static void test_bare_values(void)
{
    /* kind; then key, type, length, place, stop */
    static const uint32_t fields[3][6] = {{SIKALUMDO_KIND_FILTER, 0, SIKALUMDO_TYPE_BARE, 0, 38, 38},
                                          {SIKALUMDO_KIND_INFO, 2, SIKALUMDO_TYPE_BARE, 0, 41, 41},
                                          {SIKALUMDO_KIND_FORMAT, 3, SIKALUMDO_TYPE_BARE, 0, 44, 44}};
    uint8_t *bare = bare_record();
    uint64_t out[SIKALUMDO_SITE_NUMBERS];
    size_t i;
    CHECK(is(read_into(bare, BARE, out, SIKALUMDO_SITE_NUMBERS), 0, BARE));
    CHECK(out[SIKALUMDO_SITE_GT_TYPE] == SIKALUMDO_TYPE_BARE && out[SIKALUMDO_SITE_GT_LENGTH] == 0);
    CHECK(out[SIKALUMDO_SITE_GT_PLACE] == 44);
    for (i = 0; i < 3; i++) {
        CHECK(is(sikalumdo_fetch(bare, BARE, STRINGS, CONTIGS, PEOPLE, GT, fields[i][0], 0, out,
                                 SIKALUMDO_FIELD_NUMBERS), 0, 0));
        CHECK(tells(out, fields[i] + 1));
    }
    CHECK(is(sikalumdo_first_pair(bare, BARE, STRINGS, CONTIGS, PEOPLE, GT), 0, 38));
    CHECK(is(sikalumdo_pair(bare, BARE, 38, out, SIKALUMDO_FIELD_NUMBERS), 0, 0));
    CHECK(tells(out, fields[1] + 1));
    CHECK(is(sikalumdo_pair(bare, BARE, 41, out, SIKALUMDO_FIELD_NUMBERS), 16, 0));
    CHECK(is(sikalumdo_shown(bare + 41, 0, SIKALUMDO_TYPE_BARE, 0), 16, 0));
    free(bare);
}

/* With a bare 00 for GT nobody has a genotype, and a choice keeps its key and descriptor. */
static void test_bare_genotypes(void)
{
    static const uint64_t told[SIKALUMDO_TALLY_NUMBERS] = {2, 2, 2, 0};
    static const uint32_t second[1] = {1};
    uint8_t *bare = bare_record();
    uint64_t out[SIKALUMDO_TALLY_NUMBERS];
    CHECK(is(tally_into(bare, BARE, out, SIKALUMDO_TALLY_NUMBERS), 0, BARE));
    CHECK(memcmp(out, told, sizeof told) == 0);
    memset(buf, 0xA5, sizeof buf);
    CHECK(is(sikalumdo_choose(bare, BARE, STRINGS, CONTIGS, PEOPLE, GT, second, 1, buf, ROOM), 0, BARE));
    bare[GENOTYPE_COUNTS] = 1;
    CHECK(memcmp(buf, bare, BARE) == 0 && untouched(buf + BARE, ROOM - BARE));
    free(bare);
}

/* 00 for the ID, REF and the two keys, and other lengths of type 0 for FILTER, the INFO value and GT: 6. */
static void test_type_0_elsewhere(void)
{
    static const uint8_t edits[7][2] = {{32, 0x00}, {33, 0x00}, {38, 0x00}, {41, 0x00},
                                        {37, 0x10}, {40, 0xF0}, {43, 0x20}};
    uint64_t out[SIKALUMDO_SITE_NUMBERS];
    size_t i;
    memset(out, 0xA5, sizeof out);
    for (i = 0; i < 7; i++) {
        uint8_t *bare = bare_record();
        bare[edits[i][0]] = edits[i][1];
        CHECK(is(read_into(bare, BARE, out, SIKALUMDO_SITE_NUMBERS), 6, edits[i][0]));
        free(bare);
    }
    CHECK(untouched(out, sizeof out));
}

/* The record with one byte changed gives a refusal at a place, and the numbers stay. */
static void test_refusals_of_reading(void)
{
    /* byte, what it becomes, number, place */
    static const uint32_t edits[][4] = {
        {7, 0x01, 2, 0},     {4, 0x08, 1, 0},     {0, 0x17, 3, 31},    {8, 0x01, 5, 8},     {15, 0x80, 5, 12},
        {19, 0x80, 5, 16},   {SITE_COUNTS + 2, 0x00, 5, SITE_COUNTS},  {GENOTYPE_COUNTS, 0x03, 5, GENOTYPE_COUNTS},
        {32, 0x01, 6, 32},   {33, 0x07, 7, 33},   {34, 0x20, 9, 34},   {38, 0x04, 8, 38},   {38, 0x81, 8, 38},
        {39, 0x14, 6, 39},   {40, 0x04, 8, 40},   {41, 0xF1, 6, 42},   {41, 0x21, 3, 43},   {42, 0x82, 9, 42},
        {44, 0x04, 8, 44},   {45, 0x27, 6, 45},   {45, 0x31, 3, 50},   {45, 0x11, 4, 48},   {46, 0x06, 10, 46},
        {46, 0xFF, 10, 46},  {46, 0x81, 9, 47}};
    uint64_t out[SIKALUMDO_TALLY_NUMBERS];
    size_t i;
    memset(out, 0xA5, sizeof out);
    for (i = 0; i < sizeof edits / sizeof edits[0]; i++) {
        uint8_t was = record[edits[i][0]];
        record[edits[i][0]] = (uint8_t)edits[i][1];
        CHECK(is(read_into(record, RECORD, out, SIKALUMDO_SITE_NUMBERS), edits[i][2], edits[i][3]));
        CHECK(is(tally_into(record, RECORD, out, 0), edits[i][2], edits[i][3]));
        CHECK(is(fetch_into(9, 0, out, 0), edits[i][2], edits[i][3]));
        CHECK(is(choose_into((const uint32_t *)edits, 4, buf, 0), edits[i][2], edits[i][3]));
        record[edits[i][0]] = was;
    }
    for (i = 0; i < RECORD; i++)
        CHECK(is(read_into(record, i, out, SIKALUMDO_SITE_NUMBERS), 1, 0));
    CHECK(untouched(out, sizeof out));
}

static void test_short_outs(void)
{
    uint64_t out[SIKALUMDO_TALLY_NUMBERS];
    uint32_t few[SIKALUMDO_STATE_NUMBERS];
    memset(out, 0xA5, sizeof out);
    memset(few, 0xA5, sizeof few);
    CHECK(is(read_into(record, RECORD, out, SIKALUMDO_SITE_NUMBERS - 1), 13, 0));
    CHECK(is(fetch_into(SIKALUMDO_KIND_INFO, 0, out, SIKALUMDO_FIELD_NUMBERS - 1), 13, 0));
    CHECK(is(sikalumdo_pair(record, RECORD, 39, out, SIKALUMDO_FIELD_NUMBERS - 1), 13, 0));
    CHECK(is(sikalumdo_pair(record, RECORD, 43, out, 0), 16, 0));
    CHECK(is(tally_into(record, RECORD, out, SIKALUMDO_TALLY_NUMBERS - 1), 13, 0));
    CHECK(is(sikalumdo_fresh(few, SIKALUMDO_STATE_NUMBERS - 1), 13, 0));
    CHECK(untouched(out, sizeof out));
    CHECK(untouched(few, sizeof few));
    CHECK(is(sikalumdo_fresh(few, SIKALUMDO_STATE_NUMBERS), 0, 0));
    CHECK(is(sikalumdo_begin(few, SIKALUMDO_STATE_NUMBERS - 1, buf, ROOM, STRINGS, CONTIGS, PEOPLE, GT, 0, 0, 0, 0), 12,
             0));
}

/* Turns that are refused keep the state and the buffer as they are. */
static void test_refused_turns(void)
{
    static const int32_t few[4] = {2, 3, 4, 6}, after[2] = {INT32_MIN + 1, 0}, reserved[1] = {INT32_MIN + 2};
    static const int32_t filters[2] = {1, 1}, minus[4] = {2, -1, INT32_MIN + 2, 0};
    static uint32_t before[SIKALUMDO_STATE_NUMBERS];
    static uint8_t bytes[ROOM];
    start_site();
    memcpy(before, state, sizeof state);
    memcpy(bytes, buf, sizeof buf);
    CHECK(is(begin(0, 0, 0, 0, ROOM), 12, 0));
    CHECK(is(allele("C"), 12, 0));
    CHECK(is(sikalumdo_filter(state, SIKALUMDO_STATE_NUMBERS, buf, ROOM, filters, 2), 12, 0));
    CHECK(is(info(4, reserved, 1), 8, 0));
    CHECK(is(info(1, reserved, 1), 9, 0));
    CHECK(is(info(1, after, 2), 9, 0));
    CHECK(is(sikalumdo_info_integers(state, SIKALUMDO_STATE_NUMBERS, buf, 42, 2, few, 1), 13, 0));
    CHECK(is(format(-1, 2, few, 4), 8, 0));
    CHECK(is(format(3, 2, few, 3), 7, 0));
    CHECK(is(format(3, 2, few, 4), 10, 0));
    CHECK(is(format(3, 2, minus, 4), 10, 0));
    CHECK(is(format(2, 2, minus, 4), 9, 0));
    CHECK(is(sikalumdo_format_text(state, SIKALUMDO_STATE_NUMBERS, buf, 0, 3, 1, record, 1), 6, 0));
    CHECK(is(end(GENOTYPE_COUNTS + 3), 13, 0));
    CHECK(memcmp(before, state, sizeof state) == 0);
    CHECK(memcmp(bytes, buf, sizeof buf) == 0);
    CHECK(is(format(2, 2, few, 4), 0, 46));
    CHECK(is(format(2, 2, few, 4), 11, 0));
    CHECK(is(info(1, few, 1), 12, 0));
    CHECK(is(end(GENOTYPE_COUNTS + 4), 0, 46));
}

static void test_refused_beginnings(void)
{
    static const int32_t twice[2] = {1, 1}, outside[3] = {1, 4, 1};
    start();
    CHECK(is(sikalumdo_id(state, SIKALUMDO_STATE_NUMBERS, buf, ROOM, record, 1), 12, 0));
    CHECK(is(begin(1, 0, 0, 0, ROOM), 5, 0));
    CHECK(is(begin(0, -2, 0, 0, ROOM), 5, 0));
    CHECK(is(begin(0, 0, -1, 0, ROOM), 5, 0));
    CHECK(is(begin(0, 0, 0, 0x7F800002, 0), 5, 0));
    CHECK(is(begin(0, -1, 0, 0x7F800001, 31), 13, 0));
    CHECK(untouched(buf, sizeof buf));
    CHECK(is(begin(0, -1, 0, 0x7F800001, 32), 0, 32));
    CHECK(is(sikalumdo_id(state, SIKALUMDO_STATE_NUMBERS, buf, ROOM, (const uint8_t *)"a\0b", 3), 9, 0));
    CHECK(is(sikalumdo_id(state, SIKALUMDO_STATE_NUMBERS, buf, ROOM, (const uint8_t *)"ab\0", 3), 0, 36));
    CHECK(is(allele(""), 7, 0));
    CHECK(is(allele("A C"), 9, 0));
    CHECK(is(end(ROOM), 12, 0));
    CHECK(is(allele("<DEL>"), 0, 42));
    CHECK(is(sikalumdo_filter(state, SIKALUMDO_STATE_NUMBERS, buf, ROOM, twice, 2), 11, 0));
    CHECK(is(sikalumdo_filter(state, SIKALUMDO_STATE_NUMBERS, buf, ROOM, outside, 3), 8, 0));
    CHECK(untouched(buf + 42, ROOM - 42));
}

static int digit(int c)
{
    if (c >= '0' && c <= '9')
        return c - '0';
    return c - 'A' + 10;
}

/* The record on the second line of a sample, which is in capitals. */
static int load(const char *path)
{
    char line[2 * RECORD + 2];
    FILE *file = fopen(path, "r");
    size_t i;
    int ok;
    if (!file)
        return 0;
    ok = fgets(line, sizeof line, file) && fgets(line, sizeof line, file) && strlen(line) >= 2 * RECORD;
    fclose(file);
    record = (uint8_t *)malloc(RECORD);
    if (!ok || !record)
        return 0;
    for (i = 0; i < RECORD; i++)
        record[i] = (uint8_t)(digit(line[2 * i]) * 16 + digit(line[2 * i + 1]));
    return 1;
}

int main(int argc, char **argv)
{
    static void (*const all[])(void) = {test_reading,  test_fetching,   test_showing,
                                        test_fetching_once_read, test_other_sites,
                                        test_walking,  test_tallying,   test_choosing,   test_lines,
                                        test_building, test_short_outs, test_building_other_types,
                                        test_refused_turns, test_refused_beginnings, test_refusals_of_reading,
                                        test_bare_values, test_bare_genotypes, test_type_0_elsewhere};
    if (argc != 2 || !load(argv[1])) {
        fprintf(stderr, "usage: call samples/two-people.hex\n");
        return 2;
    }
    for (tests = 0; tests < (int)(sizeof all / sizeof all[0]); tests++)
        all[tests]();
    free(record);
    printf("%d tests, %d wrong\n", tests, wrong);
    return wrong != 0;
}
