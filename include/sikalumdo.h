/*
 * Sikalumdo for C and C++: reads one uncompressed BCF2 record at a time, fetches its values, walks its INFO pairs,
 * tallies its genotypes, chooses people, writes its VCF line, and builds a record turn by turn. Link libc_api.a. A
 * loader reads a record once and then fetches by the numbers that reading told:
 *
 *     uint64_t site[SIKALUMDO_SITE_NUMBERS], field[SIKALUMDO_FIELD_NUMBERS];
 *     uint64_t answer = sikalumdo_read(bytes, count, 4, 1, 2, 3, site, SIKALUMDO_SITE_NUMBERS);
 *     if (sikalumdo_number(answer) != 0) {
 *         printf("refused: %u at byte %u\n", (unsigned)sikalumdo_number(answer), (unsigned)sikalumdo_low(answer));
 *     } else {
 *         printf("%u bytes, %u alleles\n", (unsigned)sikalumdo_low(answer), (unsigned)site[SIKALUMDO_SITE_ALLELES]);
 *         answer = sikalumdo_field_of(bytes, count, site, SIKALUMDO_SITE_NUMBERS, SIKALUMDO_KIND_ALLELE, 0, field,
 *                                     SIKALUMDO_FIELD_NUMBERS);
 *         printf("REF %.*s\n", (int)sikalumdo_low(answer), (const char *)bytes + field[SIKALUMDO_FIELD_PLACE]);
 *     }
 *
 * THE FACTS. Four numbers of the file's header go with a record: `strings`, the size of its dictionary; `contigs`;
 * `people`; and `gt`, the dictionary offset of GT (one that no key meets, as 0xFFFFFFFF, says that there is no GT).
 *
 * AN ANSWER is one 64-bit number. Its high half is the number of a refusal, 0 for none; its low half is the
 * refusal's place or, with number 0, a length. `sikalumdo_number` and `sikalumdo_low` take it apart. A refusal
 * writes nothing: not to an `out`, not to a buffer, not to a state. Places are byte offsets from the record's start.
 *
 *     No.  Given when                                                              Place
 *      1   fewer bytes than the record's length, or than 8                         0
 *      2   the record is, or would be, over 16,777,216 bytes                       0
 *      3   a value needs bytes past its block, or l_shared is below 24             end of block
 *      4   a block has bytes over                                                  first of them
 *      5   a fixed field or a count breaks its rule or, in building, would pass
 *          its most                                                                first byte of its four
 *      6   a type that is unused or wrong there; a key or true length that is
 *          not one integer                                                         its descriptor
 *      7   true length below 15 (marks too); empty allele; a builder's list that
 *          is not people x length                                                  the descriptor (of the true
 *                                                                                  length, if that)
 *      8   a key or filter outside the dictionary                                  the element
 *      9   reserved value, element after an end of vector, bad allele byte         the element
 *     10   GT code negative (not a mark), or allele too high                       the element
 *     11   filter or FORMAT key repeated                                           the element of the second
 *     12   builder turn out of order                                               0
 *     13   lent buffer too short for what would be written                         0
 *     14   choice not ascending or out of range                                    0
 *     15   tally of more than 64 alleles                                           0
 *     16   no field, pair or element of that number                                0
 *     17   QUAL that is not missing and no whole number of 0 to 16,777,215, for a
 *          VCF line                                                                0
 *     18   a list of names shorter than its dictionary                             0
 *
 * READING'S REFUSALS, which each function that takes the facts of a record gives first: under 8 bytes (1), 2, 1,
 * l_shared below 24 (3), and then 3 to 11 at the first byte that breaks a rule, each block ending with 4. In
 * building all places are 0.
 *
 * A BARE 00, a descriptor of type 0 and length 0, says that a FILTER, INFO or FORMAT value, GT's too, is missing, as
 * a length of 0 does; it is told with SIKALUMDO_TYPE_BARE, length 0 and the place just after it. For an ID, allele,
 * key or true length 00 gives 6, and so does type 0 with any other length everywhere. Building writes no bare 00.
 *
 * WHAT A CALLER OWES. The library is proved for callers that keep to this, and nothing else checks it:
 *   - A pointer and its length, counted in elements, name memory that is there: so many elements, aligned for their
 *     type. For an empty slice, too, the pointer is not null.
 *   - What a call writes to (`out`, `buf`, `state`) overlaps nothing else that is lent to that call.
 *   - While a call runs, no other thread writes to what is lent, or reads what the call writes to.
 *   - The stack has room for 600 KiB: a FILTER of very many offsets is judged with half a megabyte of it.
 * Calls share nothing: any number of threads may call at once on memory of their own. Nothing is allocated or kept.
 */
#ifndef SIKALUMDO_H
#define SIKALUMDO_H

#include <stddef.h>
#include <stdint.h>

#ifdef __cplusplus
extern "C" {
#endif

/* How many numbers a caller lends for what is told, and for a build's state. */
#define SIKALUMDO_SITE_NUMBERS 13
#define SIKALUMDO_FIELD_NUMBERS 5
#define SIKALUMDO_TALLY_NUMBERS 68
#define SIKALUMDO_STATE_NUMBERS 266

/* No record is longer, in bytes. */
#define SIKALUMDO_MOST_BYTES 16777216

/* Where each number stands in what sikalumdo_read tells. */
#define SIKALUMDO_SITE_LENGTH 0    /* bytes of the record */
#define SIKALUMDO_SITE_BORDER 1    /* place where the genotype block begins */
#define SIKALUMDO_SITE_CHROM 2     /* CHROM, POS, rlen: the 32 bits of a signed number; cast by way of uint32_t */
#define SIKALUMDO_SITE_POS 3       /* zero-based; -1 stands as 4294967295; VCF's position: sikalumdo_vcf_pos */
#define SIKALUMDO_SITE_RLEN 4
#define SIKALUMDO_SITE_QUAL 5      /* 32 float bits; SIKALUMDO_FLOAT_MISSING for none */
#define SIKALUMDO_SITE_ALLELES 6   /* REF is one of them */
#define SIKALUMDO_SITE_INFOS 7     /* INFO fields */
#define SIKALUMDO_SITE_FORMATS 8   /* FORMAT fields */
#define SIKALUMDO_SITE_PEOPLE 9
#define SIKALUMDO_SITE_GT_TYPE 10  /* 1, 2, 3 or, for a bare 00, 0; without GT this and the next two are 0 */
#define SIKALUMDO_SITE_GT_LENGTH 11 /* elements for each person */
#define SIKALUMDO_SITE_GT_PLACE 12 /* place of the first element; just after the descriptor for length 0 */

/* Where each number stands in what sikalumdo_fetch, sikalumdo_field_of and sikalumdo_pair tell. */
#define SIKALUMDO_FIELD_KEY 0      /* dictionary offset; 0 for ID, alleles and FILTER, which have none */
#define SIKALUMDO_FIELD_TYPE 1
#define SIKALUMDO_FIELD_LENGTH 2   /* elements; of a FORMAT value, elements for each person */
#define SIKALUMDO_FIELD_PLACE 3    /* place of the first element; just after the descriptor for length 0 */
#define SIKALUMDO_FIELD_STOP 4     /* place after the last element; of a pair, the next pair's place */

/* Where each number stands in what sikalumdo_tally tells. */
#define SIKALUMDO_TALLY_ALLELES 0
#define SIKALUMDO_TALLY_PEOPLE 1
#define SIKALUMDO_TALLY_WITHOUT 2  /* people without a genotype */
#define SIKALUMDO_TALLY_MISSING 3  /* missing alleles */
#define SIKALUMDO_TALLY_CALLS 4    /* calls of allele 0; those of allele 63 stand at 67 */

/* The kinds of fields. */
#define SIKALUMDO_KIND_ID 0
#define SIKALUMDO_KIND_ALLELE 1
#define SIKALUMDO_KIND_FILTER 2
#define SIKALUMDO_KIND_INFO 3
#define SIKALUMDO_KIND_FORMAT 4

/* The types of elements, and that of a bare 00, which has none. */
#define SIKALUMDO_TYPE_BARE 0
#define SIKALUMDO_TYPE_INT8 1
#define SIKALUMDO_TYPE_INT16 2
#define SIKALUMDO_TYPE_INT32 3
#define SIKALUMDO_TYPE_FLOAT 5
#define SIKALUMDO_TYPE_TEXT 7

/* The marks as 32 bits: those of integers of any width (INT32_MIN and INT32_MIN + 1), and those of floats. In text a
 * zero byte ends the vector. */
#define SIKALUMDO_MISSING UINT32_C(0x80000000)
#define SIKALUMDO_END_OF_VECTOR UINT32_C(0x80000001)
#define SIKALUMDO_FLOAT_MISSING UINT32_C(0x7F800001)
#define SIKALUMDO_FLOAT_END_OF_VECTOR UINT32_C(0x7F800002)

/* The refusal's number of an answer; 0 where nothing was refused. */
static inline uint32_t sikalumdo_number(uint64_t answer) { return (uint32_t)(answer >> 32); }

/* The refusal's place of an answer or, with number 0, what the function says: a length, a place or 32 bits. */
static inline uint32_t sikalumdo_low(uint64_t answer) { return (uint32_t)(answer & UINT32_C(0xFFFFFFFF)); }

/*
 * Reads the record at the start of `s`; bytes after it are the next one's.
 * Answers the record's length in bytes. Refusals: reading's; then 13 where out_len is below SIKALUMDO_SITE_NUMBERS.
 * Writes SIKALUMDO_SITE_NUMBERS numbers at the start of `out`.
 */
uint64_t sikalumdo_read(const uint8_t *s, size_t s_len, uint32_t strings, uint32_t contigs, uint32_t people,
                        uint32_t gt, uint64_t *out, size_t out_len);

/*
 * Gives the VCF position of a record: `pos` is what sikalumdo_read told at SIKALUMDO_SITE_POS.
 * Answers one more, as VCF counts the first base as 1; of -1, that is 4294967295, it is 0. Nothing is refused.
 * Writes nothing.
 */
int32_t sikalumdo_vcf_pos(uint32_t pos);

/*
 * Fetches the field of a kind and a number, from 0, of the record at the start of `s`. ID and FILTER have number 0
 * only; a FORMAT value is all people's elements, each person's vector in turn.
 * Answers the bytes of its elements, which stand in `s` itself from its place on. Refusals: reading's; 16 where
 * there is no such field, or no such kind; then 13 where out_len is below SIKALUMDO_FIELD_NUMBERS.
 * Writes SIKALUMDO_FIELD_NUMBERS numbers at the start of `out`.
 */
uint64_t sikalumdo_fetch(const uint8_t *s, size_t s_len, uint32_t strings, uint32_t contigs, uint32_t people,
                         uint32_t gt, uint32_t kind, uint32_t number, uint64_t *out, size_t out_len);

/*
 * Fetches from a record that was read: `s` begins with the very bytes of that record, and `site` holds the
 * SIKALUMDO_SITE_NUMBERS numbers that sikalumdo_read told of it. The record is not read or judged again, so that a
 * fetch costs the way to its field and no more.
 * Answers as sikalumdo_fetch does. Refusals: 16 where there is no such field, or no such kind; then 13 where out_len
 * is below SIKALUMDO_FIELD_NUMBERS. Reading's are not given here.
 * With any other numbers, or other bytes, the answer is still determined and its places lie in `s`: the field that
 * stands whole where those numbers lead, or 16; fewer than SIKALUMDO_SITE_NUMBERS lead nowhere (16). What is read of
 * `site` is SIKALUMDO_SITE_LENGTH, _BORDER, _ALLELES, _INFOS, _FORMATS and _PEOPLE, the counts in as many bits as a
 * record has for alleles (16), INFO fields (16) and FORMAT fields (8), and people in 32.
 * Writes SIKALUMDO_FIELD_NUMBERS numbers at the start of `out`.
 */
uint64_t sikalumdo_field_of(const uint8_t *s, size_t s_len, const uint64_t *site, size_t site_len, uint32_t kind,
                            uint32_t number, uint64_t *out, size_t out_len);

/*
 * Shows an element, from 0, of a fetched part: `part` points at the field's place and has the bytes that the fetch
 * or the pair answered; `code` is the field's type.
 * Answers 32 bits: an integer of any width is a signed 32-bit number, with the marks above, and these are its bits
 * (cast to int32_t); a float's are its own; text's are its byte. Refusals: 16 past the last element, or where the type
 * is none of the five.
 * Writes nothing.
 */
uint64_t sikalumdo_shown(const uint8_t *part, size_t part_len, uint8_t code, size_t index);

/*
 * Tallies the genotypes of the record at the start of `s`.
 * Answers the record's length in bytes. Refusals: reading's; 15 for more than 64 alleles; then 13 where out_len is
 * below SIKALUMDO_TALLY_NUMBERS.
 * Writes SIKALUMDO_TALLY_NUMBERS numbers at the start of `out`; alleles that the record has not have 0 calls.
 */
uint64_t sikalumdo_tally(const uint8_t *s, size_t s_len, uint32_t strings, uint32_t contigs, uint32_t people,
                         uint32_t gt, uint64_t *out, size_t out_len);

/*
 * Writes the record of some of the people of the record at the start of `s`. `choice` lists their numbers, from 0,
 * strictly ascending; it may be empty, and then the FORMAT fields go, too.
 * Answers the chosen record's length in bytes, never more than that of the record. Refusals: reading's; 14 for a
 * choice that does not ascend or names nobody; then 13 where `buf` is shorter than the chosen record.
 * Writes the chosen record at the start of `buf`; bytes after it stay.
 */
uint64_t sikalumdo_choose(const uint8_t *s, size_t s_len, uint32_t strings, uint32_t contigs, uint32_t people,
                          uint32_t gt, const uint32_t *choice, size_t choice_len, uint8_t *buf, size_t buf_len);

/*
 * Writes the VCF line of the record at the start of `s`, with tabs between its columns and a line feed at its end:
 * CHROM, POS (the first base is 1), ID, REF, ALT, QUAL, FILTER, a dot for INFO and, where the record has a GT field, a
 * FORMAT of GT alone and the call of each person. Without GT the line has eight columns.
 *   - Names are lent as one text and the list of their ends in it: name i runs from end i - 1 (the first from 0) to
 *     end i, as far as the text goes, is nothing where the ends fall, and stops at its first zero byte. It prints as it
 *     is, an empty one as nothing. A list may have more names than `strings` or `contigs` says.
 *   - A dot stands for an ID of no text (up to its first zero byte), no ALT, no filter, and a person without a call.
 *     Several filters have semicolons between. QUAL is a dot where it is missing, and digits; negative zero prints 0.
 *   - Before each allele of a call but the first stands its own phase, | or /. A missing allele is a dot; the missing
 *     mark is one that is not phased.
 * Answers the line's length in bytes, or the low 32 bits of it: lend less than 4 GiB, and it is the length. Refusals:
 * reading's; 17 for any other QUAL; 18 where string_ends_len is below
 * `strings` or contig_ends_len below `contigs`; then 13 where `buf` is shorter than the line.
 * Writes the line at the start of `buf`; bytes after it stay.
 */
uint64_t sikalumdo_vcf_line(const uint8_t *s, size_t s_len, uint32_t strings, uint32_t contigs, uint32_t people,
                            uint32_t gt, const uint8_t *string_text, size_t string_text_len,
                            const uint32_t *string_ends, size_t string_ends_len, const uint8_t *contig_text,
                            size_t contig_text_len, const uint32_t *contig_ends, size_t contig_ends_len, uint8_t *buf,
                            size_t buf_len);

/*
 * Opens a walk over the INFO pairs of the record at the start of `s`.
 * Answers the place of the first pair; where there is none, sikalumdo_pair says so. Refusals: reading's.
 * Writes nothing.
 */
uint64_t sikalumdo_first_pair(const uint8_t *s, size_t s_len, uint32_t strings, uint32_t contigs, uint32_t people,
                              uint32_t gt);

/*
 * Gives the INFO pair at the place `at`, which sikalumdo_first_pair answered or the pair before told as its stop.
 * The record is not read again: its values are not judged, and at another place there may be a pair by chance.
 * Answers the bytes of the value's elements. Refusals: 16 at the end of the pairs, or where `s` has not the whole
 * site block; then 13 where out_len is below SIKALUMDO_FIELD_NUMBERS.
 * Writes SIKALUMDO_FIELD_NUMBERS numbers at the start of `out`, the last of them the next pair's place.
 */
uint64_t sikalumdo_pair(const uint8_t *s, size_t s_len, size_t at, uint64_t *out, size_t out_len);

/*
 * BUILDING. A build is a state and a buffer, both the caller's and both left alone between the turns: fresh, begin,
 * ID, one or more alleles, FILTER, INFO fields (or none), FORMAT fields (or none), end. Each turn appends to `buf`
 * and answers the bytes written so far; a refused one changes neither, and may be taken again in another form. A
 * turn refuses, in this order, with 12, 5, 8, 11, 6, 7, then 9 or 10 by element, 2, 13; below, each turn's own
 * ones. A state of fewer than SIKALUMDO_STATE_NUMBERS numbers takes no turn (12). Integers are written in the
 * narrowest type that holds all of a value's elements.
 */

/*
 * Makes a fresh state: the one that begin is taken in.
 * Answers 0. Refusals: 13 where state_len is below SIKALUMDO_STATE_NUMBERS.
 * Writes SIKALUMDO_STATE_NUMBERS numbers at the start of `state`.
 */
uint64_t sikalumdo_fresh(uint32_t *state, size_t state_len);

/*
 * Begins a record, with the facts that all its turns keep to; `pos` is zero-based, `qual` float bits.
 * Refusals: 12; 5 where CHROM, POS, rlen or QUAL breaks its rule, or for over 16,777,215 people; 13.
 * Writes the record's first 32 bytes, with both block lengths and both count fields 0 until end.
 */
uint64_t sikalumdo_begin(uint32_t *state, size_t state_len, uint8_t *buf, size_t buf_len, uint32_t strings,
                         uint32_t contigs, uint32_t people, uint32_t gt, int32_t chrom, int32_t pos, int32_t rlen,
                         uint32_t qual);

/* Gives the ID; no bytes for none. Refusals: 12; 9 for a byte after a zero byte; 2; 13. Appends the value. */
uint64_t sikalumdo_id(uint32_t *state, size_t state_len, uint8_t *buf, size_t buf_len, const uint8_t *text,
                      size_t text_len);

/*
 * Gives one allele, REF first. Refusals: 12; 5 for the 65,536th; 7 for no bytes; 9 for a byte outside 21 to 7E
 * (hexadecimal); 2; 13. Appends the value.
 */
uint64_t sikalumdo_allele(uint32_t *state, size_t state_len, uint8_t *buf, size_t buf_len, const uint8_t *text,
                          size_t text_len);

/*
 * Gives FILTER as dictionary offsets; none where no filter was applied. Refusals: 12; by element 8 outside the
 * dictionary, then 11 for one given before; 2; 13. Appends the value.
 */
uint64_t sikalumdo_filter(uint32_t *state, size_t state_len, uint8_t *buf, size_t buf_len, const int32_t *offsets,
                          size_t offsets_len);

/*
 * Gives an INFO field of integers, marks as INT32_MIN (missing) and INT32_MIN + 1 (end of vector); no values for a
 * missing one. A key may come twice. Refusals: 12; 5 for the 65,536th; 8 for the key; 9 for a reserved value, or one
 * after an end of vector; 2; 13. Appends the key and the value.
 */
uint64_t sikalumdo_info_integers(uint32_t *state, size_t state_len, uint8_t *buf, size_t buf_len, int32_t key,
                                 const int32_t *values, size_t values_len);

/* Gives an INFO field of floats by their bits. Refusals and what is written: as for integers. */
uint64_t sikalumdo_info_floats(uint32_t *state, size_t state_len, uint8_t *buf, size_t buf_len, int32_t key,
                               const uint32_t *bits, size_t bits_len);

/* Gives an INFO field of text. Refusals and what is written: as for integers; 9 for a byte after a zero byte. */
uint64_t sikalumdo_info_text(uint32_t *state, size_t state_len, uint8_t *buf, size_t buf_len, int32_t key,
                             const uint8_t *part, size_t part_len);

/*
 * Gives a FORMAT field of integers, `len` for each person, each person's vector in turn; GT as its codes.
 * Refusals: 12; 5 without people or for the 256th field; 8 for the key; 11 for a key given before; 7 where
 * values_len is not people x len; by element 9 for a reserved value or one after that person's end of vector, then,
 * in GT, 10 for a negative code or an allele too high; 2; 13. Appends the key and the value.
 */
uint64_t sikalumdo_format_integers(uint32_t *state, size_t state_len, uint8_t *buf, size_t buf_len, int32_t key,
                                   uint32_t len, const int32_t *values, size_t values_len);

/* Gives a FORMAT field of floats by their bits. Refusals: as for integers, with 6 for GT between 11 and 7; no 10. */
uint64_t sikalumdo_format_floats(uint32_t *state, size_t state_len, uint8_t *buf, size_t buf_len, int32_t key,
                                 uint32_t len, const uint32_t *bits, size_t bits_len);

/* Gives a FORMAT field of text, `len` bytes for each person. Refusals: as for floats. */
uint64_t sikalumdo_format_text(uint32_t *state, size_t state_len, uint8_t *buf, size_t buf_len, int32_t key,
                               uint32_t len, const uint8_t *part, size_t part_len);

/*
 * Ends the record; no turn is taken after it.
 * Answers the record's length in bytes. Refusals: 12; 13 where `buf` is shorter than 32 bytes.
 * Writes the four fields that begin left 0, and nothing else.
 */
uint64_t sikalumdo_end(uint32_t *state, size_t state_len, uint8_t *buf, size_t buf_len);

#ifdef __cplusplus
}
#endif

#endif
