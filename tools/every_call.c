/* every_call: calls every function of include/zamiachisel.h, for streams that are accepted and for each kind of
   refusal, with work tables and outputs of the length that is asked, longer and too short, all full of other numbers
   before the call, with a run for the verdict that is longer than asked or one number short; and looks at everything that was lent
   after it. What must be there is what the contracts in
   crates/c_calls say, worked out here by hand: the first 2,048 numbers of each table are 0 and the rest is as it was;
   with refusal 1 nothing is changed; with any other refusal no output is. It says what is not so, and ends with status
   1 where there is such a thing. Each run is allocated at its own length, so that valgrind sees what is read or written
   past it. */
#include <inttypes.h>
#include <stdio.h>
#include <stdlib.h>
#include <string.h>

#include "zamiachisel.h"

/* ---- streams */

struct run {
    const uint8_t *bytes;
    size_t length;
};

#define RUN(...)                                                                                                       \
    { (const uint8_t[]){__VA_ARGS__}, sizeof((const uint8_t[]){__VA_ARGS__}) }
#define X(a, b) a, b, 0, 0, 0, 0, 0, 0 /* x1^a x2^b */

/* Case F of document 01: x1 on 1 - x1^2 >= 0. */
static const struct run f_problem = RUN(1, 1, 2, X(1, 0), 1, 0, 0, 0, 3, 4, X(0, 0), 1, 0, 4, X(2, 0), 255, 255, 5, 0,
                                        X(0, 0), 5, 0, X(1, 0), 5, 1, X(0, 0), 6);
static const struct run f_low =
    RUN(16, 0, 2, 0, 255, 255, 255, 255, 1, 0, 17, 0, 1, 0, 18, 0, 1, 0, 18, 1, 1, 0, 17, 1, 1, 0, 18, 0, 1, 0, 19);
static const struct run f_high =
    RUN(16, 1, 2, 0, 1, 0, 0, 0, 1, 0, 17, 0, 1, 0, 18, 0, 1, 0, 18, 1, 255, 255, 17, 1, 1, 0, 18, 0, 1, 0, 19);
/* Its lower certificate with two notes, one directly behind the header and one within a row, and without its end. */
static const struct run f_noted =
    RUN(16, 0, 2, 0, 255, 255, 255, 255, 1, 0, 64, 1, 2, 3, 4, 5, 6, 7, 8, 17, 0, 1, 0, 18, 0, 1, 0, 64, 19, 19, 19, 19,
        19, 19, 19, 19, 18, 1, 1, 0, 17, 1, 1, 0, 18, 0, 1, 0, 19);
static const struct run f_cut =
    RUN(16, 0, 2, 0, 255, 255, 255, 255, 1, 0, 17, 0, 1, 0, 18, 0, 1, 0, 18, 1, 1, 0, 17, 1, 1, 0, 18, 0, 1, 0);
/* x1^2 + x2^2 with the basis 1, x1, x2, which has three blocks, and a row with entries in two of them. */
static const struct run split_problem =
    RUN(1, 2, 2, X(2, 0), 1, 0, 0, 0, 2, X(0, 2), 1, 0, 0, 0, 5, 0, X(0, 0), 5, 0, X(1, 0), 5, 0, X(0, 1), 6);
static const struct run split = RUN(16, 0, 1, 0, 0, 0, 0, 0, 1, 0, 17, 0, 1, 0, 18, 1, 1, 0, 18, 2, 1, 0, 19);
/* x1^2 - 2 x1 + 3 is said to be 3 and (x1 - 1)^2. */
static const struct run false_problem = RUN(1, 1, 2, X(2, 0), 1, 0, 0, 0, 2, X(1, 0), 254, 255, 255, 255, 2, X(0, 0), 3,
                                            0, 0, 0, 5, 0, X(0, 0), 5, 0, X(1, 0), 6);
static const struct run falsehood = RUN(16, 0, 1, 0, 3, 0, 0, 0, 1, 0, 17, 0, 1, 0, 18, 0, 255, 255, 18, 1, 1, 0, 19);
/* The zero polynomial, without conditions, is at least 0 and at most 0. */
static const struct run zero_problem = RUN(1, 1, 5, 0, X(0, 0), 6);
static const struct run zero_low = RUN(16, 0, 1, 0, 0, 0, 0, 0, 1, 0, 19);
static const struct run zero_high = RUN(16, 1, 1, 0, 0, 0, 0, 0, 1, 0, 19);
/* A command that stands nowhere in a problem, one that stands too early, and no bytes. */
static const struct run unknown = RUN(10);
static const struct run misplaced = RUN(6);
static const struct run nothing = {(const uint8_t[]){0}, 0};

/* A problem with more than 2,048 monomials to compare: 32 terms of a condition times the products of 64 monomials. */
static uint8_t large_bytes[2 + 13 + 1 + 32 * 11 + 64 * 10 + 1];

static struct run large(void) {
    uint8_t *at = large_bytes;
    *at++ = 1;
    *at++ = 8;
    memcpy(at, (const uint8_t[]){2, X(1, 0), 1, 0, 0, 0}, 13);
    at += 13;
    *at++ = 3;
    for (uint8_t i = 0; i < 32; i++) {
        memcpy(at, (const uint8_t[]){4, 0, 0, 0, 0, 0, 0, i / 2, i % 2, 1, 0}, 11);
        at += 11;
    }
    for (uint8_t i = 0; i < 64; i++) {
        memcpy(at, (const uint8_t[]){5, 1, i & 1, i >> 1 & 1, i >> 2 & 1, i >> 3 & 1, i >> 4 & 1, i >> 5 & 1, 0, 0},
               10);
        at += 10;
    }
    *at = 6;
    return (struct run){large_bytes, sizeof large_bytes};
}

/* ---- what is lent */

/* How many numbers more a run has than is asked, at most. */
enum { MORE = 5 };

/* The lengths of the tables: as asked, longer, and one of them too short. */
static const size_t table_lengths[][3] = {{2048, 2048, 2048}, {2049, 2050, 2048 + MORE}, {2047, 2048, 2048},
                                          {2048, 2047, 2048}, {2048, 2048, 2047},        {0, 0, 0}};
enum { LENGTHS = sizeof table_lengths / sizeof table_lengths[0], ENOUGH = 2 };

static uint64_t *keys;
static int64_t *high, *low;
static uint8_t *out;
static size_t keys_length, high_length, low_length, out_length;
static uint64_t single[4];

/* The run for a verdict: as long as the call asks, or one number short of it. */
static uint64_t *verdict;
static size_t verdict_length;
static int verdict_short;


static uint8_t *copy(struct run run) {
    uint8_t *bytes = malloc(run.length ? run.length : 1);
    if (bytes == NULL) {
        exit(2);
    }
    memcpy(bytes, run.bytes, run.length);
    return bytes;
}

static void *allocate(size_t length) {
    void *bytes = malloc(length ? length : 1);
    if (bytes == NULL) {
        exit(2);
    }
    return bytes;
}

/* Other numbers than 0 stand in everything. */
static void lend(const size_t *lengths, size_t length) {
    keys_length = lengths[0];
    high_length = lengths[1];
    low_length = lengths[2];
    out_length = length;
    keys = allocate(8 * keys_length);
    high = allocate(8 * high_length);
    low = allocate(8 * low_length);
    out = allocate(out_length);
    for (size_t i = 0; i < keys_length; i++) {
        keys[i] = UINT64_C(0xDEAD000000000000) + i;
    }
    for (size_t i = 0; i < high_length; i++) {
        high[i] = -1 - (int64_t)i;
    }
    for (size_t i = 0; i < low_length; i++) {
        low[i] = 7 + (int64_t)i;
    }
    for (size_t i = 0; i < out_length; i++) {
        out[i] = (uint8_t)(1 + i % 251);
    }
    for (size_t i = 0; i < 4; i++) {
        single[i] = 0xBEEF;
    }
}

/* Lends a run for a verdict of so many numbers, with others in it and two more than is asked. */
static void lend_verdict(size_t numbers) {
    verdict_length = verdict_short ? numbers - 1 : numbers + 2;
    verdict = allocate(8 * verdict_length);
    for (size_t i = 0; i < verdict_length; i++) {
        verdict[i] = 0xFACE + i;
    }
}

static void give_back(void) {
    free(verdict);
    verdict = NULL;
    free(keys);
    free(high);
    free(low);
    free(out);
}

/* ---- what must be there */

static int faults, calls;
static const char *case_name, *call_name;
static size_t case_lengths;

static void must(int is, const char *what, uint64_t found, uint64_t expected) {
    if (!is) {
        printf("%s, %s, tables %zu %zu %zu, output %zu: %s is %" PRIu64 " and must be %" PRIu64 "\n", case_name,
               call_name, table_lengths[case_lengths][0], table_lengths[case_lengths][1],
               table_lengths[case_lengths][2], out_length, what, found, expected);
        faults++;
    }
}

static void equal(const char *what, uint64_t found, uint64_t expected) {
    must(found == expected, what, found, expected);
}

/* The tables after a call: 0 to their 2,048th number, unless nothing may be written, and past it as they were. */
static void look_at_tables(int is_short) {
    for (size_t i = 0; i < keys_length; i++) {
        equal("a key", keys[i], !is_short && i < 2048 ? 0 : UINT64_C(0xDEAD000000000000) + i);
    }
    for (size_t i = 0; i < high_length; i++) {
        equal("a high half", (uint64_t)high[i], !is_short && i < 2048 ? 0 : (uint64_t)(-1 - (int64_t)i));
    }
    for (size_t i = 0; i < low_length; i++) {
        equal("a low half", (uint64_t)low[i], !is_short && i < 2048 ? 0 : (uint64_t)(7 + (int64_t)i));
    }
}

/* The run for the verdict after a call with this refusal: its number stands first, and with a refusal the fields of the call are 0;
   with refusal 1, and past the verdict, all is as it was. */
static void look_at_verdict(size_t numbers, uint64_t number) {
    for (size_t i = 0; i < verdict_length; i++) {
        if (number == 1 || i >= numbers) {
            equal("a number that is not written", verdict[i], 0xFACE + i);
        } else if (i == 0) {
            equal("the number in the verdict", verdict[i], number);
        } else if (number ? i > 3 : i < 4) {
            equal("a field that is 0", verdict[i], 0);
        }
    }
}

static void field(const char *what, size_t place, uint64_t number, uint64_t expected) {
    if (number == 0) {
        equal(what, verdict[place], expected);
    }
}

/* The output: these bytes, and past them as it was. */
static void look_at_output(const uint8_t *bytes, size_t length) {
    for (size_t i = 0; i < out_length; i++) {
        equal("a byte of the output", out[i], i < length ? bytes[i] : 1 + i % 251);
    }
}

static void look_at_singles(size_t count, uint64_t a, uint64_t b, uint64_t c, uint64_t d) {
    const uint64_t expected[4] = {a, b, c, d};
    for (size_t i = 0; i < 4; i++) {
        equal("a single number", single[i], i < count ? expected[i] : 0xBEEF);
    }
}

/* ---- the cases */

struct fraction {
    int64_t num;
    uint64_t den;
};

/* What the calls must answer for a problem and two certificates: the numbers of the refusals, and what stands in the outputs where
   there is none. */
struct answers {
    const char *name;
    struct run problem, first, second;
    uint64_t blocks;                            /* of the blocks and of the symmetries */
    uint8_t numbers[ZAMIACHISEL_BLOCKS_LENGTH]; /* the block numbers that are not 255, plus 1 */
    uint8_t masks[4];                           /* the sign symmetries but mask 0 */
    uint64_t check;                             /* of the first certificate */
    uint64_t office;                            /* with notes, and how many they are */
    uint64_t notes;
    uint8_t note_bytes[16];
    uint64_t pair, pair_stream, pair_place, pair_key; /* the whole refusal */
    struct fraction lower, upper;
    uint64_t tighter, better; /* the refusal, and the stream that comes back */
    uint64_t tighter_stream, tighter_place, tighter_key;
    uint64_t moved; /* the bound after a change of d = -3 at x1 */
    struct fraction bound;
};

static void blocks(const struct answers *a, int is_short) {
    uint8_t expected[ZAMIACHISEL_BLOCKS_LENGTH];
    uint8_t *problem = copy(a->problem);
    uint64_t refusal;
    for (size_t i = 0; i < sizeof expected; i++) {
        expected[i] = (uint8_t)(a->numbers[i] - 1);
    }
    is_short |= out_length < sizeof expected;
    lend_verdict(ZAMIACHISEL_BLOCKS_NUMBERS);
    refusal = zamiachisel_blocks(problem, a->problem.length, out, out_length, verdict, verdict_length, keys, keys_length, high,
                                 high_length, low, low_length);
    equal("the refusal", refusal, is_short ? 1 : a->blocks);
    look_at_verdict(ZAMIACHISEL_BLOCKS_NUMBERS, refusal);
    look_at_output(expected, is_short || a->blocks ? 0 : sizeof expected);
    look_at_singles(0, 0, 0, 0, 0);
    look_at_tables(is_short);
    free(problem);
}

static void symmetries(const struct answers *a, int is_short) {
    uint8_t expected[ZAMIACHISEL_MASKS_LENGTH] = {0};
    uint8_t *problem = copy(a->problem);
    uint64_t refusal;
    memcpy(expected + 1, a->masks, sizeof a->masks);
    is_short |= out_length < sizeof expected;
    lend_verdict(ZAMIACHISEL_SYMMETRIES_NUMBERS);
    refusal = zamiachisel_symmetries(problem, a->problem.length, out, out_length, verdict, verdict_length, keys, keys_length,
                                     high, high_length, low, low_length);
    equal("the refusal", refusal, is_short ? 1 : a->blocks);
    look_at_verdict(ZAMIACHISEL_SYMMETRIES_NUMBERS, refusal);
    look_at_output(expected, is_short || a->blocks ? 0 : sizeof expected);
    look_at_singles(0, 0, 0, 0, 0);
    look_at_tables(is_short);
    free(problem);
}

static void check(const struct answers *a, int is_short) {
    uint8_t *problem = copy(a->problem), *first = copy(a->first);
    uint64_t refusal;
    lend_verdict(ZAMIACHISEL_CHECK_NUMBERS);
    refusal = zamiachisel_check(problem, a->problem.length, first, a->first.length, verdict, verdict_length, keys, keys_length,
                                high, high_length, low, low_length);
    equal("the refusal", refusal, is_short ? 1 : a->check);
    look_at_verdict(ZAMIACHISEL_CHECK_NUMBERS, refusal);
    look_at_output(NULL, 0);
    look_at_singles(0, 0, 0, 0, 0);
    look_at_tables(is_short);
    free(problem);
    free(first);
}

/* Two checks: of the first certificate, and of the same again. */
static void check_two(const struct answers *a, int is_short) {
    uint8_t *problem = copy(a->problem), *first = copy(a->first), *second = copy(a->first);
    uint64_t refusal;
    lend_verdict(ZAMIACHISEL_TWO_NUMBERS);
    refusal = zamiachisel_check_two(problem, a->problem.length, first, a->first.length, second, a->first.length, verdict,
                                    verdict_length, keys, keys_length, high, high_length, low, low_length);
    equal("the refusal", refusal, is_short ? 1 : a->check);
    if (refusal != 1) {
        for (size_t i = 0; i < ZAMIACHISEL_CHECK_NUMBERS; i++) {
            equal("a number of the second check", verdict[ZAMIACHISEL_TWO_SECOND + i], verdict[i]);
        }
    }
    look_at_output(NULL, 0);
    look_at_tables(is_short);
    free(problem);
    free(first);
    free(second);
}

static void pair(const struct answers *a, int is_short) {
    uint8_t *problem = copy(a->problem), *first = copy(a->first), *second = copy(a->second);
    uint64_t refusal;
    lend_verdict(ZAMIACHISEL_PAIR_NUMBERS);
    refusal = zamiachisel_pair(problem, a->problem.length, first, a->first.length, second, a->second.length, verdict,
                               verdict_length, keys, keys_length, high, high_length, low, low_length);
    equal("the refusal", refusal, is_short ? 1 : a->pair);
    look_at_verdict(ZAMIACHISEL_PAIR_NUMBERS, refusal);
    field("the lower numerator", ZAMIACHISEL_PAIR_LOWER_NUMERATOR, refusal, (uint64_t)a->lower.num);
    field("the lower denominator", ZAMIACHISEL_PAIR_LOWER_DENOMINATOR, refusal, a->lower.den);
    field("the upper numerator", ZAMIACHISEL_PAIR_UPPER_NUMERATOR, refusal, (uint64_t)a->upper.num);
    field("the upper denominator", ZAMIACHISEL_PAIR_UPPER_DENOMINATOR, refusal, a->upper.den);
    look_at_output(NULL, 0);
    look_at_singles(0, 0, 0, 0, 0);
    look_at_tables(is_short);
    free(problem);
    free(first);
    free(second);
}

/* The choice of the tighter certificate, in a run. */
static void choose(const struct answers *a, int is_short) {
    uint8_t *problem = copy(a->problem), *first = copy(a->first), *second = copy(a->second);
    uint64_t refusal;
    lend_verdict(ZAMIACHISEL_CHOOSE_NUMBERS);
    refusal = zamiachisel_choose(problem, a->problem.length, first, a->first.length, second, a->second.length, verdict,
                                 verdict_length, keys, keys_length, high, high_length, low, low_length);
    equal("the refusal", refusal, is_short ? 1 : a->tighter);
    look_at_verdict(ZAMIACHISEL_CHOOSE_NUMBERS, refusal);
    field("the stream that comes back", ZAMIACHISEL_CHOOSE_STREAM, refusal, a->better);
    look_at_output(NULL, 0);
    look_at_tables(is_short);
    free(problem);
    free(first);
    free(second);
}

/* The lines borrow neither a verdict nor tables: those here stay as they are. An output too short for them stays too. */
static void lines(const struct answers *a, int is_short) {
    uint8_t *problem = copy(a->problem), *first = copy(a->first), *second = copy(a->second);
    uint64_t length;
    (void)is_short;
    length = zamiachisel_lines(problem, a->problem.length, first, a->first.length, second, a->second.length, out, out_length);
    must(0 < length && length <= ZAMIACHISEL_LINES_LENGTH, "the length of the lines", length, ZAMIACHISEL_LINES_LENGTH);
    if (length <= out_length) {
        equal("the first letter of the lines", out[0], a->pair ? 'r' : 'l');
        equal("the last byte of the lines", out[length - 1], 10);
    }
    for (size_t i = length <= out_length ? length : 0; i < out_length; i++) {
        equal("a byte of the output", out[i], 1 + i % 251);
    }
    look_at_tables(1);
    free(problem);
    free(first);
    free(second);
}

static void tighter(const struct answers *a, int is_short) {
    uint8_t *problem = copy(a->problem), *first = copy(a->first), *second = copy(a->second);
    uint64_t better =
        zamiachisel_tighter(problem, a->problem.length, first, a->first.length, second, a->second.length, &single[0],
                            &single[1], &single[2], &single[3], keys, keys_length, high, high_length, low, low_length);
    equal("the stream that comes back", better, is_short ? 0 : a->better);
    look_at_singles(4, is_short ? 1 : a->tighter, is_short ? 0 : a->tighter_stream, is_short ? 0 : a->tighter_place,
                    is_short ? 0 : a->tighter_key);
    look_at_output(NULL, 0);
    look_at_tables(is_short);
    free(problem);
    free(first);
    free(second);
}

static void office(const struct answers *a, int is_short) {
    uint8_t *problem = copy(a->problem), *first = copy(a->first);
    uint64_t refusal = is_short ? 1 : a->office;
    uint64_t found;
    if (!refusal && out_length < 8 * a->notes) {
        refusal = 13;
    }
    lend_verdict(ZAMIACHISEL_OFFICE_NUMBERS);
    found = zamiachisel_office(problem, a->problem.length, first, a->first.length, out, out_length, verdict, verdict_length,
                               keys, keys_length, high, high_length, low, low_length);
    equal("the refusal", found, refusal);
    look_at_verdict(ZAMIACHISEL_OFFICE_NUMBERS, found);
    field("the number of notes", ZAMIACHISEL_OFFICE_NOTES, found, a->notes);
    look_at_singles(0, 0, 0, 0, 0);
    look_at_output(a->note_bytes, refusal ? 0 : 8 * a->notes);
    look_at_tables(is_short);
    free(problem);
    free(first);
}

static void moved_bound(const struct answers *a, int is_short) {
    const struct run change = RUN(X(1, 0), 253, 255, 255, 255);
    uint8_t *problem = copy(a->problem), *first = copy(a->first), *changes = copy(change);
    uint64_t refusal = is_short ? 1 : a->moved, found;
    lend_verdict(ZAMIACHISEL_MOVED_NUMBERS);
    found = zamiachisel_moved_bound(problem, a->problem.length, first, a->first.length, changes, change.length, verdict,
                                    verdict_length, keys, keys_length, high, high_length, low, low_length);
    equal("the refusal", found, refusal);
    look_at_verdict(ZAMIACHISEL_MOVED_NUMBERS, found);
    field("the numerator", ZAMIACHISEL_MOVED_NUMERATOR, found, (uint64_t)a->bound.num);
    field("the denominator", ZAMIACHISEL_MOVED_DENOMINATOR, found, a->bound.den);
    look_at_singles(0, 0, 0, 0, 0);
    look_at_output(NULL, 0);
    look_at_tables(is_short);
    free(problem);
    free(first);
    free(changes);
}

/* The pair and another: p q' + p' q over q q', and likewise P and Q. */
static void sum_with(const struct answers *a, const struct answers *b, uint64_t refusal) {
    uint8_t *problem = copy(a->problem), *first = copy(a->first), *second = copy(a->second);
    uint8_t *problem2 = copy(b->problem), *first2 = copy(b->first), *second2 = copy(b->second);
    uint64_t found;
    int64_t p = a->lower.num * (int64_t)b->lower.den + b->lower.num * (int64_t)a->lower.den;
    int64_t P = a->upper.num * (int64_t)b->upper.den + b->upper.num * (int64_t)a->upper.den;
    lend_verdict(ZAMIACHISEL_SUM_NUMBERS);
    found = zamiachisel_sum(problem, a->problem.length, first, a->first.length, second, a->second.length, problem2,
                            b->problem.length, first2, b->first.length, second2, b->second.length, verdict, verdict_length,
                            keys, keys_length, high, high_length, low, low_length);
    equal("the refusal", found, refusal);
    look_at_verdict(ZAMIACHISEL_SUM_NUMBERS, found);
    field("the lower numerator", ZAMIACHISEL_SUM_LOWER_NUMERATOR, found, (uint64_t)p);
    field("the lower denominator", ZAMIACHISEL_SUM_LOWER_DENOMINATOR, found, a->lower.den * b->lower.den);
    field("the upper numerator", ZAMIACHISEL_SUM_UPPER_NUMERATOR, found, (uint64_t)P);
    field("the upper denominator", ZAMIACHISEL_SUM_UPPER_DENOMINATOR, found, a->upper.den * b->upper.den);
    look_at_singles(0, 0, 0, 0, 0);
    look_at_output(NULL, 0);
    look_at_tables(refusal == 1);
    free(problem);
    free(first);
    free(second);
    free(problem2);
    free(first2);
    free(second2);
}

static void sum(const struct answers *a, int is_short) { sum_with(a, a, is_short ? 1 : a->pair); }

/* Beside the pair for the zero polynomial, which has another region but that one's own. */
static void sum_with_zero(const struct answers *a, int is_short) {
    const struct answers other = {
        .problem = zero_problem, .first = zero_low, .second = zero_high, .lower = {0, 1}, .upper = {0, 1}};
    sum_with(a, &other, is_short ? 1 : a->pair ? a->pair : a->problem.bytes == zero_problem.bytes ? 0 : 15);
}

static void put(uint8_t *record, enum zamiachisel_field at, uint64_t value) {
    for (int i = 0; i < 4; i++) {
        record[at + i] = (uint8_t)(value >> 8 * i);
    }
}

/* The 32 bytes for the pair. */
static void expect_record(const struct answers *a, uint8_t *record) {
    memset(record, 0, ZAMIACHISEL_RECORD_LENGTH);
    put(record, ZAMIACHISEL_AT_REFUSAL, a->pair);
    put(record, ZAMIACHISEL_AT_LOWER_NUMERATOR, (uint64_t)a->lower.num);
    put(record, ZAMIACHISEL_AT_LOWER_DENOMINATOR, a->lower.den);
    put(record, ZAMIACHISEL_AT_UPPER_NUMERATOR, (uint64_t)a->upper.num);
    put(record, ZAMIACHISEL_AT_UPPER_DENOMINATOR, a->upper.den);
    put(record, ZAMIACHISEL_AT_STREAM, a->pair_stream);
    put(record, ZAMIACHISEL_AT_PLACE, a->pair_place);
    put(record, ZAMIACHISEL_AT_KEY, a->pair_key);
}

/* The call that borrows no tables: those here stay as they are. */
static void record(const struct answers *a, int is_short) {
    uint8_t expected[ZAMIACHISEL_RECORD_LENGTH];
    uint8_t *problem = copy(a->problem), *first = copy(a->first), *second = copy(a->second);
    uint64_t refusal;
    (void)is_short;
    expect_record(a, expected);
    refusal = zamiachisel_record(problem, a->problem.length, first, a->first.length, second, a->second.length, out,
                                 out_length);
    equal("the refusal", refusal, out_length < sizeof expected ? 1 : a->pair);
    look_at_output(expected, out_length < sizeof expected ? 0 : sizeof expected);
    look_at_singles(0, 0, 0, 0, 0);
    look_at_tables(1);
    free(problem);
    free(first);
    free(second);
}

/* A week of this pair twice; and the same without its last byte, which is refused with 12. */
static void report_on(const struct answers *a, int is_short, int is_cut) {
    struct run parts[3] = {a->problem, a->first, a->second};
    uint8_t expected[2 * ZAMIACHISEL_RECORD_LENGTH];
    size_t length = 6, at = 0;
    uint8_t *records;
    uint64_t refusal;
    for (int i = 0; i < 3; i++) {
        length += parts[i].length;
    }
    length = 2 * length - (is_cut ? 1 : 0);
    records = allocate(length);
    for (int twice = 0; twice < 2; twice++) {
        for (int i = 0; i < 3 && at + 2 <= length; i++) {
            records[at++] = (uint8_t)parts[i].length;
            records[at++] = (uint8_t)(parts[i].length >> 8);
        }
        for (int i = 0; i < 3; i++) {
            size_t left = parts[i].length < length - at ? parts[i].length : length - at;
            memcpy(records + at, parts[i].bytes, left);
            at += left;
        }
    }
    expect_record(a, expected);
    expect_record(a, expected + ZAMIACHISEL_RECORD_LENGTH);
    refusal = is_short ? 1 : is_cut ? 12 : out_length < sizeof expected ? 1 : 0;
    equal("the number of records", zamiachisel_record_count(records, length), is_cut ? 0 : 2);
    lend_verdict(ZAMIACHISEL_REPORT_NUMBERS);
    equal("the refusal",
          zamiachisel_report(records, length, out, out_length, verdict, verdict_length, keys, keys_length, high, high_length,
                             low, low_length),
          refusal);
    look_at_verdict(ZAMIACHISEL_REPORT_NUMBERS, refusal);
    field("the number accepted", ZAMIACHISEL_REPORT_ACCEPTED, refusal, a->pair ? 0 : 2);
    look_at_output(expected, refusal ? 0 : sizeof expected);
    look_at_singles(0, 0, 0, 0, 0);
    look_at_tables(refusal == 1);
    free(records);
}

static void report(const struct answers *a, int is_short) { report_on(a, is_short, 0); }

static void report_of_cut(const struct answers *a, int is_short) {
    if (a->problem.length) {
        report_on(a, is_short, 1);
    }
}

/* ---- every call on every case, with runs of every length */

static const struct {
    const char *name;
    void (*call)(const struct answers *, int);
    size_t output;
} every[] = {
    {"blocks", blocks, ZAMIACHISEL_BLOCKS_LENGTH},
    {"check", check, MORE},
    {"pair", pair, MORE},
    {"check of two", check_two, MORE},
    {"choose", choose, MORE},
    {"lines", lines, 128},
    {"tighter", tighter, MORE},
    {"symmetries", symmetries, ZAMIACHISEL_MASKS_LENGTH},
    {"report", report, 2 * ZAMIACHISEL_RECORD_LENGTH},
    {"report of a cut record", report_of_cut, 2 * ZAMIACHISEL_RECORD_LENGTH},
    {"sum", sum, MORE},
    {"sum with the zero polynomial", sum_with_zero, MORE},
    {"moved bound", moved_bound, MORE},
    {"office", office, 16},
    {"record", record, ZAMIACHISEL_RECORD_LENGTH},
};

static void try_case(const struct answers *a) {
    case_name = a->name;
    for (size_t i = 0; i < sizeof every / sizeof every[0]; i++) {
        const size_t outputs[] = {every[i].output, every[i].output - 1, every[i].output + MORE, 0};
        const int has_verdict = every[i].call != tighter && every[i].call != record && every[i].call != lines;
        call_name = every[i].name;
        for (size_t j = 0; j < sizeof outputs / sizeof outputs[0]; j++) {
            for (case_lengths = 0; case_lengths < LENGTHS; case_lengths++) {
                for (verdict_short = 0; verdict_short <= has_verdict; verdict_short++) {
                    lend(table_lengths[case_lengths], outputs[j]);
                    every[i].call(a, verdict_short || case_lengths >= ENOUGH);
                    give_back();
                    calls++;
                }
            }
        }
    }
}

/* ---- the window of gaps, which borrows a state and no tables */

/* What must be found after arrivals of one over each of these denominators: all are accepted but 0. */
static void window_of(const char *name, size_t state_length, const uint64_t *arrivals, size_t count) {
    uint64_t *state = allocate(8 * state_length), *expected = allocate(8 * state_length);
    case_name = name;
    call_name = "window";
    for (size_t i = 0; i < state_length; i++) {
        state[i] = expected[i] = i < ZAMIACHISEL_STATE_LENGTH ? 0 : 0xABBA + i;
    }
    for (size_t k = 0; k < count; k++) {
        const int is_short = verdict_short || state_length < ZAMIACHISEL_STATE_LENGTH;
        const uint64_t number = is_short ? 1 : arrivals[k] ? 0 : 14;
        uint64_t found, widest = 0, age = 0, held = 0;
        lend_verdict(ZAMIACHISEL_WINDOW_NUMBERS);
        found = zamiachisel_window_push(1, arrivals[k], state, state_length, verdict, verdict_length);
        equal("the refusal", found, number);
        look_at_verdict(ZAMIACHISEL_WINDOW_NUMBERS, found);
        if (number == 0) {
            memmove(expected + 2, expected, 8 * 62);
            expected[0] = 1;
            expected[1] = arrivals[k];
            expected[64] += expected[64] < 32;
        }
        for (size_t i = 0; i < state_length; i++) {
            equal("a number of the state", state[i], expected[i]);
        }
        for (held = 0; !is_short && held < expected[64]; held++) {
            if (widest == 0 || expected[2 * held + 1] < widest) {
                widest = expected[2 * held + 1];
                age = held;
            }
        }
        field("the widest gap's numerator", ZAMIACHISEL_WINDOW_NUMERATOR, found, 1);
        field("the widest gap's denominator", ZAMIACHISEL_WINDOW_DENOMINATOR, found, widest);
        field("its age", ZAMIACHISEL_WINDOW_AGE, found, age);
        free(verdict);
        verdict = NULL;
        calls++;
    }
    free(state);
    free(expected);
}

/* More arrivals than a window holds, the widest of them early, some equal and some refused. */
static void window(void) {
    uint64_t arrivals[80];
    const size_t lengths[] = {65, 64, 65 + MORE, 0};
    for (size_t i = 0; i < 80; i++) {
        arrivals[i] = i % 9 == 8 ? 0 : i == 3 ? 2 : 5 + i * 7 % 11;
    }
    for (size_t i = 0; i < sizeof lengths / sizeof lengths[0]; i++) {
        for (verdict_short = 0; verdict_short < 2; verdict_short++) {
            window_of("arrivals", lengths[i], arrivals, 80);
        }
    }
}

int main(void) {
    const struct run too_large = large();
    const struct answers cases[] = {
        {.name = "case F",
         .problem = f_problem,
         .first = f_low,
         .second = f_high,
         .numbers = {[0] = 1, [1] = 1, [64] = 1},
         .lower = {-1, 1},
         .upper = {1, 1},
         .tighter = 11,
         .tighter_stream = 2,
         .bound = {-4, 1}},
        {.name = "the zero polynomial",
         .problem = zero_problem,
         .first = zero_low,
         .second = zero_high,
         .numbers = {[0] = 1},
         .masks = {1},
         .lower = {0, 1},
         .upper = {0, 1},
         .tighter = 11,
         .tighter_stream = 2,
         .moved = 16},
        {.name = "a certificate twice",
         .problem = f_problem,
         .first = f_low,
         .second = f_low,
         .numbers = {[0] = 1, [1] = 1, [64] = 1},
         .pair = 10,
         .pair_stream = 2,
         .better = 1,
         .bound = {-4, 1}},
        {.name = "certificates exchanged",
         .problem = f_problem,
         .first = f_high,
         .second = f_low,
         .numbers = {[0] = 1, [1] = 1, [64] = 1},
         .pair = 10,
         .pair_stream = 1,
         .tighter = 11,
         .tighter_stream = 2,
         .moved = 17},
        {.name = "notes",
         .problem = f_problem,
         .first = f_noted,
         .second = f_high,
         .numbers = {[0] = 1, [1] = 1, [64] = 1},
         .check = 3,
         .notes = 2,
         .note_bytes = {1, 2, 3, 4, 5, 6, 7, 8, 19, 19, 19, 19, 19, 19, 19, 19},
         .pair = 3,
         .pair_stream = 1,
         .pair_place = 10,
         .better = 2,
         .moved = 3},
        {.name = "a cut certificate",
         .problem = f_problem,
         .first = f_cut,
         .second = f_high,
         .numbers = {[0] = 1, [1] = 1, [64] = 1},
         .check = 2,
         .office = 2,
         .pair = 2,
         .pair_stream = 1,
         .pair_place = 30,
         .better = 2,
         .moved = 2},
        {.name = "a row in two blocks",
         .problem = split_problem,
         .first = split,
         .second = split,
         .numbers = {[0] = 1, [1] = 2, [2] = 3},
         .masks = {1, 2, 3},
         .check = 8,
         .office = 8,
         .pair = 8,
         .pair_stream = 1,
         .pair_place = 18,
         .tighter = 8,
         .tighter_stream = 1,
         .tighter_place = 18,
         .moved = 8},
        {.name = "a false identity",
         .problem = false_problem,
         .first = falsehood,
         .second = falsehood,
         .numbers = {[0] = 1, [1] = 1},
         .check = 9,
         .office = 9,
         .pair = 9,
         .pair_stream = 1,
         .tighter = 9,
         .tighter_stream = 1,
         .moved = 9},
        {.name = "too many monomials",
         .problem = too_large,
         .first = f_low,
         .second = f_high,
         .blocks = 7,
         .check = 7,
         .office = 7,
         .pair = 7,
         .tighter = 7,
         .moved = 7},
        {.name = "an unknown command",
         .problem = unknown,
         .first = f_low,
         .second = f_high,
         .blocks = 3,
         .check = 3,
         .office = 3,
         .pair = 3,
         .tighter = 3,
         .moved = 3},
        {.name = "a misplaced command",
         .problem = misplaced,
         .first = f_low,
         .second = f_high,
         .blocks = 3,
         .check = 3,
         .office = 3,
         .pair = 3,
         .tighter = 3,
         .moved = 3},
        {.name = "no bytes",
         .problem = nothing,
         .first = nothing,
         .second = nothing,
         .blocks = 2,
         .check = 2,
         .office = 2,
         .pair = 2,
         .tighter = 2,
         .moved = 2},
    };
    for (size_t i = 0; i < sizeof cases / sizeof cases[0]; i++) {
        try_case(&cases[i]);
    }
    window();
    printf("every call: %d calls, %d faults\n", calls, faults);
    return faults ? 1 : 0;
}
