/* fuzz: what libFuzzer runs on each of its inputs, over the functions of include/zamiachisel.h. An input is a week's record: three
   lengths of two bytes, the lower first, and then problem, low and high, each as long as it is told or as there are bytes for it.
   Fifteen calls are made on it, every one of the header's functions among them, and what they say is held against each other by what
   the documents say:
   - the symmetries are refused exactly as the blocks are;
   - check_two says what two checks say;
   - the pair is accepted exactly where both checks are, the first a lower bound and the second an upper one, with their bounds and
     rounds; its refusal is the first certificate's, then the second's, and then that of a side;
   - the record has the pair's fields, and the lines are those of the pair's verdict;
   - choose and tighter agree; the one that is accepted comes back, and of two of one side that with the tighter bound, the first where
     they are equal;
   - the report on the input has the record of each of its pairs, and as many as are counted;
   - the office accepts what the check accepts, with the same fields and no notes;
   - the sum of the pair with itself has twice its bounds; the bound after no changes is the check's;
   - tables are 0 after every call, what is past them and past the verdict stays, and with refusal 1 all of it does.
   Every run is allocated at its own length, for AddressSanitizer to see what is beside it. */
#include <inttypes.h>
#include <stdio.h>
#include <stdlib.h>
#include <string.h>

#include "zamiachisel.h"

#define MORE 3
#define DIRT UINT64_C(0xDEAD00000000BEEF)
#define TABLE ((size_t)ZAMIACHISEL_TABLE_LENGTH + MORE)
#define TABLES keys, TABLE, high, TABLE, low, TABLE
#define RUN(k) runs[k].at, runs[k].length

struct run {
    uint8_t *at;
    size_t length;
};
static uint64_t *keys, *verdict;
static int64_t *high, *low;
static size_t numbers;

int LLVMFuzzerTestOneInput(const uint8_t *data, size_t size);

static void fault(const char *what) {
    fprintf(stderr, "fuzz: %s\n", what);
    abort();
}

static void must(int so, const char *what) {
    if (!so) {
        fault(what);
    }
}

static void *allocated(size_t length) {
    void *at = malloc(length);
    must(at != NULL || length == 0, "no memory");
    return at;
}

static struct run copied(const uint8_t *data, size_t length) {
    struct run run;
    run.at = (uint8_t *)allocated(length ? length : 1);
    run.length = length;
    if (length != 0) {
        memcpy(run.at, data, length);
    }
    return run;
}

/* ---- what is lent */
static void lend(size_t count) {
    size_t i;
    numbers = count;
    if (keys == NULL) {
        keys = (uint64_t *)allocated(8 * TABLE);
        high = (int64_t *)allocated(8 * TABLE);
        low = (int64_t *)allocated(8 * TABLE);
    }
    verdict = (uint64_t *)allocated(8 * (count + MORE));
    for (i = 0; i < TABLE; i++) {
        keys[i] = DIRT + i;
        high[i] = -7 - (int64_t)i;
        low[i] = 7 + (int64_t)i;
    }
    for (i = 0; i < count + MORE; i++) {
        verdict[i] = DIRT - i;
    }
}

/* After a call with this refusal; its verdict is kept. */
static void take_back(uint64_t number, uint64_t *kept) {
    size_t i;
    for (i = 0; i < TABLE; i++) {
        int zero = number != 1 && i < ZAMIACHISEL_TABLE_LENGTH;
        must(keys[i] == (zero ? 0 : DIRT + i) && high[i] == (zero ? 0 : -7 - (int64_t)i) && low[i] == (zero ? 0 : 7 + (int64_t)i),
             "a table is not as it must be");
    }
    for (i = number == 1 ? 0 : numbers; i < numbers + MORE; i++) {
        must(verdict[i] == DIRT - i, "the verdict's run is changed where it must not be");
    }
    memcpy(kept, verdict, 8 * numbers);
    must(numbers == 0 || number == 1 || kept[0] == number, "the number in the verdict is not the one returned");
    free(verdict);
    verdict = NULL;
}
#define VERDICT verdict, numbers + MORE

static int same(const uint64_t *a, const uint64_t *b, size_t count) { return memcmp(a, b, 8 * count) == 0; }

/* ---- the calls on a problem and two certificates */
static struct run runs[3];
static uint64_t two[ZAMIACHISEL_TWO_NUMBERS], pair[ZAMIACHISEL_PAIR_NUMBERS];
#define ONE two
#define OTHER (two + ZAMIACHISEL_TWO_SECOND)

static void problem_alone(void) {
    uint64_t blocks[ZAMIACHISEL_BLOCKS_NUMBERS], symmetries[ZAMIACHISEL_SYMMETRIES_NUMBERS];
    uint8_t *out = (uint8_t *)allocated(ZAMIACHISEL_BLOCKS_LENGTH), *masks = (uint8_t *)allocated(ZAMIACHISEL_MASKS_LENGTH);
    size_t i, starts = 0;
    lend(ZAMIACHISEL_BLOCKS_NUMBERS);
    take_back(zamiachisel_blocks(RUN(0), out, ZAMIACHISEL_BLOCKS_LENGTH, VERDICT, TABLES), blocks);
    lend(ZAMIACHISEL_SYMMETRIES_NUMBERS);
    take_back(zamiachisel_symmetries(RUN(0), masks, ZAMIACHISEL_MASKS_LENGTH, VERDICT, TABLES), symmetries);
    must(same(blocks, symmetries, 4), "the symmetries are not refused as the blocks are");
    if (blocks[0] == 0) {
        for (i = 0; i < ZAMIACHISEL_BLOCKS_LENGTH; i++) {
            must(out[i] == 255 || out[i] <= i % 64, "the number of a block is not its smallest index");
            starts += out[i] == i % 64;
        }
        must(blocks[ZAMIACHISEL_BLOCKS_COUNT] == starts, "the count of blocks");
        must(masks[0] == 0 && symmetries[ZAMIACHISEL_SYMMETRIES_COUNT] >= 1, "the identity is no symmetry");
        for (i = 1; i < ZAMIACHISEL_MASKS_LENGTH; i++) {
            must(i < symmetries[ZAMIACHISEL_SYMMETRIES_COUNT] ? masks[i - 1] < masks[i] : masks[i] == 0, "the masks do not rise");
        }
    }
    free(out);
    free(masks);
}

static void checks(void) {
    uint64_t check[ZAMIACHISEL_CHECK_NUMBERS];
    size_t k;
    lend(ZAMIACHISEL_TWO_NUMBERS);
    take_back(zamiachisel_check_two(RUN(0), RUN(1), RUN(2), VERDICT, TABLES), two);
    for (k = 0; k < 2; k++) {
        lend(ZAMIACHISEL_CHECK_NUMBERS);
        take_back(zamiachisel_check(RUN(0), RUN(1 + k), VERDICT, TABLES), check);
        must(same(check, two + k * ZAMIACHISEL_TWO_SECOND, ZAMIACHISEL_CHECK_NUMBERS), "check_two does not say what the check says");
    }
}

/* The pair's refusal by the two checks: of the first, of the second, and of a side. */
static void expected_refusal(uint64_t *to) {
    memset(to, 0, 32);
    if (ONE[0] != 0) {
        memcpy(to, ONE, 32);
    } else if (OTHER[0] != 0) {
        memcpy(to, OTHER, 32);
        to[1] = OTHER[1] == ZAMIACHISEL_FIRST ? ZAMIACHISEL_SECOND : OTHER[1];
    } else if (ONE[ZAMIACHISEL_CHECK_SIDE] != 0 || OTHER[ZAMIACHISEL_CHECK_SIDE] != 1) {
        to[0] = ZAMIACHISEL_SIDES;
        to[1] = ONE[ZAMIACHISEL_CHECK_SIDE] != 0 ? ZAMIACHISEL_FIRST : ZAMIACHISEL_SECOND;
    }
}

static void the_pair(void) {
    uint64_t refusal[4];
    lend(ZAMIACHISEL_PAIR_NUMBERS);
    take_back(zamiachisel_pair(RUN(0), RUN(1), RUN(2), VERDICT, TABLES), pair);
    expected_refusal(refusal);
    must(same(pair, refusal, 4), "the pair's refusal is not that of its certificates");
    if (pair[0] == 0) {
        must(same(pair + ZAMIACHISEL_PAIR_LOWER_NUMERATOR, ONE + ZAMIACHISEL_CHECK_NUMERATOR, 2), "the lower bound");
        must(same(pair + ZAMIACHISEL_PAIR_UPPER_NUMERATOR, OTHER + ZAMIACHISEL_CHECK_NUMERATOR, 2), "the upper bound");
        must(same(pair + ZAMIACHISEL_PAIR_ROUNDS, ONE + ZAMIACHISEL_CHECK_ROUNDS, 2), "the rounds and the rule");
    }
}

static uint64_t field(const uint8_t *record, size_t at) {
    return (uint64_t)record[at] | (uint64_t)record[at + 1] << 8 | (uint64_t)record[at + 2] << 16 | (uint64_t)record[at + 3] << 24;
}

static void as_record(void) {
    static const int at[8] = {ZAMIACHISEL_AT_REFUSAL,           ZAMIACHISEL_AT_STREAM,            ZAMIACHISEL_AT_PLACE,
                              ZAMIACHISEL_AT_KEY,               ZAMIACHISEL_AT_LOWER_NUMERATOR,   ZAMIACHISEL_AT_LOWER_DENOMINATOR,
                              ZAMIACHISEL_AT_UPPER_NUMERATOR,   ZAMIACHISEL_AT_UPPER_DENOMINATOR};
    uint8_t *out = (uint8_t *)allocated(ZAMIACHISEL_RECORD_LENGTH);
    size_t k;
    must(zamiachisel_record(RUN(0), RUN(1), RUN(2), out, ZAMIACHISEL_RECORD_LENGTH) == pair[0], "the record's number");
    for (k = 0; k < 8; k++) {
        must(field(out, (size_t)at[k]) == (pair[k] & 0xFFFFFFFF), "a field of the record is not the pair's");
    }
    free(out);
}

static void as_lines(void) {
    char expected[256], gap[64] = "empty";
    uint64_t length;
    uint8_t *out;
    if (pair[0]) {
        snprintf(expected, sizeof expected, "refused %" PRIu64 " %" PRIu64 " %" PRIu64 " %" PRIu64 "\n", pair[0], pair[1], pair[2],
                 pair[3]);
    } else {
        if (!pair[ZAMIACHISEL_PAIR_EMPTY]) {
            snprintf(gap, sizeof gap, "%" PRIu64 "/%" PRIu64, pair[ZAMIACHISEL_PAIR_GAP_NUMERATOR],
                     pair[ZAMIACHISEL_PAIR_GAP_DENOMINATOR]);
        }
        snprintf(expected, sizeof expected, "lower %" PRId64 "/%" PRIu64 "\nupper %" PRId64 "/%" PRIu64 "\ngap %s\nrounds %" PRIu64 "\n",
                 (int64_t)pair[ZAMIACHISEL_PAIR_LOWER_NUMERATOR], pair[ZAMIACHISEL_PAIR_LOWER_DENOMINATOR],
                 (int64_t)pair[ZAMIACHISEL_PAIR_UPPER_NUMERATOR], pair[ZAMIACHISEL_PAIR_UPPER_DENOMINATOR], gap,
                 pair[ZAMIACHISEL_PAIR_ROUNDS]);
    }
    length = strlen(expected);
    out = (uint8_t *)allocated(length);
    must(zamiachisel_lines(RUN(0), RUN(1), RUN(2), out, length) == length, "the length of the lines");
    must(memcmp(out, expected, length) == 0, "the lines are not those of the pair's verdict");
    free(out);
}

/* p/q against P/Q of two checks: below 0, 0 or above 0. */
static int order(const uint64_t *a, const uint64_t *b) {
    __int128 x = (__int128)(int64_t)a[ZAMIACHISEL_CHECK_NUMERATOR] * b[ZAMIACHISEL_CHECK_DENOMINATOR];
    __int128 y = (__int128)(int64_t)b[ZAMIACHISEL_CHECK_NUMERATOR] * a[ZAMIACHISEL_CHECK_DENOMINATOR];
    return (x > y) - (x < y);
}

/* Which certificate must come back, and the refusal where none does. */
static uint64_t expected_back(uint64_t *refusal) {
    memset(refusal, 0, 32);
    if (ONE[0] != 0 && OTHER[0] != 0) {
        memcpy(refusal, ONE, 32);
        return 0;
    }
    if (ONE[0] != 0 || OTHER[0] != 0) {
        return ONE[0] != 0 ? 2 : 1;
    }
    if (ONE[ZAMIACHISEL_CHECK_SIDE] != OTHER[ZAMIACHISEL_CHECK_SIDE]) {
        refusal[0] = ZAMIACHISEL_SIDES_DIFFER;
        refusal[1] = ZAMIACHISEL_SECOND;
        return 0;
    }
    return order(OTHER, ONE) == (ONE[ZAMIACHISEL_CHECK_SIDE] == 0 ? 1 : -1) ? 2 : 1;
}

static void superseding(void) {
    uint64_t choose[ZAMIACHISEL_CHOOSE_NUMBERS], *single = (uint64_t *)allocated(32), back, none[1], refusal[4];
    lend(0);
    back = zamiachisel_tighter(RUN(0), RUN(1), RUN(2), &single[0], &single[1], &single[2], &single[3], TABLES);
    take_back(0, none);
    lend(ZAMIACHISEL_CHOOSE_NUMBERS);
    take_back(zamiachisel_choose(RUN(0), RUN(1), RUN(2), VERDICT, TABLES), choose);
    must(same(single, choose, 4) && back == choose[ZAMIACHISEL_CHOOSE_STREAM], "choose does not say what tighter says");
    must(back == expected_back(refusal), "the certificate that comes back is not the tighter one");
    must(same(single, refusal, 4), "why none comes back");
    free(single);
}

static void others(void) {
    uint64_t office[ZAMIACHISEL_OFFICE_NUMBERS], sum[ZAMIACHISEL_SUM_NUMBERS], moved[ZAMIACHISEL_MOVED_NUMBERS];
    uint8_t *buffer = (uint8_t *)allocated(runs[1].length ? runs[1].length : 1);
    lend(ZAMIACHISEL_OFFICE_NUMBERS);
    take_back(zamiachisel_office(RUN(0), RUN(1), buffer, runs[1].length, VERDICT, TABLES), office);
    if (ONE[0] == 0) {
        must(same(office, ONE, ZAMIACHISEL_CHECK_NUMBERS) && office[ZAMIACHISEL_OFFICE_NOTES] == 0, "the office and the check");
    }
    lend(ZAMIACHISEL_SUM_NUMBERS);
    take_back(zamiachisel_sum(RUN(0), RUN(1), RUN(2), RUN(0), RUN(1), RUN(2), VERDICT, TABLES), sum);
    must((sum[0] == 0) == (pair[0] == 0), "the sum of a pair with itself is accepted where the pair is");
    if (pair[0] == 0) {
        size_t k;
        for (k = 0; k < 4; k += 2) {
            uint64_t p = pair[ZAMIACHISEL_PAIR_LOWER_NUMERATOR + k], q = pair[ZAMIACHISEL_PAIR_LOWER_DENOMINATOR + k];
            must(sum[ZAMIACHISEL_SUM_LOWER_NUMERATOR + k] == 2 * p * q && sum[ZAMIACHISEL_SUM_LOWER_DENOMINATOR + k] == q * q,
                 "the sum of a pair with itself is twice the pair");
        }
    }
    lend(ZAMIACHISEL_MOVED_NUMBERS);
    take_back(zamiachisel_moved_bound(RUN(0), RUN(1), buffer, 0, VERDICT, TABLES), moved);
    if (moved[0] == 0) {
        must(ONE[0] == 0 && ONE[ZAMIACHISEL_CHECK_SIDE] == 0, "a bound is moved that the check refuses");
        must(same(moved + ZAMIACHISEL_MOVED_NUMERATOR, ONE + ZAMIACHISEL_CHECK_NUMERATOR, 2), "the bound after no changes");
    }
    free(buffer);
}

/* ---- the whole input as a week */
static void as_week(const uint8_t *data, size_t size) {
    struct run week = copied(data, size);
    uint64_t count = zamiachisel_record_count(week.at, week.length), report[ZAMIACHISEL_REPORT_NUMBERS], accepted = 0;
    uint8_t *out = (uint8_t *)allocated(32 * count + 1), record[ZAMIACHISEL_RECORD_LENGTH];
    size_t at = 0, k;
    lend(ZAMIACHISEL_REPORT_NUMBERS);
    out[32 * count] = 77;
    take_back(zamiachisel_report(week.at, week.length, out, 32 * count, VERDICT, TABLES), report);
    must(out[32 * count] == 77 && (report[0] == 0 || (report[0] == 12 && count == 0)), "the report's refusal");
    for (k = 0; report[0] == 0 && k < count; k++) {
        size_t a = data[at] | data[at + 1] << 8, b = data[at + 2] | data[at + 3] << 8, c = data[at + 4] | data[at + 5] << 8;
        const uint8_t *first = week.at + at + 6;
        must(at + 6 + a + b + c <= size, "a record that is cut is counted");
        accepted += zamiachisel_record(first, a, first + a, b, first + a + b, c, record, sizeof record) == 0;
        must(memcmp(record, out + 32 * k, sizeof record) == 0, "the report does not have the pair's record");
        at += 6 + a + b + c;
    }
    must(report[0] != 0 || (at == size && report[ZAMIACHISEL_REPORT_ACCEPTED] == accepted), "how many were accepted");
    free(out);
    free(week.at);
}

/* Up to `asked` of the bytes that are left. */
static struct run part(const uint8_t **data, size_t *left, size_t asked) {
    struct run run = copied(*data, asked < *left ? asked : *left);
    *data += run.length;
    *left -= run.length;
    return run;
}

int LLVMFuzzerTestOneInput(const uint8_t *data, size_t size) {
    size_t k, left = size < 6 ? 0 : size - 6;
    const uint8_t *rest = data + (size - left);
    for (k = 0; k < 3; k++) {
        runs[k] = part(&rest, &left, size < 6 ? 0 : (size_t)(data[2 * k] | data[2 * k + 1] << 8));
    }
    problem_alone();
    checks();
    the_pair();
    as_record();
    as_lines();
    superseding();
    others();
    as_week(data, size);
    for (k = 0; k < 3; k++) {
        free(runs[k].at);
    }
    return 0;
}
