/* corpus_calls [EVERY]: answers records of the standard input as `replay` does, through the functions of include/zamiachisel.h: what it
   writes is compared with the stored answers. With a number, only every such record is answered, from the first on. It is C and
   C++ at once. Every run is allocated at its own length, so that valgrind sees what is read or written past it; verdicts and
   tables are lent with other numbers in them and some more than is asked, and after each call it is looked at that these stay
   and that the tables are 0. Where two functions say the same thing they are compared: check_two with two checks, choose with
   tighter, the report with record_count, the lines with the pair's verdict. It says what is not so and ends with status 1. */
#include <inttypes.h>
#include <stdio.h>
#include <stdlib.h>
#include <string.h>

#include "zamiachisel.h"

#if defined(__STDC_VERSION__) && __STDC_VERSION__ >= 201112L
_Static_assert((int)ZAMIACHISEL_TWO_SECOND == (int)ZAMIACHISEL_CHECK_NUMBERS, "the second check begins where the first ends");
_Static_assert((int)ZAMIACHISEL_TWO_NUMBERS == 2 * (int)ZAMIACHISEL_CHECK_NUMBERS, "two checks are twice as long as one");
_Static_assert((int)ZAMIACHISEL_OFFICE_NOTES == (int)ZAMIACHISEL_CHECK_NUMBERS, "the notes stand behind the check's fields");
#endif

#define MOST 65536
#define MORE 3 /* numbers that are lent beyond those that are asked */
#define DIRT UINT64_C(0xDEAD00000000BEEF)

static uint8_t *runs[6];
static size_t lengths[6];
static size_t record;

static void fault(const char *what) {
    fprintf(stderr, "record %lu: %s\n", (unsigned long)record, what);
    exit(1);
}

static void *allocated(size_t length) {
    void *bytes = malloc(length ? length : 1);
    if (bytes == NULL) {
        fault("no memory");
    }
    return bytes;
}

/* ---- what is lent */

static uint64_t *keys, *verdict;
static int64_t *high, *low;
static size_t numbers; /* of the verdict */
#define TABLE ((size_t)ZAMIACHISEL_TABLE_LENGTH + MORE)
#define TABLES keys, TABLE, high, TABLE, low, TABLE
#define VERDICT verdict, numbers + MORE

static void lend_run(size_t count) {
    size_t i;
    numbers = count;
    verdict = (uint64_t *)allocated(8 * (count + MORE));
    for (i = 0; i < count + MORE; i++) {
        verdict[i] = DIRT - i;
    }
}

static void lend(size_t count) {
    size_t i;
    lend_run(count);
    keys = (uint64_t *)allocated(8 * TABLE);
    high = (int64_t *)allocated(8 * TABLE);
    low = (int64_t *)allocated(8 * TABLE);
    for (i = 0; i < TABLE; i++) {
        keys[i] = DIRT + i;
        high[i] = -7 - (int64_t)i;
        low[i] = 7 + (int64_t)i;
    }
}

/* What was lent is as it must be after a call whose refusal is this; the verdict is kept in `said`. */
static uint64_t said[32];

static void take_run_back(uint64_t number) {
    size_t i;
    for (i = number == 1 ? 0 : numbers; i < numbers + MORE; i++) {
        if (verdict[i] != DIRT - i) {
            fault("the verdict's run is changed where it must not be");
        }
    }
    for (i = 0; i < numbers; i++) {
        said[i] = number == 1 ? 0 : verdict[i];
    }
    said[0] = number == 1 ? 1 : said[0];
    if (numbers != 0 && said[0] != number) {
        fault("the number in the verdict is not the one returned");
    }
    free(verdict);
}

static void take_back(uint64_t number) {
    size_t i;
    for (i = 0; i < TABLE; i++) {
        int zero = number != 1 && i < ZAMIACHISEL_TABLE_LENGTH;
        if (keys[i] != (zero ? 0 : DIRT + i) || high[i] != (zero ? 0 : -7 - (int64_t)i) || low[i] != (zero ? 0 : 7 + (int64_t)i)) {
            fault("a table is not as it must be");
        }
    }
    take_run_back(number);
    free(keys);
    free(high);
    free(low);
}

/* ---- what is written */

static void fraction(const uint64_t *at) { printf("%" PRId64 "/%" PRIu64, (int64_t)at[0], at[1]); }

/* The line of a refusal; whether there is one. */
static int refused(const uint64_t *at) {
    if (at[ZAMIACHISEL_VERDICT_NUMBER] != 0) {
        printf("refused %" PRIu64 " %" PRIu64 " %" PRIu64 " %" PRIu64 "\n", at[ZAMIACHISEL_VERDICT_NUMBER],
               at[ZAMIACHISEL_VERDICT_STREAM], at[ZAMIACHISEL_VERDICT_PLACE], at[ZAMIACHISEL_VERDICT_KEY]);
        return 1;
    }
    return 0;
}

static void hexadecimal(const uint8_t *bytes, size_t length) {
    size_t i;
    putchar(' ');
    for (i = 0; i < length; i++) {
        printf("%02x", bytes[i]);
    }
    putchar('\n');
}

static void check_words(const char *word, const uint64_t *at) {
    printf("%s %" PRIu64 " ", word, at[ZAMIACHISEL_CHECK_SIDE]);
    fraction(at + ZAMIACHISEL_CHECK_NUMERATOR);
    printf(" rounds %" PRIu64 " rule %" PRIu64, at[ZAMIACHISEL_CHECK_ROUNDS], at[ZAMIACHISEL_CHECK_RULE]);
}

/* ---- the kinds of records */

#define RUN(k) runs[k], lengths[k]

static void blocks(void) {
    uint8_t *out = (uint8_t *)allocated(ZAMIACHISEL_BLOCKS_LENGTH);
    lend(ZAMIACHISEL_BLOCKS_NUMBERS);
    take_back(zamiachisel_blocks(RUN(0), out, ZAMIACHISEL_BLOCKS_LENGTH, VERDICT, TABLES));
    if (!refused(said)) {
        printf("blocks %" PRIu64 " rounds %" PRIu64 " rule %" PRIu64, said[ZAMIACHISEL_BLOCKS_COUNT],
               said[ZAMIACHISEL_BLOCKS_ROUNDS], said[ZAMIACHISEL_BLOCKS_RULE]);
        hexadecimal(out, ZAMIACHISEL_BLOCKS_LENGTH);
    }
    free(out);
}

static void check(void) {
    lend(ZAMIACHISEL_CHECK_NUMBERS);
    take_back(zamiachisel_check(RUN(0), RUN(1), VERDICT, TABLES));
    if (!refused(said)) {
        check_words("check", said);
        putchar('\n');
    }
}

/* The lines of gapcheck, by the pair's verdict in `said`. */
static void compare_lines(void) {
    char expected[256];
    uint8_t *out;
    uint64_t length = zamiachisel_lines(RUN(0), RUN(1), RUN(2), runs[0], 0), again;
    if (said[0]) {
        sprintf(expected, "refused %" PRIu64 " %" PRIu64 " %" PRIu64 " %" PRIu64 "\n", said[0], said[1], said[2], said[3]);
    } else {
        char gap[64];
        if (said[ZAMIACHISEL_PAIR_EMPTY]) {
            strcpy(gap, "empty");
        } else {
            sprintf(gap, "%" PRId64 "/%" PRIu64, (int64_t)said[ZAMIACHISEL_PAIR_GAP_NUMERATOR], said[ZAMIACHISEL_PAIR_GAP_DENOMINATOR]);
        }
        sprintf(expected, "lower %" PRId64 "/%" PRIu64 "\nupper %" PRId64 "/%" PRIu64 "\ngap %s\nrounds %" PRIu64 "\n",
                (int64_t)said[ZAMIACHISEL_PAIR_LOWER_NUMERATOR], said[ZAMIACHISEL_PAIR_LOWER_DENOMINATOR],
                (int64_t)said[ZAMIACHISEL_PAIR_UPPER_NUMERATOR], said[ZAMIACHISEL_PAIR_UPPER_DENOMINATOR], gap,
                said[ZAMIACHISEL_PAIR_ROUNDS]);
    }
    if (length != strlen(expected)) {
        fault("the length of the lines");
    }
    out = (uint8_t *)allocated(length + 1);
    out[length] = out[length - 1] = 77;
    if (zamiachisel_lines(RUN(0), RUN(1), RUN(2), out, length - 1) != length || out[length - 1] != 77) {
        fault("lines that do not fit");
    }
    again = zamiachisel_lines(RUN(0), RUN(1), RUN(2), out, length + 1);
    if (again != length || memcmp(out, expected, length) != 0 || out[length] != 77) {
        fault("the lines are not those of the pair's verdict");
    }
    free(out);
}

static void pair(void) {
    lend(ZAMIACHISEL_PAIR_NUMBERS);
    take_back(zamiachisel_pair(RUN(0), RUN(1), RUN(2), VERDICT, TABLES));
    if (!refused(said)) {
        printf("pair ");
        fraction(said + ZAMIACHISEL_PAIR_LOWER_NUMERATOR);
        putchar(' ');
        fraction(said + ZAMIACHISEL_PAIR_UPPER_NUMERATOR);
        printf(" gap ");
        if (said[ZAMIACHISEL_PAIR_EMPTY]) {
            printf("empty");
        } else {
            fraction(said + ZAMIACHISEL_PAIR_GAP_NUMERATOR);
        }
        printf(" rounds %" PRIu64 " rule %" PRIu64 "\n", said[ZAMIACHISEL_PAIR_ROUNDS], said[ZAMIACHISEL_PAIR_RULE]);
    }
    compare_lines();
}

static void symmetries(void) {
    uint8_t *out = (uint8_t *)allocated(ZAMIACHISEL_MASKS_LENGTH);
    lend(ZAMIACHISEL_SYMMETRIES_NUMBERS);
    take_back(zamiachisel_symmetries(RUN(0), out, ZAMIACHISEL_MASKS_LENGTH, VERDICT, TABLES));
    if (!refused(said)) {
        printf("symmetries %" PRIu64, said[ZAMIACHISEL_SYMMETRIES_COUNT]);
        hexadecimal(out, ZAMIACHISEL_MASKS_LENGTH);
    }
    free(out);
}

/* What two checks say, by check_two and by themselves. */
static void compare_checks(void) {
    uint64_t two[ZAMIACHISEL_TWO_NUMBERS];
    int k;
    lend(ZAMIACHISEL_TWO_NUMBERS);
    take_back(zamiachisel_check_two(RUN(0), RUN(1), RUN(2), VERDICT, TABLES));
    memcpy(two, said, sizeof two);
    for (k = 0; k < 2; k++) {
        lend(ZAMIACHISEL_CHECK_NUMBERS);
        take_back(zamiachisel_check(RUN(0), RUN(1 + k), VERDICT, TABLES));
        if (memcmp(two + k * ZAMIACHISEL_TWO_SECOND, said, 8 * ZAMIACHISEL_CHECK_NUMBERS) != 0) {
            fault("check_two does not say what the check says");
        }
    }
}

static void tighter(void) {
    uint64_t single[4], back;
    lend(0);
    back = zamiachisel_tighter(RUN(0), RUN(1), RUN(2), &single[0], &single[1], &single[2], &single[3], TABLES);
    take_back(0);
    lend(ZAMIACHISEL_CHOOSE_NUMBERS);
    take_back(zamiachisel_choose(RUN(0), RUN(1), RUN(2), VERDICT, TABLES));
    if (memcmp(single, said, sizeof single) != 0 || back != said[ZAMIACHISEL_CHOOSE_STREAM]) {
        fault("choose does not say what tighter says");
    }
    if (!refused(single)) {
        printf("tighter");
        if (back) {
            hexadecimal(RUN(back));
        } else {
            hexadecimal(runs[0], 0);
        }
    }
    compare_checks();
}

/* The number of 64 bits in eight bytes, the lowest first. */
static uint64_t number_in(const uint8_t *bytes) {
    uint64_t n = 0;
    int k;
    for (k = 7; k >= 0; k--) {
        n = n << 8 | bytes[k];
    }
    return n;
}

/* Arrivals of 16 bytes, at a state that was empty and has some numbers past it. A refused one leaves all of it. */
static void window(void) {
    size_t length = ZAMIACHISEL_STATE_LENGTH + MORE, i, k;
    uint64_t *state = (uint64_t *)allocated(8 * length), *before = (uint64_t *)allocated(8 * length);
    for (k = 0; k < length; k++) {
        state[k] = k < ZAMIACHISEL_STATE_LENGTH ? 0 : DIRT + k;
    }
    printf("window");
    for (i = 0; i < lengths[0] / 16; i++) {
        const uint8_t *arrival = runs[0] + 16 * i;
        uint64_t number;
        memcpy(before, state, 8 * length);
        lend_run(ZAMIACHISEL_WINDOW_NUMBERS);
        number = zamiachisel_window_push((int64_t)number_in(arrival), number_in(arrival + 8), state, length, VERDICT);
        take_run_back(number);
        printf(i ? "; " : " ");
        if (number) {
            printf("%" PRIu64, number);
        } else {
            fraction(said + ZAMIACHISEL_WINDOW_NUMERATOR);
            printf(" %" PRIu64, said[ZAMIACHISEL_WINDOW_AGE]);
        }
        k = number ? 0 : ZAMIACHISEL_STATE_LENGTH;
        if (memcmp(before + k, state + k, 8 * (length - k)) != 0) {
            fault("the state is changed where it must not be");
        }
    }
    putchar('\n');
    free(state);
    free(before);
}

static void report(void) {
    uint64_t count = zamiachisel_record_count(RUN(0)), number;
    lend(ZAMIACHISEL_REPORT_NUMBERS);
    number = zamiachisel_report(RUN(0), RUN(1), VERDICT, TABLES);
    take_back(number);
    if (number == 12 && count != 0) {
        fault("records are counted in a week that is refused");
    }
    if (number == 0 && (count > ZAMIACHISEL_MOST_RECORDS || said[ZAMIACHISEL_REPORT_ACCEPTED] > count || lengths[1] < 32 * count)) {
        fault("the count of records");
    }
    if (number == 1 && lengths[1] >= 32 * count) {
        fault("an output that is long enough is refused");
    }
    if (!refused(said)) {
        printf("report %" PRIu64 " lower ", said[ZAMIACHISEL_REPORT_ACCEPTED]);
        fraction(said + ZAMIACHISEL_REPORT_LOWER_NUMERATOR);
        printf(" upper ");
        fraction(said + ZAMIACHISEL_REPORT_UPPER_NUMERATOR);
        hexadecimal(RUN(1));
    }
}

static void tool(void) {
    printf("record %" PRIu64, zamiachisel_record(RUN(0), RUN(1), RUN(2), RUN(3)));
    hexadecimal(RUN(3));
}

static void sum(void) {
    lend(ZAMIACHISEL_SUM_NUMBERS);
    take_back(zamiachisel_sum(RUN(0), RUN(1), RUN(2), RUN(3), RUN(4), RUN(5), VERDICT, TABLES));
    if (!refused(said)) {
        printf("sum ");
        fraction(said + ZAMIACHISEL_SUM_LOWER_NUMERATOR);
        putchar(' ');
        fraction(said + ZAMIACHISEL_SUM_UPPER_NUMERATOR);
        printf(" rules %" PRIu64 " %" PRIu64 "\n", said[ZAMIACHISEL_SUM_FIRST_RULE], said[ZAMIACHISEL_SUM_SECOND_RULE]);
    }
}

static void adjusted(void) {
    lend(ZAMIACHISEL_MOVED_NUMBERS);
    take_back(zamiachisel_moved_bound(RUN(0), RUN(1), RUN(2), VERDICT, TABLES));
    if (!refused(said)) {
        printf("adjusted ");
        fraction(said + ZAMIACHISEL_MOVED_NUMERATOR);
        putchar('\n');
    }
}

static void office(void) {
    lend(ZAMIACHISEL_OFFICE_NUMBERS);
    take_back(zamiachisel_office(RUN(0), RUN(1), RUN(2), VERDICT, TABLES));
    if (!refused(said)) {
        check_words("office", said);
        printf(" notes %" PRIu64, said[ZAMIACHISEL_OFFICE_NOTES]);
        hexadecimal(RUN(2));
    }
}

/* ---- records */

static size_t length_of(void) {
    size_t n = 0, k;
    for (k = 0; k < 4; k++) {
        int byte = getchar();
        if (byte == EOF) {
            fault("the record ends");
        }
        n |= (size_t)byte << (8 * k);
    }
    if (n > MOST) {
        fault("a run is too long");
    }
    return n;
}

int main(int count, char **words) {
    size_t every = count > 1 ? (size_t)strtoul(words[1], NULL, 10) : 1, k;
    int kind;
    for (record = 1; (kind = getchar()) != EOF; record++) {
        size_t runs_of = kind == 'x' ? 4 : kind == 'd' ? 6 : 3;
        for (k = 0; k < runs_of; k++) {
            lengths[k] = length_of();
        }
        for (k = 0; k < runs_of; k++) {
            runs[k] = (uint8_t *)allocated(lengths[k]);
            if (fread(runs[k], 1, lengths[k], stdin) != lengths[k]) {
                fault("the record ends");
            }
        }
        if ((record - 1) % every == 0) {
            switch (kind) {
            case 'b': blocks(); break;
            case 'c': check(); break;
            case 'p': pair(); break;
            case 's': symmetries(); break;
            case 't': tighter(); break;
            case 'w': window(); break;
            case 'r': report(); break;
            case 'x': tool(); break;
            case 'd': sum(); break;
            case 'a': adjusted(); break;
            case 'n': office(); break;
            default: fault("a kind that is not known");
            }
        }
        for (k = 0; k < runs_of; k++) {
            free(runs[k]);
        }
    }
    return 0;
}
