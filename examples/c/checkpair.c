/* checkpair PROBLEM LOW HIGH: checks the files of a pair with the call for C programs, zamiachisel_record, and prints the two bounds, or
   the refusal as gapcheck does (of its key the lowest 32 bits). It ends with status 0 where both certificates are accepted, 1 where the
   pair is refused, and 2 where a file cannot be read whole, an argument is missing or standard output cannot be written.
   README.md has the command that builds it. */
#include <inttypes.h>
#include <stdio.h>

#include "zamiachisel.h"

/* A stream that can be accepted is shorter than this. */
#define MOST 65536

static uint8_t problem[MOST + 1], low[MOST + 1], high[MOST + 1];

/* The bytes of a file; whether it was read whole and is not longer than a stream can be. */
static int read_file(const char *path, uint8_t *bytes, size_t *length) {
    FILE *file = fopen(path, "rb");
    if (file == NULL) {
        perror(path);
        return 0;
    }
    *length = fread(bytes, 1, MOST + 1, file);
    int failed = ferror(file);
    if (failed) {
        perror(path);
    } else if (*length > MOST) {
        fprintf(stderr, "%s: longer than %d bytes\n", path, MOST);
        failed = 1;
    }
    fclose(file);
    return !failed;
}

/* A field of a record: four bytes, the lowest first. */
static uint32_t field(const uint8_t *record, enum zamiachisel_field at) {
    return (uint32_t)record[at] | (uint32_t)record[at + 1] << 8 | (uint32_t)record[at + 2] << 16 | (uint32_t)record[at + 3] << 24;
}

/* A signed field, from two's complement. */
static int64_t signed_field(const uint8_t *record, enum zamiachisel_field at) {
    int64_t value = field(record, at);
    return value < 0x80000000 ? value : value - 0x100000000;
}

static int print_record(const uint8_t *record) {
    if (field(record, ZAMIACHISEL_AT_REFUSAL) != ZAMIACHISEL_ACCEPTED) {
        return printf("refused %" PRIu32 " %" PRIu32 " %" PRIu32 " %" PRIu32 "\n", field(record, ZAMIACHISEL_AT_REFUSAL),
                      field(record, ZAMIACHISEL_AT_STREAM), field(record, ZAMIACHISEL_AT_PLACE), field(record, ZAMIACHISEL_AT_KEY));
    }
    return printf("lower %" PRId64 "/%" PRIu32 "\nupper %" PRId64 "/%" PRIu32 "\n",
                  signed_field(record, ZAMIACHISEL_AT_LOWER_NUMERATOR), field(record, ZAMIACHISEL_AT_LOWER_DENOMINATOR),
                  signed_field(record, ZAMIACHISEL_AT_UPPER_NUMERATOR), field(record, ZAMIACHISEL_AT_UPPER_DENOMINATOR));
}

int main(int count, char **words) {
    size_t problem_length, low_length, high_length;
    if (count != 4) {
        fprintf(stderr, "usage: checkpair PROBLEM LOW HIGH\n");
        return 2;
    }
    if (!read_file(words[1], problem, &problem_length) || !read_file(words[2], low, &low_length) ||
        !read_file(words[3], high, &high_length)) {
        return 2;
    }
    uint8_t record[ZAMIACHISEL_RECORD_LENGTH];
    uint64_t refusal = zamiachisel_record(problem, problem_length, low, low_length, high, high_length, record, sizeof record);
    if (print_record(record) < 0 || fflush(stdout) != 0) {
        perror("standard output");
        return 2;
    }
    return refusal == ZAMIACHISEL_ACCEPTED ? 0 : 1;
}
