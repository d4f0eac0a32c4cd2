/* zamiachisel CALL FILE..: the proved calls of the library, for scripts and services: files in, the verdict's lines or
   JSON out, and an exit status. What is decided is decided by the functions of zamiachisel.h; this program reads files
   and prints. The lines of `pair` are the library's too, byte by byte. Of the others it prints the verdict's numbers,
   in the words of `replay`.

   A file is read whole or not at all: one that cannot be read, or is longer than a stream can be, ends the program with
   status 2 and its name on standard error, and nothing on standard output. ./install builds it. */
#include <errno.h>
#include <inttypes.h>
#include <stdarg.h>
#include <stdio.h>
#include <string.h>

#include "zamiachisel.h"

#ifndef COMMIT
#define COMMIT "unknown"
#endif
#ifndef KIT
#define KIT "unknown"
#endif

enum { ACCEPTED = 0, REFUSED = 1, UNUSABLE = 2 }; /* exit statuses */
enum {
    STREAM = 65536,                                    /* bytes of a stream, at most */
    WEEK = ZAMIACHISEL_MOST_RECORDS * (6 + 3 * 65535), /* bytes of a week's records, at most */
    MOST_FILES = 6
};

static const char help[] =
    "zamiachisel: the proved calls on files, with an exit status.\n"
    "\n"
    "usage: zamiachisel [--json] CALL FILE..\n"
    "       zamiachisel --help | -h\n"
    "       zamiachisel --version\n"
    "\n"
    "  pair PROBLEM LOW HIGH         bounds, gap and rounds, as gapcheck prints them\n"
    "  check PROBLEM CERTIFICATE     one certificate: side, bound, rounds, rule\n"
    "  blocks PROBLEM                the blocks: how many, rounds, rule, 576 bytes\n"
    "  symmetries PROBLEM            the sign symmetries: how many, 256 bytes\n"
    "  tighter PROBLEM FIRST SECOND  the tighter of two certificates: its bytes\n"
    "  report WEEK                   a week's pairs, as weekcheck prints them\n"
    "  sum PROBLEM LOW HIGH PROBLEM LOW HIGH\n"
    "                                two pairs over one region: the bounds added, both rules\n"
    "  adjust PROBLEM LOW CHANGES    the lower bound after changes of the objective\n"
    "  office PROBLEM CERTIFICATE    a certificate that may have notes: as check, and the notes\n"
    "\n"
    "A FILE that is - is standard input. A file is read whole: one that cannot be, or is longer\n"
    "than 65,536 bytes (a WEEK: than 64 records can be), is not judged. Bytes are printed as\n"
    "hexadecimal digits, and a refusal as\n"
    "\n"
    "  refused NUMBER STREAM PLACE KEY\n"
    "\n"
    "where STREAM counts the files from 0. zamiachisel(5) tells the files, and README.md what\n"
    "each NUMBER means.\n"
    "\n"
    "  --json  one object: the call, whether it was accepted, and every field of the verdict;\n"
    "          fractions, keys and bytes are strings\n"
    "  --      no word after this one is an option\n"
    "\n"
    "Exit status: 0 accepted; 1 refused, or of a report one pair or more; 2 usage, a file that\n"
    "cannot be read whole, or standard output that cannot be written.\n";

struct run {
    const uint8_t *bytes;
    size_t length;
};

/* ---- messages */

/* Writes text that a terminal takes for text, whatever it has. */
static void write_plain(const char *text) {
    for (; *text != '\0'; text++) {
        unsigned char byte = (unsigned char)*text;
        if (byte == '\\') {
            fputs("\\\\", stderr);
        } else if (byte >= ' ' && byte <= '~') {
            fputc(byte, stderr);
        } else {
            fprintf(stderr, "\\x%02x", (unsigned)byte);
        }
    }
}

/* complain WHAT, and with what it is wrong: one line on standard error, and the status. */
static int complain(const char *what, const char *format, ...) {
    va_list words;
    fputs("zamiachisel: ", stderr);
    write_plain(what);
    fputs(": ", stderr);
    va_start(words, format);
    vfprintf(stderr, format, words);
    va_end(words);
    fputc('\n', stderr);
    return UNUSABLE;
}

/* ---- files */

/* All files, one after the other, each with room for a byte more than it may have. */
static uint8_t store[WEEK + 1];

/* The bytes of a file, which has `most` at most, at `bytes`. */
static int read_file(const char *path, size_t most, uint8_t *bytes, struct run *run) {
    int is_input = strcmp(path, "-") == 0, failed;
    FILE *file = is_input ? stdin : fopen(path, "rb");
    if (file == NULL) {
        return complain(path, "%s", strerror(errno));
    }
    run->bytes = bytes;
    run->length = fread(bytes, 1, most + 1, file);
    failed = ferror(file) ? errno : 0;
    if (!is_input) {
        fclose(file);
    }
    if (failed) {
        return complain(path, "%s", strerror(failed));
    }
    if (run->length > most) {
        return complain(path, "longer than %zu bytes, so it is not judged", most);
    }
    return ACCEPTED;
}

/* ---- the calls */

static uint64_t verdict[ZAMIACHISEL_TWO_NUMBERS];
static uint64_t keys[ZAMIACHISEL_TABLE_LENGTH];
static int64_t high[ZAMIACHISEL_TABLE_LENGTH], low[ZAMIACHISEL_TABLE_LENGTH];
static uint8_t out[STREAM];
static struct run shown; /* the bytes that a verdict comes with */

#define RUN(i) files[i].bytes, files[i].length
#define TABLE(name) name, ZAMIACHISEL_TABLE_LENGTH
#define LENT verdict, ZAMIACHISEL_TWO_NUMBERS, TABLE(keys), TABLE(high), TABLE(low)

static void show(const uint8_t *bytes, uint64_t length) {
    shown.bytes = bytes;
    shown.length = (size_t)length;
}

static uint64_t ask_pair(const struct run *files) { return zamiachisel_pair(RUN(0), RUN(1), RUN(2), LENT); }

static uint64_t ask_check(const struct run *files) { return zamiachisel_check(RUN(0), RUN(1), LENT); }

static uint64_t ask_blocks(const struct run *files) {
    show(out, ZAMIACHISEL_BLOCKS_LENGTH);
    return zamiachisel_blocks(RUN(0), out, sizeof out, LENT);
}

static uint64_t ask_symmetries(const struct run *files) {
    show(out, ZAMIACHISEL_MASKS_LENGTH);
    return zamiachisel_symmetries(RUN(0), out, sizeof out, LENT);
}

static uint64_t ask_tighter(const struct run *files) {
    uint64_t number = zamiachisel_choose(RUN(0), RUN(1), RUN(2), LENT);
    if (number == ZAMIACHISEL_ACCEPTED) {
        const struct run *chosen = &files[verdict[ZAMIACHISEL_CHOOSE_STREAM]];
        show(chosen->bytes, chosen->length);
    }
    return number;
}

static uint64_t ask_report(const struct run *files) {
    show(out, ZAMIACHISEL_RECORD_LENGTH * zamiachisel_record_count(RUN(0)));
    return zamiachisel_report(RUN(0), out, sizeof out, LENT);
}

static uint64_t ask_sum(const struct run *files) {
    return zamiachisel_sum(RUN(0), RUN(1), RUN(2), RUN(3), RUN(4), RUN(5), LENT);
}

static uint64_t ask_adjust(const struct run *files) { return zamiachisel_moved_bound(RUN(0), RUN(1), RUN(2), LENT); }

static uint64_t ask_office(const struct run *files) {
    uint64_t number = zamiachisel_office(RUN(0), RUN(1), out, sizeof out, LENT);
    show(out, ZAMIACHISEL_NOTE_LENGTH * verdict[ZAMIACHISEL_OFFICE_NOTES]);
    return number;
}

/* ---- what is printed */

/* A field of a verdict: the word before it in the line, if any, its name in JSON, and where it stands. */
struct field {
    const char *word, *name;
    enum { NUMBER, FRACTION, GAP, BYTES } kind;
    size_t at;
};

static const struct field pair_fields[] = {{"", "lower", FRACTION, ZAMIACHISEL_PAIR_LOWER_NUMERATOR},
                                           {"", "upper", FRACTION, ZAMIACHISEL_PAIR_UPPER_NUMERATOR},
                                           {"gap", "gap", GAP, ZAMIACHISEL_PAIR_GAP_NUMERATOR},
                                           {"rounds", "rounds", NUMBER, ZAMIACHISEL_PAIR_ROUNDS},
                                           {"rule", "rule", NUMBER, ZAMIACHISEL_PAIR_RULE},
                                           {NULL, NULL, NUMBER, 0}};
static const struct field check_fields[] = {{"", "side", NUMBER, ZAMIACHISEL_CHECK_SIDE},
                                            {"", "bound", FRACTION, ZAMIACHISEL_CHECK_NUMERATOR},
                                            {"rounds", "rounds", NUMBER, ZAMIACHISEL_CHECK_ROUNDS},
                                            {"rule", "rule", NUMBER, ZAMIACHISEL_CHECK_RULE},
                                            {NULL, NULL, NUMBER, 0}};
static const struct field blocks_fields[] = {{"", "blocks", NUMBER, ZAMIACHISEL_BLOCKS_COUNT},
                                             {"rounds", "rounds", NUMBER, ZAMIACHISEL_BLOCKS_ROUNDS},
                                             {"rule", "rule", NUMBER, ZAMIACHISEL_BLOCKS_RULE},
                                             {"", "bytes", BYTES, 0},
                                             {NULL, NULL, NUMBER, 0}};
static const struct field symmetries_fields[] = {{"", "masks", NUMBER, ZAMIACHISEL_SYMMETRIES_COUNT},
                                                 {"", "bytes", BYTES, 0},
                                                 {NULL, NULL, NUMBER, 0}};
static const struct field tighter_fields[] = {{"", "bytes", BYTES, 0}, {NULL, NULL, NUMBER, 0}};
static const struct field report_fields[] = {{"", "accepted_pairs", NUMBER, ZAMIACHISEL_REPORT_ACCEPTED},
                                             {"lower", "lower", FRACTION, ZAMIACHISEL_REPORT_LOWER_NUMERATOR},
                                             {"upper", "upper", FRACTION, ZAMIACHISEL_REPORT_UPPER_NUMERATOR},
                                             {NULL, NULL, NUMBER, 0}};
static const struct field sum_fields[] = {{"", "lower", FRACTION, ZAMIACHISEL_SUM_LOWER_NUMERATOR},
                                          {"", "upper", FRACTION, ZAMIACHISEL_SUM_UPPER_NUMERATOR},
                                          {"rules", "first_rule", NUMBER, ZAMIACHISEL_SUM_FIRST_RULE},
                                          {"", "second_rule", NUMBER, ZAMIACHISEL_SUM_SECOND_RULE},
                                          {NULL, NULL, NUMBER, 0}};
static const struct field adjust_fields[] = {{"", "bound", FRACTION, ZAMIACHISEL_MOVED_NUMERATOR},
                                             {NULL, NULL, NUMBER, 0}};
static const struct field office_fields[] = {{"", "side", NUMBER, ZAMIACHISEL_CHECK_SIDE},
                                             {"", "bound", FRACTION, ZAMIACHISEL_CHECK_NUMERATOR},
                                             {"rounds", "rounds", NUMBER, ZAMIACHISEL_CHECK_ROUNDS},
                                             {"rule", "rule", NUMBER, ZAMIACHISEL_CHECK_RULE},
                                             {"notes", "notes", NUMBER, ZAMIACHISEL_OFFICE_NOTES},
                                             {"", "bytes", BYTES, 0},
                                             {NULL, NULL, NUMBER, 0}};

/* Numerator and denominator, which stand side by side. */
static void print_fraction(size_t at) { printf("%" PRId64 "/%" PRIu64, (int64_t)verdict[at], verdict[at + 1]); }

static void print_value(const struct field *field) {
    if (field->kind == NUMBER) {
        printf("%" PRIu64, verdict[field->at]);
    } else if (field->kind == GAP && verdict[ZAMIACHISEL_PAIR_EMPTY]) {
        fputs("empty", stdout);
    } else if (field->kind == BYTES) {
        for (size_t i = 0; i < shown.length; i++) {
            printf("%02x", (unsigned)shown.bytes[i]);
        }
    } else {
        print_fraction(field->at);
    }
}

/* The word of the call, and every field after its own word. */
static void print_line(const char *word, const struct field *field) {
    fputs(word, stdout);
    for (; field->name != NULL; field++) {
        printf(" %s%s", field->word, field->word[0] == '\0' ? "" : " ");
        print_value(field);
    }
    putchar('\n');
}

/* A refusal, as a line or as fields of an object. */
static void print_refusal(int json, uint64_t number, uint64_t stream, uint64_t place, uint64_t key) {
    if (json) {
        printf("\"number\": %" PRIu64 ", \"stream\": %" PRIu64 ", \"place\": %" PRIu64 ", \"key\": \"%" PRIu64 "\"",
               number, stream, place, key);
    } else {
        printf("refused %" PRIu64 " %" PRIu64 " %" PRIu64 " %" PRIu64 "\n", number, stream, place, key);
    }
}

static void print_refused(int json) {
    print_refusal(json, verdict[ZAMIACHISEL_VERDICT_NUMBER], verdict[ZAMIACHISEL_VERDICT_STREAM],
                  verdict[ZAMIACHISEL_VERDICT_PLACE], verdict[ZAMIACHISEL_VERDICT_KEY]);
}

/* The fields of an object, each with a comma before it. */
static void print_fields(const struct field *field) {
    for (; field->name != NULL; field++) {
        const char *quote = field->kind == NUMBER ? "" : "\"";
        printf(", \"%s\": %s", field->name, quote);
        print_value(field);
        fputs(quote, stdout);
    }
}

/* A number of four bytes of a report's record, the lowest first. */
static uint32_t record_number(const uint8_t *record, enum zamiachisel_field at) {
    return (uint32_t)record[at] | (uint32_t)record[at + 1] << 8 | (uint32_t)record[at + 2] << 16 |
           (uint32_t)record[at + 3] << 24;
}

/* The same, from two's complement. */
static int64_t signed_number(const uint8_t *record, enum zamiachisel_field at) {
    int64_t value = record_number(record, at);
    return value < INT64_C(0x80000000) ? value : value - INT64_C(0x100000000);
}

/* A pair of a report, as a line or as an object. */
static void print_record(int json, const uint8_t *record) {
    uint32_t number = record_number(record, ZAMIACHISEL_AT_REFUSAL);
    if (json) {
        printf("{\"accepted\": %s, ", number == ZAMIACHISEL_ACCEPTED ? "true" : "false");
    }
    if (number != ZAMIACHISEL_ACCEPTED) {
        print_refusal(json, number, record_number(record, ZAMIACHISEL_AT_STREAM),
                      record_number(record, ZAMIACHISEL_AT_PLACE), record_number(record, ZAMIACHISEL_AT_KEY));
    } else {
        int64_t p = signed_number(record, ZAMIACHISEL_AT_LOWER_NUMERATOR);
        int64_t P = signed_number(record, ZAMIACHISEL_AT_UPPER_NUMERATOR);
        uint32_t q = record_number(record, ZAMIACHISEL_AT_LOWER_DENOMINATOR);
        uint32_t Q = record_number(record, ZAMIACHISEL_AT_UPPER_DENOMINATOR);
        if (json) {
            printf("\"lower\": \"%" PRId64 "/%" PRIu32 "\", \"upper\": \"%" PRId64 "/%" PRIu32 "\"", p, q, P, Q);
        } else {
            printf("lower %" PRId64 "/%" PRIu32 " upper %" PRId64 "/%" PRIu32 "\n", p, q, P, Q);
        }
    }
    if (json) {
        putchar('}');
    }
}

/* The pairs of a report, as lines or as an array. */
static void print_records(int json) {
    for (size_t i = 0; i < shown.length / ZAMIACHISEL_RECORD_LENGTH; i++) {
        if (!json) {
            printf("%zu ", i + 1);
        } else if (i > 0) {
            fputs(", ", stdout);
        }
        print_record(json, shown.bytes + i * ZAMIACHISEL_RECORD_LENGTH);
    }
}

/* ---- the program */

struct call {
    const char *name, *word; /* as it is asked for, and as its line begins */
    const char *files;       /* their names */
    size_t count, most[MOST_FILES];
    uint64_t (*ask)(const struct run *files);
    const struct field *fields;
};

static const struct call calls[] = {
    {"pair", "pair", "PROBLEM LOW HIGH", 3, {STREAM, STREAM, STREAM}, ask_pair, pair_fields},
    {"check", "check", "PROBLEM CERTIFICATE", 2, {STREAM, STREAM}, ask_check, check_fields},
    {"blocks", "blocks", "PROBLEM", 1, {STREAM}, ask_blocks, blocks_fields},
    {"symmetries", "symmetries", "PROBLEM", 1, {STREAM}, ask_symmetries, symmetries_fields},
    {"tighter", "tighter", "PROBLEM FIRST SECOND", 3, {STREAM, STREAM, STREAM}, ask_tighter, tighter_fields},
    {"report", "accepted", "WEEK", 1, {WEEK}, ask_report, report_fields},
    {"sum", "sum", "PROBLEM LOW HIGH PROBLEM LOW HIGH", 6, {STREAM, STREAM, STREAM, STREAM, STREAM, STREAM}, ask_sum,
     sum_fields},
    {"adjust", "adjusted", "PROBLEM LOW CHANGES", 3, {STREAM, STREAM, STREAM}, ask_adjust, adjust_fields},
    {"office", "office", "PROBLEM CERTIFICATE", 2, {STREAM, STREAM}, ask_office, office_fields},
};

static const struct call *call_named(const char *name) {
    for (size_t i = 0; i < sizeof calls / sizeof calls[0]; i++) {
        if (strcmp(calls[i].name, name) == 0) {
            return &calls[i];
        }
    }
    return NULL;
}

/* The verdict as one object. */
static void print_json(const struct call *call, int status) {
    printf("{\"call\": \"%s\", \"accepted\": %s", call->name, status == ACCEPTED ? "true" : "false");
    if (verdict[ZAMIACHISEL_VERDICT_NUMBER] != ZAMIACHISEL_ACCEPTED) {
        fputs(", ", stdout);
        print_refused(1);
    } else {
        print_fields(call->fields);
        if (call->ask == ask_report) {
            fputs(", \"pairs\": [", stdout);
            print_records(1);
            putchar(']');
        }
    }
    fputs("}\n", stdout);
}

/* The verdict as lines. */
static void print_lines(const struct call *call, const struct run *files) {
    if (call->ask == ask_pair) {
        fwrite(out, 1, (size_t)zamiachisel_lines(RUN(0), RUN(1), RUN(2), out, sizeof out), stdout);
    } else if (verdict[ZAMIACHISEL_VERDICT_NUMBER] != ZAMIACHISEL_ACCEPTED) {
        print_refused(0);
    } else {
        if (call->ask == ask_report) {
            print_records(0);
        }
        print_line(call->word, call->fields);
    }
}

/* Refused is what has a number, and a report in which a pair has one. */
static int status_of(const struct call *call, uint64_t number) {
    int is_whole = call->ask != ask_report ||
                   verdict[ZAMIACHISEL_REPORT_ACCEPTED] == shown.length / ZAMIACHISEL_RECORD_LENGTH;
    return number == ZAMIACHISEL_ACCEPTED && is_whole ? ACCEPTED : REFUSED;
}

/* The status, where all that was printed is written. */
static int finished(int status) {
    if (fflush(stdout) != 0 || ferror(stdout)) {
        return complain("standard output", "%s", strerror(errno));
    }
    return status;
}

/* Reads the files that the words name and prints the verdict on them. */
static int answer(const struct call *call, char **words, size_t count, int json) {
    struct run files[MOST_FILES];
    uint8_t *at = store;
    int inputs = 0, status;
    if (count != call->count) {
        return complain(call->name, "takes %zu files, %s, and %zu are named", call->count, call->files, count);
    }
    for (size_t i = 0; i < count; i++) {
        inputs += strcmp(words[i], "-") == 0;
    }
    if (inputs > 1) {
        return complain("-", "standard input can stand for one file alone");
    }
    for (size_t i = 0; i < count; i++) {
        status = read_file(words[i], call->most[i], at, &files[i]);
        if (status != ACCEPTED) {
            return status;
        }
        at += files[i].length;
    }
    status = status_of(call, call->ask(files));
    if (json) {
        print_json(call, status);
    } else {
        print_lines(call, files);
    }
    return finished(status);
}

/* What an option asks for: the status where that is all, or below 0 where words follow. */
static int option(const char *word, int *json) {
    if (strcmp(word, "--help") == 0 || strcmp(word, "-h") == 0) {
        fputs(help, stdout);
        return finished(ACCEPTED);
    }
    if (strcmp(word, "--version") == 0) {
        printf("zamiachisel %s\ncommit %s\nkit %s\n", ZAMIACHISEL_VERSION, COMMIT, KIT);
        return finished(ACCEPTED);
    }
    if (strcmp(word, "--json") == 0) {
        *json = 1;
        return -1;
    }
    return complain(word, "no option; zamiachisel --help has them, and -- stands before a file of such a name");
}

int main(int count, char **words) {
    const struct call *call;
    int json = 0, kept = 0, status, i;
    for (i = 1; i < count && strcmp(words[i], "--") != 0; i++) {
        if (words[i][0] != '-' || words[i][1] == '\0') {
            words[kept++] = words[i];
        } else if ((status = option(words[i], &json)) >= 0) {
            return status;
        }
    }
    for (i++; i < count; i++) {
        words[kept++] = words[i];
    }
    if (kept == 0) {
        fputs(help, stderr);
        return UNUSABLE;
    }
    call = call_named(words[0]);
    if (call == NULL) {
        return complain(words[0], "no call; zamiachisel --help has them");
    }
    return answer(call, words + 1, (size_t)(kept - 1), json);
}
