/* The proved calls as C functions: everything that crates/c_calls_c exports. Link with target/staticlib/libc_calls.a, which
   `tools/prove c_calls_c` makes; it needs memcpy, memmove and memset of the C library and nothing else.

   What each call returns and leaves is proved for all bytes: the contracts are in crates/c_calls_c/src/lib.rt. Nothing is proved of the
   caller. It must see to this:
   - A run is two arguments, a pointer and the number of its elements. The pointer is not NULL and is aligned for its element, also
     where the number is 0; there any such pointer will do, as nothing is read or written.
   - What a call writes to overlaps with nothing else that it is lent: no run, no table, no single number.
   - There is enough stack: ZAMIACHISEL_STACK_BYTES for any call. docs/measured/stack-bound.tsv has the bound of each, and tools/stack
     holds this number to them. Nothing else is allocated. No call keeps anything from one call to the next, so calls in several
     threads do not meet.

   docs/FORMAT.md has the bytes of a problem and of a certificate. The library is made for x86-64 and ELF; a shared object has the same
   functions (tools/library). */
#ifndef ZAMIACHISEL_H
#define ZAMIACHISEL_H

#include <stddef.h>
#include <stdint.h>

#define ZAMIACHISEL_VERSION "0.21.0"

#ifdef __cplusplus
extern "C" {
#endif

#if defined(__STDC_VERSION__) && __STDC_VERSION__ >= 201112L
_Static_assert(sizeof(size_t) == 8, "the library is made for 64 bits");
#elif defined(__cplusplus) && __cplusplus >= 201103L
static_assert(sizeof(size_t) == 8, "the library is made for 64 bits");
#endif

/* The number of a refusal; 0 where nothing is refused. README.md says what to do about each. */
enum zamiachisel_refusal {
    ZAMIACHISEL_ACCEPTED = 0,
    ZAMIACHISEL_TOO_SHORT = 1,     /* a lent table or output is too short: nothing is written */
    ZAMIACHISEL_ENDS = 2,          /* a stream ends in a command or without its end, or goes on after it */
    ZAMIACHISEL_COMMAND = 3,       /* a command is unknown in its stream or misplaced */
    ZAMIACHISEL_OPERAND = 4,       /* an operand is outside its rule */
    ZAMIACHISEL_REPEATED = 5,      /* a monomial is repeated, or an index does not rise */
    ZAMIACHISEL_TOO_MANY = 6,      /* one more than a count allows */
    ZAMIACHISEL_TOO_LARGE = 7,     /* more than 2,048 monomials to compare */
    ZAMIACHISEL_TWO_BLOCKS = 8,    /* a row has entries in two blocks */
    ZAMIACHISEL_IDENTITY = 9,      /* the identity is false; the key is the smallest that differs */
    ZAMIACHISEL_SIDES = 10,        /* of a pair, the first is no lower bound or the second no upper one */
    ZAMIACHISEL_SIDES_DIFFER = 11, /* of two certificates for one problem, one is a lower bound and one an upper one */
    ZAMIACHISEL_CUT_RECORD = 12,   /* of a week's records one is cut short, or there is a byte after the 64th */
    ZAMIACHISEL_NOTES = 13,        /* the buffer can't hold all notes */
    ZAMIACHISEL_ARRIVAL = 14,      /* a gap's numerator is below 0 or from 2^48, or its denominator is 0 or from 2^32 */
    ZAMIACHISEL_REGIONS = 15,      /* the regions of two problems differ */
    ZAMIACHISEL_NO_BOX = 16,       /* some variable has no inequality that is exactly 1 - x_i^2 */
    ZAMIACHISEL_NOT_LOWER = 17     /* an upper certificate where a lower one is asked for */
};

/* The stream of a refusal. Where a call takes changes of the objective, they are the second certificate's; where it takes a second
   problem, that and its certificates are the last three. */
enum zamiachisel_stream {
    ZAMIACHISEL_PROBLEM = 0,
    ZAMIACHISEL_FIRST = 1,
    ZAMIACHISEL_SECOND = 2,
    ZAMIACHISEL_OTHER_PROBLEM = 3,
    ZAMIACHISEL_OTHER_FIRST = 4,
    ZAMIACHISEL_OTHER_SECOND = 5
};

/* Lengths. */
enum zamiachisel_length {
    ZAMIACHISEL_TABLE_LENGTH = 2048, /* numbers in each work table */
    ZAMIACHISEL_BLOCKS_LENGTH = 576, /* bytes for the blocks: byte 64 j + i is the block of index i in basis j, or 255 */
    ZAMIACHISEL_MASKS_LENGTH = 256,  /* bytes for the sign symmetries */
    ZAMIACHISEL_RECORD_LENGTH = 32,  /* bytes of a record */
    ZAMIACHISEL_MOST_RECORDS = 64,   /* pairs in a report */
    ZAMIACHISEL_CHANGE_LENGTH = 12,  /* bytes of a change of the objective: 8 of its key and 4 of d, signed, the lowest first */
    ZAMIACHISEL_MOST_CHANGES = 256,  /* changes in one call */
    ZAMIACHISEL_NOTE_LENGTH = 8,     /* bytes of a note in the buffer */
    ZAMIACHISEL_LINES_LENGTH = 1280, /* bytes that are enough for the lines of any pair: no program's text is longer */
    ZAMIACHISEL_STATE_LENGTH = 65    /* numbers of the state of a window of gaps */
};

/* Bytes of stack that are enough for any call. What a call of the library that this folder builds needs at most is computed from
   its frames (tools/stack): blocks 139,776; check 140,272; check_two 140,320; choose 140,432; lines 194,528; moved_bound 151,648;
   office 190,048; pair 140,272; record 189,440; record_count 8; report 140,416; sum 163,120; symmetries 139,760; tighter 140,384;
   window_push 880. */
enum zamiachisel_stack { ZAMIACHISEL_STACK_BYTES = 262144 };

/* Where the fields of a record stand, each of four bytes with the lowest first. With a refusal p, q, P and Q are 0, otherwise stream,
   place and key are. */
enum zamiachisel_field {
    ZAMIACHISEL_AT_REFUSAL = 0,           /* unsigned: enum zamiachisel_refusal */
    ZAMIACHISEL_AT_LOWER_NUMERATOR = 4,   /* signed, two's complement: p */
    ZAMIACHISEL_AT_LOWER_DENOMINATOR = 8, /* unsigned: q */
    ZAMIACHISEL_AT_UPPER_NUMERATOR = 12,  /* signed: P */
    ZAMIACHISEL_AT_UPPER_DENOMINATOR = 16, /* unsigned: Q */
    ZAMIACHISEL_AT_STREAM = 20,           /* unsigned: enum zamiachisel_stream */
    ZAMIACHISEL_AT_PLACE = 24,            /* unsigned: an offset in that stream, its lowest 32 bits */
    ZAMIACHISEL_AT_KEY = 28               /* unsigned: the lowest 32 bits of the key, so the exponents of variables 1 to 4 */
};

/* The pair's verdict as one record, for a tool that has no tables to lend (request 14). Returned is the number of the refusal, 0 where
   both certificates are accepted, or 1 where out has fewer than 32 bytes and nothing is written. Otherwise the first 32 bytes of out
   are the record; bytes past them stay as they are. The order of the rows of a certificate has no effect on whether it is accepted. */
uint64_t zamiachisel_record(const uint8_t *problem, size_t problem_length, const uint8_t *low, size_t low_length,
                            const uint8_t *high, size_t high_length, uint8_t *out, size_t out_length);

/* ---- whole verdicts

   The calls below fill a lent run of 64-bit numbers, `verdict`, with every field of their verdict, at the places that are named
   here: the refusal first, and then the call's own fields. A field that is below 0 stands as its two's complement, so that
   (int64_t)verdict[k] is its value. With a refusal all fields but the first four are 0; without one the first four are. What is
   past the verdict stays as it was. Refusal 1, also for a run that is too short, writes nothing at all: neither to the run nor to
   an output nor to a table nor to a state.

   All but the window's also borrow three work tables of 2,048 numbers each. On every return but with refusal 1 their first 2,048
   numbers are 0 and what is past them is untouched. Returned is the number of the refusal, or 0. */
enum zamiachisel_verdict {
    ZAMIACHISEL_VERDICT_NUMBER = 0, /* enum zamiachisel_refusal */
    ZAMIACHISEL_VERDICT_STREAM = 1, /* enum zamiachisel_stream */
    ZAMIACHISEL_VERDICT_PLACE = 2,  /* an offset in that stream */
    ZAMIACHISEL_VERDICT_KEY = 3     /* of refusal 9: byte i - 1 from the lowest is the exponent of variable i */
};

enum zamiachisel_blocks_verdict {
    ZAMIACHISEL_BLOCKS_COUNT = 4,  /* how many blocks, over all bases */
    ZAMIACHISEL_BLOCKS_ROUNDS = 5, /* the rounds of the joining rule */
    ZAMIACHISEL_BLOCKS_RULE = 6,   /* the rule used, 1 or 2 */
    ZAMIACHISEL_BLOCKS_NUMBERS = 7 /* how many numbers the verdict has */
};

enum zamiachisel_check_verdict {
    ZAMIACHISEL_CHECK_SIDE = 4,        /* 0 a lower bound, 1 an upper one */
    ZAMIACHISEL_CHECK_NUMERATOR = 5,   /* signed: p */
    ZAMIACHISEL_CHECK_DENOMINATOR = 6, /* q */
    ZAMIACHISEL_CHECK_ROUNDS = 7,
    ZAMIACHISEL_CHECK_RULE = 8,
    ZAMIACHISEL_CHECK_NUMBERS = 9
};

enum zamiachisel_pair_verdict {
    ZAMIACHISEL_PAIR_LOWER_NUMERATOR = 4,   /* signed: p */
    ZAMIACHISEL_PAIR_LOWER_DENOMINATOR = 5, /* q */
    ZAMIACHISEL_PAIR_UPPER_NUMERATOR = 6,   /* signed: P */
    ZAMIACHISEL_PAIR_UPPER_DENOMINATOR = 7, /* Q */
    ZAMIACHISEL_PAIR_GAP_NUMERATOR = 8,     /* 0 over 0 where the region is marked as empty */
    ZAMIACHISEL_PAIR_GAP_DENOMINATOR = 9,
    ZAMIACHISEL_PAIR_EMPTY = 10, /* 1 where no point meets all conditions, as the gap would be below 0; otherwise 0 */
    ZAMIACHISEL_PAIR_ROUNDS = 11,
    ZAMIACHISEL_PAIR_RULE = 12,
    ZAMIACHISEL_PAIR_NUMBERS = 13
};

/* Two verdicts of the check, one after the other: that of the second certificate begins here. */
enum zamiachisel_two_verdict { ZAMIACHISEL_TWO_SECOND = 9, ZAMIACHISEL_TWO_NUMBERS = 18 };

enum zamiachisel_choose_verdict {
    ZAMIACHISEL_CHOOSE_STREAM = 4, /* of the certificate that comes back: 1 the first, 2 the second, 0 neither */
    ZAMIACHISEL_CHOOSE_NUMBERS = 5
};

enum zamiachisel_symmetries_verdict {
    ZAMIACHISEL_SYMMETRIES_COUNT = 4, /* how many masks */
    ZAMIACHISEL_SYMMETRIES_NUMBERS = 5
};

enum zamiachisel_report_verdict {
    ZAMIACHISEL_REPORT_ACCEPTED = 4,          /* how many pairs were accepted */
    ZAMIACHISEL_REPORT_LOWER_NUMERATOR = 5,   /* signed: the smallest lower bound of these; 0 over 0 where there is none */
    ZAMIACHISEL_REPORT_LOWER_DENOMINATOR = 6,
    ZAMIACHISEL_REPORT_UPPER_NUMERATOR = 7,   /* signed: the largest upper bound */
    ZAMIACHISEL_REPORT_UPPER_DENOMINATOR = 8,
    ZAMIACHISEL_REPORT_NUMBERS = 9
};

enum zamiachisel_sum_verdict {
    ZAMIACHISEL_SUM_LOWER_NUMERATOR = 4,   /* signed: p q' + p' q */
    ZAMIACHISEL_SUM_LOWER_DENOMINATOR = 5, /* q q' */
    ZAMIACHISEL_SUM_UPPER_NUMERATOR = 6,   /* signed */
    ZAMIACHISEL_SUM_UPPER_DENOMINATOR = 7,
    ZAMIACHISEL_SUM_FIRST_RULE = 8,  /* the rule that the first problem uses */
    ZAMIACHISEL_SUM_SECOND_RULE = 9, /* and the second */
    ZAMIACHISEL_SUM_NUMBERS = 10
};

enum zamiachisel_moved_verdict {
    ZAMIACHISEL_MOVED_NUMERATOR = 4,   /* signed: p - q * (sum of |d|) */
    ZAMIACHISEL_MOVED_DENOMINATOR = 5, /* q */
    ZAMIACHISEL_MOVED_NUMBERS = 6
};

/* The check's fields, and then: */
enum zamiachisel_office_verdict {
    ZAMIACHISEL_OFFICE_NOTES = 9, /* how many notes */
    ZAMIACHISEL_OFFICE_NUMBERS = 10
};

enum zamiachisel_window_verdict {
    ZAMIACHISEL_WINDOW_NUMERATOR = 4, /* the widest gap of the latest 32, the newest of these where several are equal */
    ZAMIACHISEL_WINDOW_DENOMINATOR = 5,
    ZAMIACHISEL_WINDOW_AGE = 6, /* how many gaps were accepted after it */
    ZAMIACHISEL_WINDOW_NUMBERS = 7
};

/* The blocks of a problem: the first 576 bytes of out, where nothing is refused. */
uint64_t zamiachisel_blocks(const uint8_t *problem, size_t problem_length, uint8_t *out, size_t out_length, uint64_t *verdict,
                            size_t verdict_length, uint64_t *keys, size_t keys_length, int64_t *high, size_t high_length,
                            int64_t *low, size_t low_length);

/* The check of one certificate. */
uint64_t zamiachisel_check(const uint8_t *problem, size_t problem_length, const uint8_t *certificate, size_t certificate_length,
                           uint64_t *verdict, size_t verdict_length, uint64_t *keys, size_t keys_length, int64_t *high,
                           size_t high_length, int64_t *low, size_t low_length);

/* The pair: a certificate of a lower bound and one of an upper bound. */
uint64_t zamiachisel_pair(const uint8_t *problem, size_t problem_length, const uint8_t *first, size_t first_length,
                          const uint8_t *second, size_t second_length, uint64_t *verdict, size_t verdict_length,
                          uint64_t *keys, size_t keys_length, int64_t *high, size_t high_length, int64_t *low,
                          size_t low_length);

/* The check of two certificates for one problem, each as if it were alone: both say stream 1. Returned is the first one's number. */
uint64_t zamiachisel_check_two(const uint8_t *problem, size_t problem_length, const uint8_t *first, size_t first_length,
                               const uint8_t *second, size_t second_length, uint64_t *verdict, size_t verdict_length,
                               uint64_t *keys, size_t keys_length, int64_t *high, size_t high_length, int64_t *low,
                               size_t low_length);

/* The tighter of two certificates for one problem (request 02): which one it is stands in the verdict. */
uint64_t zamiachisel_choose(const uint8_t *problem, size_t problem_length, const uint8_t *first, size_t first_length,
                            const uint8_t *second, size_t second_length, uint64_t *verdict, size_t verdict_length,
                            uint64_t *keys, size_t keys_length, int64_t *high, size_t high_length, int64_t *low,
                            size_t low_length);

/* The same in the form of request 02. Returned is the stream that comes back, 1 or 2, the first when they are equal, or 0 for neither.
   The four single numbers receive the refusal, also number 1, and are 0 where a certificate comes back. The tables are left as above. */
uint64_t zamiachisel_tighter(const uint8_t *problem, size_t problem_length, const uint8_t *first, size_t first_length,
                             const uint8_t *second, size_t second_length, uint64_t *number, uint64_t *stream,
                             uint64_t *place, uint64_t *key, uint64_t *keys, size_t keys_length, int64_t *high,
                             size_t high_length, int64_t *low, size_t low_length);

/* The sign symmetries of a problem (request 01): the first 256 bytes of out are the masks, rising, and then zeros, where nothing is
   refused. */
uint64_t zamiachisel_symmetries(const uint8_t *problem, size_t problem_length, uint8_t *out, size_t out_length,
                                uint64_t *verdict, size_t verdict_length, uint64_t *keys, size_t keys_length, int64_t *high,
                                size_t high_length, int64_t *low, size_t low_length);

/* A week's pairs in one report (request 07): up to 64 records of three lengths, of two bytes each with the lower first, and then
   problem, low and high. Where nothing is refused out has 32 bytes for each record, in their order; what is past them is untouched. */
uint64_t zamiachisel_report(const uint8_t *records, size_t records_length, uint8_t *out, size_t out_length, uint64_t *verdict,
                            size_t verdict_length, uint64_t *keys, size_t keys_length, int64_t *high, size_t high_length,
                            int64_t *low, size_t low_length);

/* How many records a week's input has, 0 where it is refused with 12: it tells how long an output to lend to the report. It borrows
   nothing, and returns that number. */
uint64_t zamiachisel_record_count(const uint8_t *records, size_t records_length);

/* Two problems over one region with a pair for each, whose bounds are added (request 12). */
uint64_t zamiachisel_sum(const uint8_t *problem1, size_t problem1_length, const uint8_t *low1, size_t low1_length,
                         const uint8_t *high1, size_t high1_length, const uint8_t *problem2, size_t problem2_length,
                         const uint8_t *low2, size_t low2_length, const uint8_t *high2, size_t high2_length,
                         uint64_t *verdict, size_t verdict_length, uint64_t *keys, size_t keys_length, int64_t *high,
                         size_t high_length, int64_t *low, size_t low_length);

/* The bound of a lower certificate after changes of the objective (request 13). */
uint64_t zamiachisel_moved_bound(const uint8_t *problem, size_t problem_length, const uint8_t *certificate,
                                 size_t certificate_length, const uint8_t *changes, size_t changes_length, uint64_t *verdict,
                                 size_t verdict_length, uint64_t *keys, size_t keys_length, int64_t *high, size_t high_length,
                                 int64_t *low, size_t low_length);

/* The check of a certificate that may have notes (request 10): where nothing is refused the buffer begins with the 8 bytes of each note,
   in their order. */
uint64_t zamiachisel_office(const uint8_t *problem, size_t problem_length, const uint8_t *certificate, size_t certificate_length,
                            uint8_t *buffer, size_t buffer_length, uint64_t *verdict, size_t verdict_length, uint64_t *keys,
                            size_t keys_length, int64_t *high, size_t high_length, int64_t *low, size_t low_length);

/* A gap arrives at a window, which holds the latest 32 (request 11). It borrows no tables. The state is lent as 65 numbers: numerator
   and denominator of 32 gaps, the newest first, and then how many of these are held. 65 zeros are the state before any arrival. Any 65
   numbers are a state, in which more than 32 held are 32. With a refusal the state stays as it was, and numbers past the state always
   do. A state of fewer than 65 numbers is refused with 1, as a short run for the verdict is. */
uint64_t zamiachisel_window_push(int64_t numerator, uint64_t denominator, uint64_t *state, size_t state_length, uint64_t *verdict,
                                 size_t verdict_length);

/* The lines that gapcheck prints for three streams: the first bytes of out, where they fit. Returned is their length always; where out
   is shorter nothing is written. */
uint64_t zamiachisel_lines(const uint8_t *problem, size_t problem_length, const uint8_t *low, size_t low_length,
                           const uint8_t *high, size_t high_length, uint8_t *out, size_t out_length);

#ifdef __cplusplus
}
#endif

#endif
