/* guards BOUNDS EVERY: calls the functions of include/zamiachisel.h on records of the standard input (those of `replay`), with
   every run that a call takes between two pages that nobody may touch, and on a stack that ends at such a page too. Each call is made
   twice: plainly, with runs in the middle of ordinary memory, and guarded; what comes back and every lent byte must be the same.
   - A run ends where the page behind it begins, and then begins where the page before it ends.
   - All runs of a call are exact; then all are longer; then each in turn is empty, or shorter by one. Of an input that is the
     record's own length; of an output, a verdict and a table the length that the header asks for.
   - Whatever is written to is full of other numbers before the call, and so is what is beside it, which must stay.
   - The stack has the bytes that BOUNDS, docs/measured/stack-bound.tsv, has for the function, its return address among them; what the
     caller puts there, arguments beyond the sixth, lies above them. A bound that is no multiple of 16 is taken to the next one.
   Of the records every EVERYth is taken. That the pages are watched is tried on the first accepted records, by processes of their own:
   for each function and each of its runs a call in which the run has one element less than the function is told, and one on a
   stack of 4,096 bytes, must end at a guard page.
   It ends with status 1 at the first difference, and with status 2 where a guard page is touched. */
#define _GNU_SOURCE
#include <signal.h>
#include <stdio.h>
#include <stdlib.h>
#include <string.h>
#include <sys/mman.h>
#include <sys/wait.h>
#include <unistd.h>

#include "zamiachisel.h"

#define PAGE ((size_t)4096)
#define MOST ((size_t)65536)      /* bytes of a run of a record */
#define ROOM (MOST + 4 * PAGE)    /* of a run here, with some more */
#define BESIDE ((size_t)256)      /* bytes beside a run that are looked at */
#define MORE ((size_t)3)          /* elements in a longer run */
#define RUNS 10
#define STACK ((size_t)(1 << 20)) /* of a plain call */

/* ---- the functions: their runs in order. I an input, O an output of bytes, V a verdict, S a single number, T a table, W the state of a
   window, N a number that is handed over by itself and is no run: the first ones of the record's first run. */
struct function {
    const char *name;
    void (*call)(void); /* called with its own arguments by `on_stack` */
    const char *runs;
    size_t output, verdict; /* elements that are asked for; 0 where the record decides */
    const char *kinds;      /* of the records that it is tried on */
    size_t bound;
    unsigned told; /* bit k: that the run k is shorter than it is told was seen; the bit RUNS: that the stack is */
};
#define F(name) "zamiachisel_" #name, (void (*)(void))zamiachisel_##name
static struct function functions[] = {
    {F(record), "IIIO", ZAMIACHISEL_RECORD_LENGTH, 0, "px", 0, 0},
    {F(lines), "IIIO", 0, 0, "p", 0, 0},
    {F(blocks), "IOVTTT", ZAMIACHISEL_BLOCKS_LENGTH, ZAMIACHISEL_BLOCKS_NUMBERS, "bs", 0, 0},
    {F(symmetries), "IOVTTT", ZAMIACHISEL_MASKS_LENGTH, ZAMIACHISEL_SYMMETRIES_NUMBERS, "bs", 0, 0},
    {F(check), "IIVTTT", 0, ZAMIACHISEL_CHECK_NUMBERS, "c", 0, 0},
    {F(office), "IIOVTTT", 0, ZAMIACHISEL_OFFICE_NUMBERS, "cn", 0, 0},
    {F(pair), "IIIVTTT", 0, ZAMIACHISEL_PAIR_NUMBERS, "p", 0, 0},
    {F(check_two), "IIIVTTT", 0, ZAMIACHISEL_TWO_NUMBERS, "pt", 0, 0},
    {F(choose), "IIIVTTT", 0, ZAMIACHISEL_CHOOSE_NUMBERS, "t", 0, 0},
    {F(tighter), "IIISSSSTTT", 0, 0, "t", 0, 0},
    {F(report), "IOVTTT", 0, ZAMIACHISEL_REPORT_NUMBERS, "r", 0, 0},
    {F(record_count), "I", 0, 0, "r", 0, 0},
    {F(sum), "IIIIIIVTTT", 0, ZAMIACHISEL_SUM_NUMBERS, "d", 0, 0},
    {F(moved_bound), "IIIVTTT", 0, ZAMIACHISEL_MOVED_NUMBERS, "a", 0, 0},
    {F(window_push), "NNWV", 0, ZAMIACHISEL_WINDOW_NUMBERS, "w", 0, 0},
};
#define FUNCTIONS (sizeof functions / sizeof *functions)

/* Calls a function with `count` arguments, at least 6 of them in the array, on a stack: those past the sixth lie below `top`, and the
   function's return address right below them. */
uint64_t on_stack(void (*call)(void), const uint64_t *arguments, size_t count, void *top);
__asm__(".text\n"
        ".globl on_stack\n"
        "on_stack:\n"
        "    pushq %rbp\n"
        "    movq %rsp, %rbp\n"
        "    movq %rcx, %rsp\n"
        "    movq %rdi, %r11\n"
        "    movq %rsi, %r10\n"
        "1:  cmpq $6, %rdx\n"
        "    jbe 2f\n"
        "    pushq -8(%r10,%rdx,8)\n"
        "    decq %rdx\n"
        "    jmp 1b\n"
        "2:  movq (%r10), %rdi\n"
        "    movq 8(%r10), %rsi\n"
        "    movq 16(%r10), %rdx\n"
        "    movq 24(%r10), %rcx\n"
        "    movq 32(%r10), %r8\n"
        "    movq 40(%r10), %r9\n"
        "    call *%r11\n"
        "    movq %rbp, %rsp\n"
        "    popq %rbp\n"
        "    ret\n");

/* ---- what is being done, for whoever reads a failure */
static size_t record, calls, told_calls;
static struct function *function;
static char doing[64];

static void fault(const char *what) {
    fflush(stdout);
    fprintf(stderr, "guards: record %lu, %s, %s: %s\n", (unsigned long)record, function ? function->name : "no call", doing, what);
    exit(1);
}

static void touched(int number) {
    char text[256];
    int n = snprintf(text, sizeof text, "guards: record %lu, %s, %s: a guard page was touched (signal %d)\n", (unsigned long)record,
                     function ? function->name : "no call", doing, number);
    if (write(2, text, (size_t)n) < 0) {
        _exit(3);
    }
    _exit(2);
}

/* Bytes between two pages that may not be touched. */
static uint8_t *guarded(size_t size) {
    uint8_t *at = (uint8_t *)mmap(NULL, size + 2 * PAGE, PROT_READ | PROT_WRITE, MAP_PRIVATE | MAP_ANONYMOUS, -1, 0);
    if (at == MAP_FAILED || mprotect(at, PAGE, PROT_NONE) != 0 || mprotect(at + PAGE + size, PAGE, PROT_NONE) != 0) {
        fault("no memory");
    }
    return at + PAGE;
}

/* ---- a call's runs */
struct run {
    char sort;
    size_t unit, asked, length; /* bytes of an element, elements asked for, and elements that are told */
    const uint8_t *given;       /* an input's bytes */
};
static struct run runs[RUNS];
static size_t run_count;
static uint8_t *plain[RUNS], *pages[RUNS], *stack, *plain_stack;
static uint8_t *inputs[6];
static size_t lengths[6];

static uint8_t dirt(size_t k, size_t i) { return (uint8_t)(0xA5 + 31 * k + 7 * i + (i >> 8)); }

/* What a run has before a call: an input its bytes, and dirt behind them; anything else dirt. */
static void fill(size_t k, uint8_t *at) {
    size_t i, size = runs[k].unit * runs[k].length, own = 0;
    if (runs[k].given != NULL) {
        own = size < runs[k].asked ? size : runs[k].asked;
        memcpy(at, runs[k].given, own);
    }
    for (i = own; i < size; i++) {
        at[i] = dirt(k, i);
    }
}

/* The arguments of a call, and how many. */
static size_t arguments(uint8_t *const *at, uint64_t *to) {
    size_t k, n = 0;
    for (k = 0; k < run_count; k++) {
        if (runs[k].sort == 'N') {
            uint64_t number = 1;
            if (lengths[0] >= 8 * (k + 1)) {
                memcpy(&number, inputs[0] + 8 * k, 8);
            }
            to[n++] = number;
            continue;
        }
        to[n++] = (uint64_t)(uintptr_t)at[k];
        if (runs[k].sort != 'S') {
            to[n++] = runs[k].length;
        }
    }
    return n;
}

static void *top_of(uint8_t *low, size_t bytes, size_t count) {
    return low + (bytes + 15) / 16 * 16 + 8 * (count > 6 ? count - 6 : 0);
}

static uint64_t plainly(void) {
    uint8_t *at[RUNS];
    uint64_t words[2 * RUNS] = {0}, found;
    size_t k, n, i;
    for (k = 0; k < run_count; k++) {
        size_t size = runs[k].unit * runs[k].length;
        at[k] = plain[k] + BESIDE;
        memset(plain[k], 0x5A, BESIDE);
        fill(k, at[k]);
        memset(at[k] + size, 0x5A, BESIDE);
    }
    n = arguments(at, words);
    found = on_stack(function->call, words, n, top_of(plain_stack, STACK - 4 * PAGE, n));
    for (k = 0; k < run_count; k++) {
        for (i = 0; i < BESIDE; i++) {
            if (plain[k][i] != 0x5A || at[k][runs[k].unit * runs[k].length + i] != 0x5A) {
                fault("what is beside a run was written to");
            }
        }
    }
    return found;
}

/* The guarded call: the runs at the end of their pages or at their start. `less` is taken from the run `told` alone, in bytes. */
static uint64_t between_pages(int at_end, size_t bound, size_t told, size_t less, uint8_t **at) {
    uint64_t words[2 * RUNS] = {0}, found;
    size_t k, n, i;
    for (k = 0; k < run_count; k++) {
        size_t size = runs[k].unit * runs[k].length;
        at[k] = at_end ? pages[k] + ROOM - size : pages[k];
        fill(k, at[k]);
        for (i = 0; i < BESIDE; i++) {
            (at_end ? at[k] - BESIDE : at[k] + size)[i] = 0x5A;
        }
        if (k == told) {
            memmove(at[k] + less, at[k], size - less);
            at[k] += less;
        }
    }
    n = arguments(at, words);
    found = on_stack(function->call, words, n, top_of(stack, bound, n));
    for (k = 0; k < run_count; k++) {
        size_t size = runs[k].unit * runs[k].length;
        for (i = 0; i < BESIDE; i++) {
            if ((at_end ? at[k] - BESIDE : at[k] + size)[i] != 0x5A) {
                fault("what is beside a run was written to");
            }
        }
    }
    return found;
}

/* One choice of lengths, plainly and guarded at both places. */
static void compare(const char *what) {
    int at_end;
    uint64_t found;
    size_t k;
    snprintf(doing, sizeof doing, "%s, plainly", what);
    found = plainly();
    for (at_end = 0; at_end < 2; at_end++) {
        uint8_t *at[RUNS];
        snprintf(doing, sizeof doing, "%s, at the %s of their pages", what, at_end ? "end" : "start");
        if (between_pages(at_end, function->bound, RUNS, 0, at) != found) {
            fault("another number comes back than plainly");
        }
        for (k = 0; k < run_count; k++) {
            size_t size = runs[k].unit * runs[k].length;
            if (memcmp(at[k], plain[k] + BESIDE, size) != 0) {
                fault("a run is left otherwise than plainly");
            }
            if (runs[k].given != NULL && memcmp(at[k], runs[k].given, size < runs[k].asked ? size : runs[k].asked) != 0) {
                fault("an input was written to");
            }
        }
        calls++;
    }
}

/* Elements that are asked of an output whose length the record decides: what a first call with enough room tells. */
static size_t decided(size_t k) {
    uint64_t number;
    const uint64_t *verdict = NULL;
    size_t i;
    runs[k].length = MOST;
    number = plainly();
    for (i = 0; i < run_count; i++) {
        verdict = runs[i].sort == 'V' ? (const uint64_t *)(void *)(plain[i] + BESIDE) : verdict;
    }
    if (strcmp(function->name, "zamiachisel_lines") == 0) {
        return number;
    }
    if (strcmp(function->name, "zamiachisel_office") == 0) {
        return number == 0 ? ZAMIACHISEL_NOTE_LENGTH * verdict[ZAMIACHISEL_OFFICE_NOTES] : 0;
    }
    return ZAMIACHISEL_RECORD_LENGTH * zamiachisel_record_count(runs[0].given, runs[0].asked);
}

/* The runs of the function on this record, all exact. */
static void set_runs(void) {
    size_t k, input = 0, output = RUNS;
    run_count = strlen(function->runs);
    for (k = 0; k < run_count; k++) {
        struct run *run = &runs[k];
        run->sort = function->runs[k];
        run->unit = run->sort == 'I' || run->sort == 'O' ? 1 : 8;
        run->given = run->sort == 'I' ? inputs[input] : NULL;
        switch (run->sort) {
        case 'I': run->asked = lengths[input++]; break;
        case 'O': run->asked = function->output; output = k; break;
        case 'V': run->asked = function->verdict; break;
        case 'S': run->asked = 1; break;
        case 'N': run->asked = 0; break;
        case 'W': run->asked = ZAMIACHISEL_STATE_LENGTH; break;
        default: run->asked = ZAMIACHISEL_TABLE_LENGTH;
        }
        run->length = run->asked;
    }
    if (output != RUNS && function->output == 0) {
        snprintf(doing, sizeof doing, "with much room, plainly");
        runs[output].asked = decided(output);
        runs[output].length = runs[output].asked;
    }
}

static void try_function(void) {
    size_t k;
    char what[32];
    set_runs();
    compare("exact");
    for (k = 0; k < run_count; k++) {
        runs[k].length = runs[k].asked + (runs[k].sort == 'S' || runs[k].sort == 'N' ? 0 : MORE);
    }
    compare("all longer");
    for (k = 0; k < run_count; k++) {
        runs[k].length = runs[k].asked;
    }
    for (k = 0; k < run_count; k++) {
        if (runs[k].sort == 'S' || runs[k].asked == 0) {
            continue;
        }
        snprintf(what, sizeof what, "run %lu empty", (unsigned long)k);
        runs[k].length = 0;
        compare(what);
        snprintf(what, sizeof what, "run %lu short", (unsigned long)k);
        runs[k].length = runs[k].asked - 1;
        compare(what);
        runs[k].length = runs[k].asked;
    }
}

/* Whether the call that was made last, plainly, accepted its streams, and so read them to their ends. */
static int accepted(uint64_t number) {
    size_t k;
    if (strcmp(function->name, "zamiachisel_lines") == 0) {
        return plain[3][BESIDE] == 'l';
    }
    if (strcmp(function->name, "zamiachisel_tighter") == 0 || strcmp(function->name, "zamiachisel_record_count") == 0) {
        return number != 0;
    }
    for (k = 0; k < run_count; k++) { /* of a report, that a pair was accepted */
        const uint64_t *verdict = (const uint64_t *)(void *)(plain[k] + BESIDE);
        if (runs[k].sort == 'V' && strcmp(function->name, "zamiachisel_report") == 0 && verdict[ZAMIACHISEL_REPORT_ACCEPTED] == 0) {
            return 0;
        }
        /* both certificates of two checks, and of a choice, whichever comes back */
        if (runs[k].sort == 'V' && strcmp(function->name, "zamiachisel_check_two") == 0 && verdict[ZAMIACHISEL_TWO_SECOND] != 0) {
            return 0;
        }
    }
    return number == 0;
}

/* A call in a process of its own, in which the run has one element less than is told, or where it is RUNS the stack 4,096 bytes. The
   count of records looks at lengths alone: there five bytes are left. */
static void tell_more(size_t told) {
    int counts = strcmp(function->name, "zamiachisel_record_count") == 0;
    size_t less = told == RUNS ? 0 : counts ? runs[told].length - 5 : runs[told].unit;
    int status = 0;
    pid_t child = fork();
    if (child == 0) {
        uint8_t *at[RUNS];
        if (freopen("/dev/null", "w", stderr) == NULL) {
            _exit(3);
        }
        between_pages(1, told == RUNS ? PAGE : function->bound, told, less, at);
        _exit(0);
    }
    if (child < 0 || waitpid(child, &status, 0) != child || !WIFEXITED(status) || WEXITSTATUS(status) != 2) {
        snprintf(doing, sizeof doing, "run %lu shorter than it is told", (unsigned long)told);
        fault("it did not end at a guard page");
    }
    function->told |= 1u << told;
    told_calls++;
}

/* Whether all of it was seen of the function: of a function with no frame the stack is not tried. */
static int is_told(void) {
    size_t k;
    unsigned all = function->bound > PAGE ? 1u << RUNS : 0;
    for (k = 0; function->runs[k] != 0; k++) {
        all |= function->runs[k] == 'N' ? 0 : 1u << k;
    }
    return (function->told & all) == all;
}

static void tell_function(void) {
    size_t k;
    set_runs();
    snprintf(doing, sizeof doing, "exact, plainly");
    if (!accepted(plainly())) {
        return;
    }
    for (k = 0; k < run_count; k++) {
        if (runs[k].length > 0 && (function->told >> k & 1) == 0) {
            tell_more(k);
        }
    }
    if (function->bound > PAGE && (function->told >> RUNS & 1) == 0) {
        tell_more(RUNS);
    }
}

/* ---- records and bounds */
static size_t length_of(void) {
    size_t n = 0, k;
    for (k = 0; k < 4; k++) {
        n |= (size_t)(getchar() & 255) << (8 * k);
    }
    if (feof(stdin) || n > MOST) {
        fault("a record that ends, or a run that is too long");
    }
    return n;
}

/* The next record's kind, or EOF. */
static int next_record(void) {
    int kind = getchar();
    size_t k, count = kind == 'x' ? 4 : kind == 'd' ? 6 : 3;
    for (k = 0; kind != EOF && k < count; k++) {
        lengths[k] = length_of();
    }
    for (k = 0; kind != EOF && k < count; k++) {
        if (fread(inputs[k], 1, lengths[k], stdin) != lengths[k]) {
            fault("a record that ends");
        }
    }
    return kind;
}

static void read_bounds(const char *path) {
    char line[4096], name[64];
    size_t k, bound;
    FILE *file = fopen(path, "r");
    while (file != NULL && fgets(line, sizeof line, file) != NULL) {
        if (sscanf(line, "%63s %zu", name, &bound) == 2) {
            for (k = 0; k < FUNCTIONS; k++) {
                functions[k].bound = strcmp(name, functions[k].name) == 0 ? bound : functions[k].bound;
            }
        }
    }
    for (k = 0; k < FUNCTIONS; k++) {
        if (functions[k].bound == 0 || functions[k].bound > STACK) {
            function = &functions[k];
            fault("no bound of the stack");
        }
    }
}

static void set_up(const char *bounds) {
    static uint8_t signal_stack[65536];
    stack_t other;
    struct sigaction action;
    size_t k;
    memset(&other, 0, sizeof other);
    memset(&action, 0, sizeof action);
    other.ss_sp = signal_stack;
    other.ss_size = sizeof signal_stack;
    action.sa_handler = touched;
    action.sa_flags = SA_ONSTACK;
    read_bounds(bounds);
    for (k = 0; k < RUNS; k++) {
        plain[k] = (uint8_t *)guarded(ROOM + 2 * PAGE);
        pages[k] = guarded(ROOM);
    }
    for (k = 0; k < 6; k++) {
        inputs[k] = guarded(MOST);
    }
    stack = guarded(STACK);
    plain_stack = guarded(STACK);
    if (sigaltstack(&other, NULL) != 0 || sigaction(SIGSEGV, &action, NULL) != 0 || sigaction(SIGBUS, &action, NULL) != 0) {
        fault("no handler");
    }
}

int main(int count, char **words) {
    size_t every, k, tried = 0;
    int kind;
    if (count != 3) {
        fputs("guards BOUNDS EVERY\n", stderr);
        return 3;
    }
    set_up(words[1]);
    every = (size_t)strtoul(words[2], NULL, 10);
    for (record = 1; (kind = next_record()) != EOF; record++) {
        int is_taken = (record - 1) % every == 0;
        for (k = 0; k < FUNCTIONS; k++) {
            function = &functions[k];
            if (strchr(function->kinds, kind) == NULL) {
                continue;
            }
            if (!is_told()) {
                tell_function();
            }
            if (is_taken) {
                try_function();
            }
        }
        function = NULL;
        tried += (size_t)is_taken;
    }
    for (k = 0; k < FUNCTIONS; k++) {
        function = &functions[k];
        if (!is_told()) {
            fault("no record on which all its runs could be made shorter than they are told");
        }
    }
    printf("guards: %lu guarded calls on %lu records came to what plain ones do; %lu that were told more than there is ended at a "
           "guard page\n",
           (unsigned long)calls, (unsigned long)tried, (unsigned long)told_calls);
    return 0;
}
