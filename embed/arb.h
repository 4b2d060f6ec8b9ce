/* arb.h: the proved address resolution buffer for C11 and C++. x86-64 Linux, System V calling convention; link libarb.
 *
 * A table is a plain value: copy it to take a checkpoint, free nothing. Every call first looks at all that it is given and
 * answers 0 or the number of its refusal. A refused call changes nothing: not the table, not memory, and not what `ticket` or
 * `out` points to; a refused opening alone leaves a table on which every call is refused with 2. A table of any bytes may be
 * passed: one that breaks its own rules is refused with 2.
 *
 * What callers owe: pointers are not NULL, point to what their type and length say, and do not overlap each other; `memory` has
 * the length that the opening had, else the call is refused with 3. Memory is lent for the call alone.
 *
 * Threads: no call allocates, blocks, keeps a pointer or has state of its own, so calls on different tables may run in different
 * threads at once. One table, and the memory that it serves, need one caller at a time. */
#ifndef ARB_H
#define ARB_H

#include <stdbool.h>
#include <stddef.h>
#include <stdint.h>

#ifdef __cplusplus
extern "C" {
#define ARB_ASSERT static_assert
#else
#define ARB_ASSERT _Static_assert
#endif

/* By its general tuning gcc copies a table with `rep movs`; by this one it calls memcpy, and a call takes a tenth less. */
#if defined(__GNUC__) && !defined(__clang__) && defined(__x86_64__)
#define ARB_CALL static inline __attribute__((target("tune=haswell")))
#else
#define ARB_CALL static inline
#endif

/* The layout of the structs is the ABI: another one raises the major number, which the shared object's name has; a new call
 * raises the minor. */
#define ARB_ABI_MAJOR 1
#define ARB_ABI_MINOR 0

/* The most stages, rows a bank, banks, words; the length of the arrays by row. */
enum { ARB_STAGES = 16, ARB_ROWS = 8, ARB_BANKS = 8, ARB_WORDS = 4096, ARB_SLOTS = 64 };

/* Why a call was turned down: of the conditions that hold the one with the smallest number. */
typedef enum {
    ARB_DONE = 0,
    ARB_BAD_SIZES = 1,       /* opening: a size outside its limits; machine: a program above 1,024 numbers */
    ARB_BROKEN_STATE = 2,    /* the table breaks its own rules; machine: window and table disagree */
    ARB_MEMORY_LENGTH = 3,   /* the memory lent has not the opened length */
    ARB_BAD_PROGRAM = 4,     /* machine: a bad number or length, or a live entry unlike the program's instruction */
    ARB_WINDOW_FULL = 5,     /* every stage is live */
    ARB_PROGRAM_ENDED = 6,   /* machine: no instruction is left to issue */
    ARB_NOT_LIVE = 7,        /* the ticket or position names no live reference: squashed, committed or never issued */
    ARB_EXECUTED_BEFORE = 8, /* it has executed */
    ARB_OPERAND_WAITS = 9,   /* machine: the writer of an operand has not executed */
    ARB_NO_ROW = 10,         /* stall: no row is free, and each of its bank has a mark that is not younger */
    ARB_WINDOW_EMPTY = 11,   /* commit: nothing is live */
    ARB_OLDEST_WAITS = 12,   /* commit: the oldest has not executed */
    ARB_OUTSIDE_MEMORY = 13, /* commit: its address is not below the length of the memory */
    ARB_ODD_HALF = 14        /* machine, commit: a half word at an odd byte number */
} arb_refusal;

/* The name of a reference, a sequence tag: its stage and the number under which it was issued, counted from 0 modulo 2^32. A
 * ticket of a reference that is gone is refused with 7 until 2^32 more have been issued. */
typedef struct {
    size_t stage;
    uint32_t number;
} arb_ticket;

/* To be read, as by a debugger, and changed by calls alone. Row i of bank b is at b * 8 + i; bit s of a mark word is stage s. A
 * row without marks is free, and what stands in it counts for nothing, as does what stands at a stage that is not live. */
typedef struct {
    size_t banks, rows, stages, words; /* the sizes as opened */
    size_t oldest, live;               /* the oldest's stage; how many are live, in consecutive stages around the circle */
    uint32_t next, executed;           /* the next issue number; bit s: the reference in stage s has executed */
    uint32_t numbers[ARB_STAGES];      /* by stage: the issue number */
    uint32_t addresses[ARB_SLOTS], loads[ARB_SLOTS], stores[ARB_SLOTS]; /* by row: its address, load and store marks */
    uint32_t values[ARB_STAGES], taken[ARB_STAGES]; /* by stage: the word that a store stores, and that a load took */
} arb_table;

/* What an execution answers. Of a load the word taken, and how many references older the store is that it came from, 0 for
 * memory's word; of the others 0 and 0. Where it squashed, `from` is the oldest reference squashed: it and everything younger is
 * gone and must be issued again. */
typedef struct {
    uint32_t value, distance;
    bool squashed;
    arb_ticket from;
} arb_outcome;

/* What crosses to the proved code: values in and out. Call the functions below these. */
typedef struct {
    arb_table table;
    uint32_t refusal;
} arb_v_done;
typedef struct {
    arb_table table;
    arb_ticket ticket;
    uint32_t refusal;
} arb_v_named;
typedef struct {
    arb_table table;
    arb_ticket from;
    uint32_t refusal, value, distance, squashed;
} arb_v_executed;

ARB_ASSERT(sizeof(arb_ticket) == 16 && sizeof(arb_table) == 1016, "the layout of tables and tickets is the ABI's");
ARB_ASSERT(sizeof(arb_v_done) == 1024 && sizeof(arb_v_named) == 1040 && sizeof(arb_v_executed) == 1048, "the ABI's layout");

arb_v_done arb_v_open(size_t banks, size_t rows, size_t stages, size_t words, const uint32_t *memory, size_t length);
arb_v_named arb_v_issue(arb_table t);
arb_v_executed arb_v_load(arb_table t, arb_ticket at, uint32_t address, const uint32_t *memory, size_t length);
arb_v_executed arb_v_store(arb_table t, arb_ticket at, uint32_t address, uint32_t value, const uint32_t *memory,
                           size_t length);
arb_v_executed arb_v_byte(arb_table t, arb_ticket at, uint32_t byte, uint32_t value, const uint32_t *memory, size_t length);
arb_v_executed arb_v_half(arb_table t, arb_ticket at, uint32_t byte, uint32_t value, const uint32_t *memory, size_t length);
arb_v_executed arb_v_other(arb_table t, arb_ticket at, const uint32_t *memory, size_t length);
arb_v_done arb_v_squash(arb_table t, arb_ticket at);
arb_v_named arb_v_commit(arb_table t, uint32_t *memory, size_t length);

/* Empties the table: `banks` 1, 2, 4 or 8, `rows` a bank 1 to 8, `stages` 1 to 16, over a memory of 1 to 4,096 words. Refused
 * with 1. */
ARB_CALL arb_refusal arb_open(arb_table *t, size_t banks, size_t rows, size_t stages, const uint32_t *memory,
                              size_t words)
{
    arb_v_done r = arb_v_open(banks, rows, stages, words, memory, words);
    *t = r.table;
    return (arb_refusal)r.refusal;
}

/* The new youngest reference. Refused with 2, 5. */
ARB_CALL arb_refusal arb_issue(arb_table *t, arb_ticket *ticket)
{
    arb_v_named r = arb_v_issue(*t);
    if (!r.refusal) { /* a refused call hands back the table as passed: nothing to copy, here and below */
        *t = r.table;
        *ticket = r.ticket;
    }
    return (arb_refusal)r.refusal;
}

ARB_CALL arb_refusal arb_after(const arb_v_executed *r, arb_table *t, arb_outcome *out)
{
    if (!r->refusal) {
        *t = r->table;
        out->value = r->value;
        out->distance = r->distance;
        out->squashed = r->squashed != 0;
        out->from = r->from;
    }
    return (arb_refusal)r->refusal;
}

/* The reference loads the word at this word number. Refused with 2, 3, 7, 8, 10, as are the four below. */
ARB_CALL arb_refusal arb_load(arb_table *t, arb_ticket at, uint32_t address, const uint32_t *memory, size_t words,
                              arb_outcome *out)
{
    arb_v_executed r = arb_v_load(*t, at, address, memory, words);
    return arb_after(&r, t, out);
}

/* It stores the word, which memory gets at its commit. */
ARB_CALL arb_refusal arb_store(arb_table *t, arb_ticket at, uint32_t address, uint32_t value, const uint32_t *memory,
                               size_t words, arb_outcome *out)
{
    arb_v_executed r = arb_v_store(*t, at, address, value, memory, words);
    return arb_after(&r, t, out);
}

/* It stores the low byte, or the low 16 bits, of `value` at this byte number: it loads the word there, puts its part in and
 * stores the word. Lower byte numbers are lower bits; a half word at an odd number goes to the byte below. */
ARB_CALL arb_refusal arb_store_byte(arb_table *t, arb_ticket at, uint32_t byte, uint32_t value, const uint32_t *memory,
                                    size_t words, arb_outcome *out)
{
    arb_v_executed r = arb_v_byte(*t, at, byte, value, memory, words);
    return arb_after(&r, t, out);
}

ARB_CALL arb_refusal arb_store_half(arb_table *t, arb_ticket at, uint32_t byte, uint32_t value, const uint32_t *memory,
                                    size_t words, arb_outcome *out)
{
    arb_v_executed r = arb_v_half(*t, at, byte, value, memory, words);
    return arb_after(&r, t, out);
}

/* It has executed and touches no memory. */
ARB_CALL arb_refusal arb_other(arb_table *t, arb_ticket at, const uint32_t *memory, size_t words, arb_outcome *out)
{
    arb_v_executed r = arb_v_other(*t, at, memory, words);
    return arb_after(&r, t, out);
}

/* Drops the reference and everything younger. Refused with 2, 7. */
ARB_CALL arb_refusal arb_squash(arb_table *t, arb_ticket at)
{
    arb_v_done r = arb_v_squash(*t, at);
    if (!r.refusal)
        *t = r.table;
    return (arb_refusal)r.refusal;
}

/* The oldest leaves the window; a store writes its word. `ticket` gets which it was. Refused with 2, 3, 11, 12, 13. */
ARB_CALL arb_refusal arb_commit(arb_table *t, uint32_t *memory, size_t words, arb_ticket *ticket)
{
    arb_v_named r = arb_v_commit(*t, memory, words);
    if (!r.refusal) {
        *t = r.table;
        *ticket = r.ticket;
    }
    return (arb_refusal)r.refusal;
}

/* Whether a live reference holds the stage now, and then its ticket: the number to print beside a squash or a refusal 7. */
static inline bool arb_holder(const arb_table *t, size_t stage, arb_ticket *holder)
{
    if (t->stages > ARB_STAGES || stage >= t->stages)
        return false;
    size_t position = stage >= t->oldest ? stage - t->oldest : stage + t->stages - t->oldest;
    if (position >= t->live)
        return false;
    holder->stage = stage;
    holder->number = t->numbers[stage];
    return true;
}

static inline const char *arb_reason(arb_refusal why)
{
    static const char *const reasons[] = {
        "done",
        "a size is outside its limits",
        "the state breaks its own rules",
        "the memory has not the opened length",
        "the program is bad or not the live entries'",
        "the window is full",
        "no instruction is left",
        "no live reference has this name",
        "it has executed before",
        "an operand's writer has not executed",
        "no row: each one of its bank has an older mark",
        "nothing is live",
        "the oldest has not executed",
        "its address is outside the memory",
        "a half word at an odd byte",
    };
    return (unsigned)why < sizeof reasons / sizeof *reasons ? reasons[why] : "no refusal has this number";
}

#ifdef __cplusplus
}
#endif

#endif
