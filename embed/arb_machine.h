/* arb_machine.h: the proved window machine for C11 and C++. x86-64 Linux, System V calling convention; link libarb.
 *
 * A machine is a plain value, as a table is, and what arb.h says of refusals, of what callers owe and of threads holds here too.
 * The program is lent to each call, four numbers an instruction (code, d, s, imm), and so is memory where a call takes it.
 * References are named by their positions, 0 the oldest.
 *
 * An entry has its instruction's numbers, so that a call lent another program than that of the live entries is refused with 4.
 * A machine of any bytes may be passed: an `executed` above 1 counts as executed, a code that is none of 1 to 6 as an instruction
 * of no program. */
#ifndef ARB_MACHINE_H
#define ARB_MACHINE_H

#include "arb.h"

#ifdef __cplusplus
extern "C" {
#endif

/* Registers; the most numbers of a program; the numbers that a finish writes for a commit. */
enum { ARB_REGISTERS = 8, ARB_PROGRAM = 1024, ARB_PER_COMMIT = 5 };

/* Sums are modulo 2^32. The addresses of L and S are word numbers, those of B and H byte numbers. */
typedef enum {
    ARB_ADD = 1,   /* A: register d becomes register s plus imm */
    ARB_SUM = 2,   /* P: register d becomes register s plus register imm */
    ARB_LOAD = 3,  /* L: register d becomes the word at register s plus imm */
    ARB_STORE = 4, /* S: the word at register s plus imm becomes register d */
    ARB_BYTE = 5,  /* B: the byte at register s plus imm becomes the low byte of register d */
    ARB_HALF = 6   /* H: the two bytes from register s plus imm on become the low 16 bits of register d */
} arb_code;

/* An instruction of the window, its index in the program, and once it has executed its value, address and distance. */
typedef struct {
    uint8_t code, d, s, executed;
    uint32_t imm, index, value, address, distance;
} arb_entry;

/* To be read, and changed by calls alone. Entries stand at their stages: position p is at (oldest + p) % stages. */
typedef struct {
    arb_table table;
    arb_entry window[ARB_STAGES];
    uint32_t registers[ARB_REGISTERS]; /* as committed */
    uint32_t count, next;              /* the number of instructions, the index of the next to issue */
} arb_machine;

/* What an execute answers: as arb_outcome, with the position from which references were squashed. */
typedef struct {
    uint32_t value, distance;
    bool squashed;
    size_t from;
} arb_machine_outcome;

/* What a commit answers: the instruction's index and code, the register that it wrote (of S the word number, of B and H the byte
 * number), the word that stands there now (of B and H the whole word), and of L how far its word came, else 0. */
typedef struct {
    uint32_t index, code, target, value, distance;
} arb_committed;

/* What crosses to the proved code: values in and out, 0 for a number that the call does not have. Call the functions below. */
typedef struct {
    size_t position, commits;
    uint32_t refusal, squashed, index, code, target, value, distance;
} arb_m_numbers;
typedef struct {
    arb_machine machine;
    arb_m_numbers numbers;
} arb_m_answer;

ARB_ASSERT(sizeof(arb_entry) == 24 && sizeof(arb_machine) == 1440 && sizeof(arb_m_answer) == 1488, "the ABI's layout");

arb_m_answer arb_m_open(size_t banks, size_t rows, size_t stages, size_t words, const uint32_t *program, size_t numbers,
                        const uint32_t *memory, size_t length);
arb_m_answer arb_m_issue(arb_machine m, const uint32_t *program, size_t numbers);
arb_m_answer arb_m_execute(arb_machine m, const uint32_t *program, size_t numbers, size_t position, const uint32_t *memory,
                           size_t length);
arb_m_answer arb_m_squash(arb_machine m, const uint32_t *program, size_t numbers, size_t position);
arb_m_answer arb_m_commit(arb_machine m, const uint32_t *program, size_t numbers, uint32_t *memory, size_t length);
arb_m_answer arb_m_finish(arb_machine m, const uint32_t *program, size_t numbers, uint32_t limit, uint32_t *memory,
                          size_t length, uint32_t *list, size_t places);

/* An empty window over a table of these sizes, registers 0. Refused with 1, 4. */
ARB_CALL arb_refusal arb_machine_open(arb_machine *m, size_t banks, size_t rows, size_t stages,
                                      const uint32_t *program, size_t numbers, const uint32_t *memory, size_t words)
{
    arb_m_answer r = arb_m_open(banks, rows, stages, words, program, numbers, memory, words);
    *m = r.machine;
    return (arb_refusal)r.numbers.refusal;
}

/* The next instruction comes into the window, at this position. Refused with 2, 4, 5, 6. */
ARB_CALL arb_refusal arb_machine_issue(arb_machine *m, const uint32_t *program, size_t numbers, size_t *position)
{
    arb_m_answer r = arb_m_issue(*m, program, numbers);
    if (!r.numbers.refusal) { /* a refused call hands back the machine as passed: nothing to copy, here and below */
        *m = r.machine;
        *position = r.numbers.position;
    }
    return (arb_refusal)r.numbers.refusal;
}

/* The instruction at the position executes. Refused with 2, 3, 4, 7, 8, 9, 10. */
ARB_CALL arb_refusal arb_machine_execute(arb_machine *m, const uint32_t *program, size_t numbers, size_t position,
                                         const uint32_t *memory, size_t words, arb_machine_outcome *out)
{
    arb_m_answer r = arb_m_execute(*m, program, numbers, position, memory, words);
    if (!r.numbers.refusal) {
        *m = r.machine;
        out->value = r.numbers.value;
        out->distance = r.numbers.distance;
        out->squashed = r.numbers.squashed != 0;
        out->from = r.numbers.position;
    }
    return (arb_refusal)r.numbers.refusal;
}

/* The instruction at the position and everything younger is dropped; the next issue is that one again. Refused with 2, 4, 7. */
ARB_CALL arb_refusal arb_machine_squash(arb_machine *m, const uint32_t *program, size_t numbers, size_t position)
{
    arb_m_answer r = arb_m_squash(*m, program, numbers, position);
    if (!r.numbers.refusal)
        *m = r.machine;
    return (arb_refusal)r.numbers.refusal;
}

/* The oldest instruction writes its register or word and leaves the window. Refused with 2, 3, 4, 11, 12, 13, 14. */
ARB_CALL arb_refusal arb_machine_commit(arb_machine *m, const uint32_t *program, size_t numbers, uint32_t *memory,
                                        size_t words, arb_committed *out)
{
    arb_m_answer r = arb_m_commit(*m, program, numbers, memory, words);
    if (!r.numbers.refusal) {
        *m = r.machine;
        out->index = r.numbers.index;
        out->code = r.numbers.code;
        out->target = r.numbers.target;
        out->value = r.numbers.value;
        out->distance = r.numbers.distance;
    }
    return (arb_refusal)r.numbers.refusal;
}

/* Takes the oldest to its commit again and again, issuing where the window is empty, until `limit` commits, fewer than five
 * places left in the list, the program's end or a fault (an address outside the memory, an odd half word), and counts the
 * commits. Their five numbers each, as in arb_committed, stand from the list's start on. Refused with 2, 3, 4. */
ARB_CALL arb_refusal arb_machine_finish(arb_machine *m, const uint32_t *program, size_t numbers, uint32_t limit,
                                        uint32_t *memory, size_t words, uint32_t *list, size_t places, size_t *commits)
{
    arb_m_answer r = arb_m_finish(*m, program, numbers, limit, memory, words, list, places);
    if (!r.numbers.refusal) {
        *m = r.machine;
        *commits = r.numbers.commits;
    }
    return (arb_refusal)r.numbers.refusal;
}

#ifdef __cplusplus
}
#endif

#endif
