// The benchmark's mixes of calls in C, and what they are given.
#ifndef MIXES_H
#define MIXES_H

#include <stdbool.h>
#include <stddef.h>
#include <stdint.h>

struct sizes {
    size_t banks, rows, stages, words;
};

// What a part store replaces: the byte at its byte number, or the half word that holds it.
enum part { BYTE, HALF };

// What is executed, as one argument: the address of a part is its byte number. The value counts for stores alone; an
// execution that touches no memory answers 0 whatever it is.
struct action {
    enum { LOAD, STORE, PART, OTHER } what;
    enum part part;
    uint32_t address, value;
};

struct lent {
    const uint32_t *words;
    size_t length;
};

struct memory {
    uint32_t *words;
    size_t length;
};

// What a commit answers, and the places that it takes in a finish's list: index, code, register (of S, B and H the
// address), value and distance (of L, else 0).
enum { PER_COMMIT = 5 };

// In the turn of a mix after which `when` are left, one part of the state is changed: so refusals are
// compared too.
struct spoiling {
    uint32_t when;
    size_t part, by;
};

// The mixes of crates/mixes_buffer and mixes_machine, with the same answers. Turns of the kinds 25 to 29 are the
// buffer's stores, those from `whole` on of a part; half of those of the kind 30 execute a drawn action. In falling
// order each window is issued whole, executed from its youngest reference down to its oldest, and committed. The
// machine is finished at the end. `whole` is 31 at most: with more Rattle's mix stores where C's squashes.
//
// C in place, and the calls of embed/arb.h and arb_machine.h.
uint64_t inplace_buffer(struct sizes sizes, uint32_t calls, uint64_t seed, struct spoiling spoiling,
                        size_t whole, bool falling, struct memory memory);
uint64_t inplace_machine(struct sizes sizes, uint32_t calls, uint64_t seed, struct spoiling spoiling,
                         uint32_t limit, struct lent program, struct memory memory, struct memory list);
uint64_t header_buffer(struct sizes sizes, uint32_t calls, uint64_t seed, struct spoiling spoiling,
                       size_t whole, bool falling, struct memory memory);
uint64_t header_machine(struct sizes sizes, uint32_t calls, uint64_t seed, struct spoiling spoiling,
                        uint32_t limit, struct lent program, struct memory memory, struct memory list);

#endif
