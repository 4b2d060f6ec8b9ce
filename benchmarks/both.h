// A mix of calls played in Rattle and in C, each on a memory and a list of its own, and compared.
#ifndef BOTH_H
#define BOTH_H

#include "mixes.h"

enum { MOST_WORDS = 4100, MOST_NUMBERS = 1040, MOST_PLACES = 260 * PER_COMMIT, NEVER = -1 };

enum mix { BUFFER, MACHINE, FINISH };

// A mix to run: `calls` turns, and of the machine then a finish; with part stores among the buffer's stores, or as
// the program has them; the buffer's turns as drawn or in falling order, in which executions evict where rows are
// few. A FINISH is a mix of the machine with few turns or none. Memory, program and list are lent with these
// lengths, whatever the sizes say. Rattle's calls are made within Rattle, or through the headers of embed/.
struct job {
    enum mix mix;
    bool parts, falling, header;
    struct sizes sizes;
    uint32_t calls, seed, limit;
    struct spoiling spoiling;
    size_t length, numbers, places;
};

extern uint32_t program[MOST_NUMBERS];

// At most sixteen letters.
const char *mix_name(enum mix mix, bool parts, bool falling);

// A program of A, P, L and S in equal parts: register 0 stays 0, register 1 is at most 10, the others take
// sums and words. Loads and stores are of sixteen words, half of them of three, or of those at register 1
// from these. With `parts` most stores are B and H, at the bytes of these words. One instruction in `wild` after
// the first has any registers; 0: none has, and no H is at an odd byte.
void write_program(size_t instructions, uint32_t seed, bool parts, uint32_t wild);

// Fills both memories and lists alike, also where a job before made them differ.
void fill_both(uint32_t seed);

// One run of each, with its time in nanoseconds; whether checksum, memory and list are the same.
bool play_both(const struct job *j, double *c, double *r);

double now(void);

#endif
