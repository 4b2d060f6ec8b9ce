// The address resolution buffer and the window machine in C, in place.
#ifndef INPLACE_H
#define INPLACE_H

#include "mixes.h"

// Row i of bank b is at b * 8 + i. A marked row past `rows` breaks the rules; banks past `banks` are not in the
// table. The word that a store stores stands at its stage, and beside it the one that a load took.
struct table {
    size_t banks, rows, stages, words, oldest, live;
    uint32_t next, executed;
    uint32_t numbers[16], addresses[64], loads[64], stores[64], values[16], taken[16];
};

struct ticket {
    size_t stage;
    uint32_t number;
};

// The answer of an execution that was not refused. The distance of a load is how many positions older the store is
// whose word it took; 0: it took memory's, or is no load.
struct outcome {
    uint32_t value, distance;
    bool squashed;
    struct ticket from;
};

struct entry {
    uint32_t code, d, s, imm;
    uint32_t index;
    bool executed;
    uint32_t value, address, distance;
};

struct machine {
    struct table table;
    struct entry window[16];
    uint32_t registers[8];
    uint32_t count, next;
};

// The same of the machine: where references were squashed, the position from which on.
struct result {
    uint32_t value, distance;
    bool squashed;
    size_t from;
};

// Every call answers 0 where it was done, else the number of its refusal.
unsigned buffer_open(struct table *t, struct sizes sizes, struct memory memory);
unsigned buffer_issue(struct table *t, struct ticket *ticket);
unsigned buffer_load(struct table *t, struct ticket ticket, uint32_t address, struct memory memory,
                     struct outcome *out);
unsigned buffer_store(struct table *t, struct ticket ticket, uint32_t address, uint32_t value,
                      struct memory memory, struct outcome *out);
unsigned buffer_part(struct table *t, struct ticket ticket, enum part part, uint32_t byte, uint32_t from,
                     struct memory memory, struct outcome *out);
unsigned buffer_other(struct table *t, struct ticket ticket, struct memory memory, struct outcome *out);
unsigned buffer_execute(struct table *t, struct ticket ticket, struct action action, struct memory memory,
                        struct outcome *out);
unsigned buffer_squash(struct table *t, struct ticket ticket);
unsigned buffer_commit(struct table *t, struct memory memory, struct ticket *ticket);

unsigned machine_open(struct machine *m, struct sizes sizes, struct lent program, struct memory memory);
unsigned machine_issue(struct machine *m, struct lent program, size_t *position);
unsigned machine_execute(struct machine *m, struct lent program, size_t position, struct memory memory,
                         struct result *out);
unsigned machine_squash(struct machine *m, struct lent program, size_t position);
unsigned machine_commit(struct machine *m, struct lent program, struct memory memory, uint32_t record[PER_COMMIT]);
unsigned machine_finish(struct machine *m, struct lent program, uint32_t limit, struct memory memory,
                        struct memory list, size_t *commits);

#endif
