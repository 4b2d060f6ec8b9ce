// The mixes over the calls of embed/arb.h and arb_machine.h.
#include "mixes.h"

#include <arb_machine.h>

typedef arb_table mix_table;
typedef arb_ticket mix_ticket;
typedef arb_outcome mix_outcome;
typedef arb_machine mix_machine;
typedef arb_entry mix_entry;
typedef arb_machine_outcome mix_result;

// An opening of the header has one length; a mix may lend a memory of another one than its words.
static unsigned buffer_open(arb_table *t, struct sizes z, struct memory memory)
{
    arb_v_done r = arb_v_open(z.banks, z.rows, z.stages, z.words, memory.words, memory.length);
    *t = r.table;
    return r.refusal;
}

static unsigned buffer_issue(arb_table *t, arb_ticket *ticket)
{
    return arb_issue(t, ticket);
}

static unsigned buffer_load(arb_table *t, arb_ticket at, uint32_t address, struct memory memory, arb_outcome *out)
{
    return arb_load(t, at, address, memory.words, memory.length, out);
}

static unsigned buffer_store(arb_table *t, arb_ticket at, uint32_t address, uint32_t value, struct memory memory,
                             arb_outcome *out)
{
    return arb_store(t, at, address, value, memory.words, memory.length, out);
}

static unsigned buffer_part(arb_table *t, arb_ticket at, enum part part, uint32_t byte, uint32_t from,
                            struct memory memory, arb_outcome *out)
{
    return part == BYTE ? arb_store_byte(t, at, byte, from, memory.words, memory.length, out)
                        : arb_store_half(t, at, byte, from, memory.words, memory.length, out);
}

static unsigned buffer_other(arb_table *t, arb_ticket at, struct memory memory, arb_outcome *out)
{
    return arb_other(t, at, memory.words, memory.length, out);
}

static unsigned buffer_execute(arb_table *t, arb_ticket at, struct action action, struct memory memory,
                               arb_outcome *out)
{
    switch (action.what) {
    case LOAD: return buffer_load(t, at, action.address, memory, out);
    case STORE: return buffer_store(t, at, action.address, action.value, memory, out);
    case PART: return buffer_part(t, at, action.part, action.address, action.value, memory, out);
    default: return buffer_other(t, at, memory, out);
    }
}

static unsigned buffer_squash(arb_table *t, arb_ticket at)
{
    return arb_squash(t, at);
}

static unsigned buffer_commit(arb_table *t, struct memory memory, arb_ticket *ticket)
{
    return arb_commit(t, memory.words, memory.length, ticket);
}

static unsigned machine_open(arb_machine *m, struct sizes z, struct lent program, struct memory memory)
{
    arb_m_answer r = arb_m_open(z.banks, z.rows, z.stages, z.words, program.words, program.length, memory.words,
                                memory.length);
    *m = r.machine;
    return r.numbers.refusal;
}

static unsigned machine_issue(arb_machine *m, struct lent program, size_t *position)
{
    return arb_machine_issue(m, program.words, program.length, position);
}

static unsigned machine_execute(arb_machine *m, struct lent program, size_t position, struct memory memory,
                                arb_machine_outcome *out)
{
    return arb_machine_execute(m, program.words, program.length, position, memory.words, memory.length, out);
}

static unsigned machine_squash(arb_machine *m, struct lent program, size_t position)
{
    return arb_machine_squash(m, program.words, program.length, position);
}

static unsigned machine_commit(arb_machine *m, struct lent program, struct memory memory, uint32_t record[PER_COMMIT])
{
    arb_committed did;
    unsigned why = arb_machine_commit(m, program.words, program.length, memory.words, memory.length, &did);
    if (!why) {
        record[0] = did.index;
        record[1] = did.code;
        record[2] = did.target;
        record[3] = did.value;
        record[4] = did.distance;
    }
    return why;
}

static unsigned machine_finish(arb_machine *m, struct lent program, uint32_t limit, struct memory memory,
                               struct memory list, size_t *commits)
{
    return arb_machine_finish(m, program.words, program.length, limit, memory.words, memory.length, list.words,
                              list.length, commits);
}

#define MIX_OF_BUFFER header_buffer
#define MIX_OF_MACHINE header_machine
#include "mixes_text.h"
