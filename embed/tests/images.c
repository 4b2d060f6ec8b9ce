// Machines of any bytes: drawn calls, one in six on a machine, program or length with something changed, beside the machine in C
// in place. Refusals, answers, memory and list must agree, and a refused call must leave every byte. The argument is how many
// programs are drawn.
#include "inplace.h"

#include <arb_machine.h>

#include <stdio.h>
#include <stdlib.h>
#include <string.h>

enum { WORDS = 20, INSTRUCTIONS = 12, NUMBERS = 4 * INSTRUCTIONS, PLACES = 64, CALLS = 60 };

// What a call is lent, and what it answers: the numbers that it has, 0 for the others.
struct call {
    unsigned kind, limit;
    size_t position, numbers, length;
    uint32_t program[NUMBERS];
};
struct answer {
    uint64_t why, told[5];
};
struct lists {
    uint32_t memory[WORDS], list[PLACES];
};

static uint32_t draw(uint32_t below)
{
    static uint64_t state = 88172645463325252u;
    state ^= state << 13;
    state ^= state >> 7;
    state ^= state << 17;
    return (uint32_t)(state >> 11) % below;
}

// The machine that the bytes mean.
static void read_image(const arb_machine *m, struct machine *c)
{
    memcpy(&c->table, &m->table, sizeof c->table);
    for (size_t s = 0; s < ARB_STAGES; s++) {
        const arb_entry *e = &m->window[s];
        bool known = e->code >= ARB_ADD && e->code <= ARB_HALF;
        c->window[s] = (struct entry){known ? e->code : ARB_ADD, known ? e->d : 255, known ? e->s : 255, known ? e->imm : 0,
                                      e->index, e->executed != 0, e->value, e->address, e->distance};
    }
    memcpy(c->registers, m->registers, sizeof c->registers);
    c->count = m->count;
    c->next = m->next;
}

static void write_program(uint32_t *program)
{
    for (uint32_t *i = program; i < program + NUMBERS; i += 4) {
        i[0] = 1 + draw(6);
        i[1] = draw(8);
        i[2] = draw(3) ? 0 : draw(8);
        i[3] = i[0] == ARB_SUM ? draw(8) : draw(i[0] >= ARB_BYTE ? 4 * WORDS + 4 : WORDS + 1);
    }
}

static void damage(arb_machine *m)
{
    arb_entry *e = &m->window[draw(ARB_STAGES)];
    switch (draw(9)) {
    case 0: ((unsigned char *)m)[draw(sizeof *m)] = (unsigned char)draw(256); break;
    case 1: e->executed = (uint8_t)draw(256); break;
    case 2: e->code = (uint8_t)draw(10); break;
    case 3: e->index = draw(2) ? draw(20) : draw(UINT32_MAX); break;
    case 4: e->d ^= (uint8_t)draw(256); break;
    case 5: e->imm ^= draw(3); break;
    case 6: e->address ^= draw(8); break;
    case 7: m->count += draw(3) - 1; break;
    default:
        for (size_t s = 0; s < ARB_STAGES; s++)
            if (m->window[s].executed)
                m->window[s].executed = (uint8_t)(1 + draw(255));
    }
}

static struct answer in_header(arb_machine *m, const struct call *c, struct lists *l)
{
    struct answer a = {0, {0}};
    arb_machine_outcome out;
    arb_committed did;
    size_t n = 0;
    if (c->kind < 5) {
        a.why = arb_machine_issue(m, c->program, c->numbers, &n);
        a.told[0] = n;
    } else if (c->kind < 9) {
        a.why = arb_machine_execute(m, c->program, c->numbers, c->position, l->memory, c->length, &out);
        if (!a.why)
            a = (struct answer){0, {out.value, out.distance, out.squashed, out.squashed ? out.from : 0}};
    } else if (c->kind < 10) {
        a.why = arb_machine_squash(m, c->program, c->numbers, c->position);
    } else if (c->kind < 13) {
        a.why = arb_machine_commit(m, c->program, c->numbers, l->memory, c->length, &did);
        if (!a.why)
            a = (struct answer){0, {did.index, did.code, did.target, did.value, did.distance}};
    } else {
        a.why = arb_machine_finish(m, c->program, c->numbers, c->limit, l->memory, c->length, l->list, PLACES, &n);
        a.told[0] = n;
    }
    return a;
}

static struct answer in_place(struct machine *m, const struct call *c, struct lists *l)
{
    struct lent program = {c->program, c->numbers};
    struct memory memory = {l->memory, c->length}, list = {l->list, PLACES};
    struct answer a = {0, {0}};
    struct result out;
    uint32_t did[PER_COMMIT];
    size_t n = 0;
    if (c->kind < 5) {
        a.why = machine_issue(m, program, &n);
        a.told[0] = n;
    } else if (c->kind < 9) {
        a.why = machine_execute(m, program, c->position, memory, &out);
        if (!a.why)
            a = (struct answer){0, {out.value, out.distance, out.squashed, out.squashed ? out.from : 0}};
    } else if (c->kind < 10) {
        a.why = machine_squash(m, program, c->position);
    } else if (c->kind < 13) {
        a.why = machine_commit(m, program, memory, did);
        if (!a.why)
            a = (struct answer){0, {did[0], did[1], did[2], did[3], did[4]}};
    } else {
        a.why = machine_finish(m, program, c->limit, memory, list, &n);
        a.told[0] = n;
    }
    return a;
}

static struct call call_drawn(const uint32_t *program, size_t stages)
{
    struct call c = {draw(14), draw(4), draw((uint32_t)stages + 1), NUMBERS, WORDS, {0}};
    memcpy(c.program, program, sizeof c.program);
    return c;
}

// One call on both; whether they agree.
static bool agree(arb_machine *m, const struct call *c, struct lists *l, uint64_t *why)
{
    arb_machine passed = *m;
    struct machine plain;
    struct lists before = *l, other = *l;
    read_image(m, &plain);
    struct answer expected = in_place(&plain, c, &other), a = in_header(m, c, l);
    *why = a.why;
    if (memcmp(&a, &expected, sizeof a) || memcmp(l, &other, sizeof other))
        return false;
    return !a.why || (!memcmp(m, &passed, sizeof passed) && !memcmp(l, &before, sizeof before));
}

// A machine opened and called; a change that was refused is taken back.
static bool run(unsigned long seen[16])
{
    uint32_t program[NUMBERS];
    struct lists l;
    arb_machine m;
    size_t stages = 1 + draw(8);
    write_program(program);
    memset(&l, 0, sizeof l);
    if (arb_machine_open(&m, (size_t)1 << draw(3), 1 + draw(3), stages, program, NUMBERS, l.memory, WORDS))
        return false;
    for (int call = 0; call < CALLS; call++) {
        struct call c = call_drawn(program, stages);
        arb_machine whole = m;
        uint32_t what = draw(6) ? 8 : draw(8);
        uint64_t why;
        if (what == 0)
            c.program[draw(NUMBERS)] ^= 1 + draw(7);
        else if (what == 1)
            c.numbers = draw(NUMBERS + 1);
        else if (what == 2)
            c.length = draw(WORDS + 1);
        else if (what < 8)
            damage(&m);
        if (!agree(&m, &c, &l, &why)) {
            printf("call %d of kind %u, refusal %u\n", call, c.kind, (unsigned)why);
            return false;
        }
        seen[why]++;
        if (why)
            m = whole;
        else if (what < 8 && draw(2))
            return true;
    }
    return true;
}

int main(int count, char **arguments)
{
    unsigned long seen[16] = {0};
    unsigned programs = count > 1 ? (unsigned)atoi(arguments[1]) : 10000;
    for (unsigned i = 0; i < programs; i++)
        if (!run(seen)) {
            printf("program %u\n", i);
            return 1;
        }
    for (int why = 0; why <= ARB_ODD_HALF; why++)
        if (!seen[why] && why != ARB_BAD_SIZES) {
            printf("refusal %d was never drawn\n", why);
            return 1;
        }
    return 0;
}
