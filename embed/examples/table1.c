// Table 1 of Franklin and Sohi's paper: two loads go ahead of an older store, which squashes them when it executes. Issued again
// they take the words stored; the late execution of a load that is dead meets the number of who holds its stage now.
#include <arb.h>

#include <stdio.h>
#include <stdlib.h>

enum { WORDS = 200 };

static uint32_t memory[WORDS];
static arb_table table;

// Issue and commit are not refused here.
static arb_ticket issue(void)
{
    arb_ticket ticket;
    if (arb_issue(&table, &ticket))
        abort();
    return ticket;
}

static void commit(void)
{
    arb_ticket ticket;
    if (arb_commit(&table, memory, WORDS, &ticket))
        abort();
}

static void tell(arb_refusal why, const arb_outcome *out)
{
    if (why) {
        printf("refused with %d, %s\n", why, arb_reason(why));
        return;
    }
    printf("value %u, distance %u", out->value, out->distance);
    if (out->squashed)
        printf(", squashed from stage %zu, issue number %u on", out->from.stage, out->from.number);
    printf("\n");
}

static uint32_t load(arb_ticket at, uint32_t address)
{
    arb_outcome out = {0};
    printf("load %u: ", address);
    arb_refusal why = arb_load(&table, at, address, memory, WORDS, &out);
    tell(why, &out);
    arb_ticket holder;
    if (why == ARB_NOT_LIVE && arb_holder(&table, at.stage, &holder))
        printf("issue number %u is gone: stage %zu is held by %u\n", at.number, at.stage, holder.number);
    return out.value;
}

static void store(arb_ticket at, uint32_t address, uint32_t value)
{
    arb_outcome out;
    printf("store %u at %u: ", value, address);
    arb_refusal why = arb_store(&table, at, address, value, memory, WORDS, &out);
    tell(why, &out);
}

int main(void)
{
    memory[100] = 140;
    if (arb_open(&table, 1, 4, 4, memory, WORDS))
        abort();
    arb_ticket first = issue(), second = issue(), third = issue(), fourth = issue();
    uint32_t address = load(third, 100);
    store(second, 120, 50);
    load(fourth, address);
    store(first, 100, 120);
    commit();
    commit();
    arb_ticket again = issue(), next = issue();
    load(third, 100);
    address = load(again, 100);
    load(next, address);
}
