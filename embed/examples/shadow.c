// Memories above 4,096 words. The buffer serves a shadow of 4,096 words, and word a of the large memory stands at a % 4096 there,
// in the same bank. A shadow word is filled when the first live reference to its address executes, and written back when a store
// commits. While live references hold it for one address, a reference to another address with the same shadow word waits if an
// older one holds it, as for a row, and else squashes from the first holder on, as an eviction does.
//
// 20,000 drawn references over 2^20 words in a window of 16, executed in drawn order, are held to an in-order run.
#include <arb.h>

#include <stdio.h>
#include <stdlib.h>
#include <string.h>

enum { BIG = 1 << 20, WINDOW = 16, REFERENCES = 20000 };

struct reference {
    bool store;
    uint32_t address, value;
};

static struct reference program[REFERENCES];
static uint32_t big[BIG], shadow[ARB_WORDS];
static uint32_t in_order[BIG], expected[REFERENCES]; // the in-order run: its memory, and each word loaded or stored

// A shadow word: how many executed live references hold it, all of them for this address.
static struct {
    uint32_t address;
    size_t holders;
} slots[ARB_WORDS];

// The window by stage, as the tickets have them.
static struct {
    arb_ticket ticket;
    size_t index;
    bool executed;
    uint32_t word;
} window[WINDOW];

static arb_table table;
static size_t oldest, live, next, committed;
static unsigned long squashes, waits;

static uint32_t draw(uint32_t below)
{
    static uint64_t state = 1;
    state = state * 6364136223846793005u + 1442695040888963407u;
    return (uint32_t)(state >> 33) % below;
}

static size_t stage_at(size_t position)
{
    return (oldest + position) % WINDOW;
}

static size_t position_of(size_t stage)
{
    return (stage + WINDOW - oldest) % WINDOW;
}

static const struct reference *reference_in(size_t stage)
{
    return &program[window[stage].index];
}

static size_t slot_of(size_t stage)
{
    return reference_in(stage)->address % ARB_WORDS;
}

// The buffer has squashed from this position on: issue goes on there, and shadow words are let go.
static void squashed(size_t position)
{
    next = window[stage_at(position)].index;
    for (size_t p = position; p < live; p++)
        if (window[stage_at(p)].executed)
            slots[slot_of(stage_at(p))].holders--;
    live = position;
    squashes++;
}

// Whether the reference at this position may have its shadow word, which is then filled.
static bool take_slot(size_t position)
{
    size_t stage = stage_at(position), slot = slot_of(stage);
    uint32_t address = reference_in(stage)->address;
    if (slots[slot].holders && slots[slot].address != address) {
        size_t first = 0;
        while (!window[stage_at(first)].executed || slot_of(stage_at(first)) != slot)
            first++;
        if (first < position) {
            waits++;
            return false;
        }
        if (arb_squash(&table, window[stage_at(first)].ticket))
            abort();
        squashed(first);
    }
    if (!slots[slot].holders) {
        slots[slot].address = address;
        shadow[slot] = big[address];
    }
    return true;
}

static void issue(void)
{
    arb_ticket ticket;
    if (next == REFERENCES || arb_issue(&table, &ticket))
        return;
    window[ticket.stage].ticket = ticket;
    window[ticket.stage].index = next++;
    window[ticket.stage].executed = false;
    live++;
}

static void execute(size_t position)
{
    size_t stage = stage_at(position);
    const struct reference *r = reference_in(stage);
    if (window[stage].executed || !take_slot(position))
        return;
    uint32_t slot = (uint32_t)slot_of(stage);
    arb_ticket ticket = window[stage].ticket;
    arb_outcome out;
    arb_refusal why = r->store ? arb_store(&table, ticket, slot, r->value, shadow, ARB_WORDS, &out)
                               : arb_load(&table, ticket, slot, shadow, ARB_WORDS, &out);
    if (why == ARB_NO_ROW) // it will be drawn again
        return;
    if (why)
        abort();
    if (out.squashed)
        squashed(position_of(out.from.stage));
    slots[slot].holders++;
    window[stage].executed = true;
    window[stage].word = r->store ? r->value : out.value;
}

static void commit(void)
{
    arb_ticket ticket;
    if (arb_commit(&table, shadow, ARB_WORDS, &ticket))
        return;
    const struct reference *r = reference_in(ticket.stage);
    size_t slot = slot_of(ticket.stage), index = window[ticket.stage].index;
    if (r->store)
        big[r->address] = shadow[slot];
    slots[slot].holders--;
    oldest = stage_at(1);
    live--;
    if (index != committed || window[ticket.stage].word != expected[index]) {
        printf("reference %zu: %u, in order %u\n", index, window[ticket.stage].word, expected[index]);
        exit(1);
    }
    committed++;
}

// Two in three references are to 18 words that share three shadow words.
static void write_program(void)
{
    for (size_t i = 0; i < REFERENCES; i++) {
        struct reference *r = &program[i];
        r->store = draw(2);
        r->address = draw(3) ? draw(6) * ARB_WORDS + draw(3) : draw(BIG);
        r->value = draw(4);
        if (r->store)
            in_order[r->address] = r->value;
        expected[i] = in_order[r->address];
    }
}

int main(void)
{
    write_program();
    if (arb_open(&table, 2, 2, WINDOW, shadow, ARB_WORDS))
        abort();
    while (committed < REFERENCES) {
        uint32_t turn = draw(8);
        if (turn < 3)
            issue();
        else if (turn < 7 && live)
            execute(draw((uint32_t)live));
        else
            commit();
    }
    printf("%zu references over %d words, %lu squashes, %lu waits for a shadow word\n", committed, BIG, squashes, waits);
    printf("loads as in order, memory %s\n", memcmp(big, in_order, sizeof big) ? "differs" : "as in order");
}
