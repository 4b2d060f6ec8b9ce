// The address resolution buffer, the window machine and the benchmark's mixes in C, in place.
//
// Each call makes every check of its rows in 01's table once, in their order, and then changes the state
// where it stands. Positions are read off a mark word that is turned so that bit p is position p.
#include "inplace.h"

#include <string.h>

static const uint8_t homes[64] = {
    0, 1, 2, 3, 4, 5, 6, 7, 0, 1, 2, 3, 4, 5, 6, 7, 0, 1, 2, 3, 4, 5, 6, 7, 0, 1, 2, 3, 4, 5, 6, 7,
    0, 1, 2, 3, 4, 5, 6, 7, 0, 1, 2, 3, 4, 5, 6, 7, 0, 1, 2, 3, 4, 5, 6, 7, 0, 1, 2, 3, 4, 5, 6, 7,
};

// What the check of the rules learns on its way: the stages with a load or a store mark, and each marked
// stage's row.
struct marked {
    uint32_t loads, stores;
    uint8_t rows[16];
};

static size_t bank_of(size_t banks, uint32_t address)
{
    return homes[address % 64] & (banks - 1);
}

static bool sizes_fit(struct sizes z)
{
    return (z.banks == 1 || z.banks == 2 || z.banks == 4 || z.banks == 8) && z.rows - 1 < 8 &&
           z.stages - 1 < 16 && z.words - 1 < 4096;
}

static size_t stage_at(const struct table *t, size_t position)
{
    size_t sum = t->oldest + position;
    return sum < t->stages ? sum : sum - t->stages;
}

static size_t position_of(const struct table *t, size_t stage)
{
    return stage >= t->oldest ? stage - t->oldest : stage + t->stages - t->oldest;
}

// The stages at the first `count` positions.
static uint32_t first_stages(const struct table *t, size_t count)
{
    uint32_t set = ((UINT32_C(1) << count) - 1) << t->oldest;
    return (set | set >> t->stages) & ((UINT32_C(1) << t->stages) - 1);
}

// A mark word with bit p for position p.
static uint32_t turned(const struct table *t, uint32_t set)
{
    return (set >> t->oldest | set << (t->stages - t->oldest)) & ((UINT32_C(1) << t->stages) - 1);
}

static uint32_t marks_of(const struct table *t, size_t r)
{
    return t->loads[r] | t->stores[r];
}

// Whether the address of row r stands in no marked row before it in its bank.
static bool address_alone(const struct table *t, size_t first, size_t r)
{
    for (size_t k = first; k < r; k++)
        if (t->addresses[k] == t->addresses[r] && marks_of(t, k))
            return false;
    return true;
}

// Whether a bank of the table has marks past its R rows.
static bool marked_past(const struct table *t)
{
    uint32_t marks = 0;
    for (size_t b = 0; t->rows < 8 && b < t->banks; b++)
        for (size_t r = b * 8 + t->rows; r < b * 8 + 8; r++)
            marks |= marks_of(t, r);
    return marks;
}

// The table's own rules. Where `found` is given and they hold, it says where the marks are.
static inline bool keeps_rules(const struct table *t, struct marked *found)
{
    if (!sizes_fit((struct sizes){t->banks, t->rows, t->stages, t->words}) || t->live > t->stages ||
        t->oldest >= t->stages || marked_past(t))
        return false;
    uint32_t free = ~(t->executed & first_stages(t, t->live)), loads = 0, stores = 0;
    for (size_t b = 0; b < t->banks; b++) {
        for (size_t r = b * 8; r < b * 8 + t->rows; r++) {
            uint32_t marks = marks_of(t, r);
            if (!marks)
                continue;
            if ((marks & free) || bank_of(t->banks, t->addresses[r]) != b || !address_alone(t, b * 8, r))
                return false;
            free |= marks;
            loads |= t->loads[r];
            stores |= t->stores[r];
            if (found)
                for (uint32_t rest = marks; rest; rest &= rest - 1)
                    found->rows[__builtin_ctz(rest)] = r;
        }
    }
    if (found) {
        found->loads = loads;
        found->stores = stores;
    }
    return true;
}

// The steps of the calls, after their checks.

static void make_empty(struct table *t, struct sizes sizes)
{
    memset(t, 0, sizeof *t);
    t->banks = sizes.banks;
    t->rows = sizes.rows;
    t->stages = sizes.stages;
    t->words = sizes.words;
}

static size_t issue_step(struct table *t)
{
    size_t s = stage_at(t, t->live);
    t->numbers[s] = t->next++;
    t->executed &= first_stages(t, t->live);
    t->live++;
    return s;
}

// Keeps the first `left` live references, and the marks of these alone.
static void cut(struct table *t, size_t left)
{
    if (left >= t->live)
        return;
    uint32_t stay = first_stages(t, left);
    for (size_t b = 0; b < t->banks; b++)
        for (size_t r = b * 8; r < b * 8 + t->rows; r++) {
            t->loads[r] &= stay;
            t->stores[r] &= stay;
        }
    t->live = left;
}

// A place for an execution: the row, and how many references stay; none where there is no row.
struct place {
    size_t row, left;
};

// The last free row is taken, as in Rattle: so the spoiled mixes change the same rows in both.
static struct place take_row(const struct table *t, size_t bank, size_t position)
{
    size_t best = 0, mark = 0;
    for (size_t r = bank * 8 + t->rows; r-- > bank * 8;) {
        uint32_t marks = marks_of(t, r);
        if (!marks)
            return (struct place){r, t->live};
        size_t oldest = __builtin_ctz(turned(t, marks));
        if (oldest >= mark) {
            mark = oldest;
            best = r;
        }
    }
    return mark > position ? (struct place){best, mark} : (struct place){0, 0};
}

// The row of the address, 64 where it has none.
static size_t row_of(const struct table *t, size_t bank, uint32_t address)
{
    for (size_t r = bank * 8; r < bank * 8 + t->rows; r++)
        if (t->addresses[r] == address && marks_of(t, r))
            return r;
    return 64;
}

static inline struct place place_for(const struct table *t, uint32_t address, size_t position)
{
    size_t bank = bank_of(t->banks, address), r = row_of(t, bank, address);
    return r < 64 ? (struct place){r, t->live} : take_row(t, bank, position);
}

// A word and how many positions older the store is that it is of; 0: it is memory's.
struct source {
    uint32_t word, distance;
};

// The word that a load at this position takes. An evicted row has younger marks alone.
static inline struct source forwarded(const struct table *t, size_t r, size_t position, uint32_t address,
                                      struct memory memory)
{
    uint32_t older = turned(t, t->stores[r]) & ((UINT32_C(1) << position) - 1);
    if (older) {
        size_t nearest = 31 - __builtin_clz(older);
        return (struct source){t->values[stage_at(t, nearest)], position - nearest};
    }
    return (struct source){address < memory.length ? memory.words[address] : 0, 0};
}

// How many references stay when one at this position stores this word: those before the first younger stage with a
// mark, if it has a load mark and took another word. In an evicted row that stage is the first squashed anyway.
static inline size_t left_by_store(const struct table *t, struct place place, size_t position, uint32_t word)
{
    uint32_t marks = marks_of(t, place.row);
    uint32_t younger = marks ? turned(t, marks) >> position >> 1 : 0;
    if (younger) {
        size_t met = position + 1 + __builtin_ctz(younger), s = stage_at(t, met);
        if (t->loads[place.row] >> s & 1 && t->taken[s] != word)
            return met;
    }
    return place.left;
}

// The reference in stage s has executed in this row: what is squashed goes, and is told. Its marks are still to
// be set.
static inline void enter(struct table *t, size_t s, struct place place, uint32_t address, struct outcome *out)
{
    out->squashed = place.left < t->live;
    if (out->squashed) {
        size_t from = stage_at(t, place.left);
        out->from = (struct ticket){from, t->numbers[from]};
    }
    cut(t, place.left);
    t->executed |= UINT32_C(1) << s;
    t->addresses[place.row] = address;
}

static unsigned load_step(struct table *t, size_t s, uint32_t address, struct memory memory,
                          struct outcome *out)
{
    size_t position = position_of(t, s);
    struct place place = place_for(t, address, position);
    if (place.left == 0)
        return 10;
    struct source source = forwarded(t, place.row, position, address, memory);
    out->value = source.word;
    out->distance = source.distance;
    enter(t, s, place, address, out);
    t->loads[place.row] |= UINT32_C(1) << s;
    t->taken[s] = source.word;
    return 0;
}

static unsigned store_step(struct table *t, size_t s, uint32_t address, uint32_t value, struct outcome *out)
{
    size_t position = position_of(t, s);
    struct place place = place_for(t, address, position);
    if (place.left == 0)
        return 10;
    place.left = left_by_store(t, place, position, value);
    out->value = out->distance = 0;
    enter(t, s, place, address, out);
    t->stores[place.row] |= UINT32_C(1) << s;
    t->values[s] = value;
    return 0;
}

// The word with the part at this byte number replaced by the low bits of `from`: lower bytes are lower bits, and
// a half word at an odd number is the one at the byte below.
static uint32_t merged(enum part part, uint32_t byte, uint32_t word, uint32_t from)
{
    unsigned low = part == BYTE ? byte % 4 * 8 : byte % 4 / 2 * 16;
    uint32_t mask = (part == BYTE ? UINT32_C(0xff) : UINT32_C(0xffff)) << low;
    return (word & ~mask) | (from << low & mask);
}

// A load of the word and a store of the whole word in one stage, which bears both marks. `whole` gets what is
// stored.
static unsigned part_step(struct table *t, size_t s, enum part part, uint32_t byte, uint32_t from,
                          struct memory memory, struct outcome *out, uint32_t *whole)
{
    size_t position = position_of(t, s);
    uint32_t address = byte / 4;
    struct place place = place_for(t, address, position);
    if (place.left == 0)
        return 10;
    uint32_t taken = forwarded(t, place.row, position, address, memory).word;
    *whole = merged(part, byte, taken, from);
    place.left = left_by_store(t, place, position, *whole);
    out->value = out->distance = 0;
    enter(t, s, place, address, out);
    t->loads[place.row] |= UINT32_C(1) << s;
    t->stores[place.row] |= UINT32_C(1) << s;
    t->taken[s] = taken;
    t->values[s] = *whole;
    return 0;
}

// The oldest leaves the window, whose marks are in row r, 64 where it has none.
static void commit_step(struct table *t, size_t r)
{
    if (r < 64) {
        t->loads[r] &= ~(UINT32_C(1) << t->oldest);
        t->stores[r] &= ~(UINT32_C(1) << t->oldest);
    }
    t->oldest = stage_at(t, 1);
    t->live--;
}

// The buffer's calls.

unsigned buffer_open(struct table *t, struct sizes sizes, struct memory memory)
{
    unsigned why = !sizes_fit(sizes) ? 1 : memory.length != sizes.words ? 3 : 0;
    make_empty(t, why ? (struct sizes){0, 0, 0, 0} : sizes);
    return why;
}

unsigned buffer_issue(struct table *t, struct ticket *ticket)
{
    if (!keeps_rules(t, NULL))
        return 2;
    if (t->live == t->stages)
        return 5;
    size_t s = issue_step(t);
    *ticket = (struct ticket){s, t->numbers[s]};
    return 0;
}

static bool named(const struct table *t, struct ticket ticket)
{
    return ticket.stage < t->stages && position_of(t, ticket.stage) < t->live &&
           t->numbers[ticket.stage] == ticket.number;
}

static unsigned execute_refusal(const struct table *t, struct ticket ticket, size_t length)
{
    if (!keeps_rules(t, NULL))
        return 2;
    if (length != t->words)
        return 3;
    if (!named(t, ticket))
        return 7;
    if (t->executed >> ticket.stage & 1)
        return 8;
    return 0;
}

unsigned buffer_load(struct table *t, struct ticket ticket, uint32_t address, struct memory memory,
                     struct outcome *out)
{
    unsigned why = execute_refusal(t, ticket, memory.length);
    return why ? why : load_step(t, ticket.stage, address, memory, out);
}

unsigned buffer_store(struct table *t, struct ticket ticket, uint32_t address, uint32_t value,
                      struct memory memory, struct outcome *out)
{
    unsigned why = execute_refusal(t, ticket, memory.length);
    return why ? why : store_step(t, ticket.stage, address, value, out);
}

unsigned buffer_part(struct table *t, struct ticket ticket, enum part part, uint32_t byte, uint32_t from,
                     struct memory memory, struct outcome *out)
{
    uint32_t whole;
    unsigned why = execute_refusal(t, ticket, memory.length);
    return why ? why : part_step(t, ticket.stage, part, byte, from, memory, out, &whole);
}

unsigned buffer_other(struct table *t, struct ticket ticket, struct memory memory, struct outcome *out)
{
    unsigned why = execute_refusal(t, ticket, memory.length);
    if (why)
        return why;
    t->executed |= UINT32_C(1) << ticket.stage;
    out->value = out->distance = 0;
    out->squashed = false;
    return 0;
}

unsigned buffer_execute(struct table *t, struct ticket ticket, struct action action, struct memory memory,
                        struct outcome *out)
{
    switch (action.what) {
    case LOAD: return buffer_load(t, ticket, action.address, memory, out);
    case STORE: return buffer_store(t, ticket, action.address, action.value, memory, out);
    case PART: return buffer_part(t, ticket, action.part, action.address, action.value, memory, out);
    default: return buffer_other(t, ticket, memory, out);
    }
}

unsigned buffer_squash(struct table *t, struct ticket ticket)
{
    if (!keeps_rules(t, NULL))
        return 2;
    if (!named(t, ticket))
        return 7;
    cut(t, position_of(t, ticket.stage));
    return 0;
}

// The row with a mark of the stage, 64 where there is none.
static size_t marked_row(const struct table *t, size_t s)
{
    for (size_t b = 0; b < t->banks; b++)
        for (size_t r = b * 8; r < b * 8 + t->rows; r++)
            if (marks_of(t, r) >> s & 1)
                return r;
    return 64;
}

unsigned buffer_commit(struct table *t, struct memory memory, struct ticket *ticket)
{
    if (!keeps_rules(t, NULL))
        return 2;
    if (memory.length != t->words)
        return 3;
    if (t->live == 0)
        return 11;
    size_t s = t->oldest;
    if (!(t->executed >> s & 1))
        return 12;
    size_t r = marked_row(t, s);
    if (r < 64) {
        if (t->addresses[r] >= t->words)
            return 13;
        if (t->stores[r] >> s & 1)
            memory.words[t->addresses[r]] = t->values[s];
    }
    *ticket = (struct ticket){s, t->numbers[s]};
    commit_step(t, r);
    return 0;
}

// The machine's calls.

static bool program_fits(struct lent program)
{
    if (program.length % 4)
        return false;
    uint32_t bad = 0;
    for (const uint32_t *i = program.words; i < program.words + program.length; i += 4)
        bad |= (i[0] - 1 > 5) | (i[1] > 7) | (i[2] > 7) | ((i[0] == 2) & (i[3] > 7));
    return !bad;
}

// The codes that leave a load mark and those that leave a store mark, as bits; B and H leave both.
enum { LOADING = 1 << 3 | 1 << 5 | 1 << 6, STORING = 1 << 4 | 1 << 5 | 1 << 6 };

// The word number of an executed entry: the address of B and H is a byte number.
static uint32_t word_of(const struct entry *e)
{
    return e->code >= 5 ? e->address / 4 : e->address;
}

static bool window_agrees(const struct machine *m, const struct marked *found)
{
    const struct table *t = &m->table;
    for (size_t p = 0; p < t->live; p++) {
        size_t s = stage_at(t, p);
        const struct entry *e = &m->window[s];
        if (e->executed != (t->executed >> s & 1))
            return false;
        if (!e->executed)
            continue;
        if ((LOADING >> e->code ^ found->loads >> s) & 1 || (STORING >> e->code ^ found->stores >> s) & 1)
            return false;
        if (e->code >= 3 && t->addresses[found->rows[s]] != word_of(e))
            return false;
    }
    return true;
}

static bool entries_fit(const struct machine *m, struct lent program)
{
    for (size_t p = 0; p < m->table.live; p++) {
        const struct entry *e = &m->window[stage_at(&m->table, p)];
        if (e->index >= m->count || memcmp(&e->code, program.words + e->index * 4, 4 * sizeof(uint32_t)))
            return false;
    }
    return true;
}

// Which of the conditions 2, 3 and 4 holds first; 0: none. A call that is lent no memory passes the table's
// own length.
static inline unsigned verdict(const struct machine *m, struct lent program, size_t length,
                               struct marked *found)
{
    if (!keeps_rules(&m->table, found) || !window_agrees(m, found))
        return 2;
    if (length != m->table.words)
        return 3;
    if (!program_fits(program) || program.length != 4 * (size_t)m->count || !entries_fit(m, program))
        return 4;
    return 0;
}

// What a register holds for the entry at this position; false where its writer has not executed.
static bool operand(const struct machine *m, uint32_t k, size_t position, uint32_t *value)
{
    while (position > 0) {
        const struct entry *e = &m->window[stage_at(&m->table, --position)];
        if (e->code < 4 && e->d == k) {
            *value = e->value;
            return e->executed;
        }
    }
    *value = m->registers[k];
    return true;
}

static void issue_next(struct machine *m, struct lent program)
{
    size_t s = issue_step(&m->table);
    struct entry *e = &m->window[s];
    memcpy(&e->code, program.words + m->next * 4, 4 * sizeof(uint32_t));
    e->index = m->next++;
    e->executed = false;
}

// The waiting entry at this position executes.
static unsigned execute_at(struct machine *m, size_t position, struct memory memory, struct result *out)
{
    struct table *t = &m->table;
    size_t s = stage_at(t, position), live = t->live;
    struct entry *e = &m->window[s];
    struct outcome outcome = {0, 0, false, {0, 0}};
    uint32_t x, y = 0;
    if (!operand(m, e->s, position, &x) || (e->code == 2 && !operand(m, e->imm, position, &y)) ||
        (e->code >= 4 && !operand(m, e->d, position, &y)))
        return 9;
    if (e->code <= 2) {
        e->value = e->code == 1 ? x + e->imm : x + y;
        e->address = 0;
        t->executed |= UINT32_C(1) << s;
    } else {
        uint32_t address = x + e->imm;
        enum part part = e->code == 5 ? BYTE : HALF;
        unsigned why = e->code == 3   ? load_step(t, s, address, memory, &outcome)
                       : e->code == 4 ? store_step(t, s, address, y, &outcome)
                                      : part_step(t, s, part, address, y, memory, &outcome, &y);
        if (why)
            return why;
        e->value = e->code == 3 ? outcome.value : y;
        e->address = address;
    }
    e->executed = true;
    e->distance = outcome.distance;
    out->value = outcome.value;
    out->distance = outcome.distance;
    out->squashed = t->live < live;
    if (out->squashed) {
        out->from = t->live;
        m->next = m->window[stage_at(t, t->live)].index;
    }
    return 0;
}

// The oldest, which has executed, commits; 13 where its word is past the memory, 14 where it is an H at an odd byte.
// Its marks are in row r, and the word that a store writes is the table's, as in Rattle (docs/DECISIONS.md).
static unsigned commit_oldest(struct machine *m, size_t r, struct memory memory, uint32_t record[PER_COMMIT])
{
    const struct entry *e = &m->window[m->table.oldest];
    if (e->code >= 3 && m->table.addresses[r] >= m->table.words)
        return 13;
    if (e->code == 6 && e->address % 2)
        return 14;
    if (e->code >= 4)
        memory.words[m->table.addresses[r]] = m->table.values[m->table.oldest];
    else
        m->registers[e->d] = e->value;
    record[0] = e->index;
    record[1] = e->code;
    record[2] = e->code >= 4 ? e->address : e->d;
    record[3] = e->value;
    record[4] = e->code == 3 ? e->distance : 0;
    commit_step(&m->table, r);
    return 0;
}

unsigned machine_open(struct machine *m, struct sizes sizes, struct lent program, struct memory memory)
{
    memset(m, 0, sizeof *m);
    if (!sizes_fit(sizes) || program.length > 1024)
        return 1;
    if (memory.length != sizes.words)
        return 3;
    if (!program_fits(program))
        return 4;
    make_empty(&m->table, sizes);
    m->count = program.length / 4;
    return 0;
}

unsigned machine_issue(struct machine *m, struct lent program, size_t *position)
{
    struct marked found;
    unsigned why = verdict(m, program, m->table.words, &found);
    if (why)
        return why;
    if (m->table.live == m->table.stages)
        return 5;
    if (m->next >= m->count)
        return 6;
    *position = m->table.live;
    issue_next(m, program);
    return 0;
}

unsigned machine_execute(struct machine *m, struct lent program, size_t position, struct memory memory,
                         struct result *out)
{
    struct marked found;
    unsigned why = verdict(m, program, memory.length, &found);
    if (why)
        return why;
    if (position >= m->table.live)
        return 7;
    if (m->window[stage_at(&m->table, position)].executed)
        return 8;
    return execute_at(m, position, memory, out);
}

unsigned machine_squash(struct machine *m, struct lent program, size_t position)
{
    struct marked found;
    unsigned why = verdict(m, program, m->table.words, &found);
    if (why)
        return why;
    if (position >= m->table.live)
        return 7;
    m->next = m->window[stage_at(&m->table, position)].index;
    cut(&m->table, position);
    return 0;
}

unsigned machine_commit(struct machine *m, struct lent program, struct memory memory, uint32_t record[PER_COMMIT])
{
    struct marked found;
    unsigned why = verdict(m, program, memory.length, &found);
    if (why)
        return why;
    if (m->table.live == 0)
        return 11;
    const struct entry *e = &m->window[m->table.oldest];
    if (!e->executed)
        return 12;
    return commit_oldest(m, e->code >= 3 ? found.rows[m->table.oldest] : 64, memory, record);
}

unsigned machine_finish(struct machine *m, struct lent program, uint32_t limit, struct memory memory,
                        struct memory list, size_t *commits)
{
    struct marked found;
    struct table *t = &m->table;
    unsigned why = verdict(m, program, memory.length, &found);
    if (why)
        return why;
    size_t n = 0;
    for (; n < limit && list.length - n * PER_COMMIT >= PER_COMMIT; n++) {
        struct result ran;
        if (t->live == 0) {
            if (m->next >= m->count)
                break;
            issue_next(m, program);
        }
        const struct entry *e = &m->window[t->oldest];
        // the oldest has its operands, and a row is free or evicted for it
        if (!e->executed)
            execute_at(m, 0, memory, &ran);
        size_t r = e->code >= 3 ? row_of(t, bank_of(t->banks, word_of(e)), word_of(e)) : 64;
        if (commit_oldest(m, r, memory, list.words + n * PER_COMMIT))
            break;
    }
    *commits = n;
    return 0;
}

typedef struct table mix_table;
typedef struct ticket mix_ticket;
typedef struct outcome mix_outcome;
typedef struct machine mix_machine;
typedef struct entry mix_entry;
typedef struct result mix_result;
#define MIX_OF_BUFFER inplace_buffer
#define MIX_OF_MACHINE inplace_machine
#include "mixes_text.h"
