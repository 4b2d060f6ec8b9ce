// The mixes of crates/mixes_buffer and mixes_machine in C, as text: C in place (inplace.c) and the calls of embed/ (header.c)
// play them in loops of their own. The file that includes it has the calls, `buffer_open` to `machine_finish`, the types
// that they take, `mix_table` to `mix_result`, and the names of the two mixes.

static uint64_t advance(uint64_t seed)
{
    return seed % 2147483648 * 1103515245 + 12345;
}

static size_t bits(uint64_t seed)
{
    return seed / 65536 % 32768;
}

static uint64_t with(uint64_t sum, uint64_t x)
{
    return (sum << 1) + (sum >> 63) + x;
}

static uint64_t with_ticket(uint64_t sum, mix_ticket ticket)
{
    return with(with(sum, ticket.stage), ticket.number);
}

// The checksum with an answer: a refusal's number, or 100 and what the answer carries; of a machine's commit its five.
static uint64_t with_done(uint64_t sum, unsigned why)
{
    return with(sum, why ? why : 100);
}

static uint64_t with_named(uint64_t sum, unsigned why, const mix_ticket *ticket)
{
    return why ? with(sum, why) : with_ticket(with(sum, 100), *ticket);
}

static uint64_t with_executed(uint64_t sum, unsigned why, const mix_outcome *out)
{
    if (why)
        return with(sum, why);
    sum = with(with(with(sum, 100), out->value), out->distance);
    return out->squashed ? with_ticket(sum, out->from) : sum;
}

static uint64_t with_commit(uint64_t sum, unsigned why, const uint32_t record[PER_COMMIT])
{
    if (why)
        return with(sum, why);
    for (size_t i = 0; i < PER_COMMIT; i++)
        sum = with(sum, record[i]);
    return sum;
}

static size_t stage_drawn(const mix_table *t, size_t drawn)
{
    if (t->stages == 0)
        return 0;
    if (t->live == 0)
        return t->oldest % 16;
    size_t s = (t->oldest + drawn % t->live) % t->stages % 16;
    return t->executed >> s & 1 ? t->oldest % 16 : s;
}

static mix_ticket ticket_drawn(const mix_table *t, size_t drawn)
{
    size_t s = stage_drawn(t, drawn / 16);
    return (mix_ticket){s, t->numbers[s] + (drawn % 16 == 0)};
}

// In falling order the turn that is due, as the number that would have drawn it: an issue or a commit, or a load or a
// store of the youngest reference that waits. Also of a spoiled table, whose stages and oldest are below 32.
static size_t falling_drawn(const mix_table *t, size_t drawn)
{
    uint64_t around = (t->executed | (uint64_t)t->executed << t->stages) >> t->oldest;
    size_t first = __builtin_ctzll(around | UINT64_C(1) << t->live);
    if (t->live == 0 || (first == t->live && t->live < t->stages))
        return 0;
    return first == 0 ? 12 : 20 + drawn % 10 + 32 * (1 + 16 * (first - 1));
}

static uint32_t address_drawn(size_t drawn)
{
    return (drawn & drawn / 16) % 16 * 5;
}

// One of four words, so that stores of a word already there are drawn.
static uint32_t word_drawn(size_t drawn)
{
    return drawn / 4096 % 4 * 305419896;
}

static enum part part_drawn(size_t drawn)
{
    return drawn / 1024 % 2 ? HALF : BYTE;
}

// A byte of the word at the address drawn.
static uint32_t byte_drawn(size_t drawn)
{
    return address_drawn(drawn) * 4 + drawn / 256 % 4;
}

// One of four actions, as often each: a load, two stores, the second of a part where the kind 28 is, and no memory.
static struct action action_drawn(size_t drawn, size_t whole, size_t word)
{
    uint32_t address = address_drawn(word), value = word_drawn(word);
    switch (drawn / 8192) {
    case 0: return (struct action){LOAD, BYTE, address, value};
    case 3: return (struct action){OTHER, BYTE, address, value};
    default:
        if (drawn / 8192 == 2 && whole <= 28)
            return (struct action){PART, part_drawn(word), byte_drawn(word), value};
        return (struct action){STORE, BYTE, address, value};
    }
}

// In a row of the table the marks of one kind come or go where there is one of the other, or one mark does.
static void spoil_marks(mix_table *t, size_t x)
{
    if (t->banks == 0 || t->rows == 0 || t->stages == 0)
        return;
    size_t r = x % t->banks % 8 * 8 + x / 8 % t->rows % 8;
    uint32_t bit = UINT32_C(1) << (t->oldest + x / 64) % t->stages % 16;
    if (x < 16384)
        t->loads[r] ^= x < 8192 ? t->stores[r] : bit;
    else
        t->stores[r] ^= x < 24576 ? t->loads[r] : bit;
}

// Every load took this word.
static void spoil_taken(mix_table *t, size_t x)
{
    for (size_t s = 0; s < 16; s++)
        t->taken[s] = word_drawn(x);
}

// Sizes wrap, so that they shrink too; the row is any of the arrays', also one that the sizes do not give.
static void spoil(mix_table *t, size_t what, size_t x)
{
    size_t r = x % 64;
    uint32_t bit = UINT32_C(1) << (x / 64 % 16);
    switch (what) {
    case 0: t->banks += x; break;
    case 1: t->rows += x; break;
    case 2: t->stages += x % 16; break;
    case 3: t->words += x; break;
    case 4: t->oldest += x % 16; break;
    case 5: t->live = x % 20; break;
    case 6: t->executed ^= bit; break;
    case 7: t->loads[r] ^= bit; break;
    case 8: t->stores[r] = x < 16384 ? t->stores[r] ^ bit : t->loads[r] | t->stores[r]; break;
    case 9: t->addresses[r] = address_drawn(x / 64); break;
    case 10: spoil_marks(t, x); break;
    default: spoil_taken(t, x);
    }
}

uint64_t MIX_OF_BUFFER(struct sizes sizes, uint32_t calls, uint64_t seed, struct spoiling spoiling,
                       size_t whole, bool falling, struct memory memory)
{
    mix_table t;
    uint64_t sum = with_done(0, buffer_open(&t, sizes, memory)), second = seed;
    while (calls-- > 0) {
        mix_ticket ticket;
        mix_outcome out;
        unsigned why;
        uint64_t first = advance(second);
        second = advance(first);
        if (calls == spoiling.when) {
            spoil(&t, spoiling.part, spoiling.by);
            continue;
        }
        size_t drawn = falling ? falling_drawn(&t, bits(first)) : bits(first), kind = drawn % 32;
        if (kind < 20) {
            why = kind < 12 ? buffer_issue(&t, &ticket) : buffer_commit(&t, memory, &ticket);
            sum = with_named(sum, why, &ticket);
            continue;
        }
        ticket = ticket_drawn(&t, drawn / 32);
        if (kind == 31) {
            sum = with_done(sum, buffer_squash(&t, ticket));
            continue;
        }
        size_t word = bits(second);
        uint32_t address = address_drawn(word), value = word_drawn(word);
        if (kind < 25)
            why = buffer_load(&t, ticket, address, memory, &out);
        else if (kind < whole)
            why = buffer_store(&t, ticket, address, value, memory, &out);
        else if (kind < 30)
            why = buffer_part(&t, ticket, part_drawn(word), byte_drawn(word), value, memory, &out);
        else if (word < 16384)
            why = buffer_other(&t, ticket, memory, &out);
        else
            why = buffer_execute(&t, ticket, action_drawn(drawn, whole, word), memory, &out);
        sum = with_executed(sum, why, &out);
    }
    return sum;
}

static size_t position_drawn(const mix_table *t, size_t drawn)
{
    if (t->stages == 0 || t->live == 0)
        return 0;
    size_t p = drawn % t->live;
    return t->executed >> ((t->oldest + p) % t->stages % 16) & 1 ? 0 : p;
}

static void spoil_entry(mix_entry *e, size_t what, size_t x)
{
    uint32_t address = address_drawn(x);
    switch (what) {
    case 0:
        e->index++;
        break;
    case 1:
        e->executed = false;
        break;
    case 2:
        e->executed = true;
        e->value = 1;
        e->address = address;
        break;
    case 3:
    case 4:
    case 5:
    case 6:
        e->code = what;
        e->d = 2;
        e->s = 0;
        e->imm = address;
        break;
    case 11:
        e->distance = x % 32768 * 131073;
        break;
    default:
        // of a waiting entry neither is read
        e->value = 1;
        e->address ^= x / 8 % 8;
    }
}

static void spoil_machine(mix_machine *m, size_t what, size_t x)
{
    mix_table *t = &m->table;
    size_t s = t->stages ? (t->oldest + x / 128) % t->stages % 16 : 0;
    if (what < 12)
        spoil(t, what, x);
    else if (what == 12)
        m->count++;
    else if (what == 13)
        spoil_entry(&m->window[x / 128 % 16], x % 4, x);
    else
        spoil_entry(&m->window[s], what == 14 ? 3 + x % 8 : 11, x);
}

uint64_t MIX_OF_MACHINE(struct sizes sizes, uint32_t calls, uint64_t seed, struct spoiling spoiling,
                        uint32_t limit, struct lent program, struct memory memory, struct memory list)
{
    mix_machine m;
    uint64_t sum = with_done(0, machine_open(&m, sizes, program, memory)), draw = seed;
    while (calls-- > 0) {
        unsigned why;
        draw = advance(draw);
        if (calls == spoiling.when) {
            spoil_machine(&m, spoiling.part, spoiling.by);
            continue;
        }
        if (m.table.live == 0 && m.count <= m.next) {
            sum = with_done(sum, machine_open(&m, sizes, program, memory));
            continue;
        }
        size_t kind = bits(draw) % 32;
        if (kind < 12) {
            size_t position;
            why = machine_issue(&m, program, &position);
            sum = why ? with(sum, why) : with(with(sum, 100), position);
            continue;
        }
        if (kind < 20) {
            uint32_t record[PER_COMMIT];
            why = machine_commit(&m, program, memory, record);
            sum = with_commit(sum, why, record);
            continue;
        }
        size_t p = position_drawn(&m.table, bits(draw) / 32);
        if (kind == 31) {
            sum = with_done(sum, machine_squash(&m, program, p));
            continue;
        }
        mix_result out;
        why = machine_execute(&m, program, p, memory, &out);
        if (why) {
            sum = with(sum, why);
            continue;
        }
        sum = with(with(with(sum, 100), out.value), out.distance);
        if (out.squashed)
            sum = with(sum, out.from);
    }
    size_t commits;
    unsigned why = machine_finish(&m, program, limit, memory, list, &commits);
    return why ? with(sum, why) : with(with(sum, 100), commits);
}
