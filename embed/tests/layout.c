// Every field of a table and of a machine, both ways: what calls write is read here by the fields' names, and what is written
// here by their names is read by calls. The rows of a bank stand where they like.
#include <arb_machine.h>

#include <stdio.h>
#include <string.h>

enum { WORDS = 100 };

static uint32_t memory[WORDS];
static int wrong;

#define EXPECT(condition)                                                                                                  \
    do {                                                                                                                   \
        if (!(condition)) {                                                                                                \
            printf("line %d: %s\n", __LINE__, #condition);                                                                 \
            wrong = 1;                                                                                                     \
        }                                                                                                                  \
    } while (0)

static bool same_ticket(arb_ticket a, size_t stage, uint32_t number)
{
    return a.stage == stage && a.number == number;
}

// Whether exactly one row of the bank has marks and this address, and it has these marks.
static bool row_is(const arb_table *t, size_t bank, uint32_t address, uint32_t loads, uint32_t stores)
{
    size_t rows = 0;
    bool is = false;
    for (size_t r = bank * ARB_ROWS; r < bank * ARB_ROWS + t->rows; r++)
        if (t->addresses[r] == address && (t->loads[r] | t->stores[r])) {
            is = t->loads[r] == loads && t->stores[r] == stores;
            rows++;
        }
    return is && rows == 1;
}

static size_t marked_rows(const arb_table *t)
{
    size_t rows = 0;
    for (size_t r = 0; r < ARB_SLOTS; r++)
        rows += (t->loads[r] | t->stores[r]) != 0;
    return rows;
}

static void table_from_calls(void)
{
    arb_table t;
    arb_ticket k[6], gone;
    arb_outcome out;
    EXPECT(!arb_open(&t, 2, 4, 8, memory, WORDS));
    for (int i = 0; i < 6; i++)
        EXPECT(!arb_issue(&t, &k[i]));
    EXPECT(!arb_store(&t, k[0], 11, 111, memory, WORDS, &out));
    EXPECT(!arb_other(&t, k[1], memory, WORDS, &out));
    EXPECT(!arb_commit(&t, memory, WORDS, &gone) && same_ticket(gone, 0, 0));
    EXPECT(!arb_commit(&t, memory, WORDS, &gone) && same_ticket(gone, 1, 1));
    EXPECT(!arb_load(&t, k[2], 11, memory, WORDS, &out) && out.value == 111);
    EXPECT(!arb_store(&t, k[3], 12, 222, memory, WORDS, &out));
    EXPECT(!arb_store_byte(&t, k[4], 11 * 4 + 1, 3, memory, WORDS, &out));
    EXPECT(t.banks == 2 && t.rows == 4 && t.stages == 8 && t.words == WORDS);
    EXPECT(t.oldest == 2 && t.live == 4 && t.next == 6);
    EXPECT((t.executed >> 2 & 15) == 7);
    for (uint32_t s = 2; s < 6; s++)
        EXPECT(t.numbers[s] == s);
    EXPECT(row_is(&t, 1, 11, 1u << 2 | 1u << 4, 1u << 4));
    EXPECT(row_is(&t, 0, 12, 0, 1u << 3));
    EXPECT(marked_rows(&t) == 2);
    EXPECT(t.taken[2] == 111 && t.values[3] == 222 && t.taken[4] == 111 && t.values[4] == (111 & 255) + 3 * 256);
}

// Seven stages of which 5, 6, 0 and 1 are live: a store, two that wait and a load between them, in the first rows of their banks.
static arb_table table_by_hand(void)
{
    arb_table t;
    memset(&t, 0, sizeof t);
    t.banks = 4;
    t.rows = 3;
    t.stages = 7;
    t.words = WORDS;
    t.oldest = 5;
    t.live = 4;
    t.next = 4000;
    t.executed = 1u << 5 | 1u << 0;
    t.numbers[5] = 1000;
    t.numbers[6] = 2000;
    t.numbers[0] = 3000;
    t.numbers[1] = 3999;
    t.addresses[8] = 21; /* bank 1 */
    t.stores[8] = 1u << 5;
    t.values[5] = 77;
    t.addresses[16] = 34; /* bank 2 */
    t.loads[16] = 1u << 0;
    t.taken[0] = 88;
    return t;
}

static void table_by_calls(void)
{
    const arb_ticket store = {5, 1000}, second = {6, 2000}, last = {1, 3999};
    arb_ticket ticket;
    arb_outcome out;
    arb_table t = table_by_hand();
    EXPECT(!arb_load(&t, last, 21, memory, WORDS, &out) && out.value == 77 && out.distance == 3 && !out.squashed);
    t = table_by_hand();
    EXPECT(!arb_store(&t, second, 34, 88, memory, WORDS, &out) && !out.squashed);
    t = table_by_hand();
    EXPECT(!arb_store(&t, second, 34, 89, memory, WORDS, &out) && out.squashed && same_ticket(out.from, 0, 3000));
    t = table_by_hand();
    EXPECT(!arb_issue(&t, &ticket) && same_ticket(ticket, 2, 4000) && t.next == 4001);
    t = table_by_hand();
    EXPECT(!arb_commit(&t, memory, WORDS, &ticket) && same_ticket(ticket, 5, 1000) && memory[21] == 77 && t.oldest == 6);
    t = table_by_hand();
    EXPECT(arb_load(&t, store, 21, memory, WORDS, &out) == ARB_EXECUTED_BEFORE);
    EXPECT(arb_load(&t, (arb_ticket){1, 4000}, 21, memory, WORDS, &out) == ARB_NOT_LIVE);
    EXPECT(arb_load(&t, last, 21, memory, WORDS - 1, &out) == ARB_MEMORY_LENGTH);
    t.words = WORDS - 1;
    EXPECT(!arb_load(&t, last, 21, memory, WORDS - 1, &out));
    /* the store's row is the only one of its bank: an older mark than that of `second`, which wants the bank too */
    t = table_by_hand();
    t.rows = 1;
    EXPECT(arb_load(&t, second, 25, memory, WORDS, &out) == ARB_NO_ROW);
    t.rows = 3;
    EXPECT(!arb_load(&t, second, 25, memory, WORDS, &out));
    /* with eight banks 21 is of bank 5 */
    t = table_by_hand();
    t.banks = 8;
    EXPECT(arb_issue(&t, &ticket) == ARB_BROKEN_STATE);
}

static void holders(void)
{
    static const bool held[7] = {true, true, false, false, false, true, true};
    arb_table t = table_by_hand();
    arb_ticket holder;
    for (size_t s = 0; s < 20; s++) {
        bool is = arb_holder(&t, s, &holder);
        EXPECT(is == (s < 7 && held[s]));
        EXPECT(!is || same_ticket(holder, s, t.numbers[s]));
    }
    t.stages = 17;
    EXPECT(!arb_holder(&t, 16, &holder));
}

enum { NUMBERS = 20 };
static const uint32_t program[NUMBERS] = {ARB_ADD,  1, 0, 5,   ARB_STORE, 1, 0, 30, ARB_LOAD, 2, 0, 30,
                                          ARB_HALF, 2, 7, 122, ARB_SUM,   3, 1, 2};

static bool entry_is(const arb_entry *e, uint32_t index, uint32_t value, uint32_t address, uint32_t distance)
{
    const uint32_t *i = program + index * 4;
    return e->code == i[0] && e->d == i[1] && e->s == i[2] && e->imm == i[3] && e->index == index && e->executed == 1 &&
           e->value == value && e->address == address && e->distance == distance;
}

static void machine_from_calls(void)
{
    arb_machine m;
    arb_machine_outcome out;
    arb_committed did;
    size_t position;
    EXPECT(!arb_machine_open(&m, 1, 8, 5, program, NUMBERS, memory, WORDS));
    EXPECT(m.count == 5 && m.next == 0 && m.table.stages == 5);
    for (size_t p = 0; p < 4; p++)
        EXPECT(!arb_machine_issue(&m, program, NUMBERS, &position) && position == p);
    for (size_t p = 0; p < 4; p++)
        EXPECT(!arb_machine_execute(&m, program, NUMBERS, p, memory, WORDS, &out));
    EXPECT(entry_is(&m.window[0], 0, 5, 0, 0));
    EXPECT(entry_is(&m.window[1], 1, 5, 30, 0));
    EXPECT(entry_is(&m.window[2], 2, 5, 30, 1));
    EXPECT(entry_is(&m.window[3], 3, 5 * 65536 + 5, 122, 0));
    EXPECT(!arb_machine_commit(&m, program, NUMBERS, memory, WORDS, &did));
    EXPECT(did.index == 0 && did.code == ARB_ADD && did.target == 1 && did.value == 5 && did.distance == 0);
    EXPECT(m.registers[1] == 5 && m.next == 4 && m.table.oldest == 1 && m.table.live == 3);
}

// Two entries at stages 3 and 0 of four: a load that took 9 from one position before, and a sum that waits.
static arb_machine machine_by_hand(void)
{
    arb_machine m;
    memset(&m, 0, sizeof m);
    m.table = (arb_table){.banks = 1, .rows = 2, .stages = 4, .words = WORDS, .oldest = 3, .live = 2, .next = 9};
    m.table.executed = 1u << 3;
    m.table.numbers[3] = 7;
    m.table.numbers[0] = 8;
    m.table.addresses[1] = 30;
    m.table.loads[1] = 1u << 3;
    m.table.taken[3] = 9;
    m.window[3] = (arb_entry){ARB_LOAD, 2, 0, 1, 30, 2, 9, 30, 1};
    m.window[0] = (arb_entry){ARB_SUM, 3, 1, 0, 2, 4, 0, 0, 0};
    m.registers[1] = 600;
    m.count = 5;
    m.next = 3;
    return m;
}

static void machine_by_calls(void)
{
    arb_machine m = machine_by_hand();
    arb_machine_outcome out;
    arb_committed did;
    size_t position;
    EXPECT(!arb_machine_execute(&m, program, NUMBERS, 1, memory, WORDS, &out) && m.window[0].value == 609);
    EXPECT(!arb_machine_commit(&m, program, NUMBERS, memory, WORDS, &did));
    EXPECT(did.index == 2 && did.code == ARB_LOAD && did.target == 2 && did.value == 9 && did.distance == 1);
    EXPECT(!arb_machine_commit(&m, program, NUMBERS, memory, WORDS, &did));
    EXPECT(did.index == 4 && did.code == ARB_SUM && did.target == 3 && did.value == 609 && m.registers[3] == 609);
    EXPECT(!arb_machine_issue(&m, program, NUMBERS, &position) && position == 0);
    EXPECT(m.window[1].code == ARB_HALF && m.window[1].index == 3 && m.window[1].executed == 0 && m.next == 4);
    /* each number of an entry counts */
    for (size_t byte = 0; byte < 12; byte++) {
        m = machine_by_hand();
        ((uint8_t *)&m.window[3])[byte] ^= byte == offsetof(arb_entry, executed) ? 1 : 64;
        arb_refusal why = arb_machine_commit(&m, program, NUMBERS, memory, WORDS, &did);
        EXPECT(why == (byte == offsetof(arb_entry, executed) || byte == 0 ? ARB_BROKEN_STATE : ARB_BAD_PROGRAM));
    }
    m = machine_by_hand();
    m.window[3].address ^= 1;
    EXPECT(arb_machine_commit(&m, program, NUMBERS, memory, WORDS, &did) == ARB_BROKEN_STATE);
    m = machine_by_hand();
    m.count = 6;
    EXPECT(arb_machine_commit(&m, program, NUMBERS, memory, WORDS, &did) == ARB_BAD_PROGRAM);
}

// `A,1,0,5` is issued, and executed under `A,1,0,6`: an entry that took its instruction from the program lent would become 6.
static void another_program(void)
{
    static const uint32_t opened[] = {ARB_ADD, 1, 0, 5}, other[] = {ARB_ADD, 1, 0, 6};
    uint32_t list[ARB_PER_COMMIT] = {1, 2, 3, 4, 5}, lists[ARB_PER_COMMIT], words[WORDS];
    arb_machine m, passed;
    arb_machine_outcome out;
    arb_committed did;
    size_t position, commits;
    memcpy(words, memory, sizeof words);
    memcpy(lists, list, sizeof lists);
    EXPECT(!arb_machine_open(&m, 1, 1, 2, opened, 4, memory, WORDS));
    EXPECT(!arb_machine_issue(&m, opened, 4, &position));
    passed = m;
    EXPECT(arb_machine_execute(&m, other, 4, 0, memory, WORDS, &out) == ARB_BAD_PROGRAM);
    EXPECT(arb_machine_issue(&m, other, 4, &position) == ARB_BAD_PROGRAM);
    EXPECT(arb_machine_squash(&m, other, 4, 0) == ARB_BAD_PROGRAM);
    EXPECT(arb_machine_finish(&m, other, 4, 1, memory, WORDS, list, ARB_PER_COMMIT, &commits) == ARB_BAD_PROGRAM);
    EXPECT(!memcmp(&m, &passed, sizeof m) && !memcmp(list, lists, sizeof list) && !memcmp(memory, words, sizeof words));
    EXPECT(!arb_machine_execute(&m, opened, 4, 0, memory, WORDS, &out));
    EXPECT(arb_machine_commit(&m, other, 4, memory, WORDS, &did) == ARB_BAD_PROGRAM);
    EXPECT(!arb_machine_commit(&m, opened, 4, memory, WORDS, &did) && did.value == 5);
}

int main(void)
{
    table_from_calls();
    table_by_calls();
    holders();
    machine_from_calls();
    machine_by_calls();
    another_program();
    EXPECT(!strcmp(arb_reason(ARB_NO_ROW), "no row: each one of its bank has an older mark"));
    return wrong;
}
