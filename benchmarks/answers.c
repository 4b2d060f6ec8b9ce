// The answers of the buffer and of the machine in Rattle held to those in C, refusals too: on whole states, on states
// with one part spoiled, at openings, and of finishes, without part stores and with them; of the buffer also in
// falling order, in which executions evict where rows are few. Every run of the machine ends with a finish. Each
// batch is many runs of a mix; the last line counts batches. With the argument `first` the first batch that differs
// ends it; with `header` Rattle's calls are made through the headers of embed/.
#include "both.h"

#include <stdio.h>
#include <stdlib.h>
#include <string.h>

// The parts of a table that are spoiled are those up to TAKEN.
enum { SHOWN = 3, SPOILED_CALLS = 60, WHOLE_CALLS = 600, LONG_CALLS = 2000, TAKEN = 11 };

static const size_t memories[] = {96, 40, 41, 75, 76, 36};
static size_t runs, differing, passed, failed;
static uint32_t seed;
static bool parts, falling, first_ends, header;

// One run; of a batch the first that differ are shown.
static void run(const struct job *j)
{
    double c, r;
    runs++;
    if (play_both(j, &c, &r) || differing++ >= SHOWN)
        return;
    printf("%s, B %zu R %zu n %zu W %zu, memory of %zu, program of %zu, list of %zu, limit %u, seed %u",
           mix_name(j->mix, j->parts, j->falling), j->sizes.banks, j->sizes.rows, j->sizes.stages, j->sizes.words,
           j->length, j->numbers, j->places, j->limit, j->seed);
    if (j->spoiling.when < j->calls)
        printf(", part %zu spoiled by %zu with %u left", j->spoiling.part, j->spoiling.by, j->spoiling.when);
    printf(": other answers\n");
}

static void close_batch(enum mix mix, const char *name)
{
    printf("%-16s %-28s %6zu runs, %zu differ\n", mix_name(mix, parts, falling), name, runs, differing);
    if (differing && first_ends)
        exit(1);
    *(differing ? &failed : &passed) += 1;
    runs = differing = 0;
}

// The turns of a run of this mix; of a finish there are none before it.
static uint32_t turns(enum mix mix, uint32_t calls)
{
    return mix == FINISH ? 0 : calls;
}

// A job of this mix with good lengths, after which its program is written and both sides are filled.
static struct job prepared(enum mix mix, struct sizes sizes)
{
    struct job j = {.mix = mix, .parts = parts, .falling = falling, .header = header, .sizes = sizes, .seed = seed++};
    j.spoiling.when = NEVER;
    j.calls = turns(mix, WHOLE_CALLS);
    j.limit = 256;
    j.length = sizes.words;
    j.numbers = (mix == FINISH ? 256 : 64) * 4;
    j.places = 256 * PER_COMMIT;
    write_program(j.numbers / 4, j.seed, parts, j.seed % 3 ? 0 : 12);
    fill_both(j.seed);
    return j;
}

// Calls `each` for every table that may be, with memories that some addresses are past the end of; in falling order
// with one that has them all, since a commit past the end would be refused again and again.
static void every_table(void (*each)(struct sizes sizes, size_t part), size_t part)
{
    for (size_t banks = 1; banks <= 8; banks *= 2)
        for (size_t rows = 1; rows <= 8; rows++)
            for (size_t stages = 1; stages <= 16; stages++) {
                size_t words = memories[falling ? 0 : (seed * UINT32_C(2654435761) >> 20) % 6];
                each((struct sizes){banks, rows, stages, words}, part);
            }
}

// In falling order more runs, since evictions past many marks are rare.
static void whole(struct sizes sizes, size_t mix)
{
    for (int times = 0; times < (falling ? 8 : 2); times++) {
        struct job j = prepared(mix, sizes);
        run(&j);
    }
}

// Sixteen stages, and rows enough for many of them.
static struct sizes long_window(uint32_t times)
{
    return (struct sizes){1 << times % 4, 8 - times / 4 % 3, 16, 96};
}

// Runs in which windows of sixteen stages are full now and then, so that far references meet.
static void long_windows(enum mix mix)
{
    for (uint32_t times = 0; times < 2000; times++) {
        struct job j = prepared(mix, long_window(times));
        j.calls = LONG_CALLS;
        run(&j);
    }
}

// Loads and stores of few words, so that more of them meet.
static void crowd(size_t numbers)
{
    for (uint32_t *i = program; i < program + numbers; i += 4)
        if (i[0] >= 3)
            i[3] %= 4;
}

// One part is spoiled, and after 5, 15 or 40 calls more the run is over.
static void spoiled(enum mix mix, struct sizes sizes, size_t part)
{
    static const uint32_t left[] = {5, 15, 40};
    for (int times = 0; times < (falling ? 3 : 6); times++) {
        struct job j = prepared(mix, sizes);
        j.calls = SPOILED_CALLS;
        size_t by = j.seed * UINT32_C(2654435761) >> 17;
        j.spoiling = (struct spoiling){left[times % 3], part, by};
        // sizes wrap: B and R become smaller, also under marked rows, and W smaller than the memory
        if (part < 2)
            j.spoiling.by = times % 2 ? 0 - by % 8 : by % 8;
        if (part == 3 && times % 2)
            j.spoiling.by = 0 - (1 + by % 40);
        // a short program, after which its last instruction stands once more
        if (part > TAKEN && times % 2) {
            j.numbers = 32;
            memcpy(program + 32, program + 28, 4 * sizeof *program);
        }
        if (part == TAKEN)
            crowd(j.numbers);
        run(&j);
    }
}

// A spoiled word that a load took shows where an older store comes later: in long windows more do.
static void taken_far(enum mix mix)
{
    for (uint32_t times = 0; times < 700; times++)
        spoiled(mix, long_window(times), TAKEN);
}

static void spoiled_buffer(struct sizes sizes, size_t part)
{
    spoiled(BUFFER, sizes, part);
}

static void spoiled_machine(struct sizes sizes, size_t part)
{
    spoiled(MACHINE, sizes, part);
}

// The last stops of a finish: its limit, its list, the program's end and a fault, on a machine just opened or after 20
// or 40 turns.
static void finishes(struct sizes sizes, size_t part)
{
    static const uint32_t limits[] = {256, 0, 1, 2, 7, 255, 257, UINT32_MAX};
    static const size_t places[] = {1280, 0, 4, 5, 9, 10, 14, 1275, 1279, 1284};
    static const size_t instructions[] = {256, 0, 1, 5};
    struct job j = prepared(FINISH, sizes);
    j.limit = part == 0 ? limits[j.seed % 8] : 256;
    if (part == 1)
        j.places = places[j.seed % 10];
    j.numbers = 4 * instructions[part == 2 ? j.seed % 4 : 0];
    j.calls = j.seed / 9 % 3 * 20;
    run(&j);
}

// Sizes at their limits and just past them, alone and in pairs, with a memory of W words, one less and one more.
static void openings(enum mix mix)
{
    static const size_t banks[] = {1, 0, 2, 3, 4, 5, 6, 7, 8, 9, 16, SIZE_MAX};
    static const size_t rows[] = {1, 0, 8, 9, SIZE_MAX}, stages[] = {4, 0, 1, 16, 17, SIZE_MAX};
    static const size_t words[] = {40, 0, 1, 4096, 4097};
    for (size_t b = 0; b < 12; b++)
        for (size_t r = 0; r < 5; r++)
            for (size_t n = 0; n < 6; n++)
                for (size_t w = 0; w < 5; w++)
                    for (size_t more = 0; more < 3; more++) {
                        struct job j = prepared(mix, (struct sizes){banks[b], rows[r], stages[n], words[w]});
                        j.length = j.length + more - (j.length > 0);
                        j.calls = turns(mix, 20);
                        run(&j);
                    }
}

// Programs of other lengths, and with one number outside its limits or just inside.
static void programs(enum mix mix)
{
    static const size_t numbers[] = {0, 1, 2, 3, 4, 5, 6, 7, 8, 1020, 1021, 1023, 1024, 1025, 1026, 1028, 1032};
    static const uint32_t values[] = {0, 1, 2, 3, 4, 5, 6, 7, 8, 9, UINT32_MAX};
    struct sizes sizes = {2, 2, 4, 40};
    for (size_t i = 0; i < 17; i++)
        for (size_t more = 0; more < 3; more++) {
            struct job j = prepared(mix, sizes);
            j.numbers = numbers[i];
            j.length = j.length + more - 1;
            write_program(260, j.seed, parts, 0);
            run(&j);
        }
    // the first eight instructions, and the last one
    for (size_t place = 0; place < 36; place++)
        for (size_t value = 0; value < 11; value++)
            for (size_t code = 1; code <= 6; code++)
                for (size_t more = 0; more < 2; more++) {
                    struct job j = prepared(mix, sizes);
                    size_t at = place < 32 ? place : j.numbers - 36 + place;
                    uint32_t *instruction = program + at / 4 * 4;
                    j.calls = turns(mix, 100);
                    j.length += more;
                    instruction[0] = code;
                    instruction[3] %= 8;
                    program[at] = values[value];
                    run(&j);
                }
}

// Part stores at the ends of the memory and of the numbers, beside a load of their word.
static void byte_numbers(enum mix mix)
{
    static const size_t words[] = {1, 2, 41, 4096};
    for (size_t w = 0; w < 4; w++)
        for (uint32_t code = 5; code <= 6; code++)
            for (uint32_t near = 0; near < 24; near++)
                for (size_t stages = 1; stages <= 16; stages++) {
                    struct job j = prepared(mix, (struct sizes){2, 2, stages, words[w]});
                    uint32_t byte = (near < 12 ? 0 : 4 * (uint32_t)words[w]) + near % 12 - 6;
                    uint32_t first[] = {1, 2, 0, j.seed * UINT32_C(2654435761), code, 2, 0, byte, 3, 3, 0, byte / 4};
                    j.calls = turns(mix, 60);
                    memcpy(program, first, sizeof first);
                    run(&j);
                }
}

static void stops(void)
{
    static const char *const names[] = {"limits", "lists", "lengths"};
    for (size_t part = 0; part < 3; part++) {
        every_table(finishes, part);
        close_batch(FINISH, names[part]);
    }
}

static void whole_states(enum mix mix)
{
    every_table(whole, mix);
    close_batch(mix, "whole states");
    if (mix != FINISH) {
        long_windows(mix);
        close_batch(mix, "long windows");
    }
}

static void all_spoiled(void)
{
    static const char *const names[] = {"banks", "rows", "stages", "words", "oldest", "live", "executed",
                                        "load marks", "store marks", "addresses", "marks of a row",
                                        "words taken", "count", "entries", "live entries", "distances"};
    char name[64];
    for (size_t part = 0; part < 16; part++) {
        snprintf(name, sizeof name, "%s spoiled", names[part]);
        if (part <= TAKEN) {
            every_table(spoiled_buffer, part);
            if (part == TAKEN)
                taken_far(BUFFER);
            close_batch(BUFFER, name);
        }
        every_table(spoiled_machine, part);
        if (part == TAKEN)
            taken_far(MACHINE);
        close_batch(MACHINE, name);
    }
}

// The buffer's states in falling order, whole ones and those with any part spoiled.
static void falling_states(void)
{
    every_table(whole, BUFFER);
    close_batch(BUFFER, "whole states");
    for (size_t part = 0; part <= TAKEN; part++)
        every_table(spoiled_buffer, part);
    close_batch(BUFFER, "spoiled states");
}

int main(int count, char **arguments)
{
    for (int i = 1; i < count; i++) {
        first_ends |= !strcmp(arguments[i], "first");
        header |= !strcmp(arguments[i], "header");
    }
    for (int with = 0; with < 2; with++) {
        parts = with;
        for (enum mix mix = BUFFER; mix <= FINISH; mix++)
            whole_states(mix);
        all_spoiled();
        stops();
    }
    for (enum mix mix = BUFFER; mix <= FINISH; mix++) {
        parts = false;
        openings(mix);
        close_batch(mix, "openings");
        if (mix != BUFFER) {
            programs(mix);
            close_batch(mix, "programs");
            parts = true;
            byte_numbers(mix);
            close_batch(mix, "byte numbers");
        }
    }
    falling = true;
    for (int with = 0; with < 2; with++) {
        parts = with;
        falling_states();
    }
    printf("%zu passed, %zu failed\n", passed, failed);
    return failed != 0;
}
