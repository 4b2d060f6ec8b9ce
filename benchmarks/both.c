// A mix of calls played in Rattle and in C, each on a memory and a list of its own, and compared.
#include "both.h"

#include <string.h>
#include <time.h>

// The static libraries': a slice is a pointer and a length.
extern uint64_t bench_buffer(size_t banks, size_t rows, size_t stages, size_t words, uint32_t calls,
                             uint64_t seed, uint32_t when, size_t part, size_t by, size_t whole,
                             size_t falling, uint32_t *memory, size_t length);
extern uint64_t bench_machine(size_t banks, size_t rows, size_t stages, size_t words, uint32_t calls,
                              uint64_t seed, uint32_t when, size_t part, size_t by, uint32_t limit,
                              const uint32_t *program, size_t numbers, uint32_t *memory, size_t length,
                              uint32_t *list, size_t places);

// What a side works on.
struct side {
    uint32_t memory[MOST_WORDS], list[MOST_PLACES];
};

static struct side rattle, plain;
uint32_t program[MOST_NUMBERS];

const char *mix_name(enum mix mix, bool parts, bool falling)
{
    static const char *const names[2][3] = {{"buffer", "machine", "finish"},
                                            {"buffer, parts", "machine, parts", "finish, parts"}};
    if (falling)
        return parts ? "evicting, parts" : "buffer, evicting";
    return names[parts][mix];
}

void write_program(size_t instructions, uint32_t seed, bool parts, uint32_t wild)
{
    for (size_t i = 0; i < instructions; i++) {
        uint32_t x = (seed = seed * 1664525 + 1013904223) >> 8;
        uint32_t code = 1 + x % 4, d = 2 + x / 4 % 6, s = x / 32 % 8;
        uint32_t word = (x / 256 % 16 & x / 4096 % 16) * 5, base = x / 65536 % 4 == 0;
        uint32_t *to = program + i * 4;
        to[0] = code;
        to[1] = code == 1 && base ? 1 : d;
        to[2] = code == 1 && base ? 0 : code >= 3 ? base : s;
        to[3] = code == 1 ? (base ? word % 15 : word) : code == 2 ? x / 262144 % 8 : word;
        if (parts && code == 4 && x / 2097152 > 1) {
            bool half = x / 2097152 > 4;
            uint32_t byte = word * 4 + x / 262144 % 4;
            to[0] = half ? 6 : 5;
            to[2] = half ? 0 : base;
            to[3] = half ? byte / 2 * 2 : byte;
        }
        // not the first: an entry that was never issued is blank in a way of its own on each side, and unlike it
        if (i > 0 && wild && x / 16384 % wild == 0) {
            to[1] = x / 64 % 8;
            to[2] = s;
            to[3] = code == 2 ? x / 512 % 8 : x / 1024 % 2 ? 0 - word : word;
        }
    }
}

void fill_both(uint32_t seed)
{
    for (size_t i = 0; i < MOST_WORDS; i++)
        plain.memory[i] = seed * 7 + (uint32_t)i * 3;
    for (size_t i = 0; i < MOST_PLACES; i++)
        plain.list[i] = seed + (uint32_t)i;
    memcpy(&rattle, &plain, sizeof plain);
}

// Of five stores of the buffer two are of a whole word, or all.
static size_t whole(const struct job *j)
{
    return j->parts ? 27 : 30;
}

static uint64_t through_header(const struct job *j)
{
    struct memory memory = {rattle.memory, j->length}, list = {rattle.list, j->places};
    struct lent lent = {program, j->numbers};
    if (j->mix == BUFFER)
        return header_buffer(j->sizes, j->calls, j->seed, j->spoiling, whole(j), j->falling, memory);
    return header_machine(j->sizes, j->calls, j->seed, j->spoiling, j->limit, lent, memory, list);
}

static uint64_t in_rattle(const struct job *j)
{
    struct sizes z = j->sizes;
    struct spoiling w = j->spoiling;
    if (j->header)
        return through_header(j);
    if (j->mix == BUFFER)
        return bench_buffer(z.banks, z.rows, z.stages, z.words, j->calls, j->seed, w.when, w.part, w.by,
                            whole(j), j->falling, rattle.memory, j->length);
    return bench_machine(z.banks, z.rows, z.stages, z.words, j->calls, j->seed, w.when, w.part, w.by, j->limit,
                         program, j->numbers, rattle.memory, j->length, rattle.list, j->places);
}

static uint64_t in_c(const struct job *j)
{
    struct memory memory = {plain.memory, j->length}, list = {plain.list, j->places};
    struct lent lent = {program, j->numbers};
    if (j->mix == BUFFER)
        return inplace_buffer(j->sizes, j->calls, j->seed, j->spoiling, whole(j), j->falling, memory);
    return inplace_machine(j->sizes, j->calls, j->seed, j->spoiling, j->limit, lent, memory, list);
}

double now(void)
{
    struct timespec t;
    clock_gettime(CLOCK_MONOTONIC, &t);
    return t.tv_sec * 1e9 + t.tv_nsec;
}

bool play_both(const struct job *j, double *c, double *r)
{
    double start = now();
    uint64_t expected = in_c(j);
    double between = now();
    uint64_t sum = in_rattle(j);
    *r = now() - between;
    *c = between - start;
    return sum == expected && !memcmp(&rattle, &plain, sizeof plain);
}
