// Drawn calls in two threads, each on a table and a machine of its own: what they answer and leave in memory is what they do when
// one runs after the other.
#include "mixes.h"

#include <arb_machine.h>

#include <pthread.h>
#include <stdio.h>
#include <string.h>

enum { WORDS = 96, CALLS = 200000, NUMBERS = 64 * 4, PLACES = 256 * ARB_PER_COMMIT };

struct run {
    uint64_t seed, sums[2];
    uint32_t program[NUMBERS], memory[2][WORDS], list[PLACES];
};

static void *play(void *argument)
{
    struct run *r = argument;
    struct sizes sizes = {2, 3, 8 + r->seed % 8, WORDS};
    struct spoiling never = {UINT32_MAX, 0, 0};
    struct lent program = {r->program, NUMBERS};
    struct memory list = {r->list, PLACES};
    r->sums[0] = header_buffer(sizes, CALLS, r->seed, never, 27, false, (struct memory){r->memory[0], WORDS});
    r->sums[1] = header_machine(sizes, CALLS, r->seed, never, 256, program, (struct memory){r->memory[1], WORDS}, list);
    return NULL;
}

// Each run has a program of its own: sums, loads and stores of few words.
static void prepare(struct run *r, uint64_t seed)
{
    memset(r, 0, sizeof *r);
    r->seed = seed;
    for (uint32_t i = 0; i < NUMBERS / 4; i++) {
        uint32_t x = (uint32_t)seed * 7919 + i * 31, *to = r->program + i * 4;
        to[0] = 1 + x % 4;
        to[1] = 1 + x / 4 % 7;
        to[2] = 0;
        to[3] = x / 8 % 8;
    }
}

int main(void)
{
    static struct run alone[2], together[2];
    pthread_t threads[2];
    for (size_t i = 0; i < 2; i++) {
        prepare(&alone[i], 11 + i);
        prepare(&together[i], 11 + i);
        play(&alone[i]);
    }
    for (size_t i = 0; i < 2; i++)
        if (pthread_create(&threads[i], NULL, play, &together[i]))
            return 2;
    for (size_t i = 0; i < 2; i++)
        pthread_join(threads[i], NULL);
    for (size_t i = 0; i < 2; i++)
        if (memcmp(&alone[i], &together[i], sizeof *alone)) {
            printf("thread %zu has other answers or another memory\n", i);
            return 1;
        }
    return 0;
}
