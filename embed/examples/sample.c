// The script sample.arb by calls of the machine: a load goes ahead of the store whose word it wants, is squashed, and is issued
// again. Prints what the script program prints of it.
#include <arb_machine.h>

#include <stdio.h>

enum { WORDS = 8, NUMBERS = 12 };

static const uint32_t program[NUMBERS] = {ARB_ADD, 1, 0, 5, ARB_STORE, 1, 0, 3, ARB_LOAD, 2, 0, 3};
static uint32_t memory[WORDS];
static arb_machine machine;
static unsigned commits;

static arb_refusal commit(void)
{
    arb_committed did;
    arb_refusal why = arb_machine_commit(&machine, program, NUMBERS, memory, WORDS, &did);
    if (why)
        return why;
    if (did.code == ARB_LOAD)
        printf("f,%u,%u\n", did.index, did.distance);
    printf("%u,%c,%u,%u\n", did.index, "?APLSBH"[did.code], did.target, did.value);
    commits++;
    return ARB_DONE;
}

// i issues, a digit executes that position, c commits.
static arb_refusal step(char what)
{
    size_t position;
    arb_machine_outcome out;
    switch (what) {
    case 'i': return arb_machine_issue(&machine, program, NUMBERS, &position);
    case 'c': return commit();
    default: return arb_machine_execute(&machine, program, NUMBERS, (size_t)(what - '0'), memory, WORDS, &out);
    }
}

int main(void)
{
    arb_refusal why = arb_machine_open(&machine, 1, 2, 4, program, NUMBERS, memory, WORDS);
    for (const char *s = "iii201cci0c"; *s && !why; s++)
        why = step(*s);
    if (why) {
        fprintf(stderr, "refused with %d, %s\n", why, arb_reason(why));
        return 1;
    }
    for (unsigned a = 0; a < WORDS; a++)
        if (memory[a])
            printf("m,%u,%u\n", a, memory[a]);
    printf("end,%s,%u\n", machine.table.live == 0 && machine.next == machine.count ? "done" : "open", commits);
}
