// The times of the mixes in Rattle and in C, and of Rattle's calls through the headers of embed/. A round is one run of a
// mix in each of two; the least time of many rounds counts. Exit status 1: a checksum, a memory or a list differed.
#include "both.h"

#include <stdio.h>

// After the lines without part stores come those with them, of sixteen stages, then those in falling order, and then
// those through the headers, of sixteen stages too.
enum { WORDS = 96, SECONDS = 30, PLAIN = 18, DRAWN = 27, WITHIN = 31, LINES = 40 };

// A line of the table: a job, and the least time of a round in each.
struct line {
    struct job job;
    double c, r;
};

static int differences;

// Rounds of every line in turn for SECONDS, so that what else the machine does meets all lines alike.
static void measure(struct line *lines)
{
    double stop = now() + SECONDS * 1e9;
    while (now() < stop)
        for (struct line *line = lines; line < lines + LINES; line++) {
            write_program(line->job.numbers / 4, line->job.seed, line->job.parts, 0);
            fill_both(0);
            for (int round = 0; round < 4; round++) {
                double c, r;
                differences += !play_both(&line->job, &c, &r);
                line->c = c < line->c ? c : line->c;
                line->r = r < line->r ? r : line->r;
            }
        }
}

static void print(const struct line *line)
{
    const struct job *j = &line->job;
    double calls = j->mix == FINISH ? j->numbers / 4 : j->calls;
    printf("%-16s %3zu %5zux%zu %12.0f %12.0f %8.1f\n", mix_name(j->mix, j->parts, j->falling), j->sizes.stages,
           j->sizes.banks, j->sizes.rows, line->c / calls, line->r / calls, line->r / line->c);
}

// A line through the headers, beside C and beside the same line within Rattle.
static void print_header(const struct line *line, const struct line *within)
{
    const struct job *j = &line->job;
    double calls = j->mix == FINISH ? j->numbers / 4 : j->calls;
    printf("%-16s %3zu %5zux%zu %12.0f %12.0f %8.1f %12.0f %8.2f\n", mix_name(j->mix, j->parts, j->falling),
           j->sizes.stages, j->sizes.banks, j->sizes.rows, line->c / calls, line->r / calls, line->r / line->c,
           within->r / calls, line->r / within->r);
}

int main(void)
{
    static const struct sizes tables[] = {{1, 1, 0, WORDS}, {1, 8, 0, WORDS}, {8, 8, 0, WORDS}};
    // few rows, so that executions find none free
    static const struct sizes few[] = {{1, 2, 4, WORDS}, {1, 1, 16, WORDS}, {1, 2, 16, WORDS}, {1, 4, 16, WORDS}};
    struct line lines[LINES];
    for (size_t i = 0; i < LINES; i++) {
        bool header = i >= WITHIN, falling = i >= DRAWN && !header, parts = i >= PLAIN && i < DRAWN;
        struct job j = {.parts = parts, .falling = falling, .header = header, .seed = 11, .spoiling.when = NEVER};
        j.mix = header ? (i - WITHIN) / 3 : falling ? BUFFER : parts ? (i - PLAIN) / 3 : i / 6;
        j.sizes = falling ? few[i - DRAWN] : tables[header ? (i - WITHIN) % 3 : i % 3];
        if (!falling)
            j.sizes.stages = header || parts || i / 3 % 2 ? 16 : 4;
        j.calls = j.mix == FINISH ? 0 : 1000;
        j.limit = j.mix == FINISH ? 256 : 0;
        j.length = WORDS;
        j.numbers = (j.mix == FINISH ? 256 : 64) * 4;
        j.places = 256 * PER_COMMIT;
        lines[i] = (struct line){j, 1e18, 1e18};
    }
    measure(lines);
    printf("%-16s %3s %7s %12s %12s %8s\n", "mix", "n", "B x R", "C, ns", "Rattle, ns", "ratio");
    for (size_t i = 0; i < WITHIN; i++)
        print(&lines[i]);
    printf("%-16s %3s %7s %12s %12s %8s %12s %8s\n", "through embed/", "n", "B x R", "C, ns", "header, ns", "ratio",
           "Rattle, ns", "ratio");
    for (size_t i = WITHIN; i < LINES; i++) {
        size_t mix = (i - WITHIN) / 3, size = (i - WITHIN) % 3;
        print_header(&lines[i], &lines[mix * 6 + 3 + size]);
    }
    if (differences)
        fprintf(stderr, "%d rounds in which C and Rattle differ\n", differences);
    return differences != 0;
}
