/* Runs a set text by a given schedule and prints how the run ends.
 *
 *   cc -I include -o run_schedule examples/c/run_schedule.c target/staticlib/libdeepchalk.a
 *   ./run_schedule examples/litmus/intel-03.txt 0 0 f0 1 1 1
 *
 * A choice is a thread's number, or f and the number for its flush. Exits with 0 if the schedule runs,
 * with 1 on a refusal and with 2 if the file or a choice cannot be read. */
#include "deepchalk.h"

#include <stdio.h>
#include <stdlib.h>

enum { MAX_TEXT = 16384, MAX_STATEMENTS = 128, MAX_CELLS = 128, MAX_STEPS = 64 };

static uint8_t text[MAX_TEXT + 1]; /* one byte more: a text that is too long is refused */
static uint8_t set[MAX_STATEMENTS * 8];
static uint8_t map[MAX_CELLS * 4];
static uint8_t schedule[MAX_STEPS + 1]; /* likewise */
static uint8_t trace[MAX_STEPS * 24];

static int fails(const char *message, const char *what)
{
    fprintf(stderr, "%s: %s\n", what, message);
    return 2;
}

static int refused(const char *call, uint64_t answer)
{
    fprintf(stderr, "%s refused: number %u, place %lu\n", call, deepchalk_number(answer),
            (unsigned long)deepchalk_place(answer));
    return 1;
}

/* The schedule byte of a choice, or -1. */
static int choice(const char *word)
{
    int flush = word[0] == 'f';
    const char *digit = word + flush;
    if (digit[0] < '0' || digit[0] > '3' || digit[1] != '\0')
        return -1;
    return (digit[0] - '0') + (flush ? 128 : 0);
}

static void print_end(uint64_t answer)
{
    printf("%u steps, ", (unsigned)deepchalk_steps(answer));
    switch (deepchalk_end(answer)) {
    case DEEPCHALK_CODE:
        printf("end %u\n", (unsigned)deepchalk_code(answer));
        break;
    case DEEPCHALK_STUCK:
        printf("stuck\n");
        break;
    default:
        printf("open\n");
    }
}

int main(int argc, char **argv)
{
    if (argc < 2)
        return fails("a set text and choices are wanted", argv[0]);

    FILE *file = fopen(argv[1], "rb");
    if (file == NULL)
        return fails("cannot be opened", argv[1]);
    size_t text_len = fread(text, 1, sizeof text, file);
    int unread = ferror(file);
    fclose(file);
    if (unread)
        return fails("cannot be read", argv[1]);

    size_t steps = 0;
    for (int at = 2; at < argc && steps < sizeof schedule; at++) {
        int byte = choice(argv[at]);
        if (byte < 0)
            return fails("is no choice", argv[at]);
        schedule[steps++] = (uint8_t)byte;
    }

    uint64_t answer = deepchalk_read(text, text_len, set, sizeof set, map, sizeof map);
    if (deepchalk_number(answer) != 0)
        return refused("reading", answer);
    size_t set_len = 8 * (size_t)deepchalk_statements(answer);
    size_t map_len = 4 * (size_t)deepchalk_cells(answer);

    answer = deepchalk_simulate(set, set_len, map, map_len, schedule, steps, trace, sizeof trace);
    if (deepchalk_number(answer) != 0)
        return refused("simulation", answer);
    print_end(answer);
    return EXIT_SUCCESS;
}
