/* A C program over include/deepchalk.h; tests/header.rs compiles it and compares what it prints. */
#include "deepchalk.h"

#include <stdio.h>

static void print(uint64_t answer)
{
    printf("%u %u %u %u %u\n", deepchalk_number(answer), (unsigned)deepchalk_place(answer),
           deepchalk_end(answer), (unsigned)deepchalk_code(answer), (unsigned)deepchalk_steps(answer));
}

static void print_read(uint64_t answer)
{
    printf("%u %u %u %u\n", deepchalk_number(answer), (unsigned)deepchalk_place(answer),
           (unsigned)deepchalk_statements(answer), (unsigned)deepchalk_cells(answer));
}

/* The texts of a set with a map of two cells and of one whose third line is malformed. */
static void read_texts(void)
{
    const uint8_t text[] = "loop: JMP loop\n.\nADDI 1\n.\n9 1\n3 2\n";
    const uint8_t malformed[] = "HALT\n.\n1 2 3\n";
    uint8_t set[24], map[8];
    print_read(deepchalk_read(text, sizeof text - 1, set, 24, map, 8));
    printf("%u %u %u %u\n", (unsigned)set[1], (unsigned)set[17], (unsigned)map[0], (unsigned)map[4]);
    print_read(deepchalk_read(text, sizeof text - 1, set, 24, map, 7));
    print_read(deepchalk_read(malformed, sizeof malformed - 1, set, 24, map, 8));
}

static void print_table(uint64_t answer)
{
    printf("%u %u\n", deepchalk_number(answer), (unsigned)deepchalk_records(answer));
}

/* The table of EXIT 1 for K 1, whose last record is the goal. */
static void encode_table(void)
{
    const uint8_t set[8] = {0, 18, 0, 0, 1, 0, 0, 0};
    uint8_t table[512] = {0};
    const uint8_t *map = table; /* not read: its length is 0 */
    uint64_t size = deepchalk_table_size(set, 8, map, 0, 1);
    print_table(size);
    print_table(deepchalk_table_size(set, 8, map, 0, 65));
    print_table(deepchalk_encode(set, 8, map, 0, 1, table, 512));
    printf("%u\n", (unsigned)table[16 * (deepchalk_records(size) - 1)]);
    print_table(deepchalk_encode(set, 8, map, 0, 1, table, 16 * deepchalk_records(size) - 1));
}

/* LOAD 5, EXIT 1 for K 2, whose run reads cell 5, and its model. */
static const uint8_t models_set[16] = {0, 0, 0, 0, 5, 0, 0, 0, 0, 18, 0, 0, 1, 0, 1, 0};
static uint8_t model[8] = {1, 0, 1, 0, 5, 0, 9, 0};
static uint8_t work[4096];

static uint64_t check_model(void)
{
    const uint8_t *map = model; /* not read: its length is 0 */
    return deepchalk_check(models_set, 16, map, 0, 2, model, 8, work, sizeof work);
}

static void print_check(uint64_t answer)
{
    printf("%u %u\n", deepchalk_number(answer), (unsigned)deepchalk_place(answer));
}

static void decode_model(size_t trace_len)
{
    const uint8_t *map = model; /* not read: its length is 0 */
    uint8_t trace[48] = {0}, decoded_map[1024] = {0};
    uint64_t answer = deepchalk_decode(models_set, 16, map, 0, 2, model, 8, work, sizeof work,
                                       trace, trace_len, decoded_map, 1024);
    printf("%u %u %u\n", deepchalk_number(answer), (unsigned)deepchalk_steps(answer),
           (unsigned)deepchalk_decoded_cells(answer));
    printf("%u %u %u %u\n", (unsigned)trace[24 + 1], (unsigned)trace[24 + 8], (unsigned)decoded_map[0],
           (unsigned)decoded_map[2]);
}

int main(void)
{
    read_texts();
    encode_table();
    print_check(check_model());
    decode_model(48);
    decode_model(47);
    /* The run stops after its LOAD; then a byte is no bit. */
    model[2] = 0;
    print_check(check_model());
    model[0] = 2;
    print_check(check_model());

    /* Sample 4: threads (JMP 0) and (ADDI 1, EXIT 3), schedule 1, 0, 1. */
    const uint8_t set[24] = {0, 9, 0, 0, 0, 0, 0, 0, 1, 4, 0, 0, 1, 0, 0, 0, 1, 18, 0, 0, 3, 0, 1, 0};
    const uint8_t schedule[4] = {1, 0, 1, 0};
    uint8_t trace[96] = {0};
    const uint8_t *map = trace; /* not read: its length is 0 */
    uint64_t answer = deepchalk_simulate(set, 24, map, 0, schedule, 3, trace, 96);
    print(answer);
    print(deepchalk_replay(set, 24, map, 0, trace, 72));
    print(deepchalk_replay(set, 24, map, 0, trace, 48));
    print(deepchalk_simulate(set, 24, map, 0, schedule, 4, trace, 96));
    print(deepchalk_simulate(set, 24, map, 0, schedule, 4, trace, 95));
    print(deepchalk_replay(set, 24, map, 0, trace, 71));
    trace[47] = 1;
    print(deepchalk_replay(set, 24, map, 0, trace, 72));
    return deepchalk_end(answer) == DEEPCHALK_CODE ? 0 : 1;
}
