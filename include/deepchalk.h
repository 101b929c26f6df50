/* Deepchalk's proved calls for C: reading a set text, simulation by a given schedule, replay of a
 * trace, the formula table of a set, a map and a bound, and the check and decoding of its models.
 * Link libdeepchalk.a. Numbers, records and steps are those of document 01; multi-byte fields are
 * little-endian.
 *
 * Buffers are passed as a pointer and a length in bytes. A pointer must not be null, also where its
 * length is 0. Inputs of any length and content are taken. Buffers must not overlap an output.
 *
 *   text      a set text, at most 16,384 bytes
 *   set       statement records, 8 bytes each: thread, instruction number, mode (1 indirect), 0,
 *             argument (2), pc (2)
 *   map       at most 256 cells, 128 from a text or for a table, 4 bytes each: address (2), value
 *             (2); addresses strictly ascend
 *   schedule  a byte for each step, at most 64: t executes thread t, 128 + t flushes it
 *   trace     24 bytes for each step, at most 64
 *   table     formula records, 16 bytes each: operation, sort, constant (2), operands a, b, c (4
 *             each); docs/TABLE.md has their order
 *   model     for each step of the bound a byte of 0 or 1 for each thread's execute, then for each
 *             thread's flush; then at most 256 cells as in a map, those not listed being 0
 *   work      32 bytes for each record of the table
 */
#ifndef DEEPCHALK_H
#define DEEPCHALK_H

#include <stddef.h>
#include <stdint.h>

#ifdef __cplusplus
extern "C" {
#endif

/* Refusals that these calls return. Place is the line, from 1, for 2 and 3, the step, from 0, for 12
 * to 14, the record, from 0, for 16, else 0. */
enum {
    DEEPCHALK_TEXT_LENGTH = 1,    /* text above 16,384 bytes */
    DEEPCHALK_MALFORMED = 2,      /* line malformed or forbidden byte */
    DEEPCHALK_NUMBER = 3,         /* number above 65,535 */
    DEEPCHALK_THREADS = 4,        /* threads not 1 to 4 */
    DEEPCHALK_STATEMENTS = 5,     /* a thread's statements not 1 to 32 */
    DEEPCHALK_LABEL = 6,          /* label doubled, unknown, or target beyond the last statement */
    DEEPCHALK_CHECKPOINTS = 7,    /* more than 8 different checkpoints */
    DEEPCHALK_MAP = 8,            /* map address doubled, or above 128 cells */
    DEEPCHALK_RECORDS = 9,        /* statement or map records not as document 01 has them */
    DEEPCHALK_BOUND = 10,         /* bound not 1 to 64 */
    DEEPCHALK_ROOM = 11,          /* lent output or work memory too short */
    DEEPCHALK_NOT_PERMITTED = 12, /* choice not permitted, or machine has exited */
    DEEPCHALK_DIFFERS = 13,       /* trace field differs */
    DEEPCHALK_LACKS_CELL = 14,    /* first cell read that the map lacks */
    DEEPCHALK_MODEL = 15,         /* model not as document 01 has it */
    DEEPCHALK_NOT_SATISFIED = 16, /* first constraint or goal that is 0 */
    DEEPCHALK_LENGTH = 17         /* schedule or trace above 64 steps, or trace not whole records */
};

/* How a run ended. */
enum {
    DEEPCHALK_CODE = 0,  /* by a code */
    DEEPCHALK_STUCK = 1, /* not ended, and no choice is permitted */
    DEEPCHALK_OPEN = 2   /* not ended, and some choice is permitted */
};

/* Reads the text and writes its statement records to the front of `set` and its map records to the
 * front of `map`.
 * Checks in order: 1, then 2 and 3 in each line, then 4 to 8, 11 (8 bytes for each statement in
 * `set`, 4 for each cell in `map`).
 * A refusal leaves every byte of `set` and `map` as it was, a success those beyond the records. */
uint64_t deepchalk_read(const uint8_t *text, size_t text_len,
                        uint8_t *set, size_t set_len,
                        uint8_t *map, size_t map_len);

/* Runs the schedule over the set and the map and writes its trace to the front of `trace`.
 * Checks in order: 9, 17, 11 (24 bytes for each schedule byte), then 12 and 14 in each step.
 * A refusal leaves every byte of `trace` as it was, a success those beyond the steps. */
uint64_t deepchalk_simulate(const uint8_t *set, size_t set_len,
                            const uint8_t *map, size_t map_len,
                            const uint8_t *schedule, size_t schedule_len,
                            uint8_t *trace, size_t trace_len);

/* Compares the trace, step by step, with the run that its choices make over the set and the map.
 * Checks in order: 9, 17, then 12, 13 and 14 in each step. */
uint64_t deepchalk_replay(const uint8_t *set, size_t set_len,
                          const uint8_t *map, size_t map_len,
                          const uint8_t *trace, size_t trace_len);

/* How many records the table of the set, the map and the bound has.
 * Checks in order: 9, 10. */
uint64_t deepchalk_table_size(const uint8_t *set, size_t set_len,
                              const uint8_t *map, size_t map_len,
                              uint64_t bound);

/* Writes the table of the set, the map and the bound to the front of `table`.
 * Checks in order: 9, 10, 11 (16 bytes for each record).
 * A refusal leaves every byte of `table` as it was, a success those beyond the records. */
uint64_t deepchalk_encode(const uint8_t *set, size_t set_len,
                          const uint8_t *map, size_t map_len,
                          uint64_t bound,
                          uint8_t *table, size_t table_len);

/* Whether the model satisfies the table of the set, the map and the bound.
 * Checks in order: 9, 10, 15, 11 (32 bytes for each record in `work`), 16.
 * A refusal other than 16 leaves every byte of `work` as it was; else all of them are 0. */
uint64_t deepchalk_check(const uint8_t *set, size_t set_len,
                         const uint8_t *map, size_t map_len,
                         uint64_t bound,
                         const uint8_t *model, size_t model_len,
                         uint8_t *work, size_t work_len);

/* Writes the trace of the model's run to the front of `trace` and the map that it replays over, the
 * set's cells and every first cell read, to the front of `decoded_map`.
 * Checks in order: 9, 10, 15, 11 (32 bytes for each record in `work`, 24 bytes for each step of the
 * bound in `trace`, 1,024 bytes in `decoded_map`), 16.
 * A refusal leaves every byte of `trace` and `decoded_map` as it was, a success those beyond the
 * answer. `work` is as in deepchalk_check. */
uint64_t deepchalk_decode(const uint8_t *set, size_t set_len,
                          const uint8_t *map, size_t map_len,
                          uint64_t bound,
                          const uint8_t *model, size_t model_len,
                          uint8_t *work, size_t work_len,
                          uint8_t *trace, size_t trace_len,
                          uint8_t *decoded_map, size_t decoded_map_len);

/* The answer's parts. The number is 0 on success; end, code and steps are then the run's, statements
 * and cells those of the text, records those of the table, decoded cells those of the decoded map. On
 * a refusal the place goes with the number, and the others are 0. */

static inline unsigned deepchalk_number(uint64_t answer) { return (unsigned)(answer & 0xff); }

/* 0 on success. */
static inline uint32_t deepchalk_place(uint64_t answer)
{
    return deepchalk_number(answer) == 0 ? 0 : (uint32_t)(answer >> 32);
}

static inline unsigned deepchalk_end(uint64_t answer) { return (unsigned)(answer >> 8 & 0xff); }

static inline uint16_t deepchalk_code(uint64_t answer) { return (uint16_t)(answer >> 16 & 0xffff); }

/* 0 on a refusal. */
static inline uint16_t deepchalk_steps(uint64_t answer)
{
    return deepchalk_number(answer) == 0 ? (uint16_t)(answer >> 32 & 0xffff) : 0;
}

/* Of the text that was read; 0 on a refusal. */
static inline uint16_t deepchalk_statements(uint64_t answer) { return (uint16_t)(answer >> 16 & 0xffff); }

/* Of the text that was read; 0 on a refusal. */
static inline uint16_t deepchalk_cells(uint64_t answer) { return deepchalk_steps(answer); }

/* Of the decoded map; 0 on a refusal. */
static inline uint16_t deepchalk_decoded_cells(uint64_t answer)
{
    return deepchalk_number(answer) == 0 ? (uint16_t)(answer >> 48) : 0;
}

/* Of the table; 0 on a refusal. */
static inline uint32_t deepchalk_records(uint64_t answer)
{
    return deepchalk_number(answer) == 0 ? (uint32_t)(answer >> 32) : 0;
}

#ifdef __cplusplus
}
#endif

#endif
