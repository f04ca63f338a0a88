/* The move board: the moves that no other move dominates, equal ones once, in Z-order. Link libdolzhev.a; where functions of
 * dolzhev_zorder.h, which this header includes, are called, libdolzhev_zorder.a too.
 *
 * The caller lends all memory. No call allocates, waits, or keeps a state of its own (no thread-local either): what a call
 * does depends on its arguments and the lent bytes alone, and each call ends on every content of the lent memory. Calls on
 * different memory may run at the same time; calls on the same memory must not, except that any number of previews and of
 * list, band, rank, on_k, chosen and hours calls may, each with rows of its own. x86-64 only.
 *
 * What is lent
 *   memory   at least 64 * C + 1024 bytes (DOLZHEV_MEMORY_BYTES) for a board of size C, of any alignment. Bytes past these
 *            are never written. Only dolzhev_load, dolzhev_enter, dolzhev_withdraw and dolzhev_recost write it at all, and
 *            only where they are accepted.
 *   rows     a multiple of 2 as address. For a notice or a preview C + 1 rows always suffice (DOLZHEV_NOTICE_ROWS), for a list
 *            C rows do.
 *   hours    a multiple of 2 as address. Only read.
 *   `memory_len` counts bytes, `rows_len` rows, `hours_len` entries. Buffers of one call must not overlap. A pointer whose
 *   length is 0 is not read or written, but must be all the same non-null and aligned (any such address serves); NULL is never
 *   allowed.
 *
 * What is answered
 *   refusal  0 where the call is accepted, else one of DOLZHEV_SHORT_MEMORY to DOLZHEV_BAD_HOURS; dolzhev_refusal_text has it
 *            in words. The checks run in the order given with each call.
 *   detail   of 8 the rows needed; of the 4, 5, 7 and 11 of dolzhev_load the place, from 0, of the first row that fails; of 12
 *            the lowest block with bad hours; else 0.
 *   count    the rows written, at the start of the lent ones. Rows past them are untouched.
 *   opened   of dolzhev_list the nodes opened; of dolzhev_withdraw and its preview those opened while looking for moves to
 *            bring up, 0 if the move was not listed; else 0.
 *   A refused call has count and opened zero and alters no lent byte.
 *   8 is given exactly if more rows are needed than lent.
 *
 * What is sound
 *   Memory that holds a board, each move of it in a block of 0 to 63. Accepted loads and changes leave such memory; every call
 *   but dolzhev_load refuses any other with 3. A load writes the number of the layout into the memory: memory of a version
 *   with another layout has another number, and gets 3.
 *
 * What it takes
 *   stack    at most 12 KB in every call; measured, 10,256 bytes.
 *   time     every call but dolzhev_load judges the whole memory first, and no call remembers what an earlier one saw. On full
 *            boards of 4,096 moves 2.8 ms at most on the drawn boards that were measured with d up to 4, 6.3 ms, a load, on one
 *            made against the search, and 45 ms, on k with d of 8, on a board of one sum (README.md, docs/BENCHMARK.md).
 *   linking  memcpy and memset, and no other function. The archive has no data that can be written. */
#ifndef DOLZHEV_H
#define DOLZHEV_H

#include "dolzhev_zorder.h"

#ifdef __cplusplus
extern "C" {
#endif

#define DOLZHEV_LEAST_SIZE 16
#define DOLZHEV_GREATEST_SIZE 4096
#define DOLZHEV_MEMORY_BYTES(c) (64 * (size_t)(c) + 1024)
#define DOLZHEV_NOTICE_ROWS(c) ((size_t)(c) + 1)
#define DOLZHEV_BLOCKS 64
#define DOLZHEV_WINDOWS 4
#define DOLZHEV_WEEK_MINUTES 10080

/* The marks of told rows. */
enum {
    DOLZHEV_LISTED = 0,
    DOLZHEV_LEFT = 1,
    DOLZHEV_ENTERED = 2
};

/* A move: a number from 0 to C - 1, its yard block, 0 to 63, and its costs, those past d zero. Less is better. */
typedef struct {
    uint16_t number;
    uint16_t block;
    uint16_t costs[DOLZHEV_COSTS];
} dolzhev_move;

/* A row told, without the block. dolzhev_rank puts the number of moves dominated in place of a mark. */
typedef struct {
    uint16_t mark;
    uint16_t number;
    uint16_t costs[DOLZHEV_COSTS];
} dolzhev_row;

/* Minutes of the week, each 0 to 10,079: from start up to end, end not included. An end below the start runs over the week's
 * end, so to the week's end is end 0. Start and end must differ: a whole week takes two windows. */
typedef struct {
    uint16_t start;
    uint16_t end;
} dolzhev_window;

/* The hours of a block: it is open in each of its first `count` windows, 4 at most, and without one shut. Windows past the
 * count are not looked at. */
typedef struct {
    uint16_t count;
    dolzhev_window windows[DOLZHEV_WINDOWS];
} dolzhev_block_hours;

typedef struct {
    size_t refusal;
    size_t detail;
    size_t count;
    size_t opened;
} dolzhev_answer;

DOLZHEV_HOLDS(sizeof(dolzhev_move) == 20, "ten numbers of two bytes");
DOLZHEV_HOLDS(sizeof(dolzhev_row) == 20, "ten numbers of two bytes");
DOLZHEV_HOLDS(sizeof(dolzhev_window) == 4, "two numbers of two bytes");
DOLZHEV_HOLDS(sizeof(dolzhev_block_hours) == 18, "nine numbers of two bytes");
DOLZHEV_HOLDS(sizeof(dolzhev_answer) == 32, "four words");

/* Overwrites what the memory held with a board of size c (16 to 4,096) and d costs (2 to 8) that holds the rows; none is
 * allowed.
 * Refusals, in order: 2 if c or d is out of range, 1 if the memory is under 64 * c + 1024 bytes; then the rows in turn, each
 * for 4 (number at or above c), 11 (block above 63), 7 (a cost past d not zero), 5 (number in an earlier row). */
dolzhev_answer dolzhev_load(uint8_t *memory, size_t memory_len, size_t c, size_t d, const dolzhev_move *rows,
                            size_t rows_len);

/* The three changes. Each writes the notice: first the rows that leave the list (mark 1), then those that enter it (mark 2),
 * each part in Z-order. Who holds the list, takes out the former and puts in the latter, holds the new list. Notices concern
 * the whole board, whatever blocks are open, and no change gives another move than its own a block. */

/* Adds a move, in its block.
 * Refusals, in order: 3 if the memory is not sound, 4 if the number is at or above C, 11 if the block is above 63, 7 if a cost
 * past d is not zero, 5 if the number is on the board, 8. */
dolzhev_answer dolzhev_enter(uint8_t *memory, size_t memory_len, dolzhev_move move, dolzhev_row *rows, size_t rows_len);

/* Takes the move of that number away. `opened` is the number of nodes opened while looking for moves to bring up, counted on
 * the tree before: 0 if the move was not listed, else the nodes whose far corner it dominates or equals and whose near corner
 * no other listed move dominates.
 * Refusals, in order: 3 if the memory is not sound, 4 if the number is at or above C, 6 if the number is not on the board,
 * 8. */
dolzhev_answer dolzhev_withdraw(uint8_t *memory, size_t memory_len, uint16_t number, dolzhev_row *rows, size_t rows_len);

/* Gives the move of that number the costs and the block. Costs equal to the old ones are accepted and need no row: then the
 * block alone changes, by its one byte, and with an equal block nothing does.
 * Refusals, in order: 3 if the memory is not sound, 4 if the number is at or above C, 11 if the block is above 63, 7 if a cost
 * past d is not zero, 6 if the number is not on the board, 8. */
dolzhev_answer dolzhev_recost(uint8_t *memory, size_t memory_len, dolzhev_move move, dolzhev_row *rows, size_t rows_len);

/* The previews: a look at a change before it is made. Each answers as its change would with the same arguments on a copy of
 * the memory: the same refusal, detail, count, opened and rows, 8 by the rows lent to the preview itself. The memory is only
 * read: every byte of it stays, and the change, if it is made next with as many rows, answers the same.
 * The rows are marked like those of a notice, first 1 where a row would leave the list, then 2 where one would enter it. But
 * they tell of no change made and are no notice: who holds the list passes them by. */

/* What dolzhev_enter would do.
 * Refusals: those of dolzhev_enter, in its order. */
dolzhev_answer dolzhev_preview_enter(const uint8_t *memory, size_t memory_len, dolzhev_move move, dolzhev_row *rows,
                                     size_t rows_len);

/* What dolzhev_withdraw would do, with the nodes that it would open.
 * Refusals: those of dolzhev_withdraw, in its order. */
dolzhev_answer dolzhev_preview_withdraw(const uint8_t *memory, size_t memory_len, uint16_t number, dolzhev_row *rows,
                                        size_t rows_len);

/* What dolzhev_recost would do. With costs equal to the old ones that is accepted and needs no row.
 * Refusals: those of dolzhev_recost, in its order. */
dolzhev_answer dolzhev_preview_recost(const uint8_t *memory, size_t memory_len, dolzhev_move move, dolzhev_row *rows,
                                      size_t rows_len);

/* The lists. Each writes rows with mark 0, in Z-order, but for dolzhev_rank. None but dolzhev_hours looks at blocks. */

/* The moves that no move dominates, of those with equal costs the one of lowest number alone; `opened` is the number of nodes
 * whose near corner no move dominates.
 * Refusals, in order: 3 if the memory is not sound, 8. */
dolzhev_answer dolzhev_list(const uint8_t *memory, size_t memory_len, dolzhev_row *rows, size_t rows_len);

/* The moves that b others or fewer dominate, b from 0 to 4,095, all of those with equal costs.
 * Refusals, in order: 3 if the memory is not sound, 7 if b is out of range, 8. */
dolzhev_answer dolzhev_band(const uint8_t *memory, size_t memory_len, size_t b, dolzhev_row *rows, size_t rows_len);

/* Of the listed moves the first t by number of moves dominated, most first, ties in Z-order; fewer if the list is shorter. t
 * is from 1 to 4,096. `mark` is the number of moves dominated.
 * Refusals, in order: 3 if the memory is not sound, 7 if t is out of range, 8. */
dolzhev_answer dolzhev_rank(const uint8_t *memory, size_t memory_len, size_t t, dolzhev_row *rows, size_t rows_len);

/* The moves that no move dominates on k of the costs, k from 1 to d.
 * Refusals, in order: 3 if the memory is not sound, 7 if k is out of range, 8. */
dolzhev_answer dolzhev_on_k(const uint8_t *memory, size_t memory_len, size_t k, dolzhev_row *rows, size_t rows_len);

/* The moves that no move dominates on the chosen costs: bit i of the set stands for cost i.
 * Refusals, in order: 3 if the memory is not sound, 7 if the set is empty or has a bit past cost d - 1, 8. */
dolzhev_answer dolzhev_chosen(const uint8_t *memory, size_t memory_len, size_t set, dolzhev_row *rows, size_t rows_len);

/* The list worked out over the moves in open blocks only: those that no move in an open block dominates, of those with equal
 * costs the one of lowest number alone. A move in a shut block is not shown and hides none. The minute is one of the week, 0
 * to 10,079. hours[k] is the entry of block k; a block past hours_len is shut, entries past the 64th are not looked at.
 * Refusals, in order: 3 if the memory is not sound, 7 if the minute is above 10,079, 12 if an entry has a count above 4 or, in
 * a window that it counts, a start equal to its end or either above 10,079 (detail: the lowest such block, whether a move lies
 * in it or not), 8. */
dolzhev_answer dolzhev_hours(const uint8_t *memory, size_t memory_len, size_t minute, const dolzhev_block_hours *hours,
                             size_t hours_len, dolzhev_row *rows, size_t rows_len);

#ifdef __cplusplus
}
#endif

#endif
