/* Addresses and regions in Z-order, without the board: link libdolzhev_zorder.a.
 *
 * No function here reads or writes memory of the caller's, allocates, blocks, or keeps a state of its own (no thread-local
 * either): each may be called from any thread at any time, and each ends. x86-64 only.
 *
 * d is the number of costs, 2 to 8. Costs past d are zero. An address has 16 groups of d bits, highest group first; in the
 * group for bit j of the costs, bit j of cost i stands before that of cost i + 1. It is given in two words.
 *
 * `refusal` is 0 where the call is accepted; else every other field is zero. */
#ifndef DOLZHEV_ZORDER_H
#define DOLZHEV_ZORDER_H

#include <stddef.h>
#include <stdint.h>

#ifdef __cplusplus
extern "C" {
#define DOLZHEV_HOLDS(condition, why) static_assert(condition, why)
#else
#define DOLZHEV_HOLDS(condition, why) _Static_assert(condition, why)
#endif

/* The refusals of both headers. */
enum {
    DOLZHEV_ACCEPTED = 0,
    DOLZHEV_SHORT_MEMORY = 1,
    DOLZHEV_OUT_OF_RANGE = 2,
    DOLZHEV_UNSOUND = 3,
    DOLZHEV_NUMBER_TOO_LARGE = 4,
    DOLZHEV_NUMBER_TWICE = 5,
    DOLZHEV_NUMBER_ABSENT = 6,
    DOLZHEV_BAD_ARGUMENT = 7,
    DOLZHEV_FEW_ROWS = 8,
    DOLZHEV_BLOCK_TOO_LARGE = 11,
    DOLZHEV_BAD_HOURS = 12
};

/* A refusal in words. */
static inline const char *dolzhev_refusal_text(size_t refusal)
{
    switch (refusal) {
    case DOLZHEV_ACCEPTED: return "accepted";
    case DOLZHEV_SHORT_MEMORY: return "the memory is too short";
    case DOLZHEV_OUT_OF_RANGE: return "the board's size or the number of costs is out of range";
    case DOLZHEV_UNSOUND: return "the memory is not sound";
    case DOLZHEV_NUMBER_TOO_LARGE: return "the number is at or above the board's size";
    case DOLZHEV_NUMBER_TWICE: return "the number is taken";
    case DOLZHEV_NUMBER_ABSENT: return "the number is not on the board";
    case DOLZHEV_BAD_ARGUMENT: return "a cost past d is not zero, or an argument is out of range";
    case DOLZHEV_FEW_ROWS: return "more rows are needed than lent";
    case DOLZHEV_BLOCK_TOO_LARGE: return "the block is above 63";
    case DOLZHEV_BAD_HOURS: return "a block's hours have a fifth window, a start equal to its end, or a minute past the week";
    default: return "no refusal has this number";
    }
}

/* The costs of a row, whatever d is. */
#define DOLZHEV_COSTS 8

/* A row's costs by value, those past d zero. Less is better. */
typedef struct {
    uint16_t costs[DOLZHEV_COSTS];
} dolzhev_costs;

/* An address: upper * 2^64 + lower. For d up to 4 the upper word is 0. */
typedef struct {
    uint64_t upper;
    uint64_t lower;
} dolzhev_address_words;

/* Each answer: 0 or the refusal, its detail (always 0 here), and what is told, zero where refused. */
typedef struct {
    size_t refusal;
    size_t detail;
    dolzhev_address_words address;
} dolzhev_address_answer;

typedef struct {
    size_t refusal;
    size_t detail;
    dolzhev_costs costs;
} dolzhev_costs_answer;

typedef struct {
    size_t refusal;
    size_t detail;
    dolzhev_costs near_corner;
    dolzhev_costs far_corner;
    size_t side;
} dolzhev_region_answer;

DOLZHEV_HOLDS(sizeof(size_t) == 8, "x86-64");
DOLZHEV_HOLDS(sizeof(dolzhev_costs) == 16, "eight costs of two bytes");
DOLZHEV_HOLDS(sizeof(dolzhev_address_words) == 16, "two words");
DOLZHEV_HOLDS(sizeof(dolzhev_address_answer) == 32, "four words");
DOLZHEV_HOLDS(sizeof(dolzhev_costs_answer) == 32, "four words");
DOLZHEV_HOLDS(sizeof(dolzhev_region_answer) == 56, "seven words");

/* The address of the first d costs.
 * Refusals, in order: 2 if d is out of range, 7 if a cost past d is not zero. */
dolzhev_address_answer dolzhev_address(size_t d, dolzhev_costs costs);

/* The d costs of an address, and zeros past them.
 * Refusals, in order: 2 if d is out of range, 7 if the address is 2 to the power 16 * d or more: for d up to 4 that is every
 * upper word but 0, for d of 8 no address. */
dolzhev_costs_answer dolzhev_costs_of(size_t d, dolzhev_address_words address);

/* The region of the addresses a <= b: it keeps the longest run of leading groups in which both agree; the near corner fills
 * the remaining bits with 0, the far corner with 1. Its side is 2 to the number of groups not kept.
 * Refusals, in order: 2 if d is out of range, 7 if either address is 2 to the power 16 * d or more, 7 if a > b. */
dolzhev_region_answer dolzhev_region(size_t d, dolzhev_address_words a, dolzhev_address_words b);

#ifdef __cplusplus
}
#endif

#endif
