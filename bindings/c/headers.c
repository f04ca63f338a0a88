/* What the C compiler makes of the headers: a line for each struct, field, number of the yard and refusal, held against Rust's
 * by a test. */
#include <stdio.h>

#include "dolzhev.h"

#define SIZE(type) printf(#type " %zu %zu\n", sizeof(type), _Alignof(type))
#define NUMBER(name) printf(#name " %d\n", name)
#define FIELD(type, field) printf(#type "." #field " %zu %zu\n", offsetof(type, field), sizeof(((type *)0)->field))

static void board_structs(void)
{
    SIZE(dolzhev_move);
    FIELD(dolzhev_move, number);
    FIELD(dolzhev_move, block);
    FIELD(dolzhev_move, costs);
    SIZE(dolzhev_row);
    FIELD(dolzhev_row, mark);
    FIELD(dolzhev_row, number);
    FIELD(dolzhev_row, costs);
    SIZE(dolzhev_window);
    FIELD(dolzhev_window, start);
    FIELD(dolzhev_window, end);
    SIZE(dolzhev_block_hours);
    FIELD(dolzhev_block_hours, count);
    FIELD(dolzhev_block_hours, windows);
    SIZE(dolzhev_answer);
    FIELD(dolzhev_answer, refusal);
    FIELD(dolzhev_answer, detail);
    FIELD(dolzhev_answer, count);
    FIELD(dolzhev_answer, opened);
}

static void zorder_structs(void)
{
    SIZE(dolzhev_costs);
    SIZE(dolzhev_address_words);
    FIELD(dolzhev_address_words, upper);
    FIELD(dolzhev_address_words, lower);
    SIZE(dolzhev_address_answer);
    FIELD(dolzhev_address_answer, refusal);
    FIELD(dolzhev_address_answer, detail);
    FIELD(dolzhev_address_answer, address);
    SIZE(dolzhev_costs_answer);
    FIELD(dolzhev_costs_answer, refusal);
    FIELD(dolzhev_costs_answer, detail);
    FIELD(dolzhev_costs_answer, costs);
    SIZE(dolzhev_region_answer);
    FIELD(dolzhev_region_answer, refusal);
    FIELD(dolzhev_region_answer, detail);
    FIELD(dolzhev_region_answer, near_corner);
    FIELD(dolzhev_region_answer, far_corner);
    FIELD(dolzhev_region_answer, side);
}

static void numbers(void)
{
    NUMBER(DOLZHEV_BLOCKS);
    NUMBER(DOLZHEV_WINDOWS);
    NUMBER(DOLZHEV_WEEK_MINUTES);
}

static void refusals(void)
{
    for (size_t refusal = DOLZHEV_ACCEPTED; refusal <= DOLZHEV_BAD_HOURS + 1; refusal++)
        printf("%zu %s\n", refusal, dolzhev_refusal_text(refusal));
}

int main(void)
{
    board_structs();
    zorder_structs();
    numbers();
    refusals();
    return 0;
}
