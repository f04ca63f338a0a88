/* A board from C, to start from: load, list, previews and changes on document 01's worked board, what is open at a minute of
 * the week, then addresses and a region.
 * bindings/c/check has the line that compiles it. */
#include <inttypes.h>
#include <stdio.h>

#include "dolzhev.h"

#define SIZE 16
#define D 2

/* Number, block and costs of each move. Costs that are not named are zero, as those past d must be. */
static const dolzhev_move worked[] = {
    {0, 7, {1, 6}}, {1, 7, {3, 7}}, {2, 12, {2, 2}}, {3, 7, {5, 1}}, {4, 7, {6, 2}}, {5, 30, {2, 2}},
};

/* All that a board needs: the caller lends it to every call. */
static uint8_t memory[DOLZHEV_MEMORY_BYTES(SIZE)];
static dolzhev_row rows[DOLZHEV_NOTICE_ROWS(SIZE)];
static const size_t rows_len = sizeof rows / sizeof rows[0];

static void print_rows(size_t count)
{
    static const char *const marks[] = {"listed", "left", "entered"};
    for (size_t i = 0; i < count; i++)
        printf("  %s: move %u (%u, %u)\n", marks[rows[i].mark], rows[i].number, rows[i].costs[0], rows[i].costs[1]);
}

static void print_answer(const char *call, dolzhev_answer answer)
{
    if (answer.refusal != DOLZHEV_ACCEPTED) {
        const char *text = dolzhev_refusal_text(answer.refusal);
        printf("%s: refused with %zu, detail %zu: %s\n", call, answer.refusal, answer.detail, text);
        return;
    }
    printf("%s: accepted, rows told: %zu\n", call, answer.count);
    print_rows(answer.count);
}

/* The answer of a list or a withdrawal, which tell the nodes opened too. */
static void print_opened(const char *call, dolzhev_answer answer)
{
    print_answer(call, answer);
    if (answer.refusal == DOLZHEV_ACCEPTED)
        printf("  nodes opened: %zu\n", answer.opened);
}

static void print_list(void)
{
    print_opened("list", dolzhev_list(memory, sizeof memory, rows, rows_len));
}

/* Block 7 is always open, block 12 from 6:00 to 22:00 of the first day, block 30 from the last day's 22:00 to the first day's
 * 6:00, over the week's end. Blocks without an entry, and those with a count of 0, are shut. */
static const dolzhev_block_hours hours[] = {
    [7] = {2, {{0, 5040}, {5040, 0}}},
    [12] = {1, {{6 * 60, 22 * 60}}},
    [30] = {1, {{(6 * 24 + 22) * 60, 6 * 60}}},
};
static const size_t hours_len = sizeof hours / sizeof hours[0];

static void print_open(const char *call, size_t minute)
{
    print_answer(call, dolzhev_hours(memory, sizeof memory, minute, hours, hours_len, rows, rows_len));
}

/* The list follows by the minute; a move that is shut hides none. */
static void ask_hours(void)
{
    dolzhev_move five = {5, 64, {2, 2}};
    print_open("open on the first day at 5:59", 5 * 60 + 59);
    print_open("open on the first day at 6:00", 6 * 60);
    print_open("open on the first day at 22:00", 22 * 60);
    print_open("open past the week", DOLZHEV_WEEK_MINUTES);
    print_answer("re-cost 5 into block 64", dolzhev_recost(memory, sizeof memory, five, rows, rows_len));
    five.block = 7;
    print_answer("re-cost 5 into block 7, no row lent", dolzhev_recost(memory, sizeof memory, five, rows, 0));
    print_open("open on the first day at 22:00", 22 * 60);
}

/* A driver looks, then takes. What the preview told has not happened: the list is as it was until the move is withdrawn. */
static void look_then_take(void)
{
    print_opened("preview of withdraw 2", dolzhev_preview_withdraw(memory, sizeof memory, 2, rows, rows_len));
    print_list();
    print_opened("withdraw 2", dolzhev_withdraw(memory, sizeof memory, 2, rows, rows_len));
}

/* The other two previews. The list stays as it is again; the one that is lent no row gets 8. */
static void look(void)
{
    dolzhev_move two = {2, 12, {2, 1}}, zero = {0, 7, {9, 9}};
    print_answer("preview of enter 2 (2, 1)", dolzhev_preview_enter(memory, sizeof memory, two, rows, rows_len));
    print_answer("preview of enter 2 (2, 1), no row lent", dolzhev_preview_enter(memory, sizeof memory, two, rows, 0));
    print_answer("preview of re-cost 0 to (9, 9)", dolzhev_preview_recost(memory, sizeof memory, zero, rows, rows_len));
    print_list();
}

static void change(void)
{
    dolzhev_move six = {6, 7, {4, 1}}, one = {1, 7, {0, 1}};
    print_answer("enter 6 (4, 1)", dolzhev_enter(memory, sizeof memory, six, rows, rows_len));
    print_answer("enter 6 again", dolzhev_enter(memory, sizeof memory, six, rows, rows_len));
    print_opened("withdraw 6", dolzhev_withdraw(memory, sizeof memory, 6, rows, rows_len));
    print_opened("withdraw 5", dolzhev_withdraw(memory, sizeof memory, 5, rows, rows_len));
    print_opened("withdraw 3", dolzhev_withdraw(memory, sizeof memory, 3, rows, rows_len));
    print_answer("re-cost 1 to (0, 1), no row lent", dolzhev_recost(memory, sizeof memory, one, rows, 0));
    print_answer("re-cost 1 to (0, 1)", dolzhev_recost(memory, sizeof memory, one, rows, rows_len));
    print_opened("withdraw 4, not listed", dolzhev_withdraw(memory, sizeof memory, 4, rows, rows_len));
}

static void print_address(const char *costs, dolzhev_address_words address)
{
    printf("address of %s: upper word %" PRIu64 ", lower word %" PRIu64 "\n", costs, address.upper, address.lower);
}

static void print_first_address(void)
{
    dolzhev_costs costs = {{1, 6}};
    dolzhev_address_words twelve = {0, 12}, address = dolzhev_address(D, costs).address;
    dolzhev_region_answer region = dolzhev_region(D, twelve, address);
    print_address("(1, 6)", address);
    printf("region of 12 and it: (%u, %u) to (%u, %u), side %zu\n", region.near_corner.costs[0], region.near_corner.costs[1],
           region.far_corner.costs[0], region.far_corner.costs[1], region.side);
}

static void print_long_address(void)
{
    dolzhev_costs costs = {{256, 0, 0, 0, 0, 0, 0, 1}};
    print_address("(256, 0, 0, 0, 0, 0, 0, 1)", dolzhev_address(DOLZHEV_COSTS, costs).address);
}

int main(void)
{
    print_list();
    print_answer("load", dolzhev_load(memory, sizeof memory, SIZE, D, worked, sizeof worked / sizeof worked[0]));
    print_list();
    ask_hours();
    look_then_take();
    look();
    change();
    print_list();
    print_first_address();
    print_long_address();
    return 0;
}
