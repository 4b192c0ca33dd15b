/*
 * What a mark can cost. From the plan alone: for each level that can be refined the most cells that
 * a mark of it refines, and for some marks the cells that can be among these. Then the marks are
 * refined one after the other, and what became refined is compared. The output is to be that of
 * cost.expected.
 */
#include <stdio.h>

#include "wallmirror.h"

enum { MOST_WINDOWS = 8 }; /* one for each level, of which there are at most 8 */

/* The cells of a level that a mark can reach: a rectangle, with its first row and column and those
 * where it has ended. */
struct window {
    uint32_t level, first_row, end_row, first_column, end_column;
};

static const WallmirrorPlan plan = WALLMIRROR_PLAN(8, 1, 5, 1, 1, 2);
static uint8_t cells[WALLMIRROR_MAX_CELLS], functions[WALLMIRROR_MAX_FUNCTIONS];
static uint32_t cell_list[WALLMIRROR_MAX_CELLS], function_list[WALLMIRROR_MAX_FUNCTIONS];
static size_t t, f;

/* How many levels besides its own a mark of this level can reach. */
static uint32_t levels_reached(uint32_t level)
{
    return plan.admissibility_class == 0 ? 0 : level / (plan.admissibility_class - 1);
}

/* The most cells that a mark of this level refines, itself included. */
static uint32_t most_refined(uint32_t level)
{
    return 1 + levels_reached(level) * (2 * plan.degree_across + 1) * (2 * plan.degree_up + 1);
}

/* Of the numbers below end, those that are at most radius from middle: the first, and the one after
 * the last. */
static void around(uint32_t middle, uint32_t radius, uint32_t end, uint32_t *first, uint32_t *past)
{
    *first = middle < radius ? 0 : middle - radius;
    *past = middle + radius < end ? middle + radius + 1 : end;
}

/* The cells of this level that are at most so many rows and columns from the ancestor there of the
 * cell at a place. */
static struct window window_of(WallmirrorPlace at, uint32_t level, uint32_t rows, uint32_t columns)
{
    WallmirrorLevel fine = wallmirror_level(plan, at.level), coarse = wallmirror_level(plan, level);
    /* so many rows and columns of the finer level lie in one of the coarser */
    uint32_t rows_in_it = fine.rows / coarse.rows, columns_in_it = fine.columns / coarse.columns;
    struct window window;
    window.level = level;
    around(at.row / rows_in_it, rows, coarse.rows, &window.first_row, &window.end_row);
    around(at.column / columns_in_it, columns, coarse.columns, &window.first_column,
           &window.end_column);
    return window;
}

/* All windows of a mark; answers how many there are. The first has the mark alone. */
static uint32_t reach(WallmirrorPlace at, struct window windows[MOST_WINDOWS])
{
    uint32_t many = levels_reached(at.level), i;
    windows[0] = window_of(at, at.level, 0, 0);
    for (i = 1; i <= many; i++)
        windows[i] = window_of(at, at.level - i * (plan.admissibility_class - 1), plan.degree_up,
                               plan.degree_across);
    return 1 + many;
}

static int contains(const struct window *window, WallmirrorPlace at)
{
    return at.level == window->level &&
           window->first_row <= at.row && at.row < window->end_row &&
           window->first_column <= at.column && at.column < window->end_column;
}

static void print_reach(uint32_t mark, WallmirrorPlace at, const struct window *windows,
                        uint32_t many)
{
    uint32_t i;
    printf("mark %u, on level %u in row %u, column %u, reaches\n", (unsigned)mark,
           (unsigned)at.level, (unsigned)at.row, (unsigned)at.column);
    for (i = 0; i < many; i++)
        printf("  on level %u rows %u to %u, columns %u to %u\n", (unsigned)windows[i].level,
               (unsigned)windows[i].first_row, (unsigned)windows[i].end_row - 1,
               (unsigned)windows[i].first_column, (unsigned)windows[i].end_column - 1);
}

/* Prints what the call listed; answers whether all of it is within bound and reach. */
static int print_refined(uint32_t refined, uint32_t most, const struct window *windows,
                         uint32_t many)
{
    uint32_t within = 0, i, window;
    printf("  it refines");
    for (i = 0; i < refined; i++) {
        WallmirrorPlace at = wallmirror_place(plan, cell_list[i]);
        printf(" %u", (unsigned)cell_list[i]);
        for (window = 0; window < many; window++)
            within += contains(&windows[window], at);
    }
    printf(": %u of at most %u, %u within reach\n", (unsigned)refined, (unsigned)most,
           (unsigned)within);
    return refined <= most && within == refined;
}

/* Refines one cell; answers whether that was accepted, within bound and reach. */
static int refine(uint32_t mark)
{
    WallmirrorPlace at = wallmirror_place(plan, mark);
    struct window windows[MOST_WINDOWS];
    WallmirrorAnswer answer = wallmirror_refine_cells(plan, cells, t, functions, f, &mark, 1,
                                                      cell_list, t, function_list, f);
    uint32_t many;
    if (answer.number != WALLMIRROR_ACCEPTED) {
        fprintf(stderr, "refine: refusal %u, %s\n", (unsigned)answer.number,
                wallmirror_refusal_text(answer.number));
        return 0;
    }
    many = reach(at, windows);
    print_reach(mark, at, windows, many);
    return print_refined(answer.cells, most_refined(at.level), windows, many);
}

int main(void)
{
    static const uint32_t marks[3] = {3, 15, 87}; /* 15 is a child of 3, and 87 of 15 */
    uint32_t level;
    int i, good = 1;
    t = wallmirror_cells_len(plan);
    f = wallmirror_functions_len(plan);
    if (wallmirror_open(plan, cells, t, functions, f) != WALLMIRROR_ACCEPTED)
        return 1;
    /* marks of the last level are refused */
    for (level = 0; level + 1 < plan.levels; level++)
        printf("a mark of level %u refines at most %u\n", (unsigned)level,
               (unsigned)most_refined(level));
    for (i = 0; i < 3; i++)
        good = refine(marks[i]) && good;
    return !good;
}
