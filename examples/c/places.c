/*
 * Where cells lie and what functions cover, from a plan alone: the cells in the support of some
 * functions beside a corner, and the cells beside a cell. The output is to be that of
 * places.expected.
 */
#include <stdio.h>

#include "wallmirror.h"

/* The cells that a function covers, row by row. */
static void print_support(WallmirrorPlan plan, uint32_t function)
{
    WallmirrorSupport covered = wallmirror_support(plan, function);
    uint32_t row, column;
    if (!covered.found) {
        printf("there is no function %u\n", (unsigned)function);
        return;
    }
    printf("function %u covers on level %u the cells", (unsigned)function,
           (unsigned)covered.level);
    for (row = covered.first_row; row < covered.end_row; row++)
        for (column = covered.first_column; column < covered.end_column; column++)
            printf(" %u", (unsigned)wallmirror_cell_at(plan, covered.level, row, column).cell);
    printf("\n");
}

static void print_beside(const char *where, WallmirrorCellAt beside)
{
    if (beside.found)
        printf("  %s it lies cell %u\n", where, (unsigned)beside.cell);
    else
        printf("  %s it lies no cell\n", where);
}

static void print_place(WallmirrorPlan plan, uint32_t cell)
{
    WallmirrorPlace at = wallmirror_place(plan, cell);
    if (!at.found) {
        printf("there is no cell %u\n", (unsigned)cell);
        return;
    }
    printf("cell %u lies on level %u in row %u, column %u\n", (unsigned)cell, (unsigned)at.level,
           (unsigned)at.row, (unsigned)at.column);
    print_beside("right of", wallmirror_cell_at(plan, at.level, at.row, at.column + 1));
    print_beside("above", wallmirror_cell_at(plan, at.level, at.row + 1, at.column));
}

int main(void)
{
    WallmirrorPlan plan = WALLMIRROR_PLAN(3, 2, 2, 2, 1, 0);
    WallmirrorLevel last;
    uint32_t number, i;
    plan.corners_across = 1u << 1; /* before column 1 */
    number = wallmirror_plan_refusal(plan);
    if (number != WALLMIRROR_ACCEPTED) {
        fprintf(stderr, "refusal %u, %s\n", (unsigned)number, wallmirror_refusal_text(number));
        return 1;
    }
    /* The row in the middle of level 0, and the first and the last function of level 1. */
    for (i = 0; i < wallmirror_functions_across(plan, 0); i++)
        print_support(plan, (uint32_t)wallmirror_functions_across(plan, 0) + i);
    last = wallmirror_level(plan, 1);
    print_support(plan, last.first_function);
    print_support(plan, last.first_function + last.functions_across * last.functions_up - 1);
    print_support(plan, (uint32_t)wallmirror_functions_len(plan));
    print_place(plan, 4);
    print_place(plan, last.first_cell + last.columns);
    print_place(plan, (uint32_t)wallmirror_cells_len(plan));
    return 0;
}
