/*
 * A plan that WALLMIRROR_PLAN makes is the one that is made field by field, wherever the macro
 * stands; in C so is one with a designated initialiser. The calls on a plan alone answer what the
 * header says of its example, and nothing for a plan that is refused. The output is to be that of
 * plan.expected.
 */
#include <stdio.h>
#include <string.h>

#include "wallmirror.h"

static const WallmirrorPlan outside = WALLMIRROR_PLAN(3, 1, 3, 1, 1, 2);
static const WallmirrorPlan several[2] = {WALLMIRROR_PLAN(1, 2, 3, 4, 5, 6),
                                          WALLMIRROR_PLAN(16, 15, 4, 3, 2, 1 ? 8 : 0)};
static unsigned long wrong;

static void expect(int right, const char *what)
{
    if (right)
        return;
    wrong++;
    printf("not so: %s\n", what);
}

/* Every field by itself, in a plan that held other numbers. */
static WallmirrorPlan by_fields(uint32_t columns, uint32_t rows, uint32_t levels,
                                uint32_t degree_across, uint32_t degree_up,
                                uint32_t admissibility_class)
{
    WallmirrorPlan plan;
    memset(&plan, 0xff, sizeof plan);
    plan.columns = columns;
    plan.rows = rows;
    plan.levels = levels;
    plan.degree_across = degree_across;
    plan.degree_up = degree_up;
    plan.admissibility_class = admissibility_class;
    plan.corners_across = 0;
    plan.corners_up = 0;
    return plan;
}

/* A plan has no bytes but those of its fields, as sizes.c sees to. */
static int same(WallmirrorPlan a, WallmirrorPlan b)
{
    return memcmp(&a, &b, sizeof a) == 0;
}

static void try_plans(void)
{
    WallmirrorPlan inside = WALLMIRROR_PLAN(3, 1, 3, 1, 1, 2);
    WallmirrorPlan cornered = WALLMIRROR_PLAN(3, 1, 2, 2, 1, 0);
    WallmirrorPlan expected = by_fields(3, 1, 2, 2, 1, 0);
    uint32_t n;
    expect(same(outside, by_fields(3, 1, 3, 1, 1, 2)), "outside of functions");
    expect(same(inside, outside), "inside a function");
    expect(same(several[0], by_fields(1, 2, 3, 4, 5, 6)), "the order of the fields");
    expect(same(several[1], by_fields(16, 15, 4, 3, 2, 8)), "an expression");
    for (n = 0; n < 20; n++) {
        WallmirrorPlan plan = WALLMIRROR_PLAN(n, n + 1, n + 2, n + 3, n + 4, n + 5);
        expect(same(plan, by_fields(n, n + 1, n + 2, n + 3, n + 4, n + 5)), "variables");
    }
    cornered.corners_across = 1u << 1;
    cornered.corners_up = 1u << 2;
    expected.corners_across = 2;
    expected.corners_up = 4;
    expect(same(cornered, expected), "corners by name");
#ifndef __cplusplus
    {
        WallmirrorPlan named = {.columns = 3, .rows = 1, .levels = 3, .degree_across = 1,
                                .degree_up = 1, .admissibility_class = 2};
        expect(same(named, outside), "a designated initialiser");
        expect(same((WallmirrorPlan)WALLMIRROR_PLAN(3, 1, 3, 1, 1, 2), outside), "a literal");
    }
#else
    expect(same(WallmirrorPlan WALLMIRROR_PLAN(3, 1, 3, 1, 1, 2), outside), "a literal");
#endif
}

static int is_level(WallmirrorLevel at, uint32_t first_cell, uint32_t columns, uint32_t rows,
                    uint32_t first_function, uint32_t functions_across, uint32_t functions_up)
{
    return at.first_cell == first_cell && at.columns == columns && at.rows == rows &&
           at.first_function == first_function && at.functions_across == functions_across &&
           at.functions_up == functions_up;
}

static int is_place(WallmirrorPlace at, uint32_t found, uint32_t level, uint32_t row,
                    uint32_t column)
{
    return at.found == found && at.level == level && at.row == row && at.column == column;
}

static int is_cell(WallmirrorCellAt at, uint32_t found, uint32_t cell)
{
    return at.found == found && at.cell == cell;
}

static int is_support(WallmirrorSupport of, uint32_t found, uint32_t level, uint32_t first_row,
                      uint32_t end_row, uint32_t first_column, uint32_t end_column)
{
    return of.found == found && of.level == level && of.first_row == first_row &&
           of.end_row == end_row && of.first_column == first_column && of.end_column == end_column;
}

/* Columns 3, rows 1, both degrees 1. */
static void try_example(void)
{
    WallmirrorPlan plan = outside;
    expect(wallmirror_plan_refusal(plan) == 0, "the example is taken");
    expect(wallmirror_cells_len(plan) == 63 && wallmirror_functions_len(plan) == 94 &&
               wallmirror_planes_len(plan) == 1,
           "lengths");
    expect(is_level(wallmirror_level(plan, 0), 0, 3, 1, 0, 4, 2), "level 0");
    expect(is_level(wallmirror_level(plan, 1), 3, 6, 2, 8, 7, 3), "level 1");
    expect(is_level(wallmirror_level(plan, 3), 0, 0, 0, 0, 0, 0), "no level 3");
    expect(wallmirror_functions_across(plan, 1) == 7 && wallmirror_functions_up(plan, 1) == 3,
           "functions across and up");
    expect(is_place(wallmirror_place(plan, 9), 1, 1, 1, 0), "cell 9");
    expect(is_place(wallmirror_place(plan, 63), 0, 0, 0, 0), "no cell 63");
    expect(is_cell(wallmirror_cell_at(plan, 1, 1, 0), 1, 9), "row 1, column 0 of level 1");
    expect(is_cell(wallmirror_cell_at(plan, 1, 2, 0), 0, 0), "no row 2 of level 1");
    expect(is_support(wallmirror_support(plan, 5), 1, 0, 0, 1, 0, 2), "function 5");
    expect(is_support(wallmirror_support(plan, 9), 1, 1, 0, 1, 0, 2), "function 9");
    expect(is_support(wallmirror_support(plan, 94), 0, 0, 0, 0, 0, 0), "no function 94");
}

/* With degree_across 2 and a corner before column 1: columns 0, 0, 0 to 1, 1 to 2, 1 to 2 and 2. */
static void try_corner(void)
{
    static const uint32_t first[6] = {0, 0, 0, 1, 1, 2}, end[6] = {1, 1, 2, 3, 3, 3};
    WallmirrorPlan plan = WALLMIRROR_PLAN(3, 1, 2, 2, 1, 0);
    uint32_t i;
    plan.corners_across = 1u << 1;
    for (i = 0; i < 6; i++)
        expect(is_support(wallmirror_support(plan, i), 1, 0, 0, 1, first[i], end[i]), "a support");
}

static void expect_nothing(WallmirrorPlan plan)
{
    expect(!wallmirror_plan_is_valid(plan) && wallmirror_cells_len(plan) == 0 &&
               wallmirror_functions_len(plan) == 0 && wallmirror_planes_len(plan) == 0 &&
               wallmirror_functions_across(plan, 0) == 0 &&
               wallmirror_functions_up(plan, 0) == 0 &&
               is_level(wallmirror_level(plan, 0), 0, 0, 0, 0, 0, 0) &&
               is_place(wallmirror_place(plan, 0), 0, 0, 0, 0) &&
               is_cell(wallmirror_cell_at(plan, 0, 0, 0), 0, 0) &&
               is_support(wallmirror_support(plan, 0), 0, 0, 0, 0, 0, 0),
           "a plan that is refused has nothing");
}

static void try_refused(void)
{
    WallmirrorPlan wide = outside, large = outside, cornered = outside;
    wide.columns = 17;
    large.levels = 8;
    cornered.corners_up = 1u << 1;
    expect(wallmirror_plan_refusal(wide) == WALLMIRROR_PLAN_OUT_OF_RANGE, "17 columns");
    expect(wallmirror_plan_refusal(large) == WALLMIRROR_TOO_MANY_CELLS, "too many cells");
    expect(wallmirror_plan_refusal(cornered) == WALLMIRROR_PLAN_OUT_OF_RANGE, "no such line");
    expect_nothing(wide);
    expect_nothing(large);
    expect_nothing(cornered);
}

int main(void)
{
    try_plans();
    try_example();
    try_corner();
    try_refused();
    printf("%lu wrong\n", wrong);
    return wrong != 0;
}
