/*
 * A mesh with a corner: three columns of degree 2 with a kink before column 1. The cell before the
 * corner is refined and coarsened again, with the corner and without it, and the heights of the
 * surface are printed along a line across the corner. The output is to be that of corner.expected.
 */
#include <stdio.h>

#include "wallmirror.h"

/* The plans of the two meshes; the first one gets its corner in main. */
static WallmirrorPlan plans[2] = {WALLMIRROR_PLAN(3, 1, 2, 2, 1, 0),
                                  WALLMIRROR_PLAN(3, 1, 2, 2, 1, 0)};
static const char *const names[2] = {"a corner before column 1", "no corner"};

/* The function of the first row that has a height: with the corner the one that covers both its
 * sides, without it the one that covers the same columns. */
static const int high[2] = {2, 1};

static uint8_t cells[2][WALLMIRROR_MAX_CELLS], functions[2][WALLMIRROR_MAX_FUNCTIONS];
static uint32_t cell_list[WALLMIRROR_MAX_CELLS], function_list[WALLMIRROR_MAX_FUNCTIONS];
static int32_t heights[2][WALLMIRROR_MAX_FUNCTIONS]; /* all 0 to begin with */

static int refused(const char *what, uint32_t number)
{
    fprintf(stderr, "%s: refusal %u, %s\n", what, (unsigned)number,
            wallmirror_refusal_text(number));
    return 1;
}

static void print_functions(const char *name, uint32_t count)
{
    uint32_t i;
    printf("  %s cell 0: functions", name);
    for (i = 0; i < count; i++)
        printf(" %u", (unsigned)function_list[i]);
    printf("\n");
}

/* Opens a mesh, refines cell 0 and coarsens it again. */
static int change(int which)
{
    static const uint32_t mark = 0;
    WallmirrorPlan plan = plans[which];
    size_t t = wallmirror_cells_len(plan), f = wallmirror_functions_len(plan);
    uint32_t number = wallmirror_open(plan, cells[which], t, functions[which], f);
    WallmirrorAnswer answer;
    if (number != WALLMIRROR_ACCEPTED)
        return refused("open", number);
    printf("%s: %lu functions across on level 0, %lu on level 1\n", names[which],
           (unsigned long)wallmirror_functions_across(plan, 0),
           (unsigned long)wallmirror_functions_across(plan, 1));
    answer = wallmirror_refine_cells(plan, cells[which], t, functions[which], f, &mark, 1,
                                     cell_list, t, function_list, f);
    if (answer.number != WALLMIRROR_ACCEPTED)
        return refused("refine", answer.number);
    print_functions("refine", answer.functions);
    answer = wallmirror_coarsen_cells(plan, cells[which], t, functions[which], f, &mark, 1,
                                      cell_list, t, function_list, f);
    if (answer.number != WALLMIRROR_ACCEPTED)
        return refused("coarsen", answer.number);
    print_functions("coarsen", answer.functions);
    return 0;
}

int main(void)
{
    uint32_t across;
    int which;
    plans[0].corners_across = 1u << 1; /* before column 1 */
    for (which = 0; which < 2; which++) {
        if (change(which) != 0)
            return 1;
        heights[which][high[which]] = 64; /* millimetres */
    }
    printf("across  with the corner  without\n");
    /* In eighths of a cell of the last level; a column of level 0 has two such cells. */
    for (across = 0; across <= 48; across += 4) {
        WallmirrorHeight height[2];
        for (which = 0; which < 2; which++) {
            WallmirrorPlan plan = plans[which];
            size_t t = wallmirror_cells_len(plan), f = wallmirror_functions_len(plan);
            height[which] = wallmirror_height(plan, cells[which], t, functions[which], f,
                                              heights[which], f, across, 0);
            if (height[which].number != WALLMIRROR_ACCEPTED)
                return refused("height", height[which].number);
        }
        printf("%6u  %15.2f  %7.2f\n", (unsigned)across, height[0].height, height[1].height);
    }
    return 0;
}
