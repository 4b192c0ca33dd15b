/*
 * A hold on a bulge: a mesh is refined where the hold goes, a function of each level gets a height,
 * and the heights of the surface are printed along a line through both. The output is to be that of
 * height.expected.
 */
#include <stdio.h>

#include "wallmirror.h"

static const WallmirrorPlan plan = WALLMIRROR_PLAN(4, 4, 2, 2, 2, 2);
static uint8_t cells[WALLMIRROR_MAX_CELLS], functions[WALLMIRROR_MAX_FUNCTIONS];
static uint32_t cell_list[WALLMIRROR_MAX_CELLS], function_list[WALLMIRROR_MAX_FUNCTIONS];
static int32_t heights[WALLMIRROR_MAX_FUNCTIONS]; /* all 0 to begin with */

/* The number of a function. On a level they are numbered row by row. */
static uint32_t function_at(uint32_t level, uint32_t row, uint32_t column)
{
    WallmirrorLevel at = wallmirror_level(plan, level);
    return at.first_function + row * at.functions_across + column;
}

static int refused(const char *what, uint32_t number)
{
    fprintf(stderr, "%s: refusal %u, %s\n", what, (unsigned)number,
            wallmirror_refusal_text(number));
    return 1;
}

int main(void)
{
    static const uint32_t marks[4] = {5, 6, 9, 10}; /* the four cells in the middle */
    size_t t = wallmirror_cells_len(plan), f = wallmirror_functions_len(plan);
    /* Points are counted in eighths of a cell of the last level. */
    WallmirrorLevel last = wallmirror_level(plan, plan.levels - 1);
    uint32_t far_across = 8 * last.columns, far_up = 8 * last.rows;
    uint32_t number, across;

    number = wallmirror_open(plan, cells, t, functions, f);
    if (number != WALLMIRROR_ACCEPTED)
        return refused("open", number);
    number = wallmirror_refine_cells(plan, cells, t, functions, f, marks, 4, cell_list, t,
                                     function_list, f).number;
    if (number != WALLMIRROR_ACCEPTED)
        return refused("refine", number);

    heights[function_at(0, 2, 2)] = 160;     /* on level 0 in millimetres */
    heights[function_at(1, 4, 4)] = 24 * 16; /* on level 1 in sixteenths */
    printf("across  height in mm\n");
    for (across = 0; across <= far_across; across += 4) {
        WallmirrorHeight height = wallmirror_height(plan, cells, t, functions, f, heights, f,
                                                    across, far_up / 2);
        if (height.number != WALLMIRROR_ACCEPTED)
            return refused("height", height.number);
        printf("%6u  %12.4f\n", (unsigned)across, height.height);
    }
    return 0;
}
