/*
 * A surface keeps its shape while its mesh is refined: a bulge gets its heights on the coarsest
 * mesh, the cells under it are refined with heights, and the heights of the surface are printed
 * along a line before and after. Then a hold gets its height on the finer level. The output is to
 * be that of shape.expected.
 */
#include <stdio.h>

#include "wallmirror.h"

enum { ACROSS = 8 * 10 }; /* the far edge, in eighths of a cell of level 1 */

static const WallmirrorPlan plan = WALLMIRROR_PLAN(5, 4, 2, 2, 2, 2);
static uint8_t cells[WALLMIRROR_MAX_CELLS], functions[WALLMIRROR_MAX_FUNCTIONS];
static uint32_t cell_list[WALLMIRROR_MAX_CELLS], function_list[WALLMIRROR_MAX_FUNCTIONS];
static int32_t heights[WALLMIRROR_MAX_FUNCTIONS]; /* all 0 to begin with */
static size_t t, f;

static int refused(const char *what, uint32_t number)
{
    fprintf(stderr, "%s: refusal %u, %s\n", what, (unsigned)number,
            wallmirror_refusal_text(number));
    return 1;
}

/* The heights along the line in the middle; answers a refusal, or 0. */
static uint32_t along(double line[ACROSS + 1])
{
    uint32_t across;
    for (across = 0; across <= ACROSS; across++) {
        WallmirrorHeight at = wallmirror_height(plan, cells, t, functions, f, heights, f, across,
                                                8 * 4);
        if (at.number != WALLMIRROR_ACCEPTED)
            return at.number;
        line[across] = at.height;
    }
    return WALLMIRROR_ACCEPTED;
}

static unsigned active_functions(void)
{
    return (unsigned)wallmirror_count(plan, cells, t, functions, f).active_functions;
}

int main(void)
{
    /* cells 1 to 3 of rows 0 to 2, which is the support of function 3 of row 2 */
    static const uint32_t marks[9] = {1, 2, 3, 6, 7, 8, 11, 12, 13};
    WallmirrorLevel coarse = wallmirror_level(plan, 0), fine = wallmirror_level(plan, 1);
    double before[ACROSS + 1], after[ACROSS + 1], then[ACROSS + 1];
    uint32_t number, across, differ = 0;
    WallmirrorAnswer answer;

    t = wallmirror_cells_len(plan);
    f = wallmirror_functions_len(plan);
    number = wallmirror_open(plan, cells, t, functions, f);
    if (number != WALLMIRROR_ACCEPTED)
        return refused("open", number);
    heights[2 * coarse.functions_across + 3] = 120; /* on level 0 in millimetres */
    heights[2 * coarse.functions_across + 2] = 60;
    heights[3 * coarse.functions_across + 4] = -30;
    number = along(before);
    if (number != WALLMIRROR_ACCEPTED)
        return refused("height", number);

    printf("%u functions are active\n", active_functions());
    answer = wallmirror_refine_cells_with_heights(plan, cells, t, functions, f, heights, f, marks,
                                                  9, cell_list, t, function_list, f);
    if (answer.number != WALLMIRROR_ACCEPTED)
        return refused("refine", answer.number);
    printf("%u cells refined, %u functions deactivated, %u active then\n", (unsigned)answer.cells,
           (unsigned)answer.functions, active_functions());
    number = along(after);
    if (number != WALLMIRROR_ACCEPTED)
        return refused("height", number);

    /* function 6 of row 4 on level 1, in sixteenths of a millimetre */
    heights[fine.first_function + 4 * fine.functions_across + 6] += 24 * 16;
    number = along(then);
    if (number != WALLMIRROR_ACCEPTED)
        return refused("height", number);

    printf("across   before    after  with a hold\n");
    for (across = 0; across <= ACROSS; across++) {
        differ += before[across] != after[across];
        if (across % 8 == 0)
            printf("%6u %8.4f %8.4f %12.4f\n", (unsigned)across, before[across], after[across],
                   then[across]);
    }
    printf("before and after differ at %u of %d points\n", (unsigned)differ, ACROSS + 1);
    return differ != 0;
}
