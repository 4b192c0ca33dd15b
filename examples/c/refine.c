#include <stdio.h>
#include "wallmirror.h"

static uint8_t cells[WALLMIRROR_MAX_CELLS], functions[WALLMIRROR_MAX_FUNCTIONS];
static uint32_t cell_list[WALLMIRROR_MAX_CELLS], function_list[WALLMIRROR_MAX_FUNCTIONS];

int main(void)
{
    /* columns, rows, levels, degrees across and up, class */
    WallmirrorPlan plan = WALLMIRROR_PLAN(3, 1, 3, 1, 1, 2);
    size_t t = wallmirror_cells_len(plan), f = wallmirror_functions_len(plan);
    uint32_t mark = 0;
    uint32_t opened = wallmirror_open(plan, cells, t, functions, f);
    WallmirrorAnswer refined = wallmirror_refine_cells(plan, cells, t, functions, f, &mark, 1,
                                                       cell_list, t, function_list, f);
    printf("%u %u: %u cells, %u functions\n", (unsigned)opened, (unsigned)refined.number,
           (unsigned)refined.cells, (unsigned)refined.functions);
    return 0;
}
