/*
 * Marks functions by their places: one of level 0 and then one of level 1 is refined. Both calls are
 * taken back by their own function lists, last first, which class 0 allows from an opened mesh on.
 * The output is to be that of functions.expected.
 */
#include <stdio.h>

#include "wallmirror.h"

static const WallmirrorPlan plan = WALLMIRROR_PLAN(3, 2, 3, 2, 1, 0);
static uint8_t cells[WALLMIRROR_MAX_CELLS], functions[WALLMIRROR_MAX_FUNCTIONS];
static uint32_t cell_list[WALLMIRROR_MAX_CELLS], function_list[WALLMIRROR_MAX_FUNCTIONS];
static size_t t, f;

typedef WallmirrorAnswer Call(WallmirrorPlan, uint8_t *, size_t, uint8_t *, size_t,
                              const uint32_t *, size_t, uint32_t *, size_t, uint32_t *, size_t);

/* The number of a function. On a level they are numbered row by row. */
static uint32_t function_at(uint32_t level, uint32_t row, uint32_t column)
{
    WallmirrorLevel at = wallmirror_level(plan, level);
    return at.first_function + row * at.functions_across + column;
}

static WallmirrorAnswer run(Call *call, const char *name, const uint32_t *marks, size_t len)
{
    WallmirrorAnswer answer =
        call(plan, cells, t, functions, f, marks, len, cell_list, t, function_list, f);
    uint32_t i;
    printf("%s: %u; cells", name, (unsigned)answer.number);
    for (i = 0; i < answer.cells; i++)
        printf(" %u", (unsigned)cell_list[i]);
    printf("; functions");
    for (i = 0; i < answer.functions; i++)
        printf(" %u", (unsigned)function_list[i]);
    printf("\n");
    return answer;
}

int main(void)
{
    static uint32_t kept[2][WALLMIRROR_MAX_FUNCTIONS];
    uint32_t marks[2], kept_len[2], i, call;
    WallmirrorAnswer answer;
    t = wallmirror_cells_len(plan);
    f = wallmirror_functions_len(plan);
    if (wallmirror_open(plan, cells, t, functions, f) != WALLMIRROR_ACCEPTED)
        return 1;

    /* Function 2 of row 1 on level 0 covers columns 0 to 2 and rows 0 to 1, the whole grid; function
     * 3 of row 2 on level 1 covers columns 1 to 3 and rows 1 to 2. */
    marks[0] = function_at(0, 1, 2);
    marks[1] = function_at(1, 2, 3);
    for (call = 0; call < 2; call++) {
        printf("function %u\n", (unsigned)marks[call]);
        answer = run(wallmirror_refine_functions, "refine", &marks[call], 1);
        kept_len[call] = answer.functions;
        for (i = 0; i < answer.functions; i++)
            kept[call][i] = function_list[i];
    }
    while (call-- > 0)
        run(wallmirror_coarsen_functions, "coarsen", kept[call], kept_len[call]);
    return 0;
}
