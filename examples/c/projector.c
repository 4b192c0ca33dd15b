/*
 * The grid for a projector: of each active cell of a mesh its four corners, as text. The mesh has
 * three cells, of which cell 0 is refined; function 1 of level 0 and function 9 of level 1 have a
 * height. The output is to be that of projector.expected.
 */
#include <stdio.h>
#include <stdlib.h>

#include "wallmirror.h"

static const WallmirrorPlan plan = WALLMIRROR_PLAN(3, 1, 3, 1, 1, 2);
static uint8_t cells[WALLMIRROR_MAX_CELLS], functions[WALLMIRROR_MAX_FUNCTIONS];
static uint32_t cell_list[WALLMIRROR_MAX_CELLS], function_list[WALLMIRROR_MAX_FUNCTIONS];
static int32_t heights[WALLMIRROR_MAX_FUNCTIONS]; /* all 0 to begin with */

static int refused(const char *what, uint32_t number)
{
    fprintf(stderr, "%s: refusal %u, %s\n", what, (unsigned)number,
            wallmirror_refusal_text(number));
    return 1;
}

/* Four corners of three doubles each. */
static void print_cell(size_t cell, const double *corners)
{
    int i;
    printf("%4lu", (unsigned long)cell);
    for (i = 0; i < 4; i++, corners += 3)
        printf("  %3g %2g %4g", corners[0], corners[1], corners[2]);
    printf("\n");
}

/* Asks for the corners and prints them. The cells come in rising order, which is that of the
 * table. */
static int print_corners(size_t t, size_t f)
{
    size_t doubles = wallmirror_corners_len(cells, t), cell, at = 0;
    double *corners = (double *)malloc(doubles * sizeof *corners);
    WallmirrorCorners answer;
    if (!corners) {
        fprintf(stderr, "no memory for %lu doubles\n", (unsigned long)doubles);
        return 1;
    }
    answer = wallmirror_corners(plan, cells, t, functions, f, heights, f, corners, doubles);
    if (answer.number == WALLMIRROR_ACCEPTED) {
        printf("%u corners: across, up and height in mm\n", (unsigned)answer.corners);
        printf("cell%13s%13s%13s%13s\n", "lower left", "lower right", "upper left",
               "upper right");
        for (cell = 0; cell < t; cell++)
            if (cells[cell] == WALLMIRROR_CELL_ACTIVE) {
                print_cell(cell, corners + at);
                at += 12;
            }
    }
    free(corners);
    return answer.number == WALLMIRROR_ACCEPTED ? 0 : refused("corners", answer.number);
}

int main(void)
{
    size_t t = wallmirror_cells_len(plan), f = wallmirror_functions_len(plan);
    uint32_t mark = 0, number;

    number = wallmirror_open(plan, cells, t, functions, f);
    if (number != WALLMIRROR_ACCEPTED)
        return refused("open", number);
    number = wallmirror_refine_cells(plan, cells, t, functions, f, &mark, 1, cell_list, t,
                                     function_list, f).number;
    if (number != WALLMIRROR_ACCEPTED)
        return refused("refine", number);

    heights[1] = 10; /* millimetres */
    heights[9] = 8;  /* sixteenths of a millimetre */
    return print_corners(t, f);
}
