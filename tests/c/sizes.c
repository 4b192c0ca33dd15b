/*
 * The lengths that the library answers are those that it takes, of tables and of planes, for every
 * plan in range and for the numbers just outside, with corners and without; the header's macros
 * agree with each other and with the library's version, its structs are laid out as the library has
 * them, the longest file is as long as it says, the greatest height is taken and no greater one,
 * and so are the most cells for the projector. The output is to be that of sizes.expected.
 */
#include <stddef.h>
#include <stdio.h>
#include <string.h>

#include "wallmirror.h"

static uint8_t cells[WALLMIRROR_MAX_CELLS + 1], functions[WALLMIRROR_MAX_FUNCTIONS + 1];
static uint64_t present[WALLMIRROR_MAX_PLANE_WORDS + 1], refined[WALLMIRROR_MAX_PLANE_WORDS + 1];
static unsigned long taken, refused, wrong;
static size_t most_cells, most_functions, most_words, most_projected;

/* Of the projector the plan alone is tried, with nothing lent: it is refused as by open, with 16
 * where it has too many cells, or with 3 for the empty tables. */
static void try_projected(WallmirrorPlan plan, size_t t, uint32_t opened)
{
    WallmirrorCorners answer = wallmirror_corners(plan, NULL, 0, NULL, 0, NULL, 0, NULL, 0);
    uint32_t number = opened;
    if (opened == WALLMIRROR_ACCEPTED)
        number = WALLMIRROR_TABLE_LENGTH;
    if (t > WALLMIRROR_MAX_PROJECTED_CELLS)
        number = WALLMIRROR_TOO_MANY_CELLS_TO_PROJECT;
    if (answer.number != number || answer.corners != 0)
        wrong++;
    if (answer.number == WALLMIRROR_TABLE_LENGTH && t > most_projected)
        most_projected = t;
}

/* A plane has a bit for each cell, in whole words. One word more or fewer is refused. */
static void try_planes(WallmirrorPlan plan, size_t t, size_t f, uint32_t opened)
{
    size_t words = wallmirror_planes_len(plan);
    if (words != (t + 63) / 64 ||
        wallmirror_planes_open(plan, present, words, refined, words, functions, f) != opened)
        wrong++;
    if (words > most_words)
        most_words = words;
    if (opened != WALLMIRROR_ACCEPTED)
        return;
    if (wallmirror_planes_open(plan, present, words + 1, refined, words, functions, f) !=
            WALLMIRROR_TABLE_LENGTH ||
        wallmirror_planes_open(plan, present, words, refined, words - 1, functions, f) !=
            WALLMIRROR_TABLE_LENGTH)
        wrong++;
}

static void try_plan(WallmirrorPlan plan)
{
    size_t t = wallmirror_cells_len(plan), f = wallmirror_functions_len(plan);
    uint32_t number = wallmirror_open(plan, cells, t, functions, f);
    try_projected(plan, t, number);
    try_planes(plan, t, f, number);
    if (wallmirror_plan_refusal(plan) != number ||
        wallmirror_plan_is_valid(plan) != (number == WALLMIRROR_ACCEPTED))
        wrong++;
    if (number != WALLMIRROR_ACCEPTED) {
        refused++;
        if (t != 0 || f != 0 || (number != WALLMIRROR_PLAN_OUT_OF_RANGE &&
                                 number != WALLMIRROR_TOO_MANY_CELLS))
            wrong++;
        return;
    }
    taken++;
    if (t > most_cells)
        most_cells = t;
    if (f > most_functions)
        most_functions = f;
    if (wallmirror_open(plan, cells, t + 1, functions, f) != WALLMIRROR_TABLE_LENGTH ||
        wallmirror_open(plan, cells, t, functions, f + 1) != WALLMIRROR_TABLE_LENGTH)
        wrong++;
}

static void try_version(void)
{
    char version[40];
    sprintf(version, "%d.%d.%d", WALLMIRROR_VERSION_MAJOR, WALLMIRROR_VERSION_MINOR,
            WALLMIRROR_VERSION_PATCH);
    if (strcmp(version, WALLMIRROR_VERSION) != 0 ||
        wallmirror_version() != WALLMIRROR_VERSION_NUMBER)
        wrong++;
}

/* Every field has four bytes, but for a height and the marks of a draft of eight, and follows the
 * one before, at a place that its size divides. */
static void try_structs(void)
{
    if (sizeof(WallmirrorPlan) != 32 || offsetof(WallmirrorPlan, columns) != 0 ||
        offsetof(WallmirrorPlan, rows) != 4 || offsetof(WallmirrorPlan, levels) != 8 ||
        offsetof(WallmirrorPlan, degree_across) != 12 || offsetof(WallmirrorPlan, degree_up) != 16 ||
        offsetof(WallmirrorPlan, admissibility_class) != 20 ||
        offsetof(WallmirrorPlan, corners_across) != 24 ||
        offsetof(WallmirrorPlan, corners_up) != 28)
        wrong++;
    if (sizeof(WallmirrorCount) != 20 || offsetof(WallmirrorCount, number) != 0 ||
        offsetof(WallmirrorCount, active_cells) != 4 ||
        offsetof(WallmirrorCount, refined_cells) != 8 ||
        offsetof(WallmirrorCount, active_functions) != 12 || offsetof(WallmirrorCount, area) != 16)
        wrong++;
    if (sizeof(WallmirrorAnswer) != 12 || offsetof(WallmirrorAnswer, number) != 0 ||
        offsetof(WallmirrorAnswer, cells) != 4 || offsetof(WallmirrorAnswer, functions) != 8)
        wrong++;
    if (sizeof(WallmirrorRead) != 36 || offsetof(WallmirrorRead, number) != 0 ||
        offsetof(WallmirrorRead, plan) != 4)
        wrong++;
    if (sizeof(WallmirrorWritten) != 8 || offsetof(WallmirrorWritten, number) != 0 ||
        offsetof(WallmirrorWritten, length) != 4)
        wrong++;
    if (sizeof(WallmirrorHeight) != 16 || offsetof(WallmirrorHeight, number) != 0 ||
        offsetof(WallmirrorHeight, height) != 8 || sizeof(double) != 8)
        wrong++;
    if (sizeof(WallmirrorCorners) != 8 || offsetof(WallmirrorCorners, number) != 0 ||
        offsetof(WallmirrorCorners, corners) != 4)
        wrong++;
    if (sizeof(WallmirrorDraft) != 16 || offsetof(WallmirrorDraft, open) != 0 ||
        offsetof(WallmirrorDraft, marks) != 8 || sizeof(size_t) != 8)
        wrong++;
    if (sizeof(WallmirrorDrafted) != 24 || offsetof(WallmirrorDrafted, number) != 0 ||
        offsetof(WallmirrorDrafted, draft) != 8)
        wrong++;
    if (sizeof(WallmirrorClosed) != 32 || offsetof(WallmirrorClosed, answer) != 0 ||
        offsetof(WallmirrorClosed, draft) != 16)
        wrong++;
    if (sizeof(WallmirrorReadWithDraft) != 56 || offsetof(WallmirrorReadWithDraft, answer) != 0 ||
        offsetof(WallmirrorReadWithDraft, draft) != 40)
        wrong++;
    if (sizeof(WallmirrorLevel) != 24 || offsetof(WallmirrorLevel, first_cell) != 0 ||
        offsetof(WallmirrorLevel, columns) != 4 || offsetof(WallmirrorLevel, rows) != 8 ||
        offsetof(WallmirrorLevel, first_function) != 12 ||
        offsetof(WallmirrorLevel, functions_across) != 16 ||
        offsetof(WallmirrorLevel, functions_up) != 20)
        wrong++;
    if (sizeof(WallmirrorPlace) != 16 || offsetof(WallmirrorPlace, found) != 0 ||
        offsetof(WallmirrorPlace, level) != 4 || offsetof(WallmirrorPlace, row) != 8 ||
        offsetof(WallmirrorPlace, column) != 12)
        wrong++;
    if (sizeof(WallmirrorCellAt) != 8 || offsetof(WallmirrorCellAt, found) != 0 ||
        offsetof(WallmirrorCellAt, cell) != 4)
        wrong++;
    if (sizeof(WallmirrorSupport) != 24 || offsetof(WallmirrorSupport, found) != 0 ||
        offsetof(WallmirrorSupport, level) != 4 || offsetof(WallmirrorSupport, first_row) != 8 ||
        offsetof(WallmirrorSupport, end_row) != 12 ||
        offsetof(WallmirrorSupport, first_column) != 16 ||
        offsetof(WallmirrorSupport, end_column) != 20)
        wrong++;
}

static int same_plan(WallmirrorPlan a, WallmirrorPlan b)
{
    return a.columns == b.columns && a.rows == b.rows && a.levels == b.levels &&
           a.degree_across == b.degree_across && a.degree_up == b.degree_up &&
           a.admissibility_class == b.admissibility_class &&
           a.corners_across == b.corners_across && a.corners_up == b.corners_up;
}

/* Every cell of seven levels but the last is refined: 5460 cells, one byte each after the plan and
 * two bytes of count, and after them two for the corners. */
static void try_longest_file(void)
{
    static const uint8_t head[9] = {4, 1, 7, 4, 3, 2, 0x80 | 5460 % 128, 5460 / 128, 0};
    static uint8_t file[WALLMIRROR_MAX_FILE_BYTES], written[WALLMIRROR_MAX_FILE_BYTES + 1];
    WallmirrorPlan plan = WALLMIRROR_PLAN(4, 1, 7, 4, 3, 2);
    size_t t, f;
    WallmirrorRead first, second;
    WallmirrorWritten short_of_one, whole;
    plan.corners_across = 10;
    t = wallmirror_cells_len(plan);
    f = wallmirror_functions_len(plan);
    memset(file, 1, sizeof file);
    memcpy(file, head, sizeof head);
    file[sizeof file - 2] = 10;
    file[sizeof file - 1] = 0;
    memset(written, 9, sizeof written);
    first = wallmirror_read(file, sizeof file, NULL, 0, NULL, 0);
    if (first.number != WALLMIRROR_TABLE_LENGTH || !same_plan(first.plan, plan))
        wrong++;
    second = wallmirror_read(file, sizeof file, cells, t, functions, f);
    if (second.number != WALLMIRROR_ACCEPTED || !same_plan(second.plan, plan) ||
        wallmirror_check(plan, cells, t, functions, f) != WALLMIRROR_ACCEPTED)
        wrong++;
    short_of_one = wallmirror_write(plan, cells, t, functions, f, written,
                                    WALLMIRROR_MAX_FILE_BYTES - 1);
    if (short_of_one.number != WALLMIRROR_CELL_LIST_TOO_SHORT || short_of_one.length != 0 ||
        written[0] != 9)
        wrong++;
    whole = wallmirror_write(plan, cells, t, functions, f, written, sizeof written);
    if (whole.number != WALLMIRROR_ACCEPTED || whole.length != sizeof file ||
        memcmp(written, file, sizeof file) != 0 || written[sizeof file] != 9)
        wrong++;
}

/* One height for each function of a mesh of one level, and what is answered at a point. */
static WallmirrorHeight height_at(WallmirrorPlan plan, int32_t last, uint32_t across, uint32_t up)
{
    static int32_t heights[WALLMIRROR_MAX_FUNCTIONS];
    size_t t = wallmirror_cells_len(plan), f = wallmirror_functions_len(plan);
    heights[f - 1] = last;
    if (wallmirror_open(plan, cells, t, functions, f) != WALLMIRROR_ACCEPTED)
        wrong++;
    return wallmirror_height(plan, cells, t, functions, f, heights, f, across, up);
}

/* The last function has its height where both far edges meet, and that is at most the greatest;
 * there is nothing beyond the edges, and no height where a degree is 3. */
static void try_heights(void)
{
    WallmirrorPlan plan = WALLMIRROR_PLAN(16, 2, 1, 2, 1, 0);
    WallmirrorHeight answer;
    int side;
    plan.corners_across = 1u << 15;
    plan.corners_up = 1u << 1;
    for (side = -1; side <= 1; side += 2) {
        answer = height_at(plan, side * WALLMIRROR_MAX_HEIGHT_MM, 8 * 16, 8 * 2);
        if (answer.number != WALLMIRROR_ACCEPTED ||
            answer.height != side * (double)WALLMIRROR_MAX_HEIGHT_MM)
            wrong++;
        answer = height_at(plan, side * (WALLMIRROR_MAX_HEIGHT_MM + 1), 8 * 16, 8 * 2);
        if (answer.number != WALLMIRROR_POINT_OR_HEIGHT_OUT_OF_RANGE || answer.height != 0)
            wrong++;
    }
    answer = height_at(plan, 1, 8 * 16 + 1, 0);
    if (answer.number != WALLMIRROR_POINT_OR_HEIGHT_OUT_OF_RANGE || answer.height != 0)
        wrong++;
    answer = height_at(plan, 1, 0, 8 * 2 + 1);
    if (answer.number != WALLMIRROR_POINT_OR_HEIGHT_OUT_OF_RANGE || answer.height != 0)
        wrong++;
    plan.degree_up = 3;
    answer = height_at(plan, 1, 0, 0);
    if (answer.number != WALLMIRROR_PLAN_WITHOUT_HEIGHTS || answer.height != 0)
        wrong++;
}

/* The most corners: all 196 cells of level 0 are refined, and their 784 children have four corners
 * each. A double fewer is refused, and of more those past the corners keep their values. */
static void try_most_corners(void)
{
    static int32_t heights[WALLMIRROR_MAX_FUNCTIONS]; /* all 0 */
    static uint32_t marks[14 * 14], cell_list[14 * 14], function_list[WALLMIRROR_MAX_FUNCTIONS];
    static double out[WALLMIRROR_MAX_CORNER_DOUBLES];
    WallmirrorPlan plan = WALLMIRROR_PLAN(14, 14, 2, 2, 2, 2);
    size_t t, f, doubles, i;
    WallmirrorCorners answer;
    plan.corners_across = plan.corners_up = (1u << 14) - 2;
    t = wallmirror_cells_len(plan);
    f = wallmirror_functions_len(plan);
    for (i = 0; i < 14 * 14; i++)
        marks[i] = (uint32_t)i;
    for (i = 0; i < WALLMIRROR_MAX_CORNER_DOUBLES; i++)
        out[i] = 0.5;
    if (wallmirror_open(plan, cells, t, functions, f) != WALLMIRROR_ACCEPTED ||
        wallmirror_refine_cells(plan, cells, t, functions, f, marks, 14 * 14, cell_list, 14 * 14,
                                function_list, f).cells != 14 * 14)
        wrong++;
    doubles = wallmirror_corners_len(cells, t);
    if (doubles != 12 * 784 || doubles > WALLMIRROR_MAX_CORNER_DOUBLES)
        wrong++;
    answer = wallmirror_corners(plan, cells, t, functions, f, heights, f, out, doubles - 1);
    if (answer.number != WALLMIRROR_CELL_LIST_TOO_SHORT || answer.corners != 0 || out[0] != 0.5)
        wrong++;
    answer = wallmirror_corners(plan, cells, t, functions, f, heights, f, out,
                                WALLMIRROR_MAX_CORNER_DOUBLES);
    /* the last one is where both far edges meet */
    if (answer.number != WALLMIRROR_ACCEPTED || answer.corners != 4 * 784 || out[0] != 0 ||
        out[doubles - 3] != 28 || out[doubles - 2] != 28 || out[doubles - 1] != 0 ||
        out[doubles] != 0.5)
        wrong++;
}

/* The corners that are tried of n columns or rows: none, one, one before each, and three that are
 * not between two of them. */
enum { SETS = 6, GOOD_SETS = 3 };

static uint32_t corners_of(uint32_t n, int set)
{
    const uint32_t sets[SETS] = {0, 1u << n / 2 & ~1u, (1u << n) - 2, 1, 1u << n, 1u << 31};
    return sets[set];
}

static void try_corners(void)
{
    static const uint32_t degrees[4][2] = {{1, 1}, {2, 1}, {3, 4}, {4, 4}};
    WallmirrorPlan plan = WALLMIRROR_PLAN(0, 0, 0, 0, 0, 2);
    int i, across, up;
    for (plan.columns = 1; plan.columns <= 16; plan.columns++)
        for (plan.rows = 1; plan.rows <= 16; plan.rows++)
            for (plan.levels = 1; plan.levels <= 8; plan.levels++)
                for (i = 0; i < 4; i++)
                    for (across = 0; across < SETS; across++)
                        for (up = 0; up < SETS; up++) {
                            plan.degree_across = degrees[i][0];
                            plan.degree_up = degrees[i][1];
                            plan.corners_across = corners_of(plan.columns, across);
                            plan.corners_up = corners_of(plan.rows, up);
                            if ((across >= GOOD_SETS || up >= GOOD_SETS) &&
                                wallmirror_plan_is_valid(plan))
                                wrong++;
                            try_plan(plan);
                        }
}

/* Each bit alone: those of lines between two columns (or rows) are taken. */
static void try_bits(void)
{
    WallmirrorPlan across = WALLMIRROR_PLAN(1, 1, 2, 2, 2, 0), up = across;
    uint32_t n, bit;
    for (n = 1; n <= 16; n++) {
        across.columns = up.rows = n;
        for (bit = 0; bit < 32; bit++) {
            int good = bit >= 1 && bit < n;
            across.corners_across = up.corners_up = (uint32_t)1 << bit;
            if (wallmirror_plan_is_valid(across) != good || wallmirror_plan_is_valid(up) != good)
                wrong++;
            try_plan(across);
            try_plan(up);
        }
    }
}

int main(void)
{
    WallmirrorPlan plan = WALLMIRROR_PLAN(0, 0, 0, 0, 0, 0);
    try_version();
    try_structs();
    try_longest_file();
    try_heights();
    try_most_corners();
    for (plan.columns = 0; plan.columns <= 17; plan.columns++)
        for (plan.rows = 0; plan.rows <= 17; plan.rows++)
            for (plan.levels = 0; plan.levels <= 9; plan.levels++)
                for (plan.degree_across = 0; plan.degree_across <= 5; plan.degree_across++)
                    for (plan.degree_up = 0; plan.degree_up <= 5; plan.degree_up++)
                        for (plan.admissibility_class = 0; plan.admissibility_class <= 9;
                             plan.admissibility_class++)
                            try_plan(plan);
    printf("%lu plans without corners taken, %lu refused, at most %lu functions\n", taken, refused,
           (unsigned long)most_functions);
    try_corners();
    try_bits();
    printf("%lu plans taken, %lu refused, %lu wrong\n", taken, refused, wrong);
    printf("at most %lu cells and %lu functions, and planes of at most %lu words\n",
           (unsigned long)most_cells, (unsigned long)most_functions, (unsigned long)most_words);
    if (most_cells != WALLMIRROR_MAX_CELLS || most_functions != WALLMIRROR_MAX_FUNCTIONS ||
        most_words != WALLMIRROR_MAX_PLANE_WORDS)
        wrong++;
    printf("version %s, %lu of header and library\n", WALLMIRROR_VERSION,
           (unsigned long)wallmirror_version());
    printf("at most %lu bytes of stack and %lu of a file, heights to %lu mm\n",
           (unsigned long)WALLMIRROR_STACK_BYTES, (unsigned long)WALLMIRROR_MAX_FILE_BYTES,
           (unsigned long)WALLMIRROR_MAX_HEIGHT_MM);
    /* no plan has just as many cells as there may be */
    printf("the projector takes at most %lu cells, plans up to %lu, and %lu doubles are enough\n",
           (unsigned long)WALLMIRROR_MAX_PROJECTED_CELLS, (unsigned long)most_projected,
           (unsigned long)WALLMIRROR_MAX_CORNER_DOUBLES);
    if (most_projected > WALLMIRROR_MAX_PROJECTED_CELLS ||
        WALLMIRROR_MAX_CORNER_DOUBLES != 12 * WALLMIRROR_MAX_PROJECTED_CELLS)
        wrong++;
    return wrong != 0;
}
