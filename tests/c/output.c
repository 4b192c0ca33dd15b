/*
 * What wallmirror_corners writes, watched by the machine: an accepted call writes all corners and
 * nothing else, and a refused call writes not a byte. Tables and heights lie on pages that may only
 * be read while a call runs, and so does the output where the call is to be refused. The corners
 * end where a page ends; lent entries past them are on the next page, which may only be read. Each
 * corner is where the header says, as high as wallmirror_height answers. The output of this program
 * is to be that of output.expected.
 */
#ifndef _GNU_SOURCE
#define _GNU_SOURCE
#endif
#include <signal.h>
#include <stdio.h>
#include <string.h>
#include <sys/mman.h>
#include <unistd.h>

#include "wallmirror.h"

#define ROUNDS 12 /* for each plan */
#define MARKS 5
#define SPARE 100 /* doubles */

static int32_t *heights;
static uint8_t *cells, *functions;
static size_t cells_len, functions_len, heights_len; /* as they are lent */
static double *corners_end; /* where the output ends and the spare page begins */
static uint8_t *inputs, *outputs;
static size_t input_bytes, output_bytes, spare_bytes; /* of the pages */
static unsigned long accepted, refused[17], wrong;

/* the same numbers on every machine */
static uint32_t random_below(uint32_t n)
{
    static uint32_t state = 20261116;
    state = state * 1664525u + 1013904223u;
    return (state >> 8) % n;
}

static void on_write(int number)
{
    static const char said[] = "output: a write to what may only be read\n";
    (void)number;
    if (write(2, said, sizeof said - 1) < 0)
        _exit(4);
    _exit(1);
}

static uint8_t *pages(size_t bytes)
{
    void *at = mmap(NULL, bytes, PROT_READ | PROT_WRITE, MAP_PRIVATE | MAP_ANONYMOUS, -1, 0);
    return at == MAP_FAILED ? NULL : (uint8_t *)at;
}

static int make_pages(void)
{
    size_t page = (size_t)sysconf(_SC_PAGESIZE);
    input_bytes = 5 * WALLMIRROR_MAX_FUNCTIONS + WALLMIRROR_MAX_CELLS;
    output_bytes = WALLMIRROR_MAX_CORNER_DOUBLES * sizeof(double);
    input_bytes = (input_bytes + page - 1) / page * page;
    output_bytes = (output_bytes + page - 1) / page * page;
    spare_bytes = page;
    inputs = pages(input_bytes);
    outputs = pages(output_bytes + spare_bytes);
    if (!inputs || !outputs)
        return 0;
    heights = (int32_t *)(void *)inputs;
    functions = inputs + 4 * WALLMIRROR_MAX_FUNCTIONS;
    cells = functions + WALLMIRROR_MAX_FUNCTIONS;
    corners_end = (double *)(void *)(outputs + output_bytes);
    return mprotect(outputs + output_bytes, spare_bytes, PROT_READ) == 0;
}

static void allow(uint8_t *at, size_t bytes, int access)
{
    if (mprotect(at, bytes, access) != 0)
        _exit(3);
}

/* Runs the call with so many doubles before the spare page and so many on it. */
static WallmirrorCorners run(WallmirrorPlan plan, size_t before, size_t spare, int access)
{
    WallmirrorCorners answer;
    memset(outputs, 0xa5, output_bytes);
    allow(inputs, input_bytes, PROT_READ);
    allow(outputs, output_bytes, access);
    answer = wallmirror_corners(plan, cells, cells_len, functions, functions_len, heights,
                                heights_len, corners_end - before, before + spare);
    allow(inputs, input_bytes, PROT_READ | PROT_WRITE);
    allow(outputs, output_bytes, PROT_READ | PROT_WRITE);
    return answer;
}

static void try_refused(WallmirrorPlan plan, size_t before, uint32_t number)
{
    WallmirrorCorners answer = run(plan, before, 0, PROT_READ);
    if (answer.number != number || answer.corners != 0)
        wrong++;
    refused[number]++;
}

/* A corner is at a place, in cells of the last level, and as high as the surface there. */
static void expect_corner(WallmirrorPlan plan, const double *corner, uint32_t across, uint32_t up)
{
    WallmirrorHeight at = wallmirror_height(plan, cells, cells_len, functions, functions_len,
                                            heights, heights_len, 8 * across, 8 * up);
    double expected[3];
    expected[0] = across;
    expected[1] = up;
    expected[2] = at.height;
    if (at.number != WALLMIRROR_ACCEPTED || memcmp(corner, expected, sizeof expected) != 0)
        wrong++;
}

/* The corners of all active cells, lower left, lower right, upper left, upper right. */
static void expect_corners(WallmirrorPlan plan, const double *corner)
{
    size_t cell = 0;
    uint32_t level, row, column, i;
    for (level = 0; level < plan.levels; level++)
        for (row = 0; row < plan.rows << level; row++)
            for (column = 0; column < plan.columns << level; column++)
                if (cells[cell++] == WALLMIRROR_CELL_ACTIVE)
                    for (i = 0; i < 4; i++, corner += 3)
                        expect_corner(plan, corner, (column + i % 2) << (plan.levels - 1 - level),
                                      (row + i / 2) << (plan.levels - 1 - level));
    if (corner != corners_end)
        wrong++;
}

static void try_accepted(WallmirrorPlan plan, size_t needed, size_t spare)
{
    uint8_t *start = (uint8_t *)(void *)(corners_end - needed);
    WallmirrorCorners answer = run(plan, needed, spare, PROT_READ | PROT_WRITE);
    size_t i, before = 0;
    if (answer.number != WALLMIRROR_ACCEPTED || answer.corners != needed / 3)
        wrong++;
    while (outputs + before < start && outputs[before] == 0xa5)
        before++;
    if (outputs + before != start)
        wrong++;
    for (i = 0; i < spare_bytes; i++)
        if (outputs[output_bytes + i] != 0)
            wrong++;
    expect_corners(plan, corners_end - needed);
    accepted++;
}

/* Faults of the plan, of which each comes before all that is lent is looked at. */
static void try_plans(WallmirrorPlan plan, size_t needed)
{
    plan.corners_across = plan.corners_up = 0;
    plan.columns = plan.rows = 16;
    plan.levels = 4;
    try_refused(plan, needed, WALLMIRROR_TOO_MANY_CELLS_TO_PROJECT);
    plan.levels = 5;
    try_refused(plan, needed, WALLMIRROR_TOO_MANY_CELLS);
    plan.admissibility_class = 1;
    try_refused(plan, needed, WALLMIRROR_PLAN_OUT_OF_RANGE);
}

/* A wrong byte in each table, and a length that is none of the plan. */
static void try_tables(WallmirrorPlan plan, size_t needed)
{
    uint8_t cell = cells[0], function = functions[0];
    cells[0] = 3;
    try_refused(plan, needed, WALLMIRROR_NOT_A_MESH);
    cells[0] = cell;
    functions[0] = 3;
    try_refused(plan, needed, WALLMIRROR_WRONG_FUNCTION_BYTE);
    functions[0] = function;
    cells_len--;
    try_refused(plan, needed, WALLMIRROR_TABLE_LENGTH);
    cells_len++;
}

/* One height fewer than functions, one that is too high, and an output that is too short. */
static void try_heights(WallmirrorPlan plan, size_t needed)
{
    size_t active = 0;
    int32_t height;
    heights_len--;
    try_refused(plan, needed, WALLMIRROR_TABLE_LENGTH);
    heights_len++;
    while (functions[active] != WALLMIRROR_FUNCTION_ACTIVE)
        active++;
    height = heights[active];
    heights[active] = INT32_MIN;
    try_refused(plan, needed, WALLMIRROR_POINT_OR_HEIGHT_OUT_OF_RANGE);
    heights[active] = height;
    try_refused(plan, needed - 1, WALLMIRROR_CELL_LIST_TOO_SHORT);
    try_refused(plan, 0, WALLMIRROR_CELL_LIST_TOO_SHORT);
}

static void open_mesh(WallmirrorPlan plan)
{
    size_t i;
    cells_len = wallmirror_cells_len(plan);
    functions_len = heights_len = wallmirror_functions_len(plan);
    if (wallmirror_open(plan, cells, cells_len, functions, functions_len) != WALLMIRROR_ACCEPTED)
        wrong++;
    for (i = 0; i < heights_len; i++)
        heights[i] = (int32_t)random_below(2 * WALLMIRROR_MAX_HEIGHT_MM) - WALLMIRROR_MAX_HEIGHT_MM;
}

/* Refines some cells, if there are any that can be. */
static void refine(WallmirrorPlan plan)
{
    static uint32_t cell_list[WALLMIRROR_MAX_CELLS], function_list[WALLMIRROR_MAX_FUNCTIONS];
    uint32_t last = plan.levels - 1, marks[MARKS];
    uint32_t refinable = (uint32_t)cells_len - (plan.columns << last) * (plan.rows << last);
    size_t n = 0, tries;
    for (tries = 0; tries < 200 && n < MARKS && refinable > 0; tries++) {
        marks[n] = random_below(refinable);
        n += cells[marks[n]] == WALLMIRROR_CELL_ACTIVE;
    }
    if (wallmirror_refine_cells(plan, cells, cells_len, functions, functions_len, marks, n,
                                cell_list, cells_len, function_list,
                                functions_len).number != WALLMIRROR_ACCEPTED)
        wrong++;
}

/* A mesh that is refined more and more. */
static void season(WallmirrorPlan plan)
{
    int i;
    open_mesh(plan);
    for (i = 0; i < ROUNDS; i++) {
        size_t needed = wallmirror_corners_len(cells, cells_len);
        try_accepted(plan, needed, 0);
        try_accepted(plan, needed, SPARE);
        try_plans(plan, needed);
        try_tables(plan, needed);
        try_heights(plan, needed);
        refine(plan);
    }
}

/* Plans that are not taken, and a mesh that is not admissible. */
static void try_others(void)
{
    static const WallmirrorPlan large = WALLMIRROR_PLAN(7, 7, 3, 1, 1, 0),
                                deep = WALLMIRROR_PLAN(3, 1, 5, 2, 2, 0),
                                graded = WALLMIRROR_PLAN(3, 1, 3, 1, 1, 2);
    WallmirrorPlan cubic = WALLMIRROR_PLAN(4, 3, 4, 2, 3, 2), ungraded = graded;
    static const uint32_t marks[2] = {0, 4}; /* class 2 would refine cell 1 too */
    uint32_t cell_list[63], function_list[94];
    int i;
    open_mesh(large);
    try_refused(large, wallmirror_corners_len(cells, cells_len),
                WALLMIRROR_TOO_MANY_CELLS_TO_PROJECT);
    open_mesh(deep);
    try_refused(deep, wallmirror_corners_len(cells, cells_len), WALLMIRROR_PLAN_WITHOUT_HEIGHTS);
    cubic.corners_across = 2;
    open_mesh(cubic);
    try_refused(cubic, wallmirror_corners_len(cells, cells_len), WALLMIRROR_PLAN_WITHOUT_HEIGHTS);
    ungraded.admissibility_class = 0;
    open_mesh(ungraded);
    for (i = 0; i < 2; i++)
        if (wallmirror_refine_cells(ungraded, cells, cells_len, functions, functions_len, marks + i,
                                    1, cell_list, 63, function_list, 94).cells != 1)
            wrong++;
    try_refused(graded, wallmirror_corners_len(cells, cells_len), WALLMIRROR_NOT_ADMISSIBLE);
}

int main(void)
{
    /* the last has as many corners as there can be once it is refined */
    enum { PLANS = 5 };
    static const uint32_t corners[PLANS][2] = {{0, 0}, {0, 0}, {0, 4}, {2, 0}, {16382, 16382}};
    WallmirrorPlan plans[PLANS] = {
        WALLMIRROR_PLAN(1, 1, 1, 1, 1, 0),  WALLMIRROR_PLAN(3, 1, 3, 1, 1, 0),
        WALLMIRROR_PLAN(2, 3, 4, 2, 1, 2),  WALLMIRROR_PLAN(12, 1, 4, 2, 2, 2),
        WALLMIRROR_PLAN(14, 14, 2, 2, 2, 2),
    };
    struct sigaction action;
    size_t i;
    memset(&action, 0, sizeof action);
    action.sa_handler = on_write;
    sigemptyset(&action.sa_mask);
    if (sigaction(SIGSEGV, &action, NULL) != 0 || sigaction(SIGBUS, &action, NULL) != 0)
        return 2;
    if (!make_pages()) {
        fprintf(stderr, "output: no pages\n");
        return 2;
    }
    for (i = 0; i < PLANS; i++) {
        plans[i].corners_across = corners[i][0];
        plans[i].corners_up = corners[i][1];
        season(plans[i]);
    }
    try_others();
    printf("%lu calls accepted, each with its corners written and nothing else\n", accepted);
    for (i = 0; i < sizeof refused / sizeof *refused; i++)
        if (refused[i] != 0)
            printf("%lu calls refused with %lu, and not a byte written\n", refused[i],
                   (unsigned long)i);
    printf("%lu wrong\n", wrong);
    return wrong != 0;
}
