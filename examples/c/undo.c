/*
 * Refines a mesh of class 2 twice, then takes both calls back by their own cell lists, last first.
 * The second call refines cell 1 besides the marked cell 4, because the mesh must stay admissible.
 * The output is to be that of undo.expected.
 */
#include <stdio.h>
#include <string.h>

#include "wallmirror.h"

enum { CALLS = 2, CELLS = 63, FUNCTIONS = 94 };

static const WallmirrorPlan plan = WALLMIRROR_PLAN(3, 1, 3, 1, 1, 2);
static uint8_t cells[CELLS], functions[FUNCTIONS];

/* The lists of one call, cut to the answered lengths. */
struct record {
    uint32_t cells[CELLS], functions[FUNCTIONS];
    WallmirrorAnswer answer;
};

static void print_list(const char *name, const uint32_t *list, uint32_t len)
{
    uint32_t i;
    printf("  %s:", name);
    for (i = 0; i < len; i++)
        printf(" %u", (unsigned)list[i]);
    printf("\n");
}

static void print_record(const char *call, const struct record *record)
{
    printf("%s: %u\n", call, (unsigned)record->answer.number);
    print_list("cells", record->cells, record->answer.cells);
    print_list("functions", record->functions, record->answer.functions);
}

static void print_count(void)
{
    WallmirrorCount count = wallmirror_count(plan, cells, CELLS, functions, FUNCTIONS);
    printf("%u active cells, %u refined, %u active functions, area %u\n",
           (unsigned)count.active_cells, (unsigned)count.refined_cells,
           (unsigned)count.active_functions, (unsigned)count.area);
}

int main(void)
{
    static const uint32_t marks[CALLS] = {0, 4};
    static struct record done[CALLS], undone;
    uint8_t cells_before[CELLS], functions_before[FUNCTIONS];
    int call;

    if (wallmirror_cells_len(plan) != CELLS || wallmirror_functions_len(plan) != FUNCTIONS) {
        printf("the plan has %lu cells and %lu functions\n",
               (unsigned long)wallmirror_cells_len(plan),
               (unsigned long)wallmirror_functions_len(plan));
        return 1;
    }
    printf("open: %u\n", (unsigned)wallmirror_open(plan, cells, CELLS, functions, FUNCTIONS));
    print_count();
    memcpy(cells_before, cells, CELLS);
    memcpy(functions_before, functions, FUNCTIONS);

    for (call = 0; call < CALLS; call++) {
        done[call].answer = wallmirror_refine_cells(plan, cells, CELLS, functions, FUNCTIONS,
                                                    &marks[call], 1, done[call].cells, CELLS,
                                                    done[call].functions, FUNCTIONS);
        print_record("refine", &done[call]);
        print_count();
    }

    /* Cell 0 has a refined child now, so it cannot be coarsened: refusal 8, and nothing changes. */
    undone.answer = wallmirror_coarsen_cells(plan, cells, CELLS, functions, FUNCTIONS, &marks[0], 1,
                                             undone.cells, CELLS, undone.functions, FUNCTIONS);
    print_record("coarsen 0", &undone);

    for (call = CALLS - 1; call >= 0; call--) {
        undone.answer = wallmirror_coarsen_cells(plan, cells, CELLS, functions, FUNCTIONS,
                                                 done[call].cells, done[call].answer.cells,
                                                 undone.cells, done[call].answer.cells,
                                                 undone.functions, done[call].answer.functions);
        print_record("undo", &undone);
        print_count();
    }

    if (memcmp(cells, cells_before, CELLS) != 0 ||
        memcmp(functions, functions_before, FUNCTIONS) != 0) {
        printf("the mesh differs from the opened one\n");
        return 1;
    }
    printf("the mesh is the opened one, byte for byte\n");
    return 0;
}
