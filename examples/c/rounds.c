/*
 * A gym has today's mesh and the one that it wants for the finals. The rounds of marks that lead
 * from one to the other are found, in lists as long as the counts say, and made one after another.
 * Each refines its marks and no other cell, and at the end the mesh is the wanted one. After the
 * finals the lists that were kept bring today's mesh back; rounds do not, since they only refine.
 * The output is to be that of rounds.expected.
 */
#include <stdio.h>
#include <stdlib.h>
#include <string.h>

#include "wallmirror.h"

enum { ROUNDS = 3, CELLS = 255, FUNCTIONS = 319 };

struct mesh {
    uint8_t cells[CELLS], functions[FUNCTIONS];
};

/* The lists of one call, cut to the answered lengths. */
struct record {
    uint32_t cells[CELLS], functions[FUNCTIONS];
    WallmirrorAnswer answer;
};

static const WallmirrorPlan plan = WALLMIRROR_PLAN(3, 1, ROUNDS + 1, 1, 1, 2);
static struct mesh today, finals, mesh;
static uint32_t *marks, lengths[ROUNDS];
static size_t marks_len;

static void print_list(const char *name, const uint32_t *list, uint32_t len)
{
    uint32_t i;
    printf("  %s:", name);
    for (i = 0; i < len; i++)
        printf(" %u", (unsigned)list[i]);
    printf("\n");
}

static void print_record(const char *call, const struct record *record)
{
    printf("%s: %u\n", call, (unsigned)record->answer.number);
    print_list("cells", record->cells, record->answer.cells);
    print_list("functions", record->functions, record->answer.functions);
}

static void refine(struct mesh *of, const uint32_t *cells, size_t cells_len, struct record *record)
{
    record->answer = wallmirror_refine_cells(plan, of->cells, CELLS, of->functions, FUNCTIONS,
                                             cells, cells_len, record->cells, CELLS,
                                             record->functions, FUNCTIONS);
}

/* Opens a mesh and refines it by one cell after another; answers how many are refined then. */
static uint32_t make(const char *name, struct mesh *of, const uint32_t *cells, size_t cells_len)
{
    static struct record record;
    WallmirrorCount count;
    size_t i;
    wallmirror_open(plan, of->cells, CELLS, of->functions, FUNCTIONS);
    for (i = 0; i < cells_len; i++)
        refine(of, cells + i, 1, &record);
    count = wallmirror_count(plan, of->cells, CELLS, of->functions, FUNCTIONS);
    printf("%s: %u active cells, %u refined\n", name, (unsigned)count.active_cells,
           (unsigned)count.refined_cells);
    return count.refined_cells;
}

/* The header has no text for 20 while rounds are not released. */
static const char *text_of(uint32_t number)
{
    return number == WALLMIRROR_REFINED_CELL_NOT_WANTED
               ? "a cell that is refined is not refined in the wanted mesh"
               : wallmirror_refusal_text(number);
}

/* Finds the rounds between two meshes; answers whether there are any. */
static int find(const char *name, const struct mesh *from, const struct mesh *to)
{
    WallmirrorRounds found = wallmirror_rounds(plan, from->cells, CELLS, from->functions, FUNCTIONS,
                                               to->cells, CELLS, to->functions, FUNCTIONS, marks,
                                               marks_len, lengths, ROUNDS);
    uint32_t round, at = 0;
    printf("%s: %u, %s\n", name, (unsigned)found.number, text_of(found.number));
    for (round = 0; round < found.rounds; round++) {
        print_list("round", marks + at, lengths[round]);
        at += lengths[round];
    }
    return found.number == WALLMIRROR_ACCEPTED;
}

static int expect(const struct mesh *expected, const char *name)
{
    int same = memcmp(mesh.cells, expected->cells, CELLS) == 0 &&
               memcmp(mesh.functions, expected->functions, FUNCTIONS) == 0;
    printf("the mesh %s %s, byte for byte\n", same ? "is" : "is not", name);
    return same;
}

/* Makes the rounds on today's mesh, the first round first. */
static void make_rounds(struct record *done)
{
    const uint32_t *of_round = marks;
    int round;
    mesh = today;
    for (round = 0; round < ROUNDS; round++) {
        refine(&mesh, of_round, lengths[round], &done[round]);
        print_record("refine", &done[round]);
        of_round += lengths[round];
    }
}

static void undo(const struct record *done)
{
    static struct record undone;
    undone.answer = wallmirror_coarsen_cells(plan, mesh.cells, CELLS, mesh.functions, FUNCTIONS,
                                             done->cells, done->answer.cells, undone.cells, CELLS,
                                             undone.functions, FUNCTIONS);
    print_record("undo", &undone);
}

int main(void)
{
    /* cell 5 needs cell 0, and cell 19 needs cell 4: the finals have these refined too */
    static const uint32_t for_today[] = {0, 1}, for_finals[] = {1, 5, 19};
    static struct record done[ROUNDS];
    uint32_t refined_today = make("today", &today, for_today, 2);
    uint32_t refined_then = make("finals", &finals, for_finals, 3);
    int round, is_reached, is_back;
    marks_len = refined_then - refined_today;
    marks = (uint32_t *)malloc(marks_len * sizeof *marks);
    if (!marks || !find("from today to the finals", &today, &finals))
        return 1;
    make_rounds(done);
    is_reached = expect(&finals, "that of the finals");

    find("from the finals to today", &finals, &today);
    for (round = ROUNDS; round-- > 0;)
        undo(&done[round]);
    is_back = expect(&today, "today's");
    free(marks);
    return !(is_reached && is_back);
}
