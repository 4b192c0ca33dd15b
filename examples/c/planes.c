/*
 * Keeps 300 meshes of the largest plan open at once, with their cells as planes of bits. Each is
 * read from the bytes of a file into one cell table that all of them share, and goes from there to
 * planes of its own. Then each is refined at a place of its own, counted, taken back by the lists
 * that were kept, and written to bytes again. The output is to be that of planes.expected.
 */
#include <stdio.h>
#include <string.h>

#include "wallmirror.h"

/* In class 2, with degrees 1, a mark of level 3 refines at most 1 + 3 * 3 * 3 cells. */
enum { MESHES = 300, CALLS = 3, ROOM = 28 };
enum { CELLS = 21845, WORDS = 342, FUNCTIONS = 22363 };

static const WallmirrorPlan plan = WALLMIRROR_PLAN(1, 1, 8, 1, 1, 2);
static const uint8_t file[8] = {1, 1, 8, 1, 1, 2, 1, 0}; /* cell 0 is refined */

/* What is kept of a mesh, with the cell lists of its calls, cut to the answered lengths. */
static struct mesh {
    uint64_t present[WORDS], refined[WORDS];
    uint8_t functions[FUNCTIONS];
    uint32_t lists[CALLS][ROOM];
    uint32_t lengths[CALLS];
} meshes[MESHES];

/* What all of them share. */
static uint8_t cells[CELLS];
static uint32_t cell_list[ROOM], function_list[FUNCTIONS];

static int refused(const char *what, uint32_t number)
{
    fprintf(stderr, "%s: refusal %u, %s\n", what, (unsigned)number,
            wallmirror_refusal_text(number));
    return 0;
}

static int load(struct mesh *mesh)
{
    uint32_t number = wallmirror_read(file, sizeof file, cells, CELLS, mesh->functions,
                                      FUNCTIONS).number;
    if (number == WALLMIRROR_ACCEPTED)
        number = wallmirror_planes_from_cells(plan, cells, CELLS, mesh->present, WORDS,
                                              mesh->refined, WORDS);
    return number == WALLMIRROR_ACCEPTED ? 1 : refused("load", number);
}

/* Refines the cells over a place, of level 1 and then of the next ones. A place is that of a cell
 * of the last level. */
static int refine(struct mesh *mesh, uint32_t row, uint32_t column)
{
    uint32_t call;
    for (call = 0; call < CALLS; call++) {
        uint32_t level = call + 1, finer = plan.levels - 1 - level;
        uint32_t mark = wallmirror_cell_at(plan, level, row >> finer, column >> finer).cell;
        WallmirrorAnswer answer = wallmirror_planes_refine_cells(
            plan, mesh->present, WORDS, mesh->refined, WORDS, mesh->functions, FUNCTIONS, &mark, 1,
            mesh->lists[call], ROOM, function_list, FUNCTIONS);
        if (answer.number != WALLMIRROR_ACCEPTED)
            return refused("refine", answer.number);
        mesh->lengths[call] = answer.cells;
    }
    return 1;
}

static int undo(struct mesh *mesh)
{
    uint32_t call;
    for (call = CALLS; call-- > 0;) {
        WallmirrorAnswer answer = wallmirror_planes_coarsen_cells(
            plan, mesh->present, WORDS, mesh->refined, WORDS, mesh->functions, FUNCTIONS,
            mesh->lists[call], mesh->lengths[call], cell_list, ROOM, function_list, FUNCTIONS);
        if (answer.number != WALLMIRROR_ACCEPTED)
            return refused("undo", answer.number);
    }
    return 1;
}

/* The file of a mesh is made of tables of bytes, so its cells come back to the shared one. */
static int save(const struct mesh *mesh)
{
    uint8_t bytes[WALLMIRROR_MAX_FILE_BYTES];
    WallmirrorWritten written;
    uint32_t number = wallmirror_planes_to_cells(plan, mesh->present, WORDS, mesh->refined, WORDS,
                                                 cells, CELLS);
    if (number != WALLMIRROR_ACCEPTED)
        return refused("save", number);
    written = wallmirror_write(plan, cells, CELLS, mesh->functions, FUNCTIONS, bytes, sizeof bytes);
    if (written.number != WALLMIRROR_ACCEPTED)
        return refused("save", written.number);
    return written.length == sizeof file && memcmp(bytes, file, sizeof file) == 0;
}

/* Of all meshes together. */
static int print_count(const char *when)
{
    unsigned long active = 0, refined = 0, functions = 0;
    int i;
    for (i = 0; i < MESHES; i++) {
        WallmirrorCount count = wallmirror_planes_count(plan, meshes[i].present, WORDS,
                                                        meshes[i].refined, WORDS,
                                                        meshes[i].functions, FUNCTIONS);
        if (count.number != WALLMIRROR_ACCEPTED)
            return refused("count", count.number);
        active += count.active_cells;
        refined += count.refined_cells;
        functions += count.active_functions;
    }
    printf("%s: %lu active cells, %lu refined, %lu active functions\n", when, active, refined,
           functions);
    return 1;
}

int main(void)
{
    int i, saved = 0;
    if (wallmirror_cells_len(plan) != CELLS || wallmirror_planes_len(plan) != WORDS ||
        wallmirror_functions_len(plan) != FUNCTIONS)
        return 1;
    printf("%d meshes of %d cells and %d functions\n", MESHES, CELLS, FUNCTIONS);
    printf("cells of one mesh: %lu bytes as planes, %d as bytes\n",
           (unsigned long)(2 * WORDS * sizeof(uint64_t)), CELLS);
    printf("cells of all: %lu bytes as planes, %lu as bytes\n",
           (unsigned long)(2 * WORDS * sizeof(uint64_t) * MESHES), (unsigned long)CELLS * MESHES);
    for (i = 0; i < MESHES; i++)
        if (!load(&meshes[i]))
            return 1;
    if (!print_count("loaded"))
        return 1;
    for (i = 0; i < MESHES; i++)
        if (!refine(&meshes[i], (uint32_t)i * 37 % 128, (uint32_t)i * 53 % 128))
            return 1;
    if (!print_count("refined"))
        return 1;
    for (i = 0; i < MESHES; i++)
        if (!undo(&meshes[i]))
            return 1;
    if (!print_count("taken back"))
        return 1;
    for (i = 0; i < MESHES; i++)
        saved += save(&meshes[i]);
    printf("%d files are what they were\n", saved);
    return saved != MESHES;
}
