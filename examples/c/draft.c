/*
 * Two setters fill one draft while a third counts: until the draft is closed the mesh is the one
 * without it. An add with a mark that is absent adds nothing, and nothing is refined beside the
 * draft. Closed, it is one refinement, and is taken back like one. The program keeps a draft, so it
 * takes the forms with a draft of all calls that change the mesh. The output is to be that of
 * draft.expected.
 */
#include <stdio.h>
#include <string.h>

#include "wallmirror.h"

enum { CELLS = 63, FUNCTIONS = 94, ROOM = 8 };

static const WallmirrorPlan plan = WALLMIRROR_PLAN(3, 1, 3, 1, 1, 2);
static uint8_t cells[CELLS], functions[FUNCTIONS];

/* The draft that is kept, and its list. */
static WallmirrorDraft draft;
static uint32_t list[ROOM];

/* The lists of one call, cut to the answered lengths. */
struct record {
    uint32_t cells[CELLS], functions[FUNCTIONS];
    WallmirrorAnswer answer;
};

static void print_list(const char *name, const uint32_t *entries, size_t len)
{
    size_t i;
    printf("  %s:", name);
    for (i = 0; i < len; i++)
        printf(" %u", (unsigned)entries[i]);
    printf("\n");
}

static void print_record(const char *call, const struct record *record)
{
    printf("%s: %u\n", call, (unsigned)record->answer.number);
    print_list("cells", record->cells, record->answer.cells);
    print_list("functions", record->functions, record->answer.functions);
}

static void print_count(void)
{
    WallmirrorCount count = wallmirror_count(plan, cells, CELLS, functions, FUNCTIONS);
    printf("%u active cells, %u refined, %u active functions, area %u\n",
           (unsigned)count.active_cells, (unsigned)count.refined_cells,
           (unsigned)count.active_functions, (unsigned)count.area);
}

/* Keeps the answered draft, whether the call was refused or not. */
static void keep(const char *call, WallmirrorDrafted drafted)
{
    draft = drafted.draft;
    printf("%s: %u, %s\n", call, (unsigned)drafted.number, wallmirror_refusal_text(drafted.number));
    print_list("marks", list, draft.marks);
}

static void add(const char *who, const uint32_t *marks, size_t marks_len)
{
    keep(who, wallmirror_draft_add(plan, cells, CELLS, functions, FUNCTIONS, draft, list, ROOM,
                                   marks, marks_len));
}

static void refine(const uint32_t *marks, size_t marks_len, struct record *record)
{
    record->answer = wallmirror_refine_cells_with_draft(
        plan, cells, CELLS, functions, FUNCTIONS, draft, list, ROOM, marks, marks_len,
        record->cells, CELLS, record->functions, FUNCTIONS);
    print_record("refine", record);
}

static void close_draft(struct record *record)
{
    WallmirrorClosed closed = wallmirror_draft_close(plan, cells, CELLS, functions, FUNCTIONS,
                                                     draft, list, ROOM, record->cells, CELLS,
                                                     record->functions, FUNCTIONS);
    draft = closed.draft;
    record->answer = closed.answer;
    print_record("close", record);
}

/* A closed draft is taken back as the refinement before it is: by the cells that it listed. */
static void undo(const struct record *done)
{
    struct record undone;
    undone.answer = wallmirror_coarsen_cells_with_draft(
        plan, cells, CELLS, functions, FUNCTIONS, draft, list, ROOM, done->cells,
        done->answer.cells, undone.cells, CELLS, undone.functions, FUNCTIONS);
    print_record("undo", &undone);
}

int main(void)
{
    static const uint32_t start[] = {0}, first[] = {3}, second[] = {2, 3}, absent[] = {4, 5};
    static struct record refined, closed, refused;
    uint8_t cells_before[CELLS], functions_before[FUNCTIONS];
    WallmirrorDrafted opened = wallmirror_open_with_draft(plan, cells, CELLS, functions, FUNCTIONS,
                                                          draft);
    draft = opened.draft;
    printf("open: %u\n", (unsigned)opened.number);
    memcpy(cells_before, cells, CELLS);
    memcpy(functions_before, functions, FUNCTIONS);
    refine(start, 1, &refined);
    print_count();

    keep("open a draft",
         wallmirror_draft_open(plan, cells, CELLS, functions, FUNCTIONS, draft, list, ROOM));
    add("the first setter adds 3", first, 1);
    print_count();
    add("the second setter adds 2 and 3", second, 2);
    add("the first setter adds 4 and 5", absent, 2);
    print_count();
    refine(second, 1, &refused);
    close_draft(&closed);
    print_count();

    undo(&closed);
    print_count();
    undo(&refined);
    print_count();
    if (memcmp(cells, cells_before, CELLS) != 0 ||
        memcmp(functions, functions_before, FUNCTIONS) != 0) {
        printf("the mesh differs from the opened one\n");
        return 1;
    }
    printf("the mesh is the opened one, byte for byte\n");
    return 0;
}
