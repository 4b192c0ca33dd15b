/*
 * The order in which a call writes, watched by the machine: in an accepted call no cell byte and no
 * entry of the cell list is written after the first function byte, and a refused call writes not a
 * byte, also none of the heights. It is the same with the forms with a draft, of which none is open
 * or one is, and with closing a draft. Tables, lists and heights lie on pages of their own. While a
 * call runs, the functions and their list may only be read; at its first write to them they are
 * opened, and the cells and their list are shut. The heights are open where the call is to be
 * accepted and has them. The output is to be that of order.expected.
 */
#ifndef _GNU_SOURCE
#define _GNU_SOURCE
#endif
#include <signal.h>
#include <stdio.h>
#include <string.h>
#include <sys/mman.h>
#include <unistd.h>

#include "wallmirror.h"

#define MARKS 6
#define CALLS 300 /* for each plan */

typedef WallmirrorAnswer (*Call)(WallmirrorPlan, uint8_t *, size_t, uint8_t *, size_t,
                                 const uint32_t *, size_t, uint32_t *, size_t, uint32_t *, size_t);

/* both tables and both lists; a list has an entry for each number of its table, and so have the
 * heights */
struct lent {
    uint8_t *cells, *functions;
    uint32_t *cell_list, *function_list;
    int32_t *heights;
};

static uint8_t cells[WALLMIRROR_MAX_CELLS], functions[WALLMIRROR_MAX_FUNCTIONS];
static uint32_t cell_list[WALLMIRROR_MAX_CELLS], function_list[WALLMIRROR_MAX_FUNCTIONS];
static int32_t heights[WALLMIRROR_MAX_FUNCTIONS];
static struct lent watched;                   /* on pages of their own */
static size_t cell_pages, function_pages;     /* bytes of one table's pages; its list has more */
static size_t cell_entries, function_entries; /* T, F */
static int32_t *lent_heights;                 /* of the call that runs */
static int has_open_draft;                    /* the call that runs */
static volatile sig_atomic_t opened, late;
static unsigned long accepted, with_heights, beside_draft, closed, refused, wrong;
static unsigned long refused_with[WALLMIRROR_NO_DRAFT + 1];

static WallmirrorAnswer refine_cells(WallmirrorPlan plan, uint8_t *c, size_t cl, uint8_t *f,
                                     size_t fl, const uint32_t *marks, size_t n, uint32_t *list,
                                     size_t room, uint32_t *other, size_t other_room)
{
    return wallmirror_refine_cells_with_heights(plan, c, cl, f, fl, lent_heights, fl, marks, n,
                                                list, room, other, other_room);
}

static WallmirrorAnswer refine_functions(WallmirrorPlan plan, uint8_t *c, size_t cl, uint8_t *f,
                                         size_t fl, const uint32_t *marks, size_t n,
                                         uint32_t *list, size_t room, uint32_t *other,
                                         size_t other_room)
{
    return wallmirror_refine_functions_with_heights(plan, c, cl, f, fl, lent_heights, fl, marks, n,
                                                    list, room, other, other_room);
}

static WallmirrorDraft lent_draft(size_t marks)
{
    WallmirrorDraft draft;
    draft.open = has_open_draft ? 1 : 0;
    draft.marks = marks;
    return draft;
}

/* a call beside a draft with two marks; what stands before the draft is its heights, or nothing */
#define BESIDE(name, call, ...) \
    static WallmirrorAnswer name(WallmirrorPlan plan, uint8_t *c, size_t cl, uint8_t *f, \
                                 size_t fl, const uint32_t *marks, size_t n, uint32_t *list, \
                                 size_t room, uint32_t *other, size_t other_room) \
    { \
        static const uint32_t drafted[2] = {0, 1}; \
        return call(plan, c, cl, f, fl, __VA_ARGS__, drafted, 2, marks, n, list, room, other, \
                    other_room); \
    }

BESIDE(refine_cells_beside, wallmirror_refine_cells_with_draft, lent_draft(2))
BESIDE(refine_functions_beside, wallmirror_refine_functions_with_draft, lent_draft(2))
BESIDE(coarsen_cells_beside, wallmirror_coarsen_cells_with_draft, lent_draft(2))
BESIDE(coarsen_functions_beside, wallmirror_coarsen_functions_with_draft, lent_draft(2))
BESIDE(carry_cells_beside, wallmirror_refine_cells_with_heights_and_draft, lent_heights, fl,
       lent_draft(2))
BESIDE(carry_functions_beside, wallmirror_refine_functions_with_heights_and_draft, lent_heights, fl,
       lent_draft(2))

/* The marks are those of the draft. Closed, it is no draft; otherwise it is what it was. */
static WallmirrorAnswer close_draft(WallmirrorPlan plan, uint8_t *c, size_t cl, uint8_t *f,
                                    size_t fl, const uint32_t *marks, size_t n, uint32_t *list,
                                    size_t room, uint32_t *other, size_t other_room)
{
    WallmirrorDraft draft = lent_draft(n);
    WallmirrorClosed answer = wallmirror_draft_close(plan, c, cl, f, fl, draft, marks, n, list,
                                                     room, other, other_room);
    if (answer.answer.number == WALLMIRROR_ACCEPTED)
        draft.open = 0, draft.marks = 0;
    if (answer.draft.open != draft.open || answer.draft.marks != draft.marks)
        wrong++;
    return answer.answer;
}

/* Those by cells have even numbers. FORMS without a draft, of which the last two are with heights,
 * and as many with a draft; and closing one, which is as the first. */
enum { COARSEN = 2, WITH_HEIGHTS = 4, FORMS = 6, CLOSE = 12, KINDS = 13 };

static const Call calls[KINDS] = {
    wallmirror_refine_cells, wallmirror_refine_functions, wallmirror_coarsen_cells,
    wallmirror_coarsen_functions, refine_cells, refine_functions, refine_cells_beside,
    refine_functions_beside, coarsen_cells_beside, coarsen_functions_beside, carry_cells_beside,
    carry_functions_beside, close_draft};

/* the same numbers on every machine */
static uint32_t random_below(uint32_t n)
{
    static uint32_t state = 20261116;
    state = state * 1664525u + 1013904223u;
    return (state >> 8) % n;
}

/* A table and its list are one mapping: the table's pages, then four times as many for the list. */
static uint8_t *pages(size_t bytes)
{
    void *at = mmap(NULL, 5 * bytes, PROT_READ | PROT_WRITE, MAP_PRIVATE | MAP_ANONYMOUS, -1, 0);
    return at == MAP_FAILED ? NULL : (uint8_t *)at;
}

static void allow_cells(int access)
{
    if (mprotect(watched.cells, 5 * cell_pages, access) != 0)
        _exit(3);
}

static void allow_functions(int access)
{
    if (mprotect(watched.functions, 5 * function_pages, access) != 0)
        _exit(3);
}

/* They have as many pages as the list of functions. */
static void allow_heights(int access)
{
    if (mprotect(watched.heights, 5 * function_pages, access) != 0)
        _exit(3);
}

/* A write to what may only be read. */
static void on_write(int number, siginfo_t *info, void *context)
{
    uint8_t *at = (uint8_t *)info->si_addr;
    (void)number;
    (void)context;
    if (at >= watched.functions && at < watched.functions + 5 * function_pages) {
        opened = opened + 1;
        allow_functions(PROT_READ | PROT_WRITE);
        allow_cells(PROT_READ);
    } else if (at >= watched.cells && at < watched.cells + 5 * cell_pages) {
        late = late + 1;
        allow_cells(PROT_READ | PROT_WRITE);
    } else if (at >= (uint8_t *)watched.heights &&
               at < (uint8_t *)watched.heights + 5 * function_pages) {
        late = late + 1;
        allow_heights(PROT_READ | PROT_WRITE);
    } else {
        _exit(4);
    }
}

static WallmirrorAnswer run(unsigned kind, WallmirrorPlan plan, const struct lent *lent,
                            const uint32_t *marks, size_t n, size_t cell_room, size_t function_room)
{
    lent_heights = lent->heights;
    return calls[kind](plan, lent->cells, cell_entries, lent->functions, function_entries, marks, n,
                       lent->cell_list, cell_room, lent->function_list, function_room);
}

/* Runs a call that is to be refused with the number, where nothing may be written. */
static void try_refused(unsigned kind, WallmirrorPlan plan, const uint32_t *marks, size_t n,
                        size_t cell_room, size_t function_room, uint32_t number)
{
    WallmirrorAnswer answer;
    opened = late = 0;
    allow_cells(PROT_READ);
    allow_functions(PROT_READ);
    allow_heights(PROT_READ);
    answer = run(kind, plan, &watched, marks, n, cell_room, function_room);
    if (answer.number != number || answer.cells != 0 || answer.functions != 0 || opened || late)
        wrong++;
    refused++;
    refused_with[number]++;
    allow_cells(PROT_READ | PROT_WRITE);
    allow_functions(PROT_READ | PROT_WRITE);
    allow_heights(PROT_READ | PROT_WRITE);
}

/* Runs a call that is to be accepted, and watches where it writes. */
static void try_accepted(unsigned kind, WallmirrorPlan plan, const uint32_t *marks, size_t n,
                         size_t cell_room, size_t function_room)
{
    int has_heights = kind % FORMS >= WITH_HEIGHTS;
    WallmirrorAnswer answer;
    opened = late = 0;
    allow_functions(PROT_READ);
    if (!has_heights)
        allow_heights(PROT_READ);
    answer = run(kind, plan, &watched, marks, n, cell_room, function_room);
    allow_cells(PROT_READ | PROT_WRITE);
    allow_functions(PROT_READ | PROT_WRITE);
    allow_heights(PROT_READ | PROT_WRITE);
    if (answer.number != WALLMIRROR_ACCEPTED || opened != 1 || late != 0 ||
        memcmp(cells, watched.cells, cell_entries) != 0 ||
        memcmp(functions, watched.functions, function_entries) != 0 ||
        memcmp(cell_list, watched.cell_list, answer.cells * sizeof *cell_list) != 0 ||
        memcmp(function_list, watched.function_list, answer.functions * sizeof *cell_list) != 0 ||
        memcmp(heights, watched.heights, function_entries * sizeof *heights) != 0)
        wrong++;
    accepted++;
    with_heights += has_heights;
    beside_draft += kind >= FORMS && kind < CLOSE;
    closed += kind == CLOSE;
}

/* Numbers of the table with the byte, or now and then any number. */
static size_t choose(const uint8_t *table, size_t entries, uint8_t byte, uint32_t *marks)
{
    size_t n = random_below(MARKS + 1), i, tries;
    for (i = 0; i < n; i++) {
        marks[i] = random_below((uint32_t)entries);
        for (tries = 0; tries < 400 && table[marks[i]] != byte; tries++)
            marks[i] = random_below((uint32_t)entries);
    }
    return n;
}

/* Small heights, or all as great as they may be, of which some that are carried are refused. */
static void choose_heights(WallmirrorPlan plan)
{
    int greatest = random_below(3) == 0;
    uint32_t level;
    size_t i = 0, end = 0;
    for (level = 0; level < plan.levels && level < 4; level++) {
        end += wallmirror_functions_across(plan, level) * wallmirror_functions_up(plan, level);
        for (; i < end; i++)
            watched.heights[i] = greatest ? WALLMIRROR_MAX_HEIGHT_MM << 4 * level
                                          : (int32_t)random_below(2000) - 1000;
    }
}

static int takes_heights(WallmirrorPlan plan)
{
    return plan.levels <= 4 && plan.degree_across <= 2 && plan.degree_up <= 2;
}

static unsigned choose_kind(WallmirrorPlan plan)
{
    unsigned kind;
    do
        kind = (unsigned)random_below(KINDS);
    while (kind % FORMS >= WITH_HEIGHTS && !takes_heights(plan));
    return kind;
}

/* A call with a draft that is in its way, or to be closed and not open. */
static void try_draft(unsigned kind, WallmirrorPlan plan, const uint32_t *marks, size_t n)
{
    has_open_draft = kind != CLOSE;
    try_refused(kind, plan, marks, n, cell_entries, function_entries,
                kind == CLOSE ? WALLMIRROR_NO_DRAFT : WALLMIRROR_DRAFT_OPEN);
}

/* One call on plain copies, to know what it answers; then watched, with lists that are too short
 * and with lists that are just long enough, or as long as the tables. */
static void step(WallmirrorPlan plan)
{
    struct lent copies;
    uint32_t marks[MARKS];
    unsigned kind = choose_kind(plan), form = kind % FORMS;
    uint8_t byte = form < COARSEN || form >= WITH_HEIGHTS ? 1 : 2;
    size_t n = kind % 2 == 0 ? choose(watched.cells, cell_entries, byte, marks)
                             : choose(watched.functions, function_entries, byte, marks);
    WallmirrorAnswer answer;
    int whole = random_below(2) == 0;
    copies.cells = cells;
    copies.functions = functions;
    copies.cell_list = cell_list;
    copies.function_list = function_list;
    copies.heights = heights;
    choose_heights(plan);
    memcpy(cells, watched.cells, cell_entries);
    memcpy(functions, watched.functions, function_entries);
    memcpy(heights, watched.heights, function_entries * sizeof *heights);
    if (kind >= FORMS)
        try_draft(kind, plan, marks, n);
    has_open_draft = kind == CLOSE;
    answer = run(kind, plan, &copies, marks, n, cell_entries, function_entries);
    if (answer.number != WALLMIRROR_ACCEPTED) {
        try_refused(kind, plan, marks, n, cell_entries, function_entries, answer.number);
        return;
    }
    if (answer.cells > 0)
        try_refused(kind, plan, marks, n, answer.cells - 1, function_entries,
                    WALLMIRROR_CELL_LIST_TOO_SHORT);
    if (answer.functions > 0)
        try_refused(kind, plan, marks, n, answer.cells, answer.functions - 1,
                    WALLMIRROR_FUNCTION_LIST_TOO_SHORT);
    try_accepted(kind, plan, marks, n, whole ? cell_entries : answer.cells,
                 whole ? function_entries : answer.functions);
}

static int season(WallmirrorPlan plan)
{
    size_t page = (size_t)sysconf(_SC_PAGESIZE), i;
    cell_entries = wallmirror_cells_len(plan);
    function_entries = wallmirror_functions_len(plan);
    cell_pages = (cell_entries + page - 1) / page * page;
    function_pages = (function_entries + page - 1) / page * page;
    watched.cells = pages(cell_pages);
    watched.functions = pages(function_pages);
    watched.heights = (int32_t *)(void *)pages(function_pages);
    if (!watched.cells || !watched.functions || !watched.heights)
        return 0;
    watched.cell_list = (uint32_t *)(void *)(watched.cells + cell_pages);
    watched.function_list = (uint32_t *)(void *)(watched.functions + function_pages);
    if (wallmirror_open(plan, watched.cells, cell_entries, watched.functions, function_entries))
        return 0;
    for (i = 0; i < CALLS; i++)
        step(plan);
    munmap(watched.cells, 5 * cell_pages);
    munmap(watched.functions, 5 * function_pages);
    munmap(watched.heights, 5 * function_pages);
    return 1;
}

int main(void)
{
    /* the last four with corners, two of them with as many functions as there can be, and as there
     * can be with heights */
    enum { PLANS = 7 };
    static const uint32_t corners[PLANS][2] = {{0, 0},  {0, 0},  {0, 0},
                                               {2, 12}, {2, 12}, {65534, 65534}, {65534, 65534}};
    WallmirrorPlan plans[PLANS] = {
        WALLMIRROR_PLAN(3, 1, 3, 1, 1, 0),   WALLMIRROR_PLAN(2, 3, 4, 2, 1, 2),
        WALLMIRROR_PLAN(4, 4, 5, 3, 3, 3),   WALLMIRROR_PLAN(3, 4, 4, 2, 3, 2),
        WALLMIRROR_PLAN(3, 4, 4, 2, 2, 2),   WALLMIRROR_PLAN(16, 16, 4, 4, 4, 2),
        WALLMIRROR_PLAN(16, 16, 4, 2, 2, 2),
    };
    struct sigaction action;
    size_t i;
    memset(&action, 0, sizeof action);
    action.sa_sigaction = on_write;
    action.sa_flags = SA_SIGINFO;
    sigemptyset(&action.sa_mask);
    if (sigaction(SIGSEGV, &action, NULL) != 0 || sigaction(SIGBUS, &action, NULL) != 0)
        return 2;
    for (i = 0; i < PLANS; i++) {
        plans[i].corners_across = corners[i][0];
        plans[i].corners_up = corners[i][1];
        if (!season(plans[i])) {
            fprintf(stderr, "order: no tables for plan %lu\n", (unsigned long)i);
            return 2;
        }
    }
    printf("%lu calls accepted, each with its cells settled before the first function byte\n",
           accepted);
    printf("%lu of them with heights, %lu with a draft that is not open, %lu drafts closed\n",
           with_heights, beside_draft, closed);
    printf("%lu calls refused, %lu with 10, %lu with 11, %lu with 17, %lu with 18, %lu with 19, "
           "and not a byte written\n",
           refused, refused_with[WALLMIRROR_CELL_LIST_TOO_SHORT],
           refused_with[WALLMIRROR_FUNCTION_LIST_TOO_SHORT],
           refused_with[WALLMIRROR_CARRIED_HEIGHT_OUT_OF_RANGE],
           refused_with[WALLMIRROR_DRAFT_OPEN], refused_with[WALLMIRROR_NO_DRAFT]);
    printf("%lu wrong\n", wrong);
    return wrong != 0;
}
