/*
 * What draft.c, planes.c and rounds.c share: slices that the machine watches while a call runs, and
 * a mesh with faults. Each slice lies on pages of its own, before one that may not be touched, and
 * ends where its pages end. A program defines _GNU_SOURCE before anything is included. The
 * functions are inline, since a program need not use all of them.
 */
#ifndef WATCHED_H
#define WATCHED_H

#include <signal.h>
#include <stdio.h>
#include <string.h>
#include <sys/mman.h>
#include <unistd.h>

#include "wallmirror.h"

enum {
    PRESENT, REFINED, CELLS, FUNCTIONS, HEIGHTS, FILE_BYTES, LIST, MARKS, CELL_LIST, FUNCTION_LIST,
    WANTED_CELLS, WANTED_FUNCTIONS, LENGTHS, SLICES
};
enum { SLICE_BYTES = 1 << 15 };

/* all that a call may be lent; a program leaves out what its calls do not take */
struct lent {
    WallmirrorPlan plan;
    WallmirrorDraft draft;
    uint64_t *present, *refined;
    uint8_t *cells, *functions, *wanted_cells, *wanted_functions, *file;
    int32_t *heights;
    uint32_t *list, *marks, *cell_list, *function_list, *lengths;
    size_t present_len, refined_len, cells_len, functions_len, wanted_cells_len;
    size_t wanted_functions_len, file_len, heights_len;
    size_t list_len, marks_len, cell_list_len, function_list_len, lengths_len;
};

typedef WallmirrorAnswer (*Plain)(WallmirrorPlan, uint8_t *, size_t, uint8_t *, size_t,
                                  const uint32_t *, size_t, uint32_t *, size_t, uint32_t *, size_t);

/* the calls on bytes that change a mesh, by cells and by functions in turn */
static const Plain plain[4] = {wallmirror_refine_cells, wallmirror_refine_functions,
                               wallmirror_coarsen_cells, wallmirror_coarsen_functions};

/* With cells 0, 1 and 3 refined, as the file has it. Cell 2 and function 10 can be refined, cell 3
 * and function 8 can be coarsened, cell 7 is absent and function 0 deactivated, and cell 15 and
 * function 29 are active and of the last level. Cell 10 can be refined too, with another outcome
 * than function 10. */
static const WallmirrorPlan shallow = WALLMIRROR_PLAN(3, 1, 3, 1, 1, 2);
static const uint8_t shallow_file[10] = {3, 1, 3, 1, 1, 2, 3, 0, 1, 2};

static uint8_t *pages[SLICES];
static unsigned long refused[WALLMIRROR_REFINED_CELL_NOT_WANTED + 1], wrong;

static inline void on_touch(int number)
{
    static const char said[] = "what may only be read was written, or more than was lent\n";
    (void)number;
    if (write(2, said, sizeof said - 1) < 0)
        _exit(4);
    _exit(1);
}

static inline int make_pages(void)
{
    size_t page = (size_t)sysconf(_SC_PAGESIZE);
    struct sigaction action;
    int slice;
    memset(&action, 0, sizeof action);
    action.sa_handler = on_touch;
    sigemptyset(&action.sa_mask);
    if (SLICE_BYTES % page != 0 || sigaction(SIGSEGV, &action, NULL) != 0 ||
        sigaction(SIGBUS, &action, NULL) != 0)
        return 0;
    for (slice = 0; slice < SLICES; slice++) {
        void *at = mmap(NULL, SLICE_BYTES + page, PROT_READ | PROT_WRITE,
                        MAP_PRIVATE | MAP_ANONYMOUS, -1, 0);
        if (at == MAP_FAILED)
            return 0;
        pages[slice] = (uint8_t *)at;
        if (mprotect(pages[slice] + SLICE_BYTES, page, PROT_NONE) != 0)
            return 0;
    }
    return 1;
}

static inline void allow(int slice, int access)
{
    if (mprotect(pages[slice], SLICE_BYTES, access) != 0)
        _exit(3);
}

/* Where a slice of so many bytes begins that ends with its pages. */
static inline void *end_of(int slice, size_t bytes)
{
    return pages[slice] + SLICE_BYTES - bytes;
}

/* A watched call is made on what a reference found, and is to leave what that left. So the pages
 * are kept before the reference, and what it left is taken back. */
static uint8_t pages_before[SLICES][SLICE_BYTES], pages_after[SLICES][SLICE_BYTES];

static inline void keep_pages(void)
{
    int slice;
    for (slice = 0; slice < SLICES; slice++)
        memcpy(pages_before[slice], pages[slice], SLICE_BYTES);
}

static inline void take_back_pages(void)
{
    int slice;
    for (slice = 0; slice < SLICES; slice++) {
        memcpy(pages_after[slice], pages[slice], SLICE_BYTES);
        memcpy(pages[slice], pages_before[slice], SLICE_BYTES);
    }
}

static inline void expect_pages(void)
{
    int slice;
    for (slice = 0; slice < SLICES; slice++) {
        allow(slice, PROT_READ | PROT_WRITE);
        if (memcmp(pages[slice], pages_after[slice], SLICE_BYTES) != 0)
            wrong++;
    }
}

/* A slice of so many entries, all of them the one. */
static inline uint32_t *lend_entries(int slice, uint32_t entry, size_t many)
{
    uint32_t *entries = (uint32_t *)end_of(slice, many * sizeof entry);
    size_t i;
    for (i = 0; i < many; i++)
        entries[i] = entry;
    return entries;
}

/* So many marks, all of them the one. */
static inline void lend_marks(struct lent *lent, uint32_t mark, size_t many)
{
    lent->marks_len = many;
    lent->marks = lend_entries(MARKS, mark, many);
}

/* A mark on the mesh that is said above which a call takes. */
static inline uint32_t good_mark(int by_functions, int coarsens)
{
    if (coarsens)
        return by_functions ? 8 : 3;
    return by_functions ? 10 : 2;
}

/* One that is refused with 7, 8 or 9. Coarsening never gives 9. */
static inline uint32_t bad_mark_of(int by_functions, int coarsens, uint32_t number)
{
    switch (number) {
    case WALLMIRROR_MARK_OUT_OF_RANGE:
        return UINT32_MAX;
    case WALLMIRROR_MARK_OF_WRONG_KIND:
        if (coarsens) /* active, or with a refined child */
            return by_functions ? 2 : 0;
        return by_functions ? 0 : 7;
    default:
        return by_functions ? 29 : 15;
    }
}

/* The faults of an input. They are made from the last to the first, and none mends another. */
typedef void (*Fault)(int kind, struct lent *lent, int variant);

struct fault {
    uint32_t number; /* with which it is refused */
    Fault make;
};

static inline size_t put(struct fault *faults, size_t n, uint32_t number, Fault make)
{
    faults[n].number = number;
    faults[n].make = make;
    return n + 1;
}

static inline void bad_plan(int kind, struct lent *lent, int variant)
{
    (void)kind;
    (void)variant;
    lent->plan.columns = 17;
}

static inline void large_plan(int kind, struct lent *lent, int variant)
{
    (void)kind;
    (void)variant;
    lent->plan.columns = lent->plan.rows = 16;
    lent->plan.levels = 8;
}

static inline void wrong_function(int kind, struct lent *lent, int variant)
{
    (void)kind;
    (void)variant;
    lent->functions[0] = 3;
}

static inline void short_function_list(int kind, struct lent *lent, int variant)
{
    (void)kind;
    (void)variant;
    lent->function_list_len = 0;
}

/* What main says last, and its status. */
static inline int print_refused(void)
{
    size_t number;
    for (number = 1; number < sizeof refused / sizeof *refused; number++)
        if (refused[number] != 0)
            printf("%lu calls refused with %lu, and not a byte written\n", refused[number],
                   (unsigned long)number);
    printf("%lu wrong\n", wrong);
    return wrong != 0;
}

#endif
