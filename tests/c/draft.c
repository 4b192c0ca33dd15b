/*
 * The twelve calls with a draft, watched by the machine. Each call is given an input with every
 * fault that it can refuse, which is mended one fault after the other: it shows them in the order
 * of the header and is accepted at the end. All that is lent lies on pages that may only be read
 * while a call runs, but for what an accepted call writes, and ends where its pages end. What an
 * accepted call leaves is what the call without a draft leaves. Then follow lists that are just
 * full, drafts of any numbers, and what is dropped. The output is to be that of draft.expected.
 */
#ifndef _GNU_SOURCE
#define _GNU_SOURCE
#endif
#include "watched.h"

/* the calls; CHANGE and the three after it are without heights, CARRY and the one after it with */
enum { OPEN, ADD, CLOSE, DROP, CHANGE, CARRY = 8, OPEN_MESH = 10, READ_MESH, KINDS };

enum { MOST_MARKS = 3, ROOM = 2, VARIANTS = 3 };

typedef WallmirrorAnswer (*Change)(WallmirrorPlan, uint8_t *, size_t, uint8_t *, size_t,
                                   WallmirrorDraft, const uint32_t *, size_t, const uint32_t *,
                                   size_t, uint32_t *, size_t, uint32_t *, size_t);
typedef WallmirrorAnswer (*Carry)(WallmirrorPlan, uint8_t *, size_t, uint8_t *, size_t, int32_t *,
                                  size_t, WallmirrorDraft, const uint32_t *, size_t,
                                  const uint32_t *, size_t, uint32_t *, size_t, uint32_t *, size_t);
typedef WallmirrorAnswer (*PlainCarry)(WallmirrorPlan, uint8_t *, size_t, uint8_t *, size_t,
                                       int32_t *, size_t, const uint32_t *, size_t, uint32_t *,
                                       size_t, uint32_t *, size_t);

/* by cells and by functions in turn; the forms with a draft, and those without */
static const Change changes[4] = {
    wallmirror_refine_cells_with_draft, wallmirror_refine_functions_with_draft,
    wallmirror_coarsen_cells_with_draft, wallmirror_coarsen_functions_with_draft};
static const Carry carrying[2] = {wallmirror_refine_cells_with_heights_and_draft,
                                  wallmirror_refine_functions_with_heights_and_draft};
static const PlainCarry plain_carrying[2] = {wallmirror_refine_cells_with_heights,
                                             wallmirror_refine_functions_with_heights};

/* The mesh of watched.h with five levels cannot have heights. */
static const WallmirrorPlan deep = WALLMIRROR_PLAN(3, 1, 5, 1, 1, 2);

static unsigned long accepted[KINDS];

static int by_functions(int kind)
{
    return kind >= CHANGE && kind < OPEN_MESH && (kind - CHANGE) % 2 == 1;
}

static int coarsens(int kind)
{
    return kind == CHANGE + 2 || kind == CHANGE + 3;
}

static int carries(int kind)
{
    return kind == CARRY || kind == CARRY + 1;
}

/* Adding, closing and dropping take an open draft; to the others but open and read one is in the
 * way. */
static int takes_open(int kind)
{
    return kind == ADD || kind == CLOSE || kind == DROP;
}

static WallmirrorDraft draft_of(uint32_t open, size_t marks)
{
    WallmirrorDraft draft;
    draft.open = open;
    draft.marks = marks;
    return draft;
}

static WallmirrorDraft open_draft(int variant, size_t marks)
{
    static const uint32_t open[VARIANTS] = {1, 7, UINT32_MAX};
    return draft_of(open[variant], marks);
}

/* The last two have more marks than entries. */
static WallmirrorDraft no_draft(int variant, size_t list_len)
{
    static const uint32_t open[VARIANTS] = {0, 1, UINT32_MAX};
    const size_t marks[VARIANTS] = {list_len, list_len + 1, SIZE_MAX};
    return draft_of(open[variant], marks[variant]);
}

static WallmirrorClosed answered(uint32_t number, WallmirrorDraft draft)
{
    WallmirrorClosed closed;
    closed.answer.number = number;
    closed.answer.cells = closed.answer.functions = 0;
    closed.draft = draft;
    return closed;
}

static WallmirrorClosed of_drafted(WallmirrorDrafted drafted)
{
    return answered(drafted.number, drafted.draft);
}

static WallmirrorClosed of_answer(WallmirrorAnswer answer, WallmirrorDraft draft)
{
    WallmirrorClosed closed;
    closed.answer = answer;
    closed.draft = draft;
    return closed;
}

static WallmirrorClosed run(int kind, const struct lent *l)
{
    switch (kind) {
    case OPEN:
        return of_drafted(wallmirror_draft_open(l->plan, l->cells, l->cells_len, l->functions,
                                                l->functions_len, l->draft, l->list, l->list_len));
    case ADD:
        return of_drafted(wallmirror_draft_add(l->plan, l->cells, l->cells_len, l->functions,
                                               l->functions_len, l->draft, l->list, l->list_len,
                                               l->marks, l->marks_len));
    case CLOSE:
        return wallmirror_draft_close(l->plan, l->cells, l->cells_len, l->functions,
                                      l->functions_len, l->draft, l->list, l->list_len,
                                      l->cell_list, l->cell_list_len, l->function_list,
                                      l->function_list_len);
    case DROP:
        return of_drafted(wallmirror_draft_drop(l->plan, l->cells, l->cells_len, l->functions,
                                                l->functions_len, l->draft, l->list, l->list_len));
    case OPEN_MESH:
        return of_drafted(wallmirror_open_with_draft(l->plan, l->cells, l->cells_len, l->functions,
                                                     l->functions_len, l->draft));
    case READ_MESH: {
        WallmirrorReadWithDraft read =
            wallmirror_read_with_draft(l->file, l->file_len, l->cells, l->cells_len, l->functions,
                                       l->functions_len, l->draft);
        return answered(read.answer.number, read.draft);
    }
    case CARRY:
    case CARRY + 1:
        return of_answer(carrying[kind - CARRY](l->plan, l->cells, l->cells_len, l->functions,
                                                l->functions_len, l->heights, l->heights_len,
                                                l->draft, l->list, l->list_len, l->marks,
                                                l->marks_len, l->cell_list, l->cell_list_len,
                                                l->function_list, l->function_list_len),
                         l->draft);
    default:
        return of_answer(changes[kind - CHANGE](l->plan, l->cells, l->cells_len, l->functions,
                                                l->functions_len, l->draft, l->list, l->list_len,
                                                l->marks, l->marks_len, l->cell_list,
                                                l->cell_list_len, l->function_list,
                                                l->function_list_len),
                         l->draft);
    }
}

static WallmirrorAnswer refine_without(const struct lent *l, Plain call, const uint32_t *marks,
                                       size_t marks_len)
{
    return call(l->plan, l->cells, l->cells_len, l->functions, l->functions_len, marks, marks_len,
                l->cell_list, l->cell_list_len, l->function_list, l->function_list_len);
}

/* What an accepted call makes of its input, said by the calls without a draft. */
static WallmirrorClosed run_without(int kind, const struct lent *l)
{
    WallmirrorDraft none = draft_of(0, 0);
    switch (kind) {
    case OPEN:
        return answered(WALLMIRROR_ACCEPTED, draft_of(1, 0));
    case ADD:
        memcpy(l->list + l->draft.marks, l->marks, l->marks_len * sizeof *l->marks);
        return answered(WALLMIRROR_ACCEPTED,
                        draft_of(l->draft.open, l->draft.marks + l->marks_len));
    case CLOSE:
        return of_answer(refine_without(l, wallmirror_refine_cells, l->list, l->draft.marks), none);
    case DROP:
        return answered(WALLMIRROR_ACCEPTED, none);
    case OPEN_MESH:
        return answered(wallmirror_open(l->plan, l->cells, l->cells_len, l->functions,
                                        l->functions_len),
                        none);
    case READ_MESH:
        return answered(wallmirror_read(l->file, l->file_len, l->cells, l->cells_len, l->functions,
                                        l->functions_len).number,
                        none);
    case CARRY:
    case CARRY + 1:
        return of_answer(plain_carrying[kind - CARRY](
                             l->plan, l->cells, l->cells_len, l->functions, l->functions_len,
                             l->heights, l->heights_len, l->marks, l->marks_len, l->cell_list,
                             l->cell_list_len, l->function_list, l->function_list_len),
                         l->draft);
    default:
        return of_answer(refine_without(l, plain[kind - CHANGE], l->marks, l->marks_len), l->draft);
    }
}

static int same(WallmirrorClosed a, WallmirrorClosed b)
{
    return a.answer.number == b.answer.number && a.answer.cells == b.answer.cells &&
           a.answer.functions == b.answer.functions && a.draft.open == b.draft.open &&
           a.draft.marks == b.draft.marks;
}

/* Whether an accepted call may write to a slice. */
static int writes(int kind, int slice)
{
    switch (slice) {
    case CELLS:
    case FUNCTIONS:
        return kind != OPEN && kind != ADD && kind != DROP;
    case HEIGHTS:
        return carries(kind);
    case LIST:
        return kind == ADD;
    case CELL_LIST:
    case FUNCTION_LIST:
        return kind == CLOSE || (kind >= CHANGE && kind < OPEN_MESH);
    default:
        return 0;
    }
}

static void try_refused(int kind, const struct lent *lent, uint32_t number)
{
    WallmirrorClosed answer;
    int slice;
    for (slice = 0; slice < SLICES; slice++)
        allow(slice, PROT_READ);
    answer = run(kind, lent);
    for (slice = 0; slice < SLICES; slice++)
        allow(slice, PROT_READ | PROT_WRITE);
    if (!same(answer, answered(number, lent->draft)))
        wrong++;
    refused[number]++;
}

/* The call without a draft is made first, and then the one that is watched: both leave the same. */
static void try_accepted(int kind, const struct lent *lent)
{
    WallmirrorClosed answer, expected;
    int slice;
    keep_pages();
    expected = run_without(kind, lent);
    take_back_pages();
    for (slice = 0; slice < SLICES; slice++)
        allow(slice, writes(kind, slice) ? PROT_READ | PROT_WRITE : PROT_READ);
    answer = run(kind, lent);
    expect_pages();
    if (answer.answer.number != WALLMIRROR_ACCEPTED || !same(answer, expected))
        wrong++;
    accepted[kind]++;
}

/* The mesh that is said above, and lists that are long enough. */
static void lend_mesh(struct lent *lent, WallmirrorPlan plan)
{
    static const uint32_t marks[3] = {0, 1, 3}; /* each needs none that comes later */
    size_t i, t = wallmirror_cells_len(plan), f = wallmirror_functions_len(plan);
    lent->plan = plan;
    lent->cells_len = lent->cell_list_len = t;
    lent->functions_len = lent->heights_len = lent->function_list_len = f;
    lent->cells = (uint8_t *)end_of(CELLS, t);
    lent->functions = (uint8_t *)end_of(FUNCTIONS, f);
    lent->heights = (int32_t *)end_of(HEIGHTS, f * sizeof *lent->heights);
    lent->cell_list = (uint32_t *)end_of(CELL_LIST, t * sizeof *lent->cell_list);
    lent->function_list = (uint32_t *)end_of(FUNCTION_LIST, f * sizeof *lent->function_list);
    if (wallmirror_open(plan, lent->cells, t, lent->functions, f) != WALLMIRROR_ACCEPTED)
        wrong++;
    for (i = 0; i < 3; i++)
        if (refine_without(lent, wallmirror_refine_cells, marks + i, 1).cells != 1)
            wrong++;
    for (i = 0; i < f; i++)
        lent->heights[i] = (int32_t)i % 7;
    memset(lent->cell_list, 0xa5, t * sizeof *lent->cell_list);
    memset(lent->function_list, 0xa5, f * sizeof *lent->function_list);
}

/* A list of so many entries, all of them cell 2. */
static void lend_list(struct lent *lent, size_t entries)
{
    lent->list_len = entries;
    lent->list = lend_entries(LIST, 2, entries);
}

static void lend_file(struct lent *lent, const uint8_t *file, size_t length)
{
    lent->file_len = length;
    lent->file = (uint8_t *)end_of(FILE_BYTES, length);
    memcpy(lent->file, file, length);
}

/* What a call is to accept. The entries of the list past the marks of the draft are none. */
static void lend(int kind, struct lent *lent, WallmirrorPlan plan, int variant)
{
    lend_mesh(lent, plan);
    lend_list(lent, MOST_MARKS + ROOM);
    memset(lent->list + MOST_MARKS, 0xff, ROOM * sizeof *lent->list);
    lend_marks(lent, good_mark(by_functions(kind), coarsens(kind)), ROOM);
    lend_file(lent, shallow_file, sizeof shallow_file);
    lent->draft = takes_open(kind) ? open_draft(variant, MOST_MARKS)
                                   : no_draft(variant, lent->list_len);
}

static void short_table(int kind, struct lent *lent, int variant)
{
    (void)kind;
    if (variant % 2 == 0)
        lent->cells_len--;
    else
        lent->functions_len--;
}

static void no_mesh(int kind, struct lent *lent, int variant)
{
    (void)kind;
    (void)variant;
    lent->cells[0] = 3;
}

/* Cell 6 is refined too, which needs cell 2: it is in column 3 of level 1, beside column 4. */
static void not_admissible(int kind, struct lent *lent, int variant)
{
    static const size_t children[4] = {21, 22, 33, 34};
    int i;
    (void)kind;
    (void)variant;
    lent->cells[6] = WALLMIRROR_CELL_REFINED;
    for (i = 0; i < 4; i++)
        lent->cells[children[i]] = WALLMIRROR_CELL_ACTIVE;
}

/* 18, or 19. */
static void wrong_draft(int kind, struct lent *lent, int variant)
{
    lent->draft = takes_open(kind) ? no_draft(variant, lent->list_len)
                                   : open_draft(variant, MOST_MARKS);
}

static void few_heights(int kind, struct lent *lent, int variant)
{
    (void)kind;
    (void)variant;
    lent->heights_len--;
}

/* The plan is the deep one then from the first on. */
static void no_heights(int kind, struct lent *lent, int variant)
{
    (void)kind;
    (void)lent;
    (void)variant;
}

/* Function 1 is deactivated, and function 3 active. */
static void great_height(int kind, struct lent *lent, int variant)
{
    (void)kind;
    (void)variant;
    lent->heights[1] = INT32_MAX;
    lent->heights[3] = INT32_MIN;
}

/* The last of the marks that are judged: a number out of range, one of the wrong kind, or one of
 * the last level. */
static void bad_mark(int kind, struct lent *lent, int variant)
{
    uint32_t mark = bad_mark_of(by_functions(kind), coarsens(kind),
                                WALLMIRROR_MARK_OUT_OF_RANGE + (uint32_t)variant);
    if (kind == CLOSE)
        lent->list[MOST_MARKS - 1] = mark;
    else
        lent->marks[lent->marks_len - 1] = mark;
}

/* Of an add the list of the draft is too short by one. */
static void short_cell_list(int kind, struct lent *lent, int variant)
{
    (void)variant;
    if (kind == ADD)
        lent->list_len--;
    else
        lent->cell_list_len = 0;
}

/* A function that becomes deactivated passes half of its height to one of the next level that is as
 * high as it may be: of a mark of cell 2 that is function 2, and function 11 gets it; of a mark of
 * function 10 it is function 9, which covers cells 3 and 4, and function 30 gets it. */
static void great_carried(int kind, struct lent *lent, int variant)
{
    size_t i;
    (void)kind;
    (void)variant;
    lent->heights[2] = WALLMIRROR_MAX_HEIGHT_MM;
    for (i = 8; i < 8 + 21; i++)
        lent->heights[i] = WALLMIRROR_MAX_HEIGHT_MM << 4;
    lent->heights[30] = WALLMIRROR_MAX_HEIGHT_MM << 8;
}

enum { FAULTS = 14 };

/* The faults that a call refuses, in the order of the header. Which mark is bad is the variant. */
static size_t faults_of(int kind, int variant, struct fault *faults)
{
    size_t n = 0;
    n = put(faults, n, WALLMIRROR_PLAN_OUT_OF_RANGE, bad_plan);
    n = put(faults, n, WALLMIRROR_TOO_MANY_CELLS, large_plan);
    n = put(faults, n, WALLMIRROR_TABLE_LENGTH, short_table);
    if (kind == OPEN_MESH)
        return n;
    n = put(faults, n, WALLMIRROR_NOT_A_MESH, no_mesh);
    n = put(faults, n, WALLMIRROR_NOT_ADMISSIBLE, not_admissible);
    n = put(faults, n, WALLMIRROR_WRONG_FUNCTION_BYTE, wrong_function);
    n = put(faults, n, takes_open(kind) ? WALLMIRROR_NO_DRAFT : WALLMIRROR_DRAFT_OPEN, wrong_draft);
    if (kind == OPEN || kind == DROP)
        return n;
    if (carries(kind)) {
        n = put(faults, n, WALLMIRROR_TABLE_LENGTH, few_heights);
        n = put(faults, n, WALLMIRROR_PLAN_WITHOUT_HEIGHTS, no_heights);
        n = put(faults, n, WALLMIRROR_POINT_OR_HEIGHT_OUT_OF_RANGE, great_height);
    }
    if (!coarsens(kind) || variant < 2) /* coarsening never gives 9 */
        n = put(faults, n, WALLMIRROR_MARK_OUT_OF_RANGE + (uint32_t)variant, bad_mark);
    n = put(faults, n, WALLMIRROR_CELL_LIST_TOO_SHORT, short_cell_list);
    if (kind == ADD)
        return n;
    n = put(faults, n, WALLMIRROR_FUNCTION_LIST_TOO_SHORT, short_function_list);
    if (carries(kind))
        n = put(faults, n, WALLMIRROR_CARRIED_HEIGHT_OUT_OF_RANGE, great_carried);
    return n;
}

/* All faults; then without the first, and so on. */
static void try_order(int kind, int variant)
{
    struct fault faults[FAULTS];
    struct lent lent;
    size_t n = faults_of(kind, variant, faults), i, j;
    for (i = 0; i <= n; i++) {
        WallmirrorPlan plan = shallow;
        for (j = i; j < n; j++)
            if (faults[j].make == no_heights)
                plan = deep;
        lend(kind, &lent, plan, variant);
        for (j = n; j > i; j--)
            faults[j - 1].make(kind, &lent, variant);
        if (i < n)
            try_refused(kind, &lent, faults[i].number);
        else
            try_accepted(kind, &lent);
    }
}

/* A file for each refusal of reading, in the order of the header, and one that is read. The draft
 * that is handed in is open or not. */
static void try_read(WallmirrorDraft draft)
{
    enum { FILES = 7, BYTES = 12 };
    static const uint8_t files[FILES][BYTES] = {
        {17, 1, 3, 1, 1, 2, 1},                  /* and no cell: cut off */
        {17, 1, 3, 1, 1, 2, 1, 62},              /* a column too many */
        {16, 16, 8, 1, 1, 2, 1, 62},             /* too many cells */
        {3, 1, 3, 1, 1, 2, 1, 63, 2, 0, 1},      /* there is no cell 63, and a byte follows */
        {3, 1, 3, 1, 1, 2, 2, 0, 4, 2, 0, 1},    /* cell 4 needs cell 1, and a byte follows */
        {3, 1, 3, 1, 1, 2, 2, 0, 3, 2, 0, 1},    /* a byte follows */
        {3, 1, 3, 1, 1, 2, 2, 0, 3},             /* cells 0 and 3: cell 3 needs no other */
    };
    static const size_t lengths[FILES] = {7, 8, 8, 11, 12, 12, 9};
    static const uint32_t numbers[FILES] = {
        WALLMIRROR_MALFORMED_FILE, WALLMIRROR_PLAN_OUT_OF_RANGE, WALLMIRROR_TOO_MANY_CELLS,
        WALLMIRROR_NOT_A_MESH,     WALLMIRROR_NOT_ADMISSIBLE,    WALLMIRROR_TRAILING_BYTES,
        WALLMIRROR_ACCEPTED};
    struct lent lent;
    int i;
    for (i = 0; i < FILES; i++) {
        lend(READ_MESH, &lent, shallow, 0);
        lent.draft = draft;
        lend_file(&lent, files[i], lengths[i]);
        if (numbers[i] != WALLMIRROR_ACCEPTED) {
            try_refused(READ_MESH, &lent, numbers[i]);
            continue;
        }
        lent.functions_len--;
        try_refused(READ_MESH, &lent, WALLMIRROR_TABLE_LENGTH);
        lent.functions_len++;
        try_accepted(READ_MESH, &lent);
    }
}

/* The plan that reading with a draft answers is that of reading without: here with tables that are
 * empty. */
static void try_plan_read(void)
{
    static const uint8_t file[7] = {3, 1, 3, 1, 1, 2, 0};
    WallmirrorReadWithDraft with = wallmirror_read_with_draft(file, sizeof file, NULL, 0, NULL, 0,
                                                              draft_of(7, 9));
    WallmirrorRead without = wallmirror_read(file, sizeof file, NULL, 0, NULL, 0);
    if (with.answer.number != WALLMIRROR_TABLE_LENGTH || with.draft.open != 7 ||
        with.draft.marks != 9 || memcmp(&with.answer, &without, sizeof without) != 0)
        wrong++;
}

/* Opening a mesh drops an open draft as it does one that is not. */
static void try_open_mesh(WallmirrorDraft draft)
{
    struct lent lent;
    lend(OPEN_MESH, &lent, shallow, 0);
    lent.draft = draft;
    try_accepted(OPEN_MESH, &lent);
    lent.cells_len--;
    try_refused(OPEN_MESH, &lent, WALLMIRROR_TABLE_LENGTH);
}

/* Marks up to the last entry of the list, one by one, and then one more; no marks are accepted
 * still, and the draft is closed. */
static void try_full_list(void)
{
    enum { ENTRIES = 5 };
    struct lent lent;
    size_t i;
    lend(ADD, &lent, shallow, 0);
    lend_list(&lent, ENTRIES);
    lend_marks(&lent, 2, 1);
    for (i = 0; i < ENTRIES; i++) {
        lent.draft = open_draft(0, i);
        try_accepted(ADD, &lent);
    }
    lent.draft = open_draft(0, ENTRIES);
    try_refused(ADD, &lent, WALLMIRROR_CELL_LIST_TOO_SHORT);
    lend_marks(&lent, 2, 0);
    try_accepted(ADD, &lent);
    try_accepted(CLOSE, &lent);
}

/* An add writes the entries of its marks alone: those before and past them are on pages that may
 * only be read. */
static void try_entries(void)
{
    size_t page = (size_t)sysconf(_SC_PAGESIZE), entries = page / sizeof(uint32_t);
    struct lent lent;
    WallmirrorClosed answer;
    size_t i;
    lend(ADD, &lent, shallow, 0);
    lend_list(&lent, 3 * entries);
    lend_marks(&lent, 4, entries); /* cell 4 is active */
    lent.draft = open_draft(0, entries);
    allow(LIST, PROT_READ);
    if (mprotect(lent.list + entries, page, PROT_READ | PROT_WRITE) != 0)
        _exit(3);
    answer = run(ADD, &lent);
    allow(LIST, PROT_READ | PROT_WRITE);
    if (!same(answer, answered(WALLMIRROR_ACCEPTED, open_draft(0, 2 * entries))))
        wrong++;
    for (i = 0; i < 3 * entries; i++)
        if (lent.list[i] != (i / entries == 1 ? 4u : 2u))
            wrong++;
    accepted[ADD]++;
}

/* A draft of no marks with an empty list is open. */
static void try_empty_list(uint32_t *list)
{
    struct lent lent;
    int kind;
    for (kind = 0; kind < OPEN_MESH; kind++) {
        lend(kind, &lent, shallow, 0);
        lent.draft = open_draft(0, 0);
        lent.list = list;
        lent.list_len = 0;
        if (kind == ADD) {
            try_refused(kind, &lent, WALLMIRROR_CELL_LIST_TOO_SHORT);
            lent.marks = list;
            lent.marks_len = 0;
        }
        if (takes_open(kind))
            try_accepted(kind, &lent);
        else
            try_refused(kind, &lent, WALLMIRROR_DRAFT_OPEN);
    }
}

/* More marks than entries, by one or by so many that a sum would begin at 0 again. */
static void try_overfull(void)
{
    const size_t marks[4] = {MOST_MARKS + ROOM + 1, SIZE_MAX / 4 + 1, SIZE_MAX - ROOM + 1,
                             SIZE_MAX};
    struct lent lent;
    int kind, i;
    for (kind = 0; kind < OPEN_MESH; kind++)
        for (i = 0; i < 4; i++) {
            lend(kind, &lent, shallow, 0);
            lent.draft = draft_of(1, marks[i]);
            if (takes_open(kind))
                try_refused(kind, &lent, WALLMIRROR_NO_DRAFT);
            else
                try_accepted(kind, &lent);
        }
}

/* The example of the header: what is listed, and nothing past it. */
static void try_example(void)
{
    static const uint32_t marks[MOST_MARKS] = {3, 4, 3}, first = 0;
    static const uint32_t listed_cells[3] = {1, 3, 4}, listed_functions[4] = {1, 5, 8, 9};
    struct lent lent;
    WallmirrorClosed closed;
    lend(CLOSE, &lent, shallow, 0);
    if (wallmirror_open(shallow, lent.cells, lent.cells_len, lent.functions, lent.functions_len) ||
        refine_without(&lent, wallmirror_refine_cells, &first, 1).cells != 1)
        wrong++;
    memcpy(lent.list, marks, sizeof marks);
    memset(lent.cell_list, 0xa5, lent.cell_list_len * sizeof *lent.cell_list);
    closed = run(CLOSE, &lent);
    if (closed.answer.number != WALLMIRROR_ACCEPTED || closed.answer.cells != 3 ||
        closed.answer.functions != 4 || lent.cell_list[3] != 0xa5a5a5a5u ||
        memcmp(lent.cell_list, listed_cells, sizeof listed_cells) != 0 ||
        memcmp(lent.function_list, listed_functions, sizeof listed_functions) != 0)
        wrong++;
    accepted[CLOSE]++;
}

/* Nothing is lent at all. */
static void try_nothing(void)
{
    struct lent lent;
    int kind;
    memset(&lent, 0, sizeof lent);
    lent.plan = shallow;
    for (kind = 0; kind < KINDS; kind++)
        try_refused(kind, &lent,
                    kind == READ_MESH ? WALLMIRROR_MALFORMED_FILE : WALLMIRROR_TABLE_LENGTH);
}

int main(void)
{
    static const char *const names[KINDS] = {
        "wallmirror_draft_open", "wallmirror_draft_add", "wallmirror_draft_close",
        "wallmirror_draft_drop", "wallmirror_refine_cells_with_draft",
        "wallmirror_refine_functions_with_draft", "wallmirror_coarsen_cells_with_draft",
        "wallmirror_coarsen_functions_with_draft", "wallmirror_refine_cells_with_heights_and_draft",
        "wallmirror_refine_functions_with_heights_and_draft", "wallmirror_open_with_draft",
        "wallmirror_read_with_draft"};
    int kind, variant;
    if (!make_pages()) {
        fprintf(stderr, "draft: no pages\n");
        return 2;
    }
    for (variant = 0; variant < VARIANTS; variant++) {
        for (kind = 0; kind < READ_MESH; kind++)
            try_order(kind, variant);
        try_read(open_draft(variant, MOST_MARKS));
        try_read(no_draft(variant, MOST_MARKS));
        try_open_mesh(open_draft(variant, MOST_MARKS));
    }
    try_example();
    try_plan_read();
    try_full_list();
    try_entries();
    try_empty_list(NULL);
    try_empty_list((uint32_t *)end_of(LIST, 0));
    try_overfull();
    try_nothing();
    for (kind = 0; kind < KINDS; kind++)
        printf("%s: %lu accepted\n", names[kind], accepted[kind]);
    return print_refused();
}
