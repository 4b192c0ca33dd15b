/*
 * The calls on planes, watched by the machine. All that is lent lies on pages that may only be read
 * while a call runs, but for what an accepted call writes, and ends where its pages end. Answer,
 * planes, functions, cells and lists are each time those that the call on bytes gives for the cells
 * that the planes hold, which is said here bit by bit. First each call is given an input with every
 * fault that it can refuse, which is mended one fault after the other: it shows them in the order
 * of the header and is accepted at the end. Then every bit of some planes is flipped, meshes are
 * refined and coarsened and walked back, and empty slices are lent. The output is to be that of
 * planes.expected.
 */
#ifndef _GNU_SOURCE
#define _GNU_SOURCE
#endif
#include "watched.h"

/* the calls; CHANGE and the three after it refine and coarsen */
enum { OPEN, CHECK, COUNT, CHANGE, FROM_CELLS = 7, TO_CELLS, KINDS };

enum { VARIANTS = 6, FAULTS = 10, CALLS = 40, MARKS_OF_A_CALL = 4 };

/* What a call answers; what it does not answer is 0. */
struct reply {
    uint32_t number;
    uint32_t rest[4];
};

typedef WallmirrorAnswer (*Change)(WallmirrorPlan, uint64_t *, size_t, uint64_t *, size_t,
                                   uint8_t *, size_t, const uint32_t *, size_t, uint32_t *, size_t,
                                   uint32_t *, size_t);

/* by cells and by functions in turn */
static const Change changes[4] = {
    wallmirror_planes_refine_cells, wallmirror_planes_refine_functions,
    wallmirror_planes_coarsen_cells, wallmirror_planes_coarsen_functions};

static unsigned long accepted[KINDS];

/* the same numbers on every machine */
static uint32_t random_below(uint32_t n)
{
    static uint32_t state = 20261117;
    state = state * 1664525u + 1013904223u;
    return (state >> 8) % n;
}

static int changes_mesh(int kind)
{
    return kind >= CHANGE && kind < FROM_CELLS;
}

static int by_functions(int kind)
{
    return changes_mesh(kind) && (kind - CHANGE) % 2 == 1;
}

static int coarsens(int kind)
{
    return changes_mesh(kind) && kind - CHANGE >= 2;
}

/* The cell table is lent beside the planes, and not the functions. */
static int takes_cells(int kind)
{
    return kind == FROM_CELLS || kind == TO_CELLS;
}

static struct reply reply_of(uint32_t number, uint32_t a, uint32_t b, uint32_t c, uint32_t d)
{
    struct reply reply;
    reply.number = number;
    reply.rest[0] = a;
    reply.rest[1] = b;
    reply.rest[2] = c;
    reply.rest[3] = d;
    return reply;
}

static struct reply of_number(uint32_t number)
{
    return reply_of(number, 0, 0, 0, 0);
}

static struct reply of_count(WallmirrorCount count)
{
    return reply_of(count.number, count.active_cells, count.refined_cells, count.active_functions,
                    count.area);
}

static struct reply of_answer(WallmirrorAnswer answer)
{
    return reply_of(answer.number, answer.cells, answer.functions, 0, 0);
}

static struct reply run(int kind, const struct lent *l)
{
    switch (kind) {
    case OPEN:
        return of_number(wallmirror_planes_open(l->plan, l->present, l->present_len, l->refined,
                                                l->refined_len, l->functions, l->functions_len));
    case CHECK:
        return of_number(wallmirror_planes_check(l->plan, l->present, l->present_len, l->refined,
                                                 l->refined_len, l->functions, l->functions_len));
    case COUNT:
        return of_count(wallmirror_planes_count(l->plan, l->present, l->present_len, l->refined,
                                                l->refined_len, l->functions, l->functions_len));
    case FROM_CELLS:
        return of_number(wallmirror_planes_from_cells(l->plan, l->cells, l->cells_len, l->present,
                                                      l->present_len, l->refined, l->refined_len));
    case TO_CELLS:
        return of_number(wallmirror_planes_to_cells(l->plan, l->present, l->present_len, l->refined,
                                                    l->refined_len, l->cells, l->cells_len));
    default:
        return of_answer(changes[kind - CHANGE](
            l->plan, l->present, l->present_len, l->refined, l->refined_len, l->functions,
            l->functions_len, l->marks, l->marks_len, l->cell_list, l->cell_list_len,
            l->function_list, l->function_list_len));
    }
}

static int bit(const uint64_t *plane, size_t i)
{
    return (int)(plane[i / 64] >> i % 64 & 1);
}

static void flip(uint64_t *plane, size_t i)
{
    plane[i / 64] ^= (uint64_t)1 << i % 64;
}

/* The byte of each cell that the planes hold. */
static void unpack(const struct lent *l, uint8_t *bytes)
{
    size_t i, t = wallmirror_cells_len(l->plan);
    for (i = 0; i < t; i++)
        bytes[i] = (uint8_t)(bit(l->present, i) + bit(l->refined, i));
}

static void pack(const struct lent *l, const uint8_t *bytes)
{
    size_t i, t = wallmirror_cells_len(l->plan);
    memset(l->present, 0, l->present_len * sizeof *l->present);
    memset(l->refined, 0, l->refined_len * sizeof *l->refined);
    for (i = 0; i < t; i++) {
        if (bytes[i] != WALLMIRROR_CELL_ABSENT)
            flip(l->present, i);
        if (bytes[i] == WALLMIRROR_CELL_REFINED)
            flip(l->refined, i);
    }
}

/* What is refused before the call on bytes is asked, as the header says it. */
static uint32_t refusal_of_planes(int kind, const struct lent *l)
{
    size_t i, t = wallmirror_cells_len(l->plan), f = wallmirror_functions_len(l->plan);
    size_t words = (t + 63) / 64;
    uint32_t number = wallmirror_plan_refusal(l->plan);
    if (number != WALLMIRROR_ACCEPTED)
        return number;
    if (l->present_len != words || l->refined_len != words ||
        (takes_cells(kind) ? l->cells_len != t : l->functions_len != f))
        return WALLMIRROR_TABLE_LENGTH;
    if (kind == OPEN || kind == FROM_CELLS)
        return WALLMIRROR_ACCEPTED;
    for (i = 0; i < 64 * words; i++)
        if (i < t ? bit(l->refined, i) > bit(l->present, i)
                  : bit(l->refined, i) || bit(l->present, i))
            return WALLMIRROR_NOT_A_MESH;
    return WALLMIRROR_ACCEPTED;
}

static struct reply take_cells(const struct lent *l)
{
    size_t i;
    for (i = 0; i < l->cells_len; i++)
        if (l->cells[i] > WALLMIRROR_CELL_REFINED)
            return of_number(WALLMIRROR_NOT_A_MESH);
    pack(l, l->cells);
    return of_number(WALLMIRROR_ACCEPTED);
}

/* What the call is to answer and leave, by the call on bytes. */
static struct reply run_on_bytes(int kind, const struct lent *l)
{
    static uint8_t bytes[WALLMIRROR_MAX_CELLS];
    size_t t = wallmirror_cells_len(l->plan);
    uint32_t number = refusal_of_planes(kind, l);
    struct reply reply;
    if (number != WALLMIRROR_ACCEPTED)
        return of_number(number);
    if (kind == FROM_CELLS)
        return take_cells(l);
    unpack(l, bytes);
    switch (kind) {
    case OPEN:
        reply = of_number(wallmirror_open(l->plan, bytes, t, l->functions, l->functions_len));
        break;
    case CHECK:
        return of_number(wallmirror_check(l->plan, bytes, t, l->functions, l->functions_len));
    case COUNT:
        return of_count(wallmirror_count(l->plan, bytes, t, l->functions, l->functions_len));
    case TO_CELLS:
        memcpy(l->cells, bytes, t);
        return of_number(WALLMIRROR_ACCEPTED);
    default:
        reply = of_answer(plain[kind - CHANGE](l->plan, bytes, t, l->functions, l->functions_len,
                                               l->marks, l->marks_len, l->cell_list,
                                               l->cell_list_len, l->function_list,
                                               l->function_list_len));
    }
    if (reply.number == WALLMIRROR_ACCEPTED)
        pack(l, bytes);
    return reply;
}

/* Whether an accepted call may write to a slice. */
static int writes(int kind, int slice)
{
    switch (slice) {
    case PRESENT:
    case REFINED:
        return kind == OPEN || kind == FROM_CELLS || changes_mesh(kind);
    case FUNCTIONS:
        return kind == OPEN || changes_mesh(kind);
    case CELLS:
        return kind == TO_CELLS;
    case CELL_LIST:
    case FUNCTION_LIST:
        return changes_mesh(kind);
    default:
        return 0;
    }
}

/* Makes the call that is watched after the one on bytes: both answer and leave the same. */
static struct reply try_call(int kind, const struct lent *lent)
{
    struct reply reply, expected;
    int slice, is_accepted;
    keep_pages();
    expected = run_on_bytes(kind, lent);
    take_back_pages();
    is_accepted = expected.number == WALLMIRROR_ACCEPTED;
    for (slice = 0; slice < SLICES; slice++)
        allow(slice, is_accepted && writes(kind, slice) ? PROT_READ | PROT_WRITE : PROT_READ);
    reply = run(kind, lent);
    expect_pages();
    if (memcmp(&reply, &expected, sizeof reply) != 0)
        wrong++;
    if (is_accepted)
        accepted[kind]++;
    else
        refused[expected.number]++;
    return reply;
}

static void expect(int kind, const struct lent *lent, uint32_t number)
{
    if (try_call(kind, lent).number != number)
        wrong++;
}

/* Slices of the lengths that the plan asks for, with lists as long as their pages, if they are not
 * long enough anyway; no bit or byte is a good one. */
static void lend_plan(struct lent *lent, WallmirrorPlan plan)
{
    size_t most = SLICE_BYTES / sizeof *lent->cell_list;
    size_t t = wallmirror_cells_len(plan), f = wallmirror_functions_len(plan);
    size_t words = wallmirror_planes_len(plan);
    int slice;
    for (slice = 0; slice < SLICES; slice++)
        memset(pages[slice], 0xa5, SLICE_BYTES);
    memset(lent, 0, sizeof *lent);
    lent->plan = plan;
    lent->present_len = lent->refined_len = words;
    lent->cells_len = t;
    lent->functions_len = f;
    lent->cell_list_len = t < most ? t : most;
    lent->function_list_len = f < most ? f : most;
    lent->present = (uint64_t *)end_of(PRESENT, words * sizeof *lent->present);
    lent->refined = (uint64_t *)end_of(REFINED, words * sizeof *lent->refined);
    lent->cells = (uint8_t *)end_of(CELLS, t);
    lent->functions = (uint8_t *)end_of(FUNCTIONS, f);
    lent->cell_list = (uint32_t *)end_of(CELL_LIST, lent->cell_list_len * sizeof *lent->cell_list);
    lent->function_list =
        (uint32_t *)end_of(FUNCTION_LIST, lent->function_list_len * sizeof *lent->function_list);
    lent->marks = (uint32_t *)end_of(MARKS, 0);
}

/* What a call is to accept: the mesh of the file, as planes and as bytes. */
static void lend(int kind, struct lent *lent)
{
    lend_plan(lent, shallow);
    if (wallmirror_read(shallow_file, sizeof shallow_file, lent->cells, lent->cells_len,
                        lent->functions, lent->functions_len).number != WALLMIRROR_ACCEPTED)
        wrong++;
    pack(lent, lent->cells);
    lend_marks(lent, good_mark(by_functions(kind), coarsens(kind)), 2);
}

/* One entry fewer or more, of a plane or of the table. */
static void wrong_length(int kind, struct lent *lent, int variant)
{
    int longer = variant >= 3;
    size_t *table_len = takes_cells(kind) ? &lent->cells_len : &lent->functions_len;
    switch (variant % 3) {
    case 0:
        lent->present_len += longer ? 1 : -(size_t)1;
        lent->present = (uint64_t *)end_of(PRESENT, lent->present_len * sizeof *lent->present);
        return;
    case 1:
        lent->refined_len += longer ? 1 : -(size_t)1;
        lent->refined = (uint64_t *)end_of(REFINED, lent->refined_len * sizeof *lent->refined);
        return;
    default:
        *table_len += longer ? 1 : -(size_t)1;
        lent->cells = (uint8_t *)end_of(CELLS, lent->cells_len);
        lent->functions = (uint8_t *)end_of(FUNCTIONS, lent->functions_len);
    }
}

/* The spare bit of one plane or of both, or an absent cell that is refined. */
static void no_order(int kind, struct lent *lent, int variant)
{
    (void)kind;
    if (variant % 4 == 0 || variant % 4 == 2)
        flip(lent->present, 63);
    if (variant % 4 == 1 || variant % 4 == 2)
        flip(lent->refined, 63);
    if (variant % 4 == 3)
        flip(lent->refined, 7);
}

/* In order: level 0 lacks a cell, a refined cell lacks a child, or one of the last level is
 * refined. */
static void no_mesh(int kind, struct lent *lent, int variant)
{
    (void)kind;
    switch (variant % 3) {
    case 0:
        flip(lent->present, 2);
        return;
    case 1:
        flip(lent->present, 4);
        return;
    default:
        flip(lent->refined, 15);
    }
}

static void wrong_byte(int kind, struct lent *lent, int variant)
{
    static const uint8_t bytes[VARIANTS] = {3, 4, 6, 128, 130, 255};
    (void)kind;
    lent->cells[variant % 2 == 0 ? 0 : lent->cells_len - 1] = bytes[variant];
}

/* Cell 6 is refined too, which needs cell 2: it is in column 3 of level 1, beside column 4. */
static void not_admissible(int kind, struct lent *lent, int variant)
{
    static const size_t children[4] = {21, 22, 33, 34};
    int i;
    (void)kind;
    (void)variant;
    flip(lent->refined, 6);
    for (i = 0; i < 4; i++)
        flip(lent->present, children[i]);
}

static uint32_t number_of_mark(int variant)
{
    return WALLMIRROR_MARK_OUT_OF_RANGE + (uint32_t)variant % 3;
}

static void bad_mark(int kind, struct lent *lent, int variant)
{
    lent->marks[lent->marks_len - 1] =
        bad_mark_of(by_functions(kind), coarsens(kind), number_of_mark(variant));
}

static void short_cell_list(int kind, struct lent *lent, int variant)
{
    (void)kind;
    (void)variant;
    lent->cell_list_len = 0;
}

/* The faults that a call refuses, in the order of the header. */
static size_t faults_of(int kind, int variant, struct fault *faults)
{
    size_t n = 0;
    n = put(faults, n, WALLMIRROR_PLAN_OUT_OF_RANGE, bad_plan);
    n = put(faults, n, WALLMIRROR_TOO_MANY_CELLS, large_plan);
    n = put(faults, n, WALLMIRROR_TABLE_LENGTH, wrong_length);
    if (kind == OPEN)
        return n;
    if (kind == FROM_CELLS)
        return put(faults, n, WALLMIRROR_NOT_A_MESH, wrong_byte);
    n = put(faults, n, WALLMIRROR_NOT_A_MESH, no_order);
    if (kind == TO_CELLS)
        return n;
    n = put(faults, n, WALLMIRROR_NOT_A_MESH, no_mesh);
    n = put(faults, n, WALLMIRROR_NOT_ADMISSIBLE, not_admissible);
    n = put(faults, n, WALLMIRROR_WRONG_FUNCTION_BYTE, wrong_function);
    if (!changes_mesh(kind))
        return n;
    if (!coarsens(kind) || number_of_mark(variant) != WALLMIRROR_MARK_OF_LAST_LEVEL)
        n = put(faults, n, number_of_mark(variant), bad_mark);
    n = put(faults, n, WALLMIRROR_CELL_LIST_TOO_SHORT, short_cell_list);
    return put(faults, n, WALLMIRROR_FUNCTION_LIST_TOO_SHORT, short_function_list);
}

/* All faults; then without the first, and so on. */
static void try_order(int kind, int variant)
{
    struct fault faults[FAULTS];
    struct lent lent;
    size_t n = faults_of(kind, variant, faults), i, j;
    for (i = 0; i <= n; i++) {
        lend(kind, &lent);
        for (j = n; j > i; j--)
            faults[j - 1].make(kind, &lent, variant);
        expect(kind, &lent, i < n ? faults[i].number : (uint32_t)WALLMIRROR_ACCEPTED);
    }
}

/* Cells that are no mesh go to planes and back. */
static void try_no_mesh(int variant)
{
    struct lent lent;
    lend(TO_CELLS, &lent);
    no_mesh(TO_CELLS, &lent, variant);
    expect(CHECK, &lent, WALLMIRROR_NOT_A_MESH);
    expect(TO_CELLS, &lent, WALLMIRROR_ACCEPTED);
    expect(FROM_CELLS, &lent, WALLMIRROR_ACCEPTED);
}

/* Every bit alone, of either plane and spare ones too. No mesh is a bit away from another. */
static void try_flips(const struct lent *lent)
{
    uint64_t *planes[2];
    size_t i;
    int plane;
    planes[0] = lent->present;
    planes[1] = lent->refined;
    for (plane = 0; plane < 2; plane++)
        for (i = 0; i < 64 * lent->present_len; i++) {
            flip(planes[plane], i);
            expect(CHECK, lent, WALLMIRROR_NOT_A_MESH);
            try_call(TO_CELLS, lent);
            flip(planes[plane], i);
        }
}

/* Whether the call takes the mark alone, as the one on bytes says. */
static int takes(int kind, const struct lent *l, uint32_t mark)
{
    static uint8_t bytes[WALLMIRROR_MAX_CELLS], functions[SLICE_BYTES];
    static uint32_t cell_list[WALLMIRROR_MAX_CELLS], function_list[SLICE_BYTES];
    size_t t = wallmirror_cells_len(l->plan);
    unpack(l, bytes);
    memcpy(functions, l->functions, l->functions_len);
    return plain[kind - CHANGE](l->plan, bytes, t, functions, l->functions_len, &mark, 1, cell_list,
                                t, function_list, l->functions_len).number == WALLMIRROR_ACCEPTED;
}

/* Some marks that the call takes, if they are found; now and then one more that may be refused. */
static void lend_random_marks(int kind, struct lent *lent)
{
    size_t total = by_functions(kind) ? lent->functions_len : lent->cells_len, n = 0, tries;
    uint32_t marks[MARKS_OF_A_CALL];
    for (tries = 0; tries < 60 && n < MARKS_OF_A_CALL; tries++) {
        marks[n] = random_below(random_below((uint32_t)total) + 1); /* rather of a coarse level */
        n += takes(kind, lent, marks[n]) || random_below(1000) == 0;
    }
    lend_marks(lent, 0, n);
    memcpy(lent->marks, marks, n * sizeof *marks);
}

/* The lists of one call, cut to the answered lengths. */
struct record {
    int kind;
    uint32_t cells, functions;
    uint32_t cell_list[SLICE_BYTES / 4], function_list[SLICE_BYTES / 4];
};

static void keep(struct record *record, int kind, const struct lent *lent, struct reply reply)
{
    record->kind = kind;
    record->cells = reply.rest[0];
    record->functions = reply.rest[1];
    memcpy(record->cell_list, lent->cell_list, record->cells * sizeof *lent->cell_list);
    memcpy(record->function_list, lent->function_list,
           record->functions * sizeof *lent->function_list);
}

/* The opposite call by cells with the kept cells as marks names the same cells and functions. */
static void walk_back(const struct record *record, struct lent *lent)
{
    int kind = coarsens(record->kind) ? CHANGE : CHANGE + 2;
    struct reply reply;
    lend_marks(lent, 0, record->cells);
    memcpy(lent->marks, record->cell_list, record->cells * sizeof *lent->marks);
    reply = try_call(kind, lent);
    if (reply.number != WALLMIRROR_ACCEPTED || reply.rest[0] != record->cells ||
        reply.rest[1] != record->functions ||
        memcmp(lent->cell_list, record->cell_list, record->cells * sizeof *lent->marks) != 0 ||
        memcmp(lent->function_list, record->function_list,
               record->functions * sizeof *lent->marks) != 0)
        wrong++;
}

/* A mesh is opened, refined and coarsened, and at last walked back to the one that was opened. */
static void season(WallmirrorPlan plan)
{
    static struct record records[CALLS];
    static uint64_t present[WALLMIRROR_MAX_PLANE_WORDS], refined[WALLMIRROR_MAX_PLANE_WORDS];
    static uint8_t functions[SLICE_BYTES];
    struct lent lent;
    size_t bytes;
    int call;
    lend_plan(&lent, plan);
    expect(OPEN, &lent, WALLMIRROR_ACCEPTED);
    bytes = lent.present_len * sizeof *present;
    memcpy(present, lent.present, bytes);
    memcpy(refined, lent.refined, bytes);
    memcpy(functions, lent.functions, lent.functions_len);
    for (call = 0; call < CALLS; call++) {
        int kind = CHANGE + (int)random_below(4);
        if (random_below(2) == 0)
            kind = CHANGE + (int)random_below(2); /* refine more than is coarsened */
        lend_random_marks(kind, &lent);
        keep(&records[call], kind, &lent, try_call(kind, &lent));
        expect(CHECK, &lent, WALLMIRROR_ACCEPTED);
        expect(COUNT, &lent, WALLMIRROR_ACCEPTED);
        expect(TO_CELLS, &lent, WALLMIRROR_ACCEPTED);
        expect(FROM_CELLS, &lent, WALLMIRROR_ACCEPTED);
    }
    if (lent.present_len <= 8)
        try_flips(&lent);
    for (call = CALLS - 1; call >= 0; call--)
        walk_back(&records[call], &lent);
    if (memcmp(present, lent.present, bytes) != 0 || memcmp(refined, lent.refined, bytes) != 0 ||
        memcmp(functions, lent.functions, lent.functions_len) != 0)
        wrong++;
}

/* The first has one cell. The second, the fifth and the seventh have no spare bit. The third has
 * one cell in its last word. The last has as many cells as there may be. */
static void try_seasons(void)
{
    enum { PLANS = 8 };
    WallmirrorPlan plans[PLANS] = {
        WALLMIRROR_PLAN(1, 1, 1, 1, 1, 0),   WALLMIRROR_PLAN(8, 8, 1, 2, 2, 0),
        WALLMIRROR_PLAN(13, 5, 1, 1, 4, 2),  WALLMIRROR_PLAN(3, 1, 3, 1, 1, 2),
        WALLMIRROR_PLAN(8, 8, 2, 3, 2, 0),   WALLMIRROR_PLAN(2, 3, 4, 2, 1, 2),
        WALLMIRROR_PLAN(16, 16, 4, 1, 1, 2), WALLMIRROR_PLAN(1, 1, 8, 1, 1, 3),
    };
    int i;
    plans[5].corners_up = 1u << 2;
    for (i = 0; i < PLANS; i++)
        season(plans[i]);
}

static void expect_planes(const struct lent *lent, uint64_t present, uint64_t refined)
{
    if (lent->present_len != 1 || lent->refined_len != 1 || lent->present[0] != present ||
        lent->refined[0] != refined)
        wrong++;
}

/* The example of the header: opened, refined, and read from a file. */
static void try_example(void)
{
    static const uint8_t file[8] = {3, 1, 3, 1, 1, 2, 1, 0};
    struct lent lent;
    lend_plan(&lent, shallow);
    expect(OPEN, &lent, WALLMIRROR_ACCEPTED);
    expect_planes(&lent, 7, 0);
    lend_marks(&lent, 0, 1);
    expect(CHANGE, &lent, WALLMIRROR_ACCEPTED);
    expect_planes(&lent, 0x61f, 1);
    lend_plan(&lent, shallow);
    if (wallmirror_read(file, sizeof file, lent.cells, lent.cells_len, lent.functions,
                        lent.functions_len).number != WALLMIRROR_ACCEPTED)
        wrong++;
    expect(FROM_CELLS, &lent, WALLMIRROR_ACCEPTED);
    expect_planes(&lent, 0x61f, 1);
    expect(CHECK, &lent, WALLMIRROR_ACCEPTED);
}

/* Empty marks and lists, at a place or at none: without marks nothing is listed. */
static void try_empty(uint32_t *entries)
{
    struct lent lent;
    int kind;
    for (kind = CHANGE; kind < FROM_CELLS; kind++) {
        lend(kind, &lent);
        lent.cell_list = lent.function_list = entries;
        lent.cell_list_len = lent.function_list_len = 0;
        expect(kind, &lent, WALLMIRROR_CELL_LIST_TOO_SHORT);
        lent.marks = entries;
        lent.marks_len = 0;
        expect(kind, &lent, WALLMIRROR_ACCEPTED);
    }
}

/* Nothing is lent at all. */
static void try_nothing(void)
{
    struct lent lent;
    int kind;
    memset(&lent, 0, sizeof lent);
    for (kind = 0; kind < KINDS; kind++) {
        lent.plan = shallow;
        expect(kind, &lent, WALLMIRROR_TABLE_LENGTH);
        bad_plan(kind, &lent, 0);
        expect(kind, &lent, WALLMIRROR_PLAN_OUT_OF_RANGE);
    }
}

int main(void)
{
    static const char *const names[KINDS] = {
        "open",          "check",             "count",      "refine_cells", "refine_functions",
        "coarsen_cells", "coarsen_functions", "from_cells", "to_cells"};
    int kind, variant;
    if (!make_pages()) {
        fprintf(stderr, "planes: no pages\n");
        return 2;
    }
    for (variant = 0; variant < VARIANTS; variant++) {
        for (kind = 0; kind < KINDS; kind++)
            try_order(kind, variant);
        try_no_mesh(variant);
    }
    try_example();
    try_seasons();
    try_empty(NULL);
    try_empty((uint32_t *)end_of(LIST, 0));
    try_nothing();
    for (kind = 0; kind < KINDS; kind++)
        printf("wallmirror_planes_%s: %lu accepted\n", names[kind], accepted[kind]);
    return print_refused();
}
