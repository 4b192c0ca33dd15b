/*
 * wallmirror_rounds, watched by the machine. All that is lent lies on pages that may only be read
 * while the call runs, but for what an accepted call writes to both lists, and ends where its pages
 * end. Answer and lists are each time those of rounds that are made here by their definition, one
 * after the other. Each of these lists its own marks, all together lead to the wanted tables, and
 * the lists that were kept lead back. First the call is given an input with every fault, which is
 * mended one fault after the other: it shows them in the order of the header and is accepted at the
 * end. Then follow worked examples, random meshes with lists that are just long enough,
 * longer and too short, the most rounds that there are, and empty slices. The output is to be that
 * of rounds.expected.
 */
#ifndef _GNU_SOURCE
#define _GNU_SOURCE
#endif
#include "watched.h"

enum { VARIANTS = 6, STEPS = 12, UNTOUCHED = 77 };

/* Which mesh has a fault. */
enum { TODAY, WANTED };

/* What a call lists, cut to the answered lengths. */
struct record {
    uint32_t cells[WALLMIRROR_MAX_CELLS], functions[SLICE_BYTES];
    WallmirrorAnswer answer;
};

/* The rounds from today's mesh to the wanted one, and what each lists when it is made. */
static struct {
    uint32_t marks[WALLMIRROR_MAX_CELLS], lengths[WALLMIRROR_MAX_ROUNDS];
    uint32_t marks_len, rounds;
    struct record records[WALLMIRROR_MAX_ROUNDS];
} found;

/* The tables that the rounds are made on. */
static struct lent made;
static uint8_t made_cells[WALLMIRROR_MAX_CELLS], made_functions[SLICE_BYTES];

static unsigned long accepted, rounds_made, empty_rounds, marks_made;

static WallmirrorRounds run(const struct lent *l)
{
    return wallmirror_rounds(l->plan, l->cells, l->cells_len, l->functions, l->functions_len,
                             l->wanted_cells, l->wanted_cells_len, l->wanted_functions,
                             l->wanted_functions_len, l->marks, l->marks_len, l->lengths,
                             l->lengths_len);
}

static WallmirrorRounds answered(uint32_t number, uint32_t marks, uint32_t rounds)
{
    WallmirrorRounds answer;
    answer.number = number;
    answer.marks = marks;
    answer.rounds = rounds;
    return answer;
}

/* Today's tables once more, to be changed. */
static void begin(const struct lent *l)
{
    made = *l;
    made.cells = made_cells;
    made.functions = made_functions;
    memcpy(made.cells, l->cells, l->cells_len);
    memcpy(made.functions, l->functions, l->functions_len);
}

static void expect_made(const uint8_t *cells, const uint8_t *functions)
{
    if (memcmp(made.cells, cells, made.cells_len) != 0 ||
        memcmp(made.functions, functions, made.functions_len) != 0)
        wrong++;
}

/* "the cells of level k that are refined in the wanted mesh and are active by then" */
static uint32_t marks_on(uint32_t level, uint32_t *marks)
{
    WallmirrorLevel on = wallmirror_level(made.plan, level);
    uint32_t cell = on.first_cell, end = cell + on.columns * on.rows, n = 0;
    for (; cell < end; cell++)
        if (made.wanted_cells[cell] == WALLMIRROR_CELL_REFINED &&
            made.cells[cell] == WALLMIRROR_CELL_ACTIVE)
            marks[n++] = cell;
    return n;
}

/* A call names the cells and, where they are known, the functions. */
static void expect_listed(const struct record *record, const uint32_t *cells, uint32_t cells_len,
                          const uint32_t *functions, uint32_t functions_len)
{
    if (record->answer.number != WALLMIRROR_ACCEPTED || record->answer.cells != cells_len ||
        memcmp(record->cells, cells, cells_len * sizeof *cells) != 0)
        wrong++;
    if (functions != NULL &&
        (record->answer.functions != functions_len ||
         memcmp(record->functions, functions, functions_len * sizeof *functions) != 0))
        wrong++;
}

/* Finds the rounds and makes each when it is found. */
static void find(const struct lent *l)
{
    begin(l);
    found.marks_len = 0;
    for (found.rounds = 0; found.rounds + 1 < l->plan.levels; found.rounds++) {
        struct record *record = &found.records[found.rounds];
        uint32_t *marks = found.marks + found.marks_len, n = marks_on(found.rounds, marks);
        record->answer = wallmirror_refine_cells(l->plan, made.cells, l->cells_len, made.functions,
                                                 l->functions_len, marks, n, record->cells,
                                                 l->cells_len, record->functions,
                                                 l->functions_len);
        expect_listed(record, marks, n, NULL, 0);
        found.lengths[found.rounds] = n;
        found.marks_len += n;
    }
    expect_made(l->wanted_cells, l->wanted_functions);
}

/* The rounds once more, in the form with a draft and with lists that are just long enough. */
static void make_with_draft(const struct lent *l)
{
    static const WallmirrorDraft none = {0, 0};
    static struct record record;
    const uint32_t *marks = found.marks;
    uint32_t k;
    begin(l);
    for (k = 0; k < found.rounds; k++) {
        const struct record *before = &found.records[k];
        record.answer = wallmirror_refine_cells_with_draft(
            l->plan, made.cells, l->cells_len, made.functions, l->functions_len, none, NULL, 0,
            marks, found.lengths[k], record.cells, found.lengths[k], record.functions,
            before->answer.functions);
        expect_listed(&record, marks, found.lengths[k], before->functions,
                      before->answer.functions);
        marks += found.lengths[k];
    }
    expect_made(l->wanted_cells, l->wanted_functions);
}

/* From the wanted tables back to today's, by the lists that were kept. */
static void walk_back(const struct lent *l)
{
    static struct record record;
    uint32_t k;
    for (k = found.rounds; k-- > 0;) {
        const struct record *kept = &found.records[k];
        record.answer = wallmirror_coarsen_cells(
            l->plan, made.cells, l->cells_len, made.functions, l->functions_len, kept->cells,
            kept->answer.cells, record.cells, kept->answer.cells, record.functions,
            kept->answer.functions);
        expect_listed(&record, kept->cells, kept->answer.cells, kept->functions,
                      kept->answer.functions);
        empty_rounds += found.lengths[k] == 0;
    }
    expect_made(l->cells, l->functions);
    rounds_made += found.rounds;
    marks_made += found.marks_len;
}

/* So many marks are there, as a program that counts knows. */
static void expect_counted(const struct lent *l)
{
    WallmirrorCount today = wallmirror_count(l->plan, l->cells, l->cells_len, l->functions,
                                             l->functions_len);
    WallmirrorCount wanted = wallmirror_count(l->plan, l->wanted_cells, l->wanted_cells_len,
                                              l->wanted_functions, l->wanted_functions_len);
    if (wanted.refined_cells - today.refined_cells != found.marks_len)
        wrong++;
}

static void try_refused(const struct lent *lent, uint32_t number)
{
    WallmirrorRounds answer, expected = answered(number, 0, 0);
    int slice;
    for (slice = 0; slice < SLICES; slice++)
        allow(slice, PROT_READ);
    answer = run(lent);
    for (slice = 0; slice < SLICES; slice++)
        allow(slice, PROT_READ | PROT_WRITE);
    if (memcmp(&answer, &expected, sizeof answer) != 0)
        wrong++;
    refused[number]++;
}

/* Lists with so many entries past the marks and the lengths. They are on a page of their own, which
 * may only be read. */
static void lend_lists(struct lent *lent, size_t marks, size_t lengths, size_t spare)
{
    memset(pages[MARKS], 0xa5, SLICE_BYTES);
    memset(pages[LENGTHS], 0xa5, SLICE_BYTES);
    lend_marks(lent, UNTOUCHED, marks + spare);
    lent->lengths_len = lengths + spare;
    lent->lengths = lend_entries(LENGTHS, UNTOUCHED, lengths + spare);
}

static void try_accepted(struct lent *lent, size_t spare)
{
    size_t spare_bytes = spare * sizeof *lent->marks;
    WallmirrorRounds answer, expected;
    int slice;
    expected = answered(WALLMIRROR_ACCEPTED, found.marks_len, found.rounds);
    lend_lists(lent, found.marks_len, found.rounds, spare);
    keep_pages();
    memcpy(lent->marks, found.marks, found.marks_len * sizeof *lent->marks);
    memcpy(lent->lengths, found.lengths, found.rounds * sizeof *lent->lengths);
    take_back_pages();
    for (slice = 0; slice < SLICES; slice++)
        allow(slice, slice == MARKS || slice == LENGTHS ? PROT_READ | PROT_WRITE : PROT_READ);
    if (mprotect(end_of(MARKS, spare_bytes), spare_bytes, PROT_READ) != 0 ||
        mprotect(end_of(LENGTHS, spare_bytes), spare_bytes, PROT_READ) != 0)
        _exit(3);
    answer = run(lent);
    expect_pages();
    if (memcmp(&answer, &expected, sizeof answer) != 0)
        wrong++;
    accepted++;
}

/* Each list one entry short, and both. */
static void try_short(struct lent *lent)
{
    uint32_t few;
    for (few = 1; few < 4; few++) {
        size_t fewer_marks = few & 1, fewer_lengths = few >> 1;
        if (found.marks_len < fewer_marks || found.rounds < fewer_lengths)
            continue;
        lend_lists(lent, found.marks_len - fewer_marks, found.rounds - fewer_lengths, 0);
        try_refused(lent, WALLMIRROR_CELL_LIST_TOO_SHORT);
    }
}

/* From today's mesh to the wanted one, which lacks no refined cell. */
static void try_rounds(struct lent *lent)
{
    find(lent);
    walk_back(lent);
    make_with_draft(lent);
    expect_counted(lent);
    try_accepted(lent, 0);
    try_accepted(lent, (size_t)sysconf(_SC_PAGESIZE) / sizeof *lent->marks);
    try_short(lent);
}

/* The same tables are lent twice. */
static void try_itself(const struct lent *lent)
{
    struct lent twice = *lent;
    twice.wanted_cells = lent->cells;
    twice.wanted_functions = lent->functions;
    find(&twice);
    if (found.marks_len != 0)
        wrong++;
    try_accepted(&twice, 0);
    try_short(&twice);
}

/* Back again no round leads, unless both meshes are one. */
static void try_reversed(const struct lent *lent)
{
    struct lent back = *lent;
    back.cells = lent->wanted_cells;
    back.functions = lent->wanted_functions;
    back.wanted_cells = lent->cells;
    back.wanted_functions = lent->functions;
    lend_lists(&back, 0, 0, 0);
    if (memcmp(lent->cells, lent->wanted_cells, lent->cells_len) != 0)
        try_refused(&back, WALLMIRROR_REFINED_CELL_NOT_WANTED);
    else
        try_rounds(&back);
}

/* Slices of the lengths that the plan asks for; both meshes are just opened. */
static void lend_plan(struct lent *lent, WallmirrorPlan plan)
{
    size_t t = wallmirror_cells_len(plan), f = wallmirror_functions_len(plan);
    memset(lent, 0, sizeof *lent);
    lent->plan = plan;
    lent->cells_len = lent->wanted_cells_len = t;
    lent->functions_len = lent->wanted_functions_len = f;
    lent->cells = (uint8_t *)end_of(CELLS, t);
    lent->functions = (uint8_t *)end_of(FUNCTIONS, f);
    lent->wanted_cells = (uint8_t *)end_of(WANTED_CELLS, t);
    lent->wanted_functions = (uint8_t *)end_of(WANTED_FUNCTIONS, f);
    if (wallmirror_open(plan, lent->cells, t, lent->functions, f) != WALLMIRROR_ACCEPTED ||
        wallmirror_open(plan, lent->wanted_cells, t, lent->wanted_functions, f) !=
            WALLMIRROR_ACCEPTED)
        wrong++;
}

static void refine(int mesh, const struct lent *l, const uint32_t *marks, size_t marks_len)
{
    static struct record record;
    if (wallmirror_refine_cells(l->plan, mesh == TODAY ? l->cells : l->wanted_cells, l->cells_len,
                                mesh == TODAY ? l->functions : l->wanted_functions,
                                l->functions_len, marks, marks_len, record.cells, l->cells_len,
                                record.functions, l->functions_len).number != WALLMIRROR_ACCEPTED)
        wrong++;
}

/* What the call is to accept: cell 0 is refined today, and 0, 1 and 3 are in the wanted mesh. */
static void lend(struct lent *lent)
{
    static const uint32_t first = 0;
    lend_plan(lent, shallow);
    refine(TODAY, lent, &first, 1);
    if (wallmirror_read(shallow_file, sizeof shallow_file, lent->wanted_cells,
                        lent->wanted_cells_len, lent->wanted_functions,
                        lent->wanted_functions_len).number != WALLMIRROR_ACCEPTED)
        wrong++;
    lend_lists(lent, 2, 2, 0);
}

static void change_length(int slice, uint8_t **table, size_t *len, int longer)
{
    *len += longer ? 1 : -(size_t)1;
    *table = (uint8_t *)end_of(slice, *len);
}

/* One entry fewer or more, of the cells or of the functions. */
static void wrong_length(int mesh, struct lent *lent, int variant)
{
    int longer = variant % 4 >= 2;
    if (mesh == TODAY && variant % 2 == 0)
        change_length(CELLS, &lent->cells, &lent->cells_len, longer);
    else if (mesh == TODAY)
        change_length(FUNCTIONS, &lent->functions, &lent->functions_len, longer);
    else if (variant % 2 == 0)
        change_length(WANTED_CELLS, &lent->wanted_cells, &lent->wanted_cells_len, longer);
    else
        change_length(WANTED_FUNCTIONS, &lent->wanted_functions, &lent->wanted_functions_len,
                      longer);
}

/* A byte that is none, an absent cell of level 0, or a refined one of the last level. */
static void no_mesh(int mesh, struct lent *lent, int variant)
{
    uint8_t *cells = mesh == TODAY ? lent->cells : lent->wanted_cells;
    switch (variant % 3) {
    case 0:
        cells[0] = 3;
        return;
    case 1:
        cells[2] = WALLMIRROR_CELL_ABSENT;
        return;
    default:
        cells[62] = WALLMIRROR_CELL_REFINED;
    }
}

/* Today cell 4 is refined too, which needs cell 1; in the wanted mesh it is cell 6, which needs
 * cell 2. */
static void not_admissible(int mesh, struct lent *lent, int variant)
{
    static const size_t refined[2] = {4, 6}, children[2][4] = {{17, 18, 29, 30}, {21, 22, 33, 34}};
    uint8_t *cells = mesh == TODAY ? lent->cells : lent->wanted_cells;
    int i;
    (void)variant;
    cells[refined[mesh]] = WALLMIRROR_CELL_REFINED;
    for (i = 0; i < 4; i++)
        cells[children[mesh][i]] = WALLMIRROR_CELL_ACTIVE;
}

static void wrong_byte(int mesh, struct lent *lent, int variant)
{
    uint8_t *functions = mesh == TODAY ? lent->functions : lent->wanted_functions;
    functions[variant % 2 == 0 ? 0 : 93] = 3;
}

/* A cell of level 0 is refined today, or one of level 1, or both; the wanted mesh has neither. */
static void lose(int mesh, struct lent *lent, int variant)
{
    static const uint32_t lost[2] = {2, 9};
    refine(mesh, lent, lost + variant % 3 % 2, variant % 3 < 2 ? 1 : 2);
}

/* The list of marks, that of lengths, or both. */
static void short_list(int mesh, struct lent *lent, int variant)
{
    (void)mesh;
    lend_lists(lent, variant % 3 == 1 ? 2 : 1, variant % 3 == 0 ? 2 : 1, 0);
}

/* The faults in the order of the header. */
static const struct {
    uint32_t number; /* with which it is refused */
    Fault make;
    int mesh;
} faults[] = {
    {WALLMIRROR_PLAN_OUT_OF_RANGE, bad_plan, TODAY},
    {WALLMIRROR_TOO_MANY_CELLS, large_plan, TODAY},
    {WALLMIRROR_TABLE_LENGTH, wrong_length, TODAY},
    {WALLMIRROR_NOT_A_MESH, no_mesh, TODAY},
    {WALLMIRROR_NOT_ADMISSIBLE, not_admissible, TODAY},
    {WALLMIRROR_WRONG_FUNCTION_BYTE, wrong_byte, TODAY},
    {WALLMIRROR_TABLE_LENGTH, wrong_length, WANTED},
    {WALLMIRROR_NOT_A_MESH, no_mesh, WANTED},
    {WALLMIRROR_NOT_ADMISSIBLE, not_admissible, WANTED},
    {WALLMIRROR_WRONG_FUNCTION_BYTE, wrong_byte, WANTED},
    {WALLMIRROR_REFINED_CELL_NOT_WANTED, lose, TODAY},
    {WALLMIRROR_CELL_LIST_TOO_SHORT, short_list, TODAY},
};

/* All faults; then without the first, and so on; and each fault alone. */
static void try_order(int variant)
{
    size_t n = sizeof faults / sizeof *faults, i, j;
    struct lent lent;
    for (i = 0; i < n; i++) {
        lend(&lent);
        for (j = n; j > i; j--)
            faults[j - 1].make(faults[j - 1].mesh, &lent, variant);
        try_refused(&lent, faults[i].number);
        lend(&lent);
        faults[i].make(faults[i].mesh, &lent, variant);
        try_refused(&lent, faults[i].number);
    }
    lend(&lent);
    try_rounds(&lent);
}

/* Refined cells: how many there are, and their numbers. */
struct cells {
    uint8_t many, numbers[3];
};

/* What stands in lists of four and of three entries afterwards. */
struct example {
    WallmirrorPlan plan;
    struct cells today, wanted;
    uint32_t number, marks_len, rounds;
    uint32_t marks[4], lengths[3];
};

/* The tables with these cells refined, by their file. It is of class 0, where every mesh is
 * admissible. */
static void lend_cells(const struct cells *refined, const struct lent *l, uint8_t *cells,
                       uint8_t *functions)
{
    uint8_t file[10], before = 0, i;
    file[0] = (uint8_t)l->plan.columns;
    file[1] = (uint8_t)l->plan.rows;
    file[2] = (uint8_t)l->plan.levels;
    file[3] = (uint8_t)l->plan.degree_across;
    file[4] = (uint8_t)l->plan.degree_up;
    file[5] = 0;
    file[6] = refined->many;
    for (i = 0; i < refined->many; i++) {
        file[7 + i] = (uint8_t)(refined->numbers[i] - before);
        before = refined->numbers[i];
    }
    if (wallmirror_read(file, 7 + (size_t)refined->many, cells, l->cells_len, functions,
                        l->functions_len).number != WALLMIRROR_ACCEPTED)
        wrong++;
}

static void try_example(const struct example *example)
{
    WallmirrorRounds answer, expected = answered(example->number, example->marks_len,
                                                 example->rounds);
    struct lent lent;
    lend_plan(&lent, example->plan);
    lend_cells(&example->today, &lent, lent.cells, lent.functions);
    lend_cells(&example->wanted, &lent, lent.wanted_cells, lent.wanted_functions);
    lend_lists(&lent, 4, 3, 0);
    answer = run(&lent);
    if (memcmp(&answer, &expected, sizeof answer) != 0 ||
        memcmp(lent.marks, example->marks, sizeof example->marks) != 0 ||
        memcmp(lent.lengths, example->lengths, sizeof example->lengths) != 0)
        wrong++;
    if (example->number != WALLMIRROR_ACCEPTED)
        try_refused(&lent, example->number);
    else
        try_rounds(&lent);
}

/* The second is that of the header. */
static void try_examples(void)
{
#define GRADED WALLMIRROR_PLAN(3, 1, 3, 1, 1, 2)
#define UNGRADED WALLMIRROR_PLAN(2, 1, 3, 1, 1, 0)
    static const struct example examples[] = {
        {GRADED, {0, {0}}, {2, {0, 3}}, 0, 2, 2, {0, 3, 77, 77}, {1, 1, 77}},
        {GRADED, {0, {0}}, {3, {0, 1, 4}}, 0, 3, 2, {0, 1, 4, 77}, {2, 1, 77}},
        {GRADED, {0, {0}}, {2, {0, 4}}, 5, 0, 0, {77, 77, 77, 77}, {77, 77, 77}},
        {GRADED, {1, {1}}, {2, {0, 4}}, 5, 0, 0, {77, 77, 77, 77}, {77, 77, 77}},
        {GRADED, {2, {0, 4}}, {0, {0}}, 5, 0, 0, {77, 77, 77, 77}, {77, 77, 77}},
        {UNGRADED, {0, {0}}, {3, {0, 2, 7}}, 0, 3, 2, {0, 2, 7, 77}, {1, 2, 77}},
        {UNGRADED, {1, {0}}, {3, {0, 2, 7}}, 0, 2, 2, {2, 7, 77, 77}, {0, 2, 77}},
        {UNGRADED, {1, {0}}, {2, {0, 1}}, 0, 1, 2, {1, 77, 77, 77}, {1, 0, 77}},
        {UNGRADED, {2, {0, 2}}, {2, {0, 2}}, 0, 0, 2, {77, 77, 77, 77}, {0, 0, 77}},
        {UNGRADED, {1, {1}}, {1, {0}}, 20, 0, 0, {77, 77, 77, 77}, {77, 77, 77}},
        {WALLMIRROR_PLAN(2, 1, 1, 1, 1, 0), {0, {0}}, {0, {0}}, 0, 0, 0, {77, 77, 77, 77},
         {77, 77, 77}},
    };
#undef GRADED
#undef UNGRADED
    size_t i;
    for (i = 0; i < sizeof examples / sizeof *examples; i++)
        try_example(&examples[i]);
}

/* the same numbers on every machine */
static uint32_t random_below(uint32_t n)
{
    static uint32_t state = 20261117;
    state = state * 1664525u + 1013904223u;
    return (state >> 8) % n;
}

/* Some active cells that can be refined, rather of a coarse level. */
static size_t random_marks(const struct lent *l, const uint8_t *cells, uint32_t *marks, size_t most)
{
    uint32_t end = wallmirror_level(l->plan, l->plan.levels - 1).first_cell;
    size_t n = 0, tries;
    for (tries = 0; tries < 40 && n < most && end > 0; tries++) {
        marks[n] = random_below(random_below(end) + 1);
        n += cells[marks[n]] == WALLMIRROR_CELL_ACTIVE;
    }
    return n;
}

static int is_losing(const struct lent *l)
{
    size_t cell;
    for (cell = 0; cell < l->cells_len; cell++)
        if (l->cells[cell] == WALLMIRROR_CELL_REFINED &&
            l->wanted_cells[cell] != WALLMIRROR_CELL_REFINED)
            return 1;
    return 0;
}

/* Today's mesh is refined by a cell of its own, which the wanted one has or not; then it is taken
 * back. */
static void try_apart(struct lent *lent)
{
    static uint8_t cells[WALLMIRROR_MAX_CELLS], functions[SLICE_BYTES];
    uint32_t mark;
    memcpy(cells, lent->cells, lent->cells_len);
    memcpy(functions, lent->functions, lent->functions_len);
    refine(TODAY, lent, &mark, random_marks(lent, lent->cells, &mark, 1));
    if (is_losing(lent))
        try_refused(lent, WALLMIRROR_REFINED_CELL_NOT_WANTED);
    else
        try_rounds(lent);
    memcpy(lent->cells, cells, lent->cells_len);
    memcpy(lent->functions, functions, lent->functions_len);
}

/* The wanted mesh is refined more and more. Now and then it becomes today's. */
static void season(WallmirrorPlan plan)
{
    struct lent lent;
    uint32_t marks[3];
    int step;
    lend_plan(&lent, plan);
    for (step = 0; step < STEPS; step++) {
        refine(WANTED, &lent, marks, random_marks(&lent, lent.wanted_cells, marks, 3));
        try_rounds(&lent);
        try_reversed(&lent);
        try_itself(&lent);
        try_apart(&lent);
        if (random_below(4) == 0) {
            memcpy(lent.cells, lent.wanted_cells, lent.cells_len);
            memcpy(lent.functions, lent.wanted_functions, lent.functions_len);
        }
    }
}

/* The first has one level. The last has as many cells as there may be. */
static void try_seasons(void)
{
    enum { PLANS = 7 };
    WallmirrorPlan plans[PLANS] = {
        WALLMIRROR_PLAN(2, 3, 1, 1, 2, 2),   WALLMIRROR_PLAN(3, 1, 3, 1, 1, 2),
        WALLMIRROR_PLAN(2, 2, 5, 2, 1, 0),   WALLMIRROR_PLAN(2, 3, 4, 2, 1, 2),
        WALLMIRROR_PLAN(4, 4, 5, 3, 3, 3),   WALLMIRROR_PLAN(16, 16, 4, 1, 1, 2),
        WALLMIRROR_PLAN(1, 1, 8, 1, 1, 3),
    };
    int i;
    plans[3].corners_up = 1u << 2;
    for (i = 0; i < PLANS; i++)
        season(plans[i]);
}

/* From the mesh just opened to the one with all cells refined, with as many levels as there may be:
 * round k has 4^k marks. */
static void try_levels(void)
{
    static uint32_t marks[WALLMIRROR_MAX_CELLS];
    WallmirrorPlan plan = WALLMIRROR_PLAN(1, 1, 1, 1, 1, 2);
    for (; plan.levels <= WALLMIRROR_MAX_ROUNDS + 1; plan.levels++) {
        struct lent lent;
        uint32_t k;
        lend_plan(&lent, plan);
        for (k = 0; k + 1 < plan.levels; k++) {
            WallmirrorLevel on = wallmirror_level(plan, k);
            uint32_t n = on.columns * on.rows, i;
            for (i = 0; i < n; i++)
                marks[i] = on.first_cell + i;
            refine(WANTED, &lent, marks, n);
        }
        try_rounds(&lent);
        for (k = 0; k < found.rounds; k++)
            if (found.lengths[k] != (uint32_t)1 << 2 * k)
                wrong++;
    }
    if (found.rounds != WALLMIRROR_MAX_ROUNDS || wallmirror_plan_is_valid(plan))
        wrong++;
}

/* Empty lists, at a place or at none: with one level there is nothing to list, and with more there
 * are lengths. */
static void try_empty(uint32_t *entries)
{
    WallmirrorPlan plan = WALLMIRROR_PLAN(3, 2, 1, 1, 1, 0);
    struct lent lent;
    WallmirrorRounds answer;
    lend_plan(&lent, plan);
    lent.marks = lent.lengths = entries;
    answer = run(&lent);
    if (answer.number != WALLMIRROR_ACCEPTED || answer.marks != 0 || answer.rounds != 0)
        wrong++;
    accepted++;
    lend_plan(&lent, shallow);
    lent.marks = lent.lengths = entries;
    try_refused(&lent, WALLMIRROR_CELL_LIST_TOO_SHORT);
}

/* Nothing is lent at all, or only today's tables. */
static void try_nothing(void)
{
    struct lent lent;
    lend_plan(&lent, shallow);
    lent.wanted_cells = lent.wanted_functions = NULL;
    lent.wanted_cells_len = lent.wanted_functions_len = 0;
    try_refused(&lent, WALLMIRROR_TABLE_LENGTH);
    memset(&lent, 0, sizeof lent);
    try_refused(&lent, WALLMIRROR_PLAN_OUT_OF_RANGE);
    lent.plan = shallow;
    try_refused(&lent, WALLMIRROR_TABLE_LENGTH);
}

/* The struct is laid out as Rust has it, and no plan that is taken has more rounds than the header
 * says. */
static void try_sizes(void)
{
    WallmirrorPlan plan = WALLMIRROR_PLAN(1, 1, 1, 1, 1, 0);
    uint32_t most = 0;
    if (sizeof(WallmirrorRounds) != 12 || offsetof(WallmirrorRounds, number) != 0 ||
        offsetof(WallmirrorRounds, marks) != 4 || offsetof(WallmirrorRounds, rounds) != 8)
        wrong++;
    for (; plan.levels < 20; plan.levels++) {
        if (wallmirror_cells_len(plan) > 0)
            most = plan.levels - 1; /* one for each level but the last */
    }
    if (most != WALLMIRROR_MAX_ROUNDS)
        wrong++;
}

int main(void)
{
    int variant;
    if (!make_pages()) {
        fprintf(stderr, "rounds: no pages\n");
        return 2;
    }
    for (variant = 0; variant < VARIANTS; variant++)
        try_order(variant);
    try_examples();
    try_seasons();
    try_levels();
    try_empty(NULL);
    try_empty((uint32_t *)end_of(LIST, 0));
    try_nothing();
    try_sizes();
    printf("wallmirror_rounds: %lu accepted\n", accepted);
    printf("%lu rounds with %lu marks made and taken back, %lu of them empty\n", rounds_made,
           marks_made, empty_rounds);
    return print_refused();
}
