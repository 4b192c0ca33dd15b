/*
 * The tuned version. Each table is worked on a level at a time, by loops over bytes that a compiler
 * turns into vector instructions at -O3. What belongs to many cells at once, as supports and
 * neighbourhoods do, is found as the least byte of every window of a level. Where there are corners
 * windows are of many sizes, and each is walked: that much is plain and not tuned.
 */
#include "tuned.h"

#include <string.h>

enum { MOST_LEVELS = 8, WIDEST_ROW = 512, ROOM = WALLMIRROR_MAX_FUNCTIONS };

/* The most functions in a row: those of 16 columns on level 5, of degree 4, with 15 corners. */
enum { MOST_ACROSS = WIDEST_ROW + 4 + 15 * 3 };

/* Where the levels of a plan begin in the tables, and their sizes. */
struct layout {
    uint32_t levels, across, up;
    uint32_t corners_across, corners_up; /* 0 where the degree is 1, since they change nothing */
    uint32_t back; /* how many levels up a cell has its neighbourhood, or 0 for none */
    size_t columns[MOST_LEVELS], rows[MOST_LEVELS], cells_at[MOST_LEVELS + 1];
    size_t functions_across[MOST_LEVELS], functions_at[MOST_LEVELS + 1];
};

/* The functions over so many cells: as many more as the degree, and degree - 1 for each corner. */
static size_t functions_over(size_t cells, uint32_t degree, uint32_t corners)
{
    size_t functions = cells + degree;
    for (; corners != 0; corners &= corners - 1)
        functions += degree - 1;
    return functions;
}

static uint32_t lay_out(struct layout *at, WallmirrorPlan plan)
{
    uint32_t level;
    if (plan.columns - 1 > 15 || plan.rows - 1 > 15 || plan.levels - 1 > 7 ||
        plan.degree_across - 1 > 3 || plan.degree_up - 1 > 3 ||
        plan.admissibility_class == 1 || plan.admissibility_class > 8 ||
        plan.corners_across >> plan.columns != 0 || plan.corners_up >> plan.rows != 0 ||
        ((plan.corners_across | plan.corners_up) & 1) != 0)
        return WALLMIRROR_PLAN_OUT_OF_RANGE;
    /* 1 + 4 + ... + 4^(levels-1) cells for each cell of level 0 */
    if (plan.columns * plan.rows * (((1u << 2 * plan.levels) - 1) / 3) > WALLMIRROR_MAX_CELLS)
        return WALLMIRROR_TOO_MANY_CELLS;
    at->levels = plan.levels;
    at->across = plan.degree_across;
    at->up = plan.degree_up;
    at->corners_across = plan.degree_across == 1 ? 0 : plan.corners_across;
    at->corners_up = plan.degree_up == 1 ? 0 : plan.corners_up;
    at->back = plan.admissibility_class == 0 ? 0 : plan.admissibility_class - 1;
    at->cells_at[0] = at->functions_at[0] = 0;
    for (level = 0; level < plan.levels; level++) {
        size_t columns = (size_t)plan.columns << level, rows = (size_t)plan.rows << level;
        at->columns[level] = columns;
        at->rows[level] = rows;
        at->cells_at[level + 1] = at->cells_at[level] + columns * rows;
        at->functions_across[level] =
            functions_over(columns, plan.degree_across, plan.corners_across);
        at->functions_at[level + 1] =
            at->functions_at[level] + at->functions_across[level] *
                                          functions_over(rows, plan.degree_up, plan.corners_up);
    }
    return 0;
}

static size_t cells_of(const struct layout *at, uint32_t level)
{
    return at->cells_at[level + 1] - at->cells_at[level];
}

static int has_corners(const struct layout *at)
{
    return (at->corners_across | at->corners_up) != 0;
}

/* Whether a line of a level is a corner. */
static int is_corner(uint32_t corners, uint32_t level, size_t line)
{
    return line % ((size_t)1 << level) == 0 && (corners >> (line >> level) & 1) != 0;
}

/* ---- Windows ---- */

/* out[i] = the less of from[i] and from[i - shift] */
static void overlay(uint8_t *restrict out, const uint8_t *restrict from, size_t n, size_t shift)
{
    size_t i;
    if (shift > n)
        shift = n;
    memcpy(out, from, shift);
    for (i = shift; i < n; i++)
        out[i] = from[i] < from[i - shift] ? from[i] : from[i - shift];
}

/*
 * out[i] = the least of from[i], from[i - step], .., `count` of them, at least 2. What would lie
 * before the first entry counts for nothing. Each pass doubles what an entry stands for.
 */
static void least_of(const uint8_t *from, uint8_t *spare, uint8_t *out, size_t n, size_t step,
                     size_t count)
{
    size_t done, passes = 0;
    for (done = 1; done < count; done *= 2)
        passes++;
    for (done = 1; done < count;) {
        size_t more = done < count - done ? done : count - done;
        uint8_t *to = passes-- % 2 == 1 ? out : spare;
        overlay(to, from, n, more * step);
        from = to;
        done += more;
    }
}

/*
 * The least bytes of the windows of a level. Entry (j, i) of out, with columns + pad to a row, is
 * the least of rows j - up to j and columns i - across to i, as far as there are such; out has rows
 * + up rows. A row of windows wider than columns + pad spoils the first across - pad entries of the
 * next, which are then not to be read. spare has the room of out.
 */
static void windows(const uint8_t *from, size_t columns, size_t rows, size_t pad, size_t across,
                    size_t up, uint8_t *spare, uint8_t *out)
{
    uint8_t padded[ROOM];
    size_t width = columns + pad, n = rows * width, row;
    memset(padded, 2, n);
    for (row = 0; row < rows; row++)
        memcpy(padded + row * width, from + row * columns, columns);
    least_of(padded, out, spare, n, 1, across + 1);
    memset(spare + n, 2, up * width);
    least_of(spare, padded, out, n + up * width, width, up + 1);
}

/* ---- Windows with corners ---- */

/* The entries from one to just before another. */
struct span {
    uint16_t from, to;
};

/* One direction of a level: the cells that each function covers, and for each cell the functions
 * over it and the cells that these cover. */
struct side {
    size_t cells, functions;
    struct span covered[MOST_ACROSS], over[WIDEST_ROW], near[WIDEST_ROW];
};

static void lay_side(struct side *side, size_t cells, uint32_t level, uint32_t degree,
                     uint32_t corners)
{
    size_t cell, i, first = 0, next = 0;
    /* From cell to cell one function ends and one begins; over a corner one alone goes on. */
    for (cell = 0; cell < cells; cell++) {
        first += is_corner(corners, level, cell) ? degree : cell > 0;
        side->over[cell].from = (uint16_t)first;
        side->over[cell].to = (uint16_t)(first + degree + 1);
        for (; next < first + degree + 1; next++)
            side->covered[next].from = (uint16_t)cell;
        for (i = first; i < next; i++)
            side->covered[i].to = (uint16_t)(cell + 1);
    }
    side->cells = cells;
    side->functions = next;
    for (cell = 0; cell < cells; cell++) {
        side->near[cell].from = side->covered[side->over[cell].from].from;
        side->near[cell].to = side->covered[side->over[cell].to - 1].to;
    }
}

static void lay_sides(const struct layout *at, uint32_t level, struct side *across, struct side *up)
{
    lay_side(across, at->columns[level], level, at->across, at->corners_across);
    lay_side(up, at->rows[level], level, at->up, at->corners_up);
}

/* Makes each span of cells that of their parents. */
static void parents_of(struct span *spans, size_t n)
{
    size_t i;
    for (i = 0; i < n; i++) {
        spans[i].from = (uint16_t)(spans[i].from / 2);
        spans[i].to = (uint16_t)((spans[i].to + 1) / 2);
    }
}

/* Makes of the spans of two cells beside each other, children of one, the span of both. */
static void of_both_children(struct span *spans, size_t parents)
{
    size_t i;
    for (i = 0; i < parents; i++) {
        spans[i].from = spans[2 * i].from;
        spans[i].to = spans[2 * i + 1].to;
    }
}

/*
 * Entry (j, i) of out, `stride` to a row, is the least byte of from within span j of its rows and
 * span i of its columns. from has `height` rows of `width`.
 */
static void least_over(const uint8_t *from, size_t width, size_t height, const struct span *across,
                       size_t columns, const struct span *up, size_t rows, uint8_t *out,
                       size_t stride)
{
    uint8_t least[ROOM];
    size_t row, i, j, k;
    for (row = 0; row < height; row++)
        for (i = 0; i < columns; i++) {
            uint8_t so_far = from[row * width + across[i].from];
            for (k = across[i].from + 1u; k < across[i].to; k++)
                so_far = from[row * width + k] < so_far ? from[row * width + k] : so_far;
            least[row * columns + i] = so_far;
        }
    for (j = 0; j < rows; j++) {
        uint8_t *restrict to = out + j * stride;
        memcpy(to, least + up[j].from * columns, columns);
        for (k = up[j].from + 1u; k < up[j].to; k++) {
            const uint8_t *restrict more = least + k * columns;
            for (i = 0; i < columns; i++)
                to[i] = more[i] < to[i] ? more[i] : to[i];
        }
    }
}

/* ---- Supports and neighbourhoods ---- */

/*
 * For each cell of the next level the least byte of its neighbourhood on this one: of the parents
 * of the cells that differ from it by at most the degrees, or fewer at corners. Without corners the
 * parents of columns i - across to i + across are as many as a function covers, and the last of
 * them is (i + across) / 2.
 */
static void neighbourhoods(const struct layout *at, uint32_t level, const uint8_t *from,
                           uint8_t *out)
{
    uint8_t spare[ROOM], least[ROOM];
    struct side across, up;
    size_t columns = at->columns[level], rows = at->rows[level], width = columns + at->across;
    size_t even = at->across / 2, odd = (at->across + 1) / 2, row, i;
    if (has_corners(at)) {
        lay_sides(at, level + 1, &across, &up);
        parents_of(across.near, 2 * columns);
        parents_of(up.near, 2 * rows);
        least_over(from, columns, rows, across.near, 2 * columns, up.near, 2 * rows, out,
                   2 * columns);
        return;
    }
    windows(from, columns, rows, at->across, at->across, at->up, spare, least);
    for (row = 0; row < 2 * rows; row++) {
        const uint8_t *restrict over = least + (row + at->up) / 2 * width;
        uint8_t *restrict to = out + row * 2 * columns;
        for (i = 0; i < columns; i++) {
            to[2 * i] = over[i + even];
            to[2 * i + 1] = over[i + odd];
        }
    }
}

/* For each function the least byte of its support, on a level with corners. */
static void over_cornered(const struct layout *at, uint32_t level, const uint8_t *cells,
                          uint8_t *functions)
{
    struct side across, up;
    lay_sides(at, level, &across, &up);
    least_over(cells + at->cells_at[level], across.cells, up.cells, across.covered,
               across.functions, up.covered, up.functions, functions + at->functions_at[level],
               across.functions);
}

/* For each function the least byte of its support. */
static void over_supports(const struct layout *at, const uint8_t *cells, uint8_t *functions)
{
    uint8_t spare[ROOM];
    uint32_t level;
    if (has_corners(at)) {
        for (level = 0; level < at->levels; level++)
            over_cornered(at, level, cells, functions);
        return;
    }
    for (level = 0; level < at->levels; level++)
        windows(cells + at->cells_at[level], at->columns[level], at->rows[level], at->across,
                at->across, at->up, spare, functions + at->functions_at[level]);
}

/* ---- Rows ---- */

static void double_row(uint8_t *restrict out, const uint8_t *restrict from, size_t n)
{
    size_t i;
    for (i = 0; i < n; i++) {
        out[2 * i] = from[i];
        out[2 * i + 1] = from[i];
    }
}

/* A row of `back` levels above as a row of this level; the result is one of the two buffers. */
static const uint8_t *stretched(const uint8_t *row, size_t n, uint32_t back,
                                uint8_t buffers[2][WIDEST_ROW])
{
    uint32_t i;
    for (i = 0; i < back; i++, n *= 2) {
        double_row(buffers[i % 2], row, n);
        row = buffers[i % 2];
    }
    return row;
}

/* ---- Check ---- */

/* The four children of cell i are the entries 2i and 2i + 1 of the two rows below it. */
static uint8_t row_is_wrong(const uint8_t *restrict row, const uint8_t *restrict below,
                            size_t n, uint8_t lowest)
{
    const uint8_t *beside = below + 2 * n;
    uint8_t wrong = 0;
    size_t i;
    for (i = 0; i < n; i++) {
        uint8_t present = (uint8_t)((below[2 * i] != 0) + (below[2 * i + 1] != 0) +
                                    (beside[2 * i] != 0) + (beside[2 * i + 1] != 0));
        uint8_t asked = row[i] == 2 ? 4 : 0;
        wrong |= (uint8_t)((row[i] > 2) | (row[i] < lowest) | (present != asked));
    }
    return wrong;
}

static int is_mesh(const struct layout *at, const uint8_t *cells)
{
    uint32_t level, last = at->levels - 1;
    uint8_t wrong = 0;
    size_t row, i;
    for (level = 0; level < last; level++) {
        const uint8_t *here = cells + at->cells_at[level], *below = cells + at->cells_at[level + 1];
        size_t n = at->columns[level];
        for (row = 0; row < at->rows[level]; row++)
            wrong |= row_is_wrong(here + row * n, below + 4 * row * n, n, level == 0);
    }
    for (i = at->cells_at[last]; i < at->cells_at[last + 1]; i++)
        wrong |= (uint8_t)((cells[i] > 1) | (cells[i] < (last == 0)));
    return !wrong;
}

static int is_admissible(const struct layout *at, const uint8_t *cells)
{
    uint8_t near[ROOM], buffers[2][WIDEST_ROW], wrong = 0;
    uint32_t level;
    if (at->back == 0)
        return 1;
    for (level = at->back; level + 1 < at->levels; level++) {
        /* the ancestors are on level above + 1, so many levels up */
        uint32_t above = level - at->back, between = at->back - 1;
        size_t n = at->columns[level], width = at->columns[above + 1], row, i;
        const uint8_t *here = cells + at->cells_at[level], *needed = 0;
        if (!memchr(here, 2, cells_of(at, level)))
            continue;
        neighbourhoods(at, above, cells + at->cells_at[above], near);
        for (row = 0; row < at->rows[level]; row++, here += n) {
            if (row % ((size_t)1 << between) == 0)
                needed = stretched(near + (row >> between) * width, width, between, buffers);
            for (i = 0; i < n; i++)
                wrong |= (uint8_t)((here[i] == 2) & (needed[i] != 2));
        }
    }
    return !wrong;
}

static uint32_t check(struct layout *at, WallmirrorPlan plan, const uint8_t *cells,
                      size_t cells_len, const uint8_t *functions, size_t functions_len)
{
    uint8_t labels[ROOM];
    uint32_t number = lay_out(at, plan);
    if (number != 0)
        return number;
    if (cells_len != at->cells_at[at->levels] || functions_len != at->functions_at[at->levels])
        return WALLMIRROR_TABLE_LENGTH;
    if (!is_mesh(at, cells))
        return WALLMIRROR_NOT_A_MESH;
    if (!is_admissible(at, cells))
        return WALLMIRROR_NOT_ADMISSIBLE;
    over_supports(at, cells, labels);
    return memcmp(labels, functions, functions_len) == 0 ? 0 : WALLMIRROR_WRONG_FUNCTION_BYTE;
}

/* ---- Marks ---- */

/* 1 for cells that are refined and have four active children, 2 for others. */
static void write_reactivable(const struct layout *at, const uint8_t *cells, uint8_t *kinds)
{
    uint32_t level, last = at->levels - 1;
    size_t row, i;
    for (level = 0; level < last; level++) {
        size_t n = at->columns[level];
        for (row = 0; row < at->rows[level]; row++) {
            const uint8_t *restrict here = cells + at->cells_at[level] + row * n;
            const uint8_t *restrict below = cells + at->cells_at[level + 1] + 4 * row * n;
            const uint8_t *restrict beside = below + 2 * n;
            uint8_t *restrict to = kinds + at->cells_at[level] + row * n;
            for (i = 0; i < n; i++)
                to[i] = (uint8_t)(2 - ((here[i] == 2) & (below[2 * i] == 1) &
                                       (below[2 * i + 1] == 1) & (beside[2 * i] == 1) &
                                       (beside[2 * i + 1] == 1)));
        }
    }
    memset(kinds + at->cells_at[last], 2, cells_of(at, last));
}

/* 1 for deactivated functions over a reactivable cell, 2 for others. */
static void write_coarsenable(const struct layout *at, const uint8_t *functions,
                              const uint8_t *reactivable, uint8_t *kinds)
{
    size_t total = at->functions_at[at->levels], i;
    over_supports(at, reactivable, kinds);
    for (i = 0; i < total; i++)
        kinds[i] = (uint8_t)(2 - ((functions[i] == 2) & (kinds[i] == 1)));
}

/* Marks are to be below the total, of kind 1, and below the first that is too deep. */
static uint32_t judge(const uint8_t *kinds, size_t total, size_t deep, const uint32_t *marks,
                      size_t marks_len)
{
    size_t i;
    for (i = 0; i < marks_len; i++) {
        if (marks[i] >= total)
            return WALLMIRROR_MARK_OUT_OF_RANGE;
        if (kinds[marks[i]] != 1)
            return WALLMIRROR_MARK_OF_WRONG_KIND;
        if (marks[i] >= deep)
            return WALLMIRROR_MARK_OF_LAST_LEVEL;
    }
    return 0;
}

/*
 * For each cell of a level the least weight of the functions over it. Entry (row + up, column +
 * across) of out, with columns + across to a row, is that of a cell.
 */
static void over_cells(const struct layout *at, uint32_t level, const uint8_t *weights,
                       uint8_t *out)
{
    uint8_t rows_done[ROOM], spare[ROOM];
    struct side across, up;
    size_t width = at->columns[level] + at->across;
    size_t count = at->functions_at[level + 1] - at->functions_at[level];
    if (!has_corners(at)) {
        least_of(weights, spare, rows_done, count, 1, at->across + 1);
        least_of(rows_done, spare, out, count, width, at->up + 1);
        return;
    }
    lay_sides(at, level, &across, &up);
    least_over(weights, across.functions, up.functions, across.over, across.cells, up.over,
               up.cells, out + at->up * width + at->across, width);
}

/* Flags the cells of kind 1 over which the least weight of the functions of their level is 1. */
static void flag_covered(const struct layout *at, const uint8_t *weights, const uint8_t *kinds,
                         uint8_t *flags)
{
    uint8_t least[ROOM];
    uint32_t level;
    size_t row, i;
    for (level = 0; level + 1 < at->levels; level++) {
        const uint8_t *from = weights + at->functions_at[level];
        size_t n = at->columns[level], width = n + at->across;
        if (!memchr(from, 1, at->functions_at[level + 1] - at->functions_at[level]))
            continue;
        over_cells(at, level, from, least);
        for (row = 0; row < at->rows[level]; row++) {
            const uint8_t *over = least + (row + at->up) * width + at->across;
            size_t first = at->cells_at[level] + row * n;
            for (i = 0; i < n; i++)
                flags[first + i] = (over[i] == 1) & (kinds[first + i] == 1);
        }
    }
}

/* ---- The smallest admissible mesh ---- */

/* ancestors[i] = 1 where a cell `between` levels below has byte 1, else 2. */
static void write_ancestors(const struct layout *at, uint32_t level, uint32_t between,
                            const uint8_t *below, uint8_t *ancestors)
{
    uint32_t finer = level + between, step;
    size_t n = at->columns[finer], columns = at->columns[level], row, i;
    uint8_t any[WIDEST_ROW];
    for (row = 0; row < at->rows[finer]; row++, below += n) {
        if (row % ((size_t)1 << between) == 0)
            memset(any, 0, n);
        for (i = 0; i < n; i++)
            any[i] |= below[i] == 1;
        if ((row + 1) % ((size_t)1 << between) != 0)
            continue;
        for (step = 1; step <= between; step++)
            for (i = 0; i < n >> step; i++)
                any[i] = any[2 * i] | any[2 * i + 1];
        for (i = 0; i < columns; i++)
            ancestors[i] = (uint8_t)(2 - any[i]);
        ancestors += columns;
    }
}

/*
 * For each cell of a level the least byte of the cells of the next that have it in their
 * neighbourhood: of those that differ by at most the degrees, or fewer at corners, from a child.
 */
static void near_children(const struct layout *at, uint32_t level, const uint8_t *finer,
                          uint8_t *out)
{
    uint8_t spare[ROOM], least[ROOM];
    struct side across, up;
    size_t n = at->columns[level], rows = at->rows[level], width = 2 * n + at->across, row, i;
    if (has_corners(at)) {
        lay_sides(at, level + 1, &across, &up);
        of_both_children(across.near, n);
        of_both_children(up.near, rows);
        least_over(finer, 2 * n, 2 * rows, across.near, n, up.near, rows, out, n);
        return;
    }
    windows(finer, 2 * n, 2 * rows, at->across, 2 * at->across + 1, 2 * at->up + 1, spare, least);
    for (row = 0; row < rows; row++)
        for (i = 0; i < n; i++)
            out[row * n + i] = least[(2 * row + 1 + at->up) * width + 2 * i + 1 + at->across];
}

/* needed[i] = 1 where the level has a cell that a cell of byte 1, `back` levels below, needs. */
static void write_needed(const struct layout *at, uint32_t level, const uint8_t *below,
                         uint8_t *needed)
{
    uint8_t ancestors[ROOM], near[ROOM];
    size_t i;
    write_ancestors(at, level + 1, at->back - 1, below, ancestors);
    near_children(at, level, ancestors, near);
    for (i = 0; i < cells_of(at, level); i++)
        needed[i] = near[i] == 1;
}

/*
 * Flags what the flagged cells need and is not refined. Needs lead to coarser levels alone, so the
 * finest goes first. The cells needed are present: the parent of one that needs them is refined.
 */
static void flag_needed(const struct layout *at, const uint8_t *cells, uint8_t *flags)
{
    uint8_t needed[ROOM];
    uint32_t level;
    size_t i;
    if (at->back == 0)
        return;
    for (level = at->levels - 1; level-- > at->back;) {
        uint32_t above = level - at->back;
        const uint8_t *here = cells + at->cells_at[above];
        uint8_t *flagged = flags + at->cells_at[above];
        if (!memchr(flags + at->cells_at[level], 1, cells_of(at, level)))
            continue;
        write_needed(at, above, flags + at->cells_at[level], needed);
        for (i = 0; i < cells_of(at, above); i++)
            flagged[i] |= needed[i] & (here[i] != 2);
    }
}

/* Takes the flag from cells that others, which stay refined, need. */
static void unflag_needed(const struct layout *at, const uint8_t *cells, uint8_t *flags)
{
    uint8_t needed[ROOM], stays[ROOM];
    uint32_t level;
    size_t i;
    if (at->back == 0 || at->levels < at->back + 2)
        return;
    for (level = at->levels - 1 - at->back; level-- > 0;) {
        uint32_t below = level + at->back;
        const uint8_t *finer = cells + at->cells_at[below];
        const uint8_t *finer_flags = flags + at->cells_at[below];
        uint8_t *flagged = flags + at->cells_at[level];
        if (!memchr(flagged, 1, cells_of(at, level)))
            continue;
        for (i = 0; i < cells_of(at, below); i++)
            stays[i] = (finer[i] == 2) & (finer_flags[i] == 0);
        write_needed(at, level, stays, needed);
        for (i = 0; i < cells_of(at, level); i++)
            flagged[i] &= (uint8_t)(needed[i] == 0);
    }
}

/* Adds `by`, 1 or -1, to the bytes of flagged cells and of their children. */
static void shift_flagged(const struct layout *at, const uint8_t *flags, uint8_t *cells, int by)
{
    uint8_t wide[2 * WIDEST_ROW];
    uint32_t level;
    size_t row, i;
    for (level = 0; level + 1 < at->levels; level++) {
        const uint8_t *flagged = flags + at->cells_at[level];
        uint8_t *here = cells + at->cells_at[level], *below = cells + at->cells_at[level + 1];
        size_t n = at->columns[level];
        if (!memchr(flagged, 1, cells_of(at, level)))
            continue;
        for (row = 0; row < at->rows[level]; row++, flagged += n, here += n, below += 4 * n) {
            if (!memchr(flagged, 1, n))
                continue;
            double_row(wide, flagged, n);
            for (i = 0; i < n; i++)
                here[i] = (uint8_t)(here[i] + by * flagged[i]);
            for (i = 0; i < 2 * n; i++)
                below[i] = (uint8_t)(below[i] + by * wide[i]);
            for (i = 0; i < 2 * n; i++)
                below[2 * n + i] = (uint8_t)(below[2 * n + i] + by * wide[i]);
        }
    }
}

/* ---- What changed ---- */

static size_t count_changed(const uint8_t *old, const uint8_t *new_, size_t n)
{
    size_t i, total = 0;
    for (i = 0; i < n;) {
        /* so short that the sum fits into a byte */
        size_t end = i + 255 < n ? i + 255 : n;
        uint8_t some = 0;
        for (; i < end; i++)
            some = (uint8_t)(some + ((old[i] == 2) != (new_[i] == 2)));
        total += some;
    }
    return total;
}

static void list_changed(const uint8_t *old, const uint8_t *new_, size_t n, uint32_t *list)
{
    enum { BLOCK = 64 };
    size_t i, block;
    for (block = 0; block < n; block += BLOCK) {
        size_t end = block + BLOCK < n ? block + BLOCK : n;
        if (memcmp(old + block, new_ + block, end - block) == 0)
            continue;
        for (i = block; i < end; i++)
            if ((old[i] == 2) != (new_[i] == 2))
                *list++ = (uint32_t)i;
    }
}

/* ---- The calls ---- */

uint32_t tuned_open(WallmirrorPlan plan, uint8_t *cells, size_t cells_len,
                    uint8_t *functions, size_t functions_len)
{
    struct layout at;
    uint32_t number = lay_out(&at, plan);
    if (number != 0)
        return number;
    if (cells_len != at.cells_at[at.levels] || functions_len != at.functions_at[at.levels])
        return WALLMIRROR_TABLE_LENGTH;
    memset(cells, 0, cells_len);
    memset(functions, 0, functions_len);
    memset(cells, 1, at.cells_at[1]);
    memset(functions, 1, at.functions_at[1]);
    return 0;
}

uint32_t tuned_check(WallmirrorPlan plan, const uint8_t *cells, size_t cells_len,
                     const uint8_t *functions, size_t functions_len)
{
    struct layout at;
    return check(&at, plan, cells, cells_len, functions, functions_len);
}

static uint32_t count_byte(const uint8_t *table, size_t n, uint8_t byte)
{
    uint32_t total = 0;
    size_t i;
    for (i = 0; i < n; i++)
        total += table[i] == byte;
    return total;
}

WallmirrorCount tuned_count(WallmirrorPlan plan, const uint8_t *cells, size_t cells_len,
                            const uint8_t *functions, size_t functions_len)
{
    WallmirrorCount count = {0, 0, 0, 0, 0};
    struct layout at;
    count.number = check(&at, plan, cells, cells_len, functions, functions_len);
    if (count.number != 0)
        return count;
    count.active_cells = count_byte(cells, cells_len, 1);
    count.refined_cells = count_byte(cells, cells_len, 2);
    count.active_functions = count_byte(functions, functions_len, 1);
    count.area = (uint32_t)cells_of(&at, at.levels - 1);
    return count;
}

enum direction { REFINE, COARSEN };
enum by { CELLS, FUNCTIONS };

static const WallmirrorAnswer nothing;

/* Judges the marks and flags the cells that they mean. */
static uint32_t flag_marks(const struct layout *at, enum direction direction, enum by by,
                           const uint8_t *cells, const uint8_t *functions, const uint32_t *marks,
                           size_t marks_len, uint8_t *flags)
{
    uint8_t reactivable[ROOM], coarsenable[ROOM], weights[ROOM];
    const uint8_t *cell_kinds = cells, *function_kinds = functions;
    uint32_t last = direction == REFINE ? at->levels - 1 : at->levels, number;
    size_t i, t = at->cells_at[at->levels], f = at->functions_at[at->levels];
    memset(flags, 0, t);
    if (direction == COARSEN) {
        write_reactivable(at, cells, reactivable);
        cell_kinds = reactivable;
    }
    if (by == CELLS) {
        number = judge(cell_kinds, t, at->cells_at[last], marks, marks_len);
        for (i = 0; number == 0 && i < marks_len; i++)
            flags[marks[i]] = 1;
        return number;
    }
    if (direction == COARSEN) {
        write_coarsenable(at, functions, reactivable, coarsenable);
        function_kinds = coarsenable;
    }
    number = judge(function_kinds, f, at->functions_at[last], marks, marks_len);
    if (number != 0)
        return number;
    /* A deactivated function that is not marked keeps its cells. */
    for (i = 0; i < f; i++)
        weights[i] = direction == COARSEN && functions[i] == 2 ? 0 : 2;
    for (i = 0; i < marks_len; i++)
        weights[marks[i]] = 1;
    flag_covered(at, weights, cell_kinds, flags);
    return 0;
}

/* The tables after a change, beside the old ones, and how many entries differ. */
struct made {
    uint8_t cells[ROOM], functions[ROOM];
    size_t changed_cells, changed_functions;
};

/* Makes them of tables that are checked, or refuses the marks or the lists' lengths. */
static uint32_t make(const struct layout *at, enum direction direction, enum by by,
                     const uint8_t *cells, const uint8_t *functions, const uint32_t *marks,
                     size_t marks_len, size_t cell_room, size_t function_room, struct made *made)
{
    uint8_t flags[ROOM];
    size_t t = at->cells_at[at->levels], f = at->functions_at[at->levels];
    uint32_t number = flag_marks(at, direction, by, cells, functions, marks, marks_len, flags);
    if (number != 0)
        return number;
    if (direction == REFINE)
        flag_needed(at, cells, flags);
    else
        unflag_needed(at, cells, flags);
    memcpy(made->cells, cells, t);
    shift_flagged(at, flags, made->cells, direction == REFINE ? 1 : -1);
    over_supports(at, made->cells, made->functions);
    made->changed_cells = count_changed(cells, made->cells, t);
    made->changed_functions = count_changed(functions, made->functions, f);
    if (made->changed_cells > cell_room)
        return WALLMIRROR_CELL_LIST_TOO_SHORT;
    return made->changed_functions > function_room ? WALLMIRROR_FUNCTION_LIST_TOO_SHORT : 0;
}

static WallmirrorAnswer settle(const struct layout *at, const struct made *made, uint8_t *cells,
                               uint8_t *functions, uint32_t *cell_list, uint32_t *function_list)
{
    WallmirrorAnswer answer = nothing;
    size_t t = at->cells_at[at->levels], f = at->functions_at[at->levels];
    list_changed(cells, made->cells, t, cell_list);
    list_changed(functions, made->functions, f, function_list);
    memcpy(cells, made->cells, t);
    memcpy(functions, made->functions, f);
    answer.cells = (uint32_t)made->changed_cells;
    answer.functions = (uint32_t)made->changed_functions;
    return answer;
}

static WallmirrorAnswer change(enum direction direction, enum by by, WallmirrorPlan plan,
                               uint8_t *cells, size_t cells_len,
                               uint8_t *functions, size_t functions_len,
                               const uint32_t *marks, size_t marks_len,
                               uint32_t *cell_list, size_t cell_list_len,
                               uint32_t *function_list, size_t function_list_len)
{
    struct made made;
    WallmirrorAnswer answer = nothing;
    struct layout at;
    answer.number = check(&at, plan, cells, cells_len, functions, functions_len);
    if (answer.number == 0)
        answer.number = make(&at, direction, by, cells, functions, marks, marks_len,
                             cell_list_len, function_list_len, &made);
    if (answer.number != 0)
        return answer;
    return settle(&at, &made, cells, functions, cell_list, function_list);
}

#define TUNED_CALL(name, direction, by)                                                    \
    TUNED_CHANGE(name)                                                                     \
    {                                                                                      \
        return change(direction, by, plan, cells, cells_len, functions, functions_len,     \
                      marks, marks_len, cell_list, cell_list_len, function_list,           \
                      function_list_len);                                                  \
    }

TUNED_CALL(tuned_refine_cells, REFINE, CELLS)
TUNED_CALL(tuned_refine_functions, REFINE, FUNCTIONS)
TUNED_CALL(tuned_coarsen_cells, COARSEN, CELLS)
TUNED_CALL(tuned_coarsen_functions, COARSEN, FUNCTIONS)

/* ---- Files ---- */

/* Reads the number in its shortest form at `at` and answers the place behind it, or 0 where there
 * is none. */
static size_t next_number(const uint8_t *file, size_t len, size_t at, uint32_t *value)
{
    if (at < len && file[at] < 128) {
        *value = file[at];
        return at + 1;
    }
    if (len - at > 1 && file[at + 1] < 128) {
        *value = (file[at] & 127u) | (uint32_t)file[at + 1] << 7;
        return file[at + 1] != 0 ? at + 2 : 0;
    }
    if (len - at > 2 && file[at + 2] < 128) {
        *value = (file[at] & 127u) | (file[at + 1] & 127u) << 7 | (uint32_t)file[at + 2] << 14;
        return file[at + 2] != 0 ? at + 3 : 0;
    }
    return 0;
}

/* What a file begins with, where its cells stand, its corners, and where these end. */
struct listing {
    uint32_t numbers[7]; /* the plan and the count of cells */
    uint32_t corners_across, corners_up;
    size_t first, end, behind;
};

/* Whether the file has all its numbers. */
static int read_listing(const uint8_t *file, size_t len, struct listing *listing)
{
    uint32_t i, value;
    size_t at = 0;
    for (i = 0; i < 7; i++)
        if ((at = next_number(file, len, at, &listing->numbers[i])) == 0)
            return 0;
    listing->first = at;
    for (i = 0; i < listing->numbers[6]; i++)
        if ((at = next_number(file, len, at, &value)) == 0 || (i > 0 && value == 0))
            return 0;
    listing->end = listing->behind = at;
    listing->corners_across = listing->corners_up = 0;
    if (at == len)
        return 1;
    if ((at = next_number(file, len, at, &listing->corners_across)) == 0 ||
        (at = next_number(file, len, at, &listing->corners_up)) == 0)
        return 0;
    listing->behind = at;
    return (listing->corners_across | listing->corners_up) != 0;
}

/* Makes the listed cells refined and the cells that are then present active. Whether every listed
 * cell is one of the plan. */
static int refine_listed(const struct layout *at, const uint8_t *file,
                         const struct listing *listing, uint8_t *cells)
{
    uint8_t wide[2 * WIDEST_ROW];
    size_t t = at->cells_at[at->levels], place = listing->first, cell = 0, row, i;
    uint32_t level, value = 0;
    memset(cells, 0, t);
    while (place < listing->end) {
        place = next_number(file, listing->end, place, &value);
        if (value >= t - cell)
            return 0;
        cell += value;
        cells[cell] = 2;
    }
    for (i = 0; i < at->cells_at[1]; i++)
        cells[i] = cells[i] == 2 ? 2 : 1;
    for (level = 0; level + 1 < at->levels; level++) {
        const uint8_t *here = cells + at->cells_at[level];
        uint8_t *below = cells + at->cells_at[level + 1];
        size_t n = at->columns[level];
        for (row = 0; row < at->rows[level]; row++, here += n, below += 4 * n) {
            if (!memchr(here, 2, n))
                continue;
            double_row(wide, here, n);
            for (i = 0; i < 2 * n; i++)
                below[i] = below[i] == 2 ? 2 : wide[i] == 2;
            for (i = 0; i < 2 * n; i++)
                below[2 * n + i] = below[2 * n + i] == 2 ? 2 : wide[i] == 2;
        }
    }
    return 1;
}

WallmirrorRead tuned_read(const uint8_t *file, size_t file_len, uint8_t *cells, size_t cells_len,
                          uint8_t *functions, size_t functions_len)
{
    uint8_t new_cells[ROOM];
    WallmirrorRead answer = {0, {0, 0, 0, 0, 0, 0, 0, 0}};
    struct listing listing;
    struct layout at;
    WallmirrorPlan plan;
    if (!read_listing(file, file_len, &listing)) {
        answer.number = WALLMIRROR_MALFORMED_FILE;
        return answer;
    }
    plan.columns = listing.numbers[0];
    plan.rows = listing.numbers[1];
    plan.levels = listing.numbers[2];
    plan.degree_across = listing.numbers[3];
    plan.degree_up = listing.numbers[4];
    plan.admissibility_class = listing.numbers[5];
    plan.corners_across = listing.corners_across;
    plan.corners_up = listing.corners_up;
    answer.number = lay_out(&at, plan);
    if (answer.number != 0)
        return answer;
    answer.plan = plan;
    if (cells_len != at.cells_at[at.levels] || functions_len != at.functions_at[at.levels])
        answer.number = WALLMIRROR_TABLE_LENGTH;
    else if (!refine_listed(&at, file, &listing, new_cells) || !is_mesh(&at, new_cells))
        answer.number = WALLMIRROR_NOT_A_MESH;
    else if (!is_admissible(&at, new_cells))
        answer.number = WALLMIRROR_NOT_ADMISSIBLE;
    else if (listing.behind != file_len)
        answer.number = WALLMIRROR_TRAILING_BYTES;
    if (answer.number != 0)
        return answer;
    memcpy(cells, new_cells, cells_len);
    over_supports(&at, cells, functions);
    return answer;
}

static size_t size_of(uint32_t value)
{
    return value < 1u << 7 ? 1 : value < 1u << 14 ? 2 : 3;
}

static uint8_t *put_number(uint8_t *to, uint32_t value)
{
    for (; value >= 128; value >>= 7)
        *to++ = (uint8_t)(value | 128);
    *to++ = (uint8_t)value;
    return to;
}

WallmirrorWritten tuned_write(WallmirrorPlan plan, const uint8_t *cells, size_t cells_len,
                              const uint8_t *functions, size_t functions_len,
                              uint8_t *file, size_t file_len)
{
    WallmirrorWritten written = {0, 0};
    struct layout at;
    uint32_t listed[WALLMIRROR_MAX_FILE_BYTES], count = 0, before = 0, i;
    size_t last, length;
    uint8_t *to = file;
    written.number = check(&at, plan, cells, cells_len, functions, functions_len);
    if (written.number != 0)
        return written;
    /* none is refined on the last level */
    last = at.cells_at[at.levels - 1];
    length = 6;
    for (i = 0; i < last; i++)
        if (cells[i] == 2) {
            listed[count++] = i - before;
            length += size_of(i - before);
            before = i;
        }
    length += size_of(count);
    if ((plan.corners_across | plan.corners_up) != 0)
        length += size_of(plan.corners_across) + size_of(plan.corners_up);
    if (file_len < length) {
        written.number = WALLMIRROR_CELL_LIST_TOO_SHORT;
        return written;
    }
    to = put_number(to, plan.columns);
    to = put_number(to, plan.rows);
    to = put_number(to, plan.levels);
    to = put_number(to, plan.degree_across);
    to = put_number(to, plan.degree_up);
    to = put_number(to, plan.admissibility_class);
    to = put_number(to, count);
    for (i = 0; i < count; i++)
        to = put_number(to, listed[i]);
    if ((plan.corners_across | plan.corners_up) != 0)
        put_number(put_number(to, plan.corners_across), plan.corners_up);
    written.length = (uint32_t)length;
    return written;
}

/* ---- Heights ---- */

/* Whether the functions over a cell beside the line begin or end at it: an end, or a corner. */
static int is_sharp(size_t n, uint32_t level, uint32_t corners, size_t line)
{
    return line == 0 || line == n || is_corner(corners, level, line);
}

/*
 * The values of the degree + 1 functions over the cell that has the place, on a level of n cells of
 * `size` eighths; answers the first of these functions. The far edge belongs to the last cell.
 */
static size_t values_at(uint32_t degree, size_t n, uint32_t level, uint32_t corners, size_t size,
                        size_t place, double values[3])
{
    size_t cell = place / size < n ? place / size : n - 1, first = cell;
    double t = (double)(place - cell * size) / (double)size;
    if (degree == 1) {
        values[0] = 1 - t;
        values[1] = t;
        return cell;
    }
    values[0] = (1 - t) * (1 - t) * (is_sharp(n, level, corners, cell) ? 1 : 0.5);
    values[2] = t * t * (is_sharp(n, level, corners, cell + 1) ? 1 : 0.5);
    values[1] = 1 - values[0] - values[2];
    /* One function more for each corner at or before the cell. */
    for (corners &= ((uint32_t)2 << (cell >> level)) - 1; corners != 0; corners &= corners - 1)
        first++;
    return first;
}

/* Whether an active function has a height beyond its limit. */
static int is_too_high(const struct layout *at, const uint8_t *functions, const int32_t *heights)
{
    uint32_t level, wrong = 0;
    size_t i;
    for (level = 0; level < at->levels; level++) {
        uint32_t most = (uint32_t)WALLMIRROR_MAX_HEIGHT_MM << (4 * level);
        for (i = at->functions_at[level]; i < at->functions_at[level + 1]; i++)
            wrong |= (functions[i] == 1) & ((uint32_t)heights[i] + most > 2 * most);
    }
    return wrong != 0;
}

/* Check, and then what is refused of the heights. */
static uint32_t check_heights(struct layout *at, WallmirrorPlan plan, const uint8_t *cells,
                              size_t cells_len, const uint8_t *functions, size_t functions_len,
                              const int32_t *heights, size_t heights_len)
{
    uint32_t number = check(at, plan, cells, cells_len, functions, functions_len);
    if (number != 0)
        return number;
    if (heights_len != functions_len)
        return WALLMIRROR_TABLE_LENGTH;
    if (at->across > 2 || at->up > 2 || at->levels > 4)
        return WALLMIRROR_PLAN_WITHOUT_HEIGHTS;
    return is_too_high(at, functions, heights) ? WALLMIRROR_POINT_OR_HEIGHT_OUT_OF_RANGE : 0;
}

WallmirrorHeight tuned_height(WallmirrorPlan plan, const uint8_t *cells, size_t cells_len,
                              const uint8_t *functions, size_t functions_len,
                              const int32_t *heights, size_t heights_len,
                              uint32_t across, uint32_t up)
{
    WallmirrorHeight answer = {0, 0};
    struct layout at;
    uint32_t level, i, j;
    answer.number = check_heights(&at, plan, cells, cells_len, functions, functions_len, heights,
                                  heights_len);
    if (answer.number == 0 &&
        (across > 8 * at.columns[at.levels - 1] || up > 8 * at.rows[at.levels - 1]))
        answer.number = WALLMIRROR_POINT_OR_HEIGHT_OUT_OF_RANGE;
    if (answer.number != 0)
        return answer;
    /* Products and sums are exact, so their order does not matter. */
    for (level = 0; level < at.levels; level++) {
        double values_across[3], values_up[3], sum = 0;
        size_t size = (size_t)8 << (at.levels - 1 - level), width = at.functions_across[level];
        size_t column = values_at(at.across, at.columns[level], level, at.corners_across, size,
                                  across, values_across);
        size_t row =
            values_at(at.up, at.rows[level], level, at.corners_up, size, up, values_up);
        size_t first = at.functions_at[level] + row * width + column;
        for (j = 0; j <= at.up; j++, first += width)
            for (i = 0; i <= at.across; i++)
                if (functions[first + i] == 1)
                    sum += heights[first + i] * values_across[i] * values_up[j];
        answer.height += sum / (1 << 4 * level);
    }
    return answer;
}

/* ---- Refining with heights ---- */

/* The most functions of a plan with heights, and the most in a row of a level but the last. */
enum { MOST_HEIGHTS = 31076, MOST_PARENTS = 64 + 2 + 15 };

/* The children of a function in one direction, in a row, with their coefficients. */
struct family {
    uint32_t first, count;
    int32_t quarters[4];
};

/* Those of all functions of a direction, and how many these are. */
static size_t lay_families(struct family *families, size_t n, uint32_t level, uint32_t degree,
                           uint32_t corners)
{
    size_t knots[MOST_PARENTS + 3], many = 0, line, i;
    for (line = 0; line <= n; line++) {
        size_t times = 1;
        if (line == 0 || line == n)
            times = degree + 1;
        else if (is_corner(corners, level, line))
            times = degree;
        while (times-- > 0)
            knots[many++] = line;
    }
    for (i = 0; i + degree + 1 < many; i++) {
        const size_t *at = knots + i;
        struct family family = {(uint32_t)(i + at[0]), 0, {0, 0, 0, 0}};
        int32_t *quarter = family.quarters;
        /* before the middle of the function, in it where knots meet there, and behind it */
        int meet = degree == 1 || at[1] == at[2];
        if (at[0] < at[1]) {
            *quarter++ = meet ? 2 : 1;
            if (!meet)
                *quarter++ = 3;
        } else if (!meet) {
            *quarter++ = 2;
        }
        if (meet)
            *quarter++ = 4;
        if (at[degree] < at[degree + 1]) {
            if (!meet)
                *quarter++ = 3;
            *quarter++ = meet ? 2 : 1;
        } else if (!meet) {
            *quarter++ = 2;
        }
        family.count = (uint32_t)(quarter - family.quarters);
        families[i] = family;
    }
    return many - degree - 1;
}

/* A height to the children of a function, of which `out` is the first and a row has `width`. */
static void pass_on(int32_t height, const struct family *across, const struct family *up,
                    int32_t *out, size_t width)
{
    uint32_t i, j;
    for (j = 0; j < up->count; j++, out += width) {
        int32_t of_row = height * up->quarters[j];
        for (i = 0; i < across->count; i++)
            out[i] += of_row * across->quarters[i];
    }
}

/* Level by level, the functions that are deactivated pass their heights to their children. */
static void carry(const struct layout *at, const uint8_t *functions, int32_t *heights)
{
    struct family across[MOST_PARENTS], up[MOST_PARENTS];
    uint32_t level;
    for (level = 0; level + 1 < at->levels; level++) {
        size_t width = at->functions_across[level + 1], row, column, f = at->functions_at[level];
        size_t columns =
            lay_families(across, at->columns[level], level, at->across, at->corners_across);
        size_t rows = lay_families(up, at->rows[level], level, at->up, at->corners_up);
        for (row = 0; row < rows; row++)
            for (column = 0; column < columns; column++, f++) {
                size_t child = at->functions_at[level + 1] + up[row].first * width;
                int32_t height = heights[f];
                if (functions[f] != 2 || height == 0)
                    continue;
                heights[f] = 0;
                pass_on(height, &across[column], &up[row],
                        heights + child + across[column].first, width);
            }
    }
}

static WallmirrorAnswer refine_with_heights(enum by by, WallmirrorPlan plan,
                                            uint8_t *cells, size_t cells_len,
                                            uint8_t *functions, size_t functions_len,
                                            int32_t *heights, size_t heights_len,
                                            const uint32_t *marks, size_t marks_len,
                                            uint32_t *cell_list, size_t cell_list_len,
                                            uint32_t *function_list, size_t function_list_len)
{
    struct made made;
    int32_t carried[MOST_HEIGHTS];
    WallmirrorAnswer answer = nothing;
    struct layout at;
    size_t i;
    answer.number = check_heights(&at, plan, cells, cells_len, functions, functions_len, heights,
                                  heights_len);
    if (answer.number == 0)
        answer.number = make(&at, REFINE, by, cells, functions, marks, marks_len, cell_list_len,
                             function_list_len, &made);
    if (answer.number != 0)
        return answer;
    for (i = 0; i < heights_len; i++)
        carried[i] = functions[i] == 1 ? heights[i] : 0;
    carry(&at, made.functions, carried);
    if (is_too_high(&at, made.functions, carried)) {
        answer.number = WALLMIRROR_CARRIED_HEIGHT_OUT_OF_RANGE;
        return answer;
    }
    for (i = 0; i < heights_len; i++)
        heights[i] = made.functions[i] == 1 ? carried[i] : 0;
    return settle(&at, &made, cells, functions, cell_list, function_list);
}

TUNED_CHANGE_WITH_HEIGHTS(tuned_refine_cells_with_heights)
{
    return refine_with_heights(CELLS, plan, cells, cells_len, functions, functions_len, heights,
                               heights_len, marks, marks_len, cell_list, cell_list_len,
                               function_list, function_list_len);
}

TUNED_CHANGE_WITH_HEIGHTS(tuned_refine_functions_with_heights)
{
    return refine_with_heights(FUNCTIONS, plan, cells, cells_len, functions, functions_len,
                               heights, heights_len, marks, marks_len, cell_list, cell_list_len,
                               function_list, function_list_len);
}

/* ---- Corners of cells ---- */

/* The most lines of the last level across, or up, and the most points where they meet: those of 12
 * by 1 cells with four levels. */
enum { MOST_LINES = 12 * 8 + 1, MOST_POINTS = MOST_LINES * (8 + 1) };

/* Of a level's functions in one direction, on each line of the last level: the first that is over
 * it, and the values from there on. */
struct lines {
    size_t first[MOST_LINES];
    double values[MOST_LINES][3];
};

static void lay_lines(struct lines *lines, uint32_t degree, size_t n, uint32_t level,
                      uint32_t corners, size_t size, size_t last)
{
    size_t line;
    for (line = 0; line <= last; line++)
        lines->first[line] =
            values_at(degree, n, level, corners, size, line, lines->values[line]);
}

/* The heights where the lines of the last level meet, row by row. */
static void lay_heights(const struct layout *at, const uint8_t *functions, const int32_t *heights,
                        double *out)
{
    static const double units[4] = {1, 1.0 / 16, 1.0 / 256, 1.0 / 4096};
    size_t columns = at->columns[at->levels - 1], rows = at->rows[at->levels - 1], x, y;
    uint32_t level, i, j;
    memset(out, 0, (columns + 1) * (rows + 1) * sizeof *out);
    for (level = 0; level < at->levels; level++) {
        struct lines across, up;
        size_t size = (size_t)1 << (at->levels - 1 - level), width = at->functions_across[level];
        lay_lines(&across, at->across, at->columns[level], level, at->corners_across, size,
                  columns);
        lay_lines(&up, at->up, at->rows[level], level, at->corners_up, size, rows);
        for (y = 0; y <= rows; y++)
            for (x = 0; x <= columns; x++) {
                size_t first = at->functions_at[level] + up.first[y] * width + across.first[x];
                double sum = 0;
                for (j = 0; j <= at->up; j++, first += width)
                    for (i = 0; i <= at->across; i++)
                        if (functions[first + i] == 1)
                            sum += heights[first + i] * across.values[x][i] * up.values[y][j];
                out[y * (columns + 1) + x] += sum * units[level];
            }
    }
}

/* The four corners of the cells of a row, of which each is `size` last-level cells wide. */
static double *put_row(const uint8_t *cells, size_t n, size_t row, size_t size,
                       const double *heights, double *out)
{
    size_t column, i;
    for (column = 0; column < n; column++) {
        if (cells[column] != 1)
            continue;
        for (i = 0; i < 4; i++, out += 3) {
            size_t x = (column + i % 2) * size, y = (row + i / 2) * size;
            out[0] = (double)x;
            out[1] = (double)y;
            out[2] = heights[y * (n * size + 1) + x];
        }
    }
    return out;
}

WallmirrorCorners tuned_corners(WallmirrorPlan plan, const uint8_t *cells, size_t cells_len,
                                const uint8_t *functions, size_t functions_len,
                                const int32_t *heights, size_t heights_len,
                                double *out, size_t out_len)
{
    double at_lines[MOST_POINTS];
    WallmirrorCorners answer = {0, 0};
    struct layout at;
    uint32_t level, active;
    size_t row;
    answer.number = lay_out(&at, plan);
    if (answer.number == 0 && at.cells_at[at.levels] > WALLMIRROR_MAX_PROJECTED_CELLS)
        answer.number = WALLMIRROR_TOO_MANY_CELLS_TO_PROJECT;
    if (answer.number == 0)
        answer.number = check_heights(&at, plan, cells, cells_len, functions, functions_len,
                                      heights, heights_len);
    if (answer.number != 0)
        return answer;
    active = count_byte(cells, cells_len, 1);
    if (out_len < (size_t)12 * active) {
        answer.number = WALLMIRROR_CELL_LIST_TOO_SHORT;
        return answer;
    }
    lay_heights(&at, functions, heights, at_lines);
    for (level = 0; level < at.levels; level++)
        for (row = 0; row < at.rows[level]; row++)
            out = put_row(cells + at.cells_at[level] + row * at.columns[level], at.columns[level],
                          row, (size_t)1 << (at.levels - 1 - level), at_lines, out);
    answer.corners = 4 * active;
    return answer;
}
