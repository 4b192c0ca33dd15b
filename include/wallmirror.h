/*
 * wallmirror: refining and coarsening hierarchical spline meshes.
 *
 * A mesh is held by the caller as two tables of bytes, one byte for each cell of each level and one
 * for each function of each level. The cells may also be held as two planes of bits, beside the
 * same table of functions. The library allocates nothing, keeps nothing between calls and may be
 * called from several threads on different meshes.
 *
 * In the words of the scope document a mesh is a wall, refining and coarsening are splitting and
 * joining, admissible of class m is graded, and reactivable is joinable.
 *
 * Every call takes any plan, tables, planes, marks, draft, file, heights and point whatever and
 * returns. What it cannot serve it refuses with a number (WallmirrorRefusal), and then all that was
 * lent holds the bytes it held before. wallmirror_refusal_text says in words what a number means.
 *
 * Cells. Level k has columns * 2^k columns and rows * 2^k rows of cells. They are numbered from 0,
 * level by level, row by row. The cell at column c, row r has four children one level down, at
 * columns 2c and 2c + 1 and rows 2r and 2r + 1.
 *
 * Functions. They follow from knots, and these stand on the grid lines. On a level of n columns
 * line x is the one before column x, and there are lines 0 to n. With degree_across p the knot on
 * the first and on the last line is taken p + 1 times, the one on a corner p times, any other once.
 * With all of them in rising order, from 0 on, function i across covers the columns from knot i to
 * just before knot i + p + 1, and there is one for every p + 2 knots in a row. Up it is the same
 * with the rows, degree_up and the corners up. The support of a function is the rectangle of both,
 * made of cells of its own level. Functions are numbered like cells, level by level, row by row.
 * Cell 5 and function 5 name different things.
 *
 * Without corners that is n + p functions across, of which function i covers columns max(0, i - p)
 * to min(n - 1, i).
 *
 * Corners. Bit k of corners_across marks the line of level 0 before column k as a corner, for k
 * from 1 to columns - 1, and bit k of corners_up the line before row k, for k from 1 to rows - 1.
 * The line is a corner on every level: on level j it is the one before column k * 2^j. The surface
 * may have a kink there: functions are continuous across a corner, and no more. Each corner adds
 * p - 1 functions across to every level, so c corners make it n + p + (p - 1) * c, and functions
 * beside it cover fewer columns. With degree 1 a corner changes nothing but the file, since every
 * line may have a kink then. The cells and their numbers have nothing to do with corners.
 *
 * Example: columns 3, rows 1, both degrees 1. Level 0 has cells 0 to 2 and two rows of four
 * functions, 0 to 3 and 4 to 7; level 1 has cells 3 to 14, six to a row, and functions from 8 on,
 * seven to a row. Function 1 covers cells 0 and 1, and so does function 5. The children of cell 0
 * are 3, 4, 9, 10. With degree_across 2 and a corner before column 1 the knots across of level 0
 * are 0 0 0 1 1 2 3 3 3, and six functions cover columns 0, 0, 0 to 1, 1 to 2, 1 to 2 and 2.
 *
 * Places. Some calls take a plan and no tables. wallmirror_level answers the first cell and the
 * first function of a level and how many there are across and up, wallmirror_place where a cell
 * lies, wallmirror_cell_at which cell lies at a place, and wallmirror_support which cells a
 * function covers. Where the plan is refused, or does not have what is asked for, all that they
 * answer is 0. In the example above cell 9 lies on level 1 in row 1, column 0, and function 9
 * covers the cells of level 1 in row 0, columns 0 and 1.
 *
 * Admissibility. In class m, not 0, a refined cell of level j with j - m + 1 at least 0 has a
 * neighbourhood: the cells of level j - m + 1 that have a child which, across as well as up, is
 * covered by a common function of level j - m + 2 with the cell's ancestor there (in class 2 the
 * cell itself). Without corners such a child's column differs by at most degree_across, and its row
 * by at most degree_up, from those of the ancestor; with them there may be fewer. A mesh is
 * admissible where the neighbourhood of every refined cell is refined. In class 0 every mesh is.
 * A mesh that was admissible before version 0.12, when neighbourhoods were larger, still is. In the
 * example above, with three levels and class 2, a mesh with cells 0 and 4 refined and cell 1 active
 * is not admissible: cell 4 is in column 1 of level 1, a function covers it and cell 5 in column 2,
 * and cell 5 is a child of cell 1. With cells 0 and 3 refined and cell 1 active it is.
 *
 * Levels over a cell. A function is over a cell where its support and the cell have a point in
 * common, whatever their levels. In class m, not 0, let k be the level of an active cell. Functions
 * over it of finer levels than k are passive. If k is at least m, every function of level k - m + 1
 * over it is active or deactivated, and so is every function over it of a coarser level. That is
 * for truncated functions: those of coarser levels than k - m + 1 vanish over the cell then, and a
 * program that works with the truncated basis has at most m levels to look at there. The functions
 * of this library are not truncated, and active ones of all levels from 0 to k may be over the
 * cell. A program that draws or sums them looks at these levels, and on each at the functions over
 * the cell's ancestor there: degree_across + 1 of them in a row across and degree_up + 1 up. Those
 * over column x begin with function x + (degree_across - 1) * c, where c corners are on lines 1 to
 * x of that level; up it is the same. In the example above, with three levels, class 2 and cells 0
 * and 3 refined, cell 15 of level 2 is active, and active functions of three levels are over it: 1,
 * 9 and 29 are among them.
 *
 * What a mark can cost. In class m, not 0, one marked cell of level j refines, itself included, at
 * most
 *   1 + j / (m - 1) * (2 * degree_across + 1) * (2 * degree_up + 1)
 * cells, with / as in C. They are the marked cell and, on each level j - i * (m - 1) for i from 1
 * to j / (m - 1), cells that are at most degree_across columns and degree_up rows from its ancestor
 * there. With r rows on level j and s on the coarser one, the ancestor of a cell in row x is in row
 * x / (r / s), and its column is found likewise. Several marks refine at most the sum of their
 * bounds, repeats counted once, and each cell that they refine is one that one of them can reach. A
 * marked function counts as the cells that it stands for. In class 0 just the cells that the marks
 * stand for become refined. All of it holds on every mesh, with corners and without, and of the
 * calls with heights too. Example: columns 8, rows 1, levels 5, both degrees 1, class 2, cell 3
 * refined. Cell 15 is in column 7 of level 1, so its bound is 10, and besides itself it can reach
 * columns 2 to 4 of level 0. Marked, it refines 4 and 15.
 *
 * Undo. Keep the lists of each call, cut to the answered lengths. To take a run of calls back, give
 * the kept cell lists from the last call to the first, as marks, each to the opposite call by
 * cells: wallmirror_coarsen_cells for a refining call, with heights or without,
 * wallmirror_refine_cells for either coarsening one, with output lists at least as long as the kept
 * ones. Every one of these is accepted and names the same cells and functions as the call it takes
 * back, and both tables end as they began. A refused call has changed nothing and has lengths 0:
 * its list is no marks at all, which is accepted and changes nothing. What is asked is that the
 * first mesh passes wallmirror_check and that nothing else writes the tables. To the walk back a
 * closed draft is one refining call by cells, with the lists that closing wrote; the other calls on
 * a draft change no table and leave nothing to take back. The walk begins with no draft open: close
 * or drop it first. In class 0 a run of refinements by functions alone, with heights or without,
 * may also be taken back by its function lists, from the last to the first, each given to
 * wallmirror_coarsen_functions. This holds where on the first mesh each refined cell lies in the
 * support of a deactivated function of its own level, as on a mesh just opened.
 *
 * Drafts. A draft collects marks of cells over many calls and then refines by all of them at once.
 * It is a WallmirrorDraft, which the caller keeps, beside a list of marks, which the caller lends;
 * it begins as {0, 0}, which is no draft. wallmirror_draft_open opens it. wallmirror_draft_add
 * writes marks to the list, after those that it has; a repeat takes an entry too. Each mark is
 * judged against the mesh when it is added, as wallmirror_refine_cells judges it, and a refused
 * call adds none of its marks. wallmirror_draft_close refines by all marks: its effect, lists and
 * refusals are those of one wallmirror_refine_cells with them, and after a refusal the draft is
 * still open. wallmirror_draft_drop gives it up. Each of the four answers the draft that is to be
 * kept and handed in the next time; after a refusal it is the one that was handed in. Of the four
 * only closing changes the tables. So the calls that only read them may be made while a draft is
 * open, and show the mesh without it.
 *
 * A draft is open where its field open is not 0 and its list has at least as many entries as it has
 * marks. With more marks than entries it counts as not open. While it is open,
 * wallmirror_draft_open and the refining and coarsening calls with a draft refuse 18, directly
 * after 6 and before anything of the heights. While it is not, adding, closing and dropping refuse
 * 19, after 6. Adding refuses 10, after 7 to 9, where the list does not have room for all marks.
 *
 * The calls on bytes that open, read, refine or coarsen a mesh have a form with a draft, with
 * _with_draft or _and_draft at the end of the name. A program that never keeps a draft takes the
 * forms without: they do what the forms with a draft do where none is open. A program that keeps
 * one takes the forms with it everywhere, so that nothing changes the mesh under an open draft:
 * refining and coarsening are refused, and wallmirror_open_with_draft and
 * wallmirror_read_with_draft, when accepted, drop the draft. What only reads the tables takes no
 * draft. In the example above, with three levels, class 2 and cell 0 refined, let a draft have the
 * marks 3, 4 and 3. Closed, it lists cells 1, 3 and 4 and functions 1, 5, 8 and 9.
 *
 * Rounds. These are not released: the version is the one without them, and they may change until
 * they are. wallmirror_rounds says how today's mesh becomes a wanted one of the same plan: by rounds
 * of marks of cells, one round for each level but the last. Round k has, in rising order, the cells
 * of level k that are refined in the wanted mesh and are active by then, when the rounds before it
 * have been made. The call is lent the tables of both meshes, which it only reads, a list for the
 * marks and a list for the lengths of the rounds. The marks stand round after round at the
 * beginning of the one, and levels - 1 lengths at the beginning of the other; an empty round has
 * the length 0. Entries past these keep their values.
 *
 * To make the rounds, give the marks of each, from the first round to the last, to
 * wallmirror_refine_cells, or to its form with a draft where none is open, with output lists that
 * are long enough. Every one of these is accepted, and the cells that it lists are the marks of its
 * round and no others. After the last both tables are the wanted ones, byte for byte. The lists
 * that were kept take the rounds back as they do any run of calls, and the tables are today's
 * again. From a mesh to itself all rounds are empty; from the mesh just opened every mesh of the
 * plan is reached.
 *
 * The marks of all rounds are the cells that are refined in the wanted mesh and not today. So their
 * list needs as many entries as the wanted mesh has refined cells, less those of today's mesh, both
 * as wallmirror_count answers them; WALLMIRROR_MAX_CELLS entries are always enough. The list of
 * lengths needs levels - 1 entries, which is at most WALLMIRROR_MAX_ROUNDS. The call refuses 1 to 6
 * of today's mesh; then 1 to 6 of the wanted one; then 20 where a cell that is refined today is not
 * refined in the wanted mesh, since rounds only refine; then 10 where one of the lists is too
 * short. In the example above, with three levels and class 2, let today's mesh be just opened, and
 * let the wanted one have cells 0, 1 and 4 refined. The marks are 0, 1 and 4 then, and the lengths
 * 2 and 1.
 *
 * Files. The file of a mesh is bytes that the caller keeps where it likes: wallmirror_write makes
 * them of a mesh, wallmirror_read makes the mesh of them. They are a list of numbers: the first six
 * of the plan in the order of WallmirrorPlan, how many cells are refined, the first refined cell if
 * there is one, then for each further one, in rising order, its difference from the one before; and
 * then corners_across and corners_up, which are left out if both are 0. A number is written in
 * groups of seven bits, one to a byte, the lowest first, with the high bit set in all but the last;
 * in as few groups as it needs, and at most three. So one mesh has one file, the same on every
 * machine. The function table is not in it, since the cells and the corners fix it. In the example
 * above, with class 2, the mesh just opened is the bytes 3 1 3 1 1 2 0; with cells 0, 1 and 3
 * refined it is 3 1 3 1 1 2 3 0 1 2, and with a corner before column 1 besides
 * 3 1 3 1 1 2 3 0 1 2 2 0.
 *
 * A file of unknown plan is read twice, the first time with empty tables (NULL, 0). That is
 * refused: with 3 and the plan, or with 12, 1 or 2, where no tables will do. Then make the tables
 * of the lengths that wallmirror_cells_len and wallmirror_functions_len give, and read again.
 *
 * Planes. A program that keeps many meshes may hold their cells as bits: in two planes, present and
 * refined, of words of 64 bits. The number of a cell is the number of its bit, the lowest first:
 * cell i has bit i % 64 of word i / 64. It is set in present where the cell is active or refined,
 * and in refined where it is refined. So an absent cell is set in neither, and an active one in
 * present alone. Each plane has wallmirror_planes_len words: the number of cells divided by 64,
 * rounded up. The bits past the last cell are spare, and 0. The function table is the one that
 * stands beside a cell table. The largest plan has 21845 cells and planes of 342 words, which are
 * 5472 bytes together. In the example above, with three levels, there are 63 cells and each plane
 * is one word. Just opened, present is 7 and refined is 0. With cell 0 refined, present has bits 0
 * to 4, 9 and 10 set and is 0x61f, and refined is 1.
 *
 * Opening, checking and counting, both refining calls and both coarsening ones have a form on
 * planes, which has planes_ after wallmirror_ in its name. It takes both planes in place of the
 * cell table, and its answer, functions and lists are those of the call on bytes with the same
 * cells; the planes become those of the cells that the call on bytes leaves. It refuses what that
 * call refuses, in the same order. There 3 is also for a plane that does not have its length, and
 * 4, before all that is said of a mesh, for planes that are not in order: a spare bit is set, or a
 * bit of refined where that of present is not. Opening looks at nothing that was there and never
 * refuses 4. A run of these calls is undone as on bytes, by the opposite calls on planes, where the
 * first mesh passes wallmirror_planes_check.
 *
 * There are no forms on planes with heights, with a draft, for rounds or for files: such a call
 * takes bytes. wallmirror_planes_to_cells makes the cell table that planes hold, and
 * wallmirror_planes_from_cells the planes of a cell table; neither asks whether it is a mesh. To
 * keep a mesh of a file so, read it into two tables with wallmirror_read, make planes of its cells
 * with wallmirror_planes_from_cells, and keep these and the function table; the cell table is free
 * for the next mesh then. The bytes 3 1 3 1 1 2 1 0 give the planes 0x61f and 1.
 *
 * Heights. The active functions carry a surface: its height at a point is the sum, over all active
 * functions, of the function's height times its value there. The value is that of a B-spline across
 * times that of one up, over the knots of the function's level as above. The heights of the
 * functions are whole numbers, one for each function of each level, in the order of their numbers;
 * on level k the unit is 16^-k mm. Whatever stands there for a function that is not active is
 * ignored. A point is two whole numbers, across and up, in eighths of a cell of the last level: 0
 * to 8 * columns * 2^(levels - 1) across and 0 to 8 * rows * 2^(levels - 1) up. The far edges are
 * included; the last function has the value 1 there.
 *
 * With degrees 1 and 2 and at most four levels the height in mm is a multiple of
 * 2^-(10 + 4 * levels), and the double that wallmirror_height answers is the sum itself, with no
 * bit rounded away. Other plans are refused with 14, after what wallmirror_check refuses and after
 * 3 for the number of heights; then follows 15, for the point and for the heights of active
 * functions. In the example above, with three levels, let cell 0 be refined, which makes function 9
 * of level 1 active. At the point 16, 0 function 1 has the value 1/2 and function 9 the value 1.
 * With heights 10 and 8 for these, and 0 for the others, the surface is 5 + 8/16 = 5.5 mm high
 * there.
 *
 * Where the height of one active function is changed by d units of its level, up or down, a point
 * that is answered before and after moves by d times the function's value there: the same way, and
 * by at most d / 16^k mm. It moves by nothing outside the function's support, nor on its edge,
 * unless that is the edge of the mesh; everywhere else it moves, unless d is 0, but for points on
 * an edge of the mesh where another function is the outermost. Where several heights are changed,
 * no point moves by more than the largest changes of active heights, one of each level, together.
 * The two answers may be subtracted: the difference as a double is exact. In the example above,
 * with a height of 11 for function 9 in place of 8, the point 16, 0 rises by 3/16 mm to 5.6875, and
 * the points from 32 on across stay.
 *
 * Heights that are kept. wallmirror_refine_cells and wallmirror_refine_functions change which
 * functions are active, and so the surface, if the heights stay as they are. The same calls with
 * heights (wallmirror_refine_cells_with_heights, wallmirror_refine_functions_with_heights) keep the
 * surface: every point that wallmirror_height answers before has the same height after, in every
 * bit. A function that becomes deactivated passes its height to its children, those of the next
 * level of which it is made, level by level, the coarsest first, through children that are
 * deactivated already or by the same call. What it passes are the coefficients of knot insertion:
 * across, a function of degree 2 away from ends and corners is 1/4, 3/4, 3/4, 1/4 of four children
 * in a row, one of degree 1 is 1/2, 1, 1/2 of three, and up it is the same. So sixteenths of a
 * height of level k are passed, and these are whole heights of level k + 1: nothing is rounded. A
 * function that was not active before starts from 0, whatever stands there, and one that is not
 * active after gets 0. In the example above, with the heights above, let cell 1 be refined too.
 * Functions 1 and 5 become deactivated. Function 1 is 1/2 of functions 9 and 11 and 1 of function
 * 10 in row 0 of level 1, and half of that in row 1. With 10 mm it passes 80, 160 and 80 sixteenths
 * to 9, 10 and 11 and 40, 80 and 40 to 16, 17 and 18; function 9 has 88 then, and the surface is
 * still 5.5 mm high at 16, 0.
 *
 * These calls change both tables, write both lists and refuse as those without heights do. Besides,
 * they refuse directly after 6 what wallmirror_height refuses of heights: 3, 14, and 15 for the
 * height of an active function. And last, after 7 to 11, 17 where a carried height of a function
 * that is active then is more than WALLMIRROR_MAX_HEIGHT_MM either way; a deactivated function may
 * have more than that on the way. After a refusal the heights too are what they were.
 *
 * Coarsening carries no heights, and the undo concerns the two tables and the two lists alone. To
 * have the old heights back, keep them with the lists.
 *
 * Projector. wallmirror_corners gives the surface as a grid that can be thrown or drawn: of each
 * active cell, in rising order of the numbers, its four corners, lower left, lower right, upper
 * left, upper right, where row 0 is the lowest. These are points and have nothing to do with the
 * corners of a plan, which are lines. A cell's corner is three doubles: across and up, in cells of
 * the last level, and the height of the surface there in mm, as wallmirror_height answers it at the
 * point 8 * across, 8 * up. With s = 2^(levels - 1 - k) a cell of level k at column c, row r lies
 * from c * s to (c + 1) * s across and from r * s to (r + 1) * s up. So a cell has twelve doubles,
 * all of them exact, and they fill the lent output from its start. In the example above, with the
 * heights above, the corners of cell 3 are 0 0 0, 2 0 5.5, 0 2 0 and 2 2 2.5.
 *
 * A plan with more than WALLMIRROR_MAX_PROJECTED_CELLS cells on all levels together is refused with
 * 16, directly after 1 and 2. Then follows what wallmirror_height refuses, where 15 is for the
 * heights alone, since no corner of a cell lies beyond the mesh; and last 10, where the output is
 * shorter than all corners. Its length is what wallmirror_corners_len says, or more.
 *
 * Pointers. Each table, plane, file, list of heights, mark list, list of a draft, output list and
 * output of doubles is a pointer and its number of entries. A null pointer with length 0 is taken
 * as an empty slice. With any other length the pointer must be aligned for its type and lead to
 * that many entries, readable, and writable where it is not const. The tables, planes, heights,
 * lists, file and output of one call must not overlap each other. So the cell list of an earlier
 * call may serve as marks, but not as the cell list of the same call too. wallmirror_rounds writes
 * to no table, so the same tables may be lent to it as today's and as the wanted ones.
 *
 * Limits.
 *   columns, rows                 1 to 16
 *   levels                        1 to 8
 *   degree_across, degree_up      1 to 4
 *   admissibility_class           0, or 2 to 8
 *   corners_across, corners_up    bits 1 to columns - 1, bits 1 to rows - 1
 *   cells on all levels together  at most WALLMIRROR_MAX_CELLS
 *   functions of such a plan      at most WALLMIRROR_MAX_FUNCTIONS
 *   words of a plane              at most WALLMIRROR_MAX_PLANE_WORDS
 *   marks of a call               any number; their values are 32 bits
 *   marks of a draft              as many as its list has entries
 *   rounds                        levels - 1, at most WALLMIRROR_MAX_ROUNDS
 *   file of a mesh                at most WALLMIRROR_MAX_FILE_BYTES bytes
 *   plan of wallmirror_height     degrees 1 and 2, at most four levels; the same of refining with
 *                                 heights
 *   height of an active function  at most WALLMIRROR_MAX_HEIGHT_MM mm either way, before and after
 *   plan of wallmirror_corners    the same, and at most WALLMIRROR_MAX_PROJECTED_CELLS cells
 *   stack of a call               at most WALLMIRROR_STACK_BYTES
 */
#ifndef WALLMIRROR_H
#define WALLMIRROR_H

#include <stddef.h>
#include <stdint.h>

#ifdef __cplusplus
extern "C" {
#endif

/* The version of this header, and the same as one number: major * 1000000 + minor * 1000 + patch.
 * The library answers its own with wallmirror_version. */
#define WALLMIRROR_VERSION_MAJOR 0
#define WALLMIRROR_VERSION_MINOR 12
#define WALLMIRROR_VERSION_PATCH 0
#define WALLMIRROR_VERSION "0.12.0"
#define WALLMIRROR_VERSION_NUMBER \
    (WALLMIRROR_VERSION_MAJOR * 1000000 + WALLMIRROR_VERSION_MINOR * 1000 + \
     WALLMIRROR_VERSION_PATCH)

/* The most cells a mesh may have on all levels together, and the most functions such a mesh has:
 * buffers of these sizes serve every plan. */
#define WALLMIRROR_MAX_CELLS 21845
#define WALLMIRROR_MAX_FUNCTIONS 54884

/* The most words that each plane of a mesh has: a buffer of this size serves every plan. */
#define WALLMIRROR_MAX_PLANE_WORDS 342

/* The most rounds from a mesh to another, one for each level but the last: a buffer of this size
 * serves every plan. */
#define WALLMIRROR_MAX_ROUNDS 7

/* The most bytes that the file of a mesh has: a buffer of this size serves every mesh. */
#define WALLMIRROR_MAX_FILE_BYTES 5470

/* The greatest height of an active function in mm, either way. It is met exactly: on level k the
 * heights go from -65536 * 16^k to 65536 * 16^k. */
#define WALLMIRROR_MAX_HEIGHT_MM 65536

/* The most cells on all levels together of a plan that wallmirror_corners takes, and twelve doubles
 * for each: a buffer of this size serves every mesh that it takes. */
#define WALLMIRROR_MAX_PROJECTED_CELLS 1024
#define WALLMIRROR_MAX_CORNER_DOUBLES 12288

/* The most stack that any call takes, in bytes: what a thread must have left when it calls. The
 * calls on planes make the bytes of the cells there, within it. */
#define WALLMIRROR_STACK_BYTES 262144

/* The plan of a mesh, passed by value. It is the same in every call on that mesh. Make it with
 * WALLMIRROR_PLAN and set the corners by name:
 *
 *     WallmirrorPlan plan = WALLMIRROR_PLAN(3, 1, 3, 1, 1, 2);
 *     plan.corners_across = 1u << 1;
 *
 * Later versions may add fields. The macro gives each of them the value that leaves a plan what it
 * was, so a program that uses it need only be compiled again. A designated initialiser, as
 * {.columns = 3, .rows = 1, .levels = 3, ...}, keeps each number at its field too; but a field that
 * it does not name is 0, which means no corners, and may be out of range for a later field
 * (refusal 1). Numbers listed in braces without names leave a later field 0 likewise, or take its
 * place. */
typedef struct WallmirrorPlan {
    uint32_t columns;             /* of level 0, 1 to 16 */
    uint32_t rows;                /* of level 0, 1 to 16 */
    uint32_t levels;              /* 1 to 8; each level halves the cells of the one before */
    uint32_t degree_across;       /* 1 to 4 */
    uint32_t degree_up;           /* 1 to 4 */
    uint32_t admissibility_class; /* 2 to 8, or 0: every mesh is admissible */
    uint32_t corners_across;      /* bit k, 1 to columns - 1: a corner before column k */
    uint32_t corners_up;          /* bit k, 1 to rows - 1: a corner before row k */
} WallmirrorPlan;

/* The initialiser of a plan with these six numbers and without corners. It may stand wherever an
 * initialiser may, also outside of functions. */
#define WALLMIRROR_PLAN(columns, rows, levels, degree_across, degree_up, admissibility_class) \
    {(columns), (rows), (levels), (degree_across), (degree_up), (admissibility_class), 0, 0}

/* A byte of the cell table. */
enum WallmirrorCell {
    WALLMIRROR_CELL_ABSENT = 0,
    WALLMIRROR_CELL_ACTIVE = 1,
    WALLMIRROR_CELL_REFINED = 2
};

/* A byte of the function table. It is fixed by the cells of the function's own level in its
 * support: passive if any is absent, deactivated if all are refined, active otherwise. */
enum WallmirrorFunction {
    WALLMIRROR_FUNCTION_PASSIVE = 0,
    WALLMIRROR_FUNCTION_ACTIVE = 1,
    WALLMIRROR_FUNCTION_DEACTIVATED = 2
};

/* The number that every call on a mesh answers. Where several apply, the first of this order is
 * given: 12; 1, 2; then 16, of wallmirror_corners alone; 3 to 6, of wallmirror_rounds for today's
 * mesh and then for the wanted one; then 18, 19 or 20; then 3 of the heights, 14, 15; then the
 * marks in list order, each tried for 7, 8, 9; then 10, 11; then 13, or 17. */
enum WallmirrorRefusal {
    WALLMIRROR_ACCEPTED = 0,
    /* a number of the plan is out of range, or a bit of its corners marks no line between two
     * columns (or rows) */
    WALLMIRROR_PLAN_OUT_OF_RANGE = 1,
    /* all levels together have more than WALLMIRROR_MAX_CELLS cells */
    WALLMIRROR_TOO_MANY_CELLS = 2,
    /* a table or a plane does not have the length that the plan gives it; of the calls with heights
     * also, after 6: the heights are not as many as the functions */
    WALLMIRROR_TABLE_LENGTH = 3,
    /* the cell bytes are not a mesh: another byte than 0, 1, 2, an absent cell of level 0, a refined
     * cell with an absent child, any other cell with a child that is not absent, or a refined cell
     * of the last level; of the calls on planes also, and first: a spare bit is set, or a bit of
     * refined where that of present is not */
    WALLMIRROR_NOT_A_MESH = 4,
    /* the mesh is not admissible for the class of the plan: a refined cell has a neighbourhood that
     * is not all refined */
    WALLMIRROR_NOT_ADMISSIBLE = 5,
    /* a function byte is not the one that the cells fix */
    WALLMIRROR_WRONG_FUNCTION_BYTE = 6,
    /* a mark is not below the number of cells (or of functions) */
    WALLMIRROR_MARK_OUT_OF_RANGE = 7,
    /* a mark is not of the kind that its call names */
    WALLMIRROR_MARK_OF_WRONG_KIND = 8,
    /* a mark of a refining call is of the last level */
    WALLMIRROR_MARK_OF_LAST_LEVEL = 9,
    /* the cell list is shorter than the cells it must name; of wallmirror_write: the lent bytes are
     * fewer than the file has; of wallmirror_corners: the lent doubles are fewer than twelve for
     * each active cell; of wallmirror_draft_add: the list of the draft is too short for the
     * added marks; of wallmirror_rounds: a list is too short for the marks or for the lengths of
     * the rounds */
    WALLMIRROR_CELL_LIST_TOO_SHORT = 10,
    /* the function list is shorter than the functions it must name */
    WALLMIRROR_FUNCTION_LIST_TOO_SHORT = 11,
    /* a number of the file is cut off, has more than three groups or more than it needs, or is a
     * difference of 0; after the last cell a number stands alone, or both corner numbers are 0 */
    WALLMIRROR_MALFORMED_FILE = 12,
    /* bytes follow the two corner numbers of the file */
    WALLMIRROR_TRAILING_BYTES = 13,
    /* the plan is none for heights: a degree is more than 2, or there are more than four levels */
    WALLMIRROR_PLAN_WITHOUT_HEIGHTS = 14,
    /* the point lies beyond the mesh, or the height of an active function is more than
     * WALLMIRROR_MAX_HEIGHT_MM either way */
    WALLMIRROR_POINT_OR_HEIGHT_OUT_OF_RANGE = 15,
    /* of wallmirror_corners: all levels together have more than WALLMIRROR_MAX_PROJECTED_CELLS
     * cells */
    WALLMIRROR_TOO_MANY_CELLS_TO_PROJECT = 16,
    /* of refining with heights: a carried height of an active function is more than
     * WALLMIRROR_MAX_HEIGHT_MM either way */
    WALLMIRROR_CARRIED_HEIGHT_OUT_OF_RANGE = 17,
    /* a draft is open: then nothing is refined or coarsened, and no second draft is opened */
    WALLMIRROR_DRAFT_OPEN = 18,
    /* no draft is open to add to, to close or to drop */
    WALLMIRROR_NO_DRAFT = 19,
    /* of wallmirror_rounds, which is not released: a cell that is refined is not refined in the
     * wanted mesh */
    WALLMIRROR_REFINED_CELL_NOT_WANTED = 20
};

/* What a number that a call answered means, in words. The texts last as long as the program. Rounds
 * are not released: 20 has no text yet, and the text of 10 does not speak of rounds. */
static inline const char *wallmirror_refusal_text(uint32_t number)
{
    switch (number) {
    case WALLMIRROR_ACCEPTED:
        return "accepted";
    case WALLMIRROR_PLAN_OUT_OF_RANGE:
        return "a number of the plan is out of range (columns and rows 1 to 16, levels 1 to 8, "
               "degrees 1 to 4, class 0 or 2 to 8, corners between two columns or rows)";
    case WALLMIRROR_TOO_MANY_CELLS:
        return "all levels together have more than 21845 cells";
    case WALLMIRROR_TABLE_LENGTH:
        return "a table or a plane does not have the length that the plan gives it, or the heights "
               "are not as many as the functions";
    case WALLMIRROR_NOT_A_MESH:
        return "the cell table is not a mesh, or the planes are not in order";
    case WALLMIRROR_NOT_ADMISSIBLE:
        return "the mesh is not admissible for the class of the plan";
    case WALLMIRROR_WRONG_FUNCTION_BYTE:
        return "a byte of the function table is not the one that the cells fix";
    case WALLMIRROR_MARK_OUT_OF_RANGE:
        return "a mark is not the number of a cell or function of the plan";
    case WALLMIRROR_MARK_OF_WRONG_KIND:
        return "a mark is not of the kind that the call takes";
    case WALLMIRROR_MARK_OF_LAST_LEVEL:
        return "a mark is of the last level, which cannot be refined";
    case WALLMIRROR_CELL_LIST_TOO_SHORT:
        return "the cell list is too short for the cells that change, the lent bytes for the file, "
               "the lent doubles for the corners of the cells, or the list of the draft for the "
               "added marks";
    case WALLMIRROR_FUNCTION_LIST_TOO_SHORT:
        return "the function list is too short for the functions that change";
    case WALLMIRROR_MALFORMED_FILE:
        return "a number of the file is cut off, longer than it may be, or a difference of 0, or "
               "its corners are a number alone or both 0";
    case WALLMIRROR_TRAILING_BYTES:
        return "bytes follow the two corner numbers of the file";
    case WALLMIRROR_PLAN_WITHOUT_HEIGHTS:
        return "heights are for plans of degrees 1 and 2 and at most four levels";
    case WALLMIRROR_POINT_OR_HEIGHT_OUT_OF_RANGE:
        return "the point lies beyond the mesh, or the height of an active function is more than "
               "65536 mm either way";
    case WALLMIRROR_TOO_MANY_CELLS_TO_PROJECT:
        return "all levels together have more than 1024 cells, which is too many for the projector";
    case WALLMIRROR_CARRIED_HEIGHT_OUT_OF_RANGE:
        return "the height that is carried to an active function is more than 65536 mm either way";
    case WALLMIRROR_DRAFT_OPEN:
        return "a draft is open";
    case WALLMIRROR_NO_DRAFT:
        return "no draft is open";
    default:
        return "no refusal has this number";
    }
}

/* What wallmirror_count and wallmirror_planes_count answer. After a refusal all but the number are
 * 0. */
typedef struct WallmirrorCount {
    uint32_t number;           /* a WallmirrorRefusal */
    uint32_t active_cells;
    uint32_t refined_cells;
    uint32_t active_functions;
    uint32_t area;             /* of the active cells, in cells of the last level */
} WallmirrorCount;

/* What a refining or coarsening call answers. After a refusal both lengths are 0, which to the undo
 * is a call with empty lists. */
typedef struct WallmirrorAnswer {
    uint32_t number;    /* a WallmirrorRefusal */
    uint32_t cells;     /* how many entries of the cell list were written */
    uint32_t functions; /* how many entries of the function list were written */
} WallmirrorAnswer;

/* What wallmirror_read answers. */
typedef struct WallmirrorRead {
    uint32_t number;     /* a WallmirrorRefusal */
    WallmirrorPlan plan; /* that of the file, also with refusals 3, 4, 5, 13; all 0 with 1, 2, 12 */
} WallmirrorRead;

/* What wallmirror_write answers. */
typedef struct WallmirrorWritten {
    uint32_t number; /* a WallmirrorRefusal */
    uint32_t length; /* how many bytes of the file were written; 0 after a refusal */
} WallmirrorWritten;

/* What wallmirror_height answers. */
typedef struct WallmirrorHeight {
    uint32_t number; /* a WallmirrorRefusal */
    double height;   /* of the surface, in mm; 0 after a refusal */
} WallmirrorHeight;

/* What wallmirror_corners answers. */
typedef struct WallmirrorCorners {
    uint32_t number;  /* a WallmirrorRefusal */
    uint32_t corners; /* how many were written, of three doubles each; 0 after a refusal */
} WallmirrorCorners;

/* A draft, passed by value. Its marks are the first entries of the list that is lent beside it. Any
 * numbers may stand in it; {0, 0} is no draft. */
typedef struct WallmirrorDraft {
    uint32_t open; /* not 0 where it is open */
    size_t marks;  /* how many it has; with more than its list has entries it counts as not open */
} WallmirrorDraft;

/* What a call on a draft answers, and wallmirror_open_with_draft. */
typedef struct WallmirrorDrafted {
    uint32_t number;       /* a WallmirrorRefusal */
    WallmirrorDraft draft; /* to be kept; after a refusal it is the one that was handed in */
} WallmirrorDrafted;

/* What wallmirror_draft_close answers. */
typedef struct WallmirrorClosed {
    WallmirrorAnswer answer; /* as of a refining call */
    WallmirrorDraft draft;   /* to be kept; after a refusal it is the one that was handed in */
} WallmirrorClosed;

/* What wallmirror_read_with_draft answers. */
typedef struct WallmirrorReadWithDraft {
    WallmirrorRead answer; /* as of wallmirror_read */
    WallmirrorDraft draft; /* to be kept; after a refusal it is the one that was handed in */
} WallmirrorReadWithDraft;

/* What wallmirror_rounds answers. After a refusal all but the number are 0. */
typedef struct WallmirrorRounds {
    uint32_t number; /* a WallmirrorRefusal */
    uint32_t marks;  /* how many marks were written, those of all rounds */
    uint32_t rounds; /* how many lengths were written, one for each round */
} WallmirrorRounds;

/* What wallmirror_level answers. All 0 where the plan is refused or does not have the level. */
typedef struct WallmirrorLevel {
    uint32_t first_cell;       /* the number of its first cell */
    uint32_t columns;
    uint32_t rows;
    uint32_t first_function;   /* the number of its first function */
    uint32_t functions_across; /* in a row */
    uint32_t functions_up;     /* rows of them */
} WallmirrorLevel;

/* What wallmirror_place answers. All 0 where the plan is refused or does not have the cell. */
typedef struct WallmirrorPlace {
    uint32_t found;  /* 1 */
    uint32_t level;
    uint32_t row;    /* of the level, from 0 */
    uint32_t column; /* of the level, from 0 */
} WallmirrorPlace;

/* What wallmirror_cell_at answers. All 0 where the plan is refused or does not have the place. */
typedef struct WallmirrorCellAt {
    uint32_t found; /* 1 */
    uint32_t cell;
} WallmirrorCellAt;

/* What wallmirror_support answers: a rectangle of cells of one level, with its first row and column
 * and those where it has ended. All 0 where the plan is refused or does not have the function. */
typedef struct WallmirrorSupport {
    uint32_t found;        /* 1 */
    uint32_t level;        /* of the function and of the cells */
    uint32_t first_row;
    uint32_t end_row;      /* the one after the last */
    uint32_t first_column;
    uint32_t end_column;   /* the one after the last */
} WallmirrorSupport;

/* The version of the library, to be compared with WALLMIRROR_VERSION_NUMBER. Where they differ the
 * program was compiled with the header of another version, and nothing is said of what other calls
 * do then. */
uint32_t wallmirror_version(void);

/* 0 for a plan that wallmirror_open takes, otherwise 1 or 2. */
uint32_t wallmirror_plan_refusal(WallmirrorPlan plan);

static inline int wallmirror_plan_is_valid(WallmirrorPlan plan)
{
    return wallmirror_plan_refusal(plan) == WALLMIRROR_ACCEPTED;
}

/* The length of the cell table, and the most entries that a cell list needs; and those of the
 * function table and a function list. 0 for a plan that is refused. */
size_t wallmirror_cells_len(WallmirrorPlan plan);
size_t wallmirror_functions_len(WallmirrorPlan plan);

/* The number of words of each plane. 0 for a plan that is refused. */
size_t wallmirror_planes_len(WallmirrorPlan plan);

/* The cells and functions of a level. The cell in row r, column c has the number
 * first_cell + r * columns + c; the function in row j, column i has the number
 * first_function + j * functions_across + i. */
WallmirrorLevel wallmirror_level(WallmirrorPlan plan, uint32_t level);

/* The functions across on a level, and those up. 0 where wallmirror_level answers 0. */
static inline size_t wallmirror_functions_across(WallmirrorPlan plan, uint32_t level)
{
    return wallmirror_level(plan, level).functions_across;
}

static inline size_t wallmirror_functions_up(WallmirrorPlan plan, uint32_t level)
{
    return wallmirror_level(plan, level).functions_up;
}

/* Where a cell lies. */
WallmirrorPlace wallmirror_place(WallmirrorPlan plan, uint32_t cell);

/* The cell at a place. */
WallmirrorCellAt wallmirror_cell_at(WallmirrorPlan plan, uint32_t level, uint32_t row,
                                    uint32_t column);

/* What a function covers. */
WallmirrorSupport wallmirror_support(WallmirrorPlan plan, uint32_t function);

/* The doubles that wallmirror_corners writes for a mesh: twelve for each active cell. */
static inline size_t wallmirror_corners_len(const uint8_t *cells, size_t cells_len)
{
    size_t active = 0, i;
    for (i = 0; i < cells_len; i++)
        active += cells[i] == WALLMIRROR_CELL_ACTIVE;
    return 12 * active;
}

/* Makes both tables the coarsest mesh of the plan: every cell and function of level 0 active,
 * the rest absent and passive. Refuses 1 to 3; what the tables held does not matter. */
uint32_t wallmirror_open(WallmirrorPlan plan,
                         uint8_t *cells, size_t cells_len,
                         uint8_t *functions, size_t functions_len);

/* 0 if both tables are an admissible mesh of the plan with the function bytes that it fixes,
 * otherwise the first of refusals 1 to 6. */
uint32_t wallmirror_check(WallmirrorPlan plan,
                          const uint8_t *cells, size_t cells_len,
                          const uint8_t *functions, size_t functions_len);

/* Counts the active and the refined cells, the active functions, and the area of the active cells,
 * where one of level k counts 4^(levels-1-k). Refuses 1 to 6. */
WallmirrorCount wallmirror_count(WallmirrorPlan plan,
                                 const uint8_t *cells, size_t cells_len,
                                 const uint8_t *functions, size_t functions_len);

/*
 * The four calls below take marks, in any order; repeats mean one mark, and no marks at all are
 * accepted. They change both tables and write, each in rising order and once each,
 *   to the cell list the cells that became refined (refining) or ceased to be (coarsening),
 *   to the function list the functions that became deactivated, or ceased to be.
 * Entries past the answered lengths keep their values. They refuse 1 to 11 (coarsening never 9).
 * The cells and their list are written first; the functions and their list follow from the settled
 * cells and the old function bytes alone. No cell is written after the first function. Lists of
 * cells_len and functions_len entries are never too short, and with them a call is fastest.
 * How a run of them is undone, and how many cells a mark can refine, is said at the top.
 */

/* Marks are active cells. The smallest admissible mesh of the plan's class in which the cells
 * refined before and the marked ones are refined. */
WallmirrorAnswer wallmirror_refine_cells(WallmirrorPlan plan,
                                         uint8_t *cells, size_t cells_len,
                                         uint8_t *functions, size_t functions_len,
                                         const uint32_t *marks, size_t marks_len,
                                         uint32_t *cell_list, size_t cell_list_len,
                                         uint32_t *function_list, size_t function_list_len);

/* Marks are active functions. Each stands for the active cells of its level in its support. */
WallmirrorAnswer wallmirror_refine_functions(WallmirrorPlan plan,
                                             uint8_t *cells, size_t cells_len,
                                             uint8_t *functions, size_t functions_len,
                                             const uint32_t *marks, size_t marks_len,
                                             uint32_t *cell_list, size_t cell_list_len,
                                             uint32_t *function_list, size_t function_list_len);

/* Marks are reactivable cells: refined, with four active children. The smallest admissible mesh of
 * the plan's class in which all cells refined before but the marked ones are refined. A marked cell
 * that the others need stays refined. */
WallmirrorAnswer wallmirror_coarsen_cells(WallmirrorPlan plan,
                                          uint8_t *cells, size_t cells_len,
                                          uint8_t *functions, size_t functions_len,
                                          const uint32_t *marks, size_t marks_len,
                                          uint32_t *cell_list, size_t cell_list_len,
                                          uint32_t *function_list, size_t function_list_len);

/* Marks are deactivated functions with a reactivable cell of their own level in their support. The
 * cells meant are the reactivable ones of that level in the support of a marked function and of no
 * unmarked deactivated function of that level; the result is that of coarsening those cells. */
WallmirrorAnswer wallmirror_coarsen_functions(WallmirrorPlan plan,
                                              uint8_t *cells, size_t cells_len,
                                              uint8_t *functions, size_t functions_len,
                                              const uint32_t *marks, size_t marks_len,
                                              uint32_t *cell_list, size_t cell_list_len,
                                              uint32_t *function_list, size_t function_list_len);

/*
 * The two refining calls with heights, which are carried so that the surface keeps its shape; how
 * is said at the top. Tables, lists and answer are those of the call without heights; functions
 * that are not active then have a height of 0. They refuse 1 to 6; then 3 where there is not one
 * height for each function; then 14; then 15, for the heights; then 7 to 11; then 17.
 */

/* As wallmirror_refine_cells. */
WallmirrorAnswer wallmirror_refine_cells_with_heights(
    WallmirrorPlan plan,
    uint8_t *cells, size_t cells_len,
    uint8_t *functions, size_t functions_len,
    int32_t *heights, size_t heights_len,
    const uint32_t *marks, size_t marks_len,
    uint32_t *cell_list, size_t cell_list_len,
    uint32_t *function_list, size_t function_list_len);

/* As wallmirror_refine_functions. */
WallmirrorAnswer wallmirror_refine_functions_with_heights(
    WallmirrorPlan plan,
    uint8_t *cells, size_t cells_len,
    uint8_t *functions, size_t functions_len,
    int32_t *heights, size_t heights_len,
    const uint32_t *marks, size_t marks_len,
    uint32_t *cell_list, size_t cell_list_len,
    uint32_t *function_list, size_t function_list_len);

/* Makes both tables the mesh of the file; what they held does not matter. Refuses 12, judged over
 * all numbers of the file; then 1 to 5, where 3 is said of the lent tables, 4 also of a listed cell
 * that is not below the number of cells, and 4 and 5 of the mesh with the listed cells refined;
 * then 13. How to read a file of unknown plan is said at the top. A mesh that was read passes
 * wallmirror_check, and its file is the one that was read. */
WallmirrorRead wallmirror_read(const uint8_t *file, size_t file_len,
                               uint8_t *cells, size_t cells_len,
                               uint8_t *functions, size_t functions_len);

/* Writes the file of the mesh and answers its length. Bytes past it keep their values. Refuses 1 to
 * 6, then 10. */
WallmirrorWritten wallmirror_write(WallmirrorPlan plan,
                                   const uint8_t *cells, size_t cells_len,
                                   const uint8_t *functions, size_t functions_len,
                                   uint8_t *file, size_t file_len);

/* The height of the surface at a point, exactly; what heights and points are is said at the top.
 * Where it is 0 it is 0.0 and never -0.0, in the default rounding mode; in others only that sign
 * may differ. Refuses 1 to 6; then 3 where there is not one height for each function; then 14; then
 * 15. */
WallmirrorHeight wallmirror_height(WallmirrorPlan plan,
                                   const uint8_t *cells, size_t cells_len,
                                   const uint8_t *functions, size_t functions_len,
                                   const int32_t *heights, size_t heights_len,
                                   uint32_t across, uint32_t up);

/* The corners of the active cells with the height of the surface there, as is said at the top:
 * twelve doubles for a cell, exactly, from the start of out on. Doubles past them, and all of them
 * after a refusal, keep their bits, those of a NaN too. (The library takes out as words of 64 bits,
 * which have the size and alignment of a double, and writes the bits of each double.) Of a height
 * that is 0 the same holds as with wallmirror_height. Refuses 1; 2; 16; 3 to 6; then 3 where there
 * is not one height for each function; then 14; then 15, for the heights; then 10. */
WallmirrorCorners wallmirror_corners(WallmirrorPlan plan,
                                     const uint8_t *cells, size_t cells_len,
                                     const uint8_t *functions, size_t functions_len,
                                     const int32_t *heights, size_t heights_len,
                                     double *out, size_t out_len);

/*
 * The four calls on a draft; how it is used is said at the top. Each takes the draft that is kept
 * and its list, and answers the draft that is to be kept. They refuse 1 to 6; then 18 where a
 * second draft is to be opened, or 19 where none is open; and then what is said below.
 */

/* Opens a draft, which has no marks then. Refuses nothing else. */
WallmirrorDrafted wallmirror_draft_open(WallmirrorPlan plan,
                                        const uint8_t *cells, size_t cells_len,
                                        const uint8_t *functions, size_t functions_len,
                                        WallmirrorDraft draft,
                                        const uint32_t *list, size_t list_len);

/* Adds marks, which are active cells, to an open draft: they are written to the list after those
 * that it has. Entries past them keep their values. Refuses 7 to 9 of the marks as
 * wallmirror_refine_cells does; then 10 where the list is too short for them. */
WallmirrorDrafted wallmirror_draft_add(WallmirrorPlan plan,
                                       const uint8_t *cells, size_t cells_len,
                                       const uint8_t *functions, size_t functions_len,
                                       WallmirrorDraft draft,
                                       uint32_t *list, size_t list_len,
                                       const uint32_t *marks, size_t marks_len);

/* Closes an open draft: wallmirror_refine_cells with its marks. No draft is open then. Refuses 7 to
 * 11 as that call does. */
WallmirrorClosed wallmirror_draft_close(WallmirrorPlan plan,
                                        uint8_t *cells, size_t cells_len,
                                        uint8_t *functions, size_t functions_len,
                                        WallmirrorDraft draft,
                                        const uint32_t *list, size_t list_len,
                                        uint32_t *cell_list, size_t cell_list_len,
                                        uint32_t *function_list, size_t function_list_len);

/* Drops an open draft with its marks. The list keeps its values. Refuses nothing else. */
WallmirrorDrafted wallmirror_draft_drop(WallmirrorPlan plan,
                                        const uint8_t *cells, size_t cells_len,
                                        const uint8_t *functions, size_t functions_len,
                                        WallmirrorDraft draft,
                                        const uint32_t *list, size_t list_len);

/*
 * The refining and coarsening calls with a draft, for a program that keeps one. They refuse 18,
 * directly after 6, while it is open. Otherwise each is the call that its name begins with; the
 * draft stays as it is.
 */

/* As wallmirror_refine_cells. */
WallmirrorAnswer wallmirror_refine_cells_with_draft(
    WallmirrorPlan plan,
    uint8_t *cells, size_t cells_len,
    uint8_t *functions, size_t functions_len,
    WallmirrorDraft draft,
    const uint32_t *list, size_t list_len,
    const uint32_t *marks, size_t marks_len,
    uint32_t *cell_list, size_t cell_list_len,
    uint32_t *function_list, size_t function_list_len);

/* As wallmirror_refine_functions. */
WallmirrorAnswer wallmirror_refine_functions_with_draft(
    WallmirrorPlan plan,
    uint8_t *cells, size_t cells_len,
    uint8_t *functions, size_t functions_len,
    WallmirrorDraft draft,
    const uint32_t *list, size_t list_len,
    const uint32_t *marks, size_t marks_len,
    uint32_t *cell_list, size_t cell_list_len,
    uint32_t *function_list, size_t function_list_len);

/* As wallmirror_coarsen_cells. */
WallmirrorAnswer wallmirror_coarsen_cells_with_draft(
    WallmirrorPlan plan,
    uint8_t *cells, size_t cells_len,
    uint8_t *functions, size_t functions_len,
    WallmirrorDraft draft,
    const uint32_t *list, size_t list_len,
    const uint32_t *marks, size_t marks_len,
    uint32_t *cell_list, size_t cell_list_len,
    uint32_t *function_list, size_t function_list_len);

/* As wallmirror_coarsen_functions. */
WallmirrorAnswer wallmirror_coarsen_functions_with_draft(
    WallmirrorPlan plan,
    uint8_t *cells, size_t cells_len,
    uint8_t *functions, size_t functions_len,
    WallmirrorDraft draft,
    const uint32_t *list, size_t list_len,
    const uint32_t *marks, size_t marks_len,
    uint32_t *cell_list, size_t cell_list_len,
    uint32_t *function_list, size_t function_list_len);

/* As wallmirror_refine_cells_with_heights. Here too 18 comes directly after 6: before 3 of the
 * heights, 14 and 15. */
WallmirrorAnswer wallmirror_refine_cells_with_heights_and_draft(
    WallmirrorPlan plan,
    uint8_t *cells, size_t cells_len,
    uint8_t *functions, size_t functions_len,
    int32_t *heights, size_t heights_len,
    WallmirrorDraft draft,
    const uint32_t *list, size_t list_len,
    const uint32_t *marks, size_t marks_len,
    uint32_t *cell_list, size_t cell_list_len,
    uint32_t *function_list, size_t function_list_len);

/* As wallmirror_refine_functions_with_heights. */
WallmirrorAnswer wallmirror_refine_functions_with_heights_and_draft(
    WallmirrorPlan plan,
    uint8_t *cells, size_t cells_len,
    uint8_t *functions, size_t functions_len,
    int32_t *heights, size_t heights_len,
    WallmirrorDraft draft,
    const uint32_t *list, size_t list_len,
    const uint32_t *marks, size_t marks_len,
    uint32_t *cell_list, size_t cell_list_len,
    uint32_t *function_list, size_t function_list_len);

/* As wallmirror_open, for a program that keeps a draft. Accepted, it drops the draft; refused, it
 * leaves it. Its list is not asked for, since what is in it does not matter. */
WallmirrorDrafted wallmirror_open_with_draft(WallmirrorPlan plan,
                                             uint8_t *cells, size_t cells_len,
                                             uint8_t *functions, size_t functions_len,
                                             WallmirrorDraft draft);

/* As wallmirror_read, for a program that keeps a draft, and of the draft as
 * wallmirror_open_with_draft. */
WallmirrorReadWithDraft wallmirror_read_with_draft(const uint8_t *file, size_t file_len,
                                                   uint8_t *cells, size_t cells_len,
                                                   uint8_t *functions, size_t functions_len,
                                                   WallmirrorDraft draft);

/* The rounds of marks from today's mesh to a wanted one of the same plan; how they are made is said
 * at the top. Writes the marks of all rounds to marks and their lengths to lengths. Refuses 1 to 6
 * of today's mesh; then 1 to 6 of the wanted one; then 20; then 10 where either list is too
 * short. */
WallmirrorRounds wallmirror_rounds(WallmirrorPlan plan,
                                   const uint8_t *cells, size_t cells_len,
                                   const uint8_t *functions, size_t functions_len,
                                   const uint8_t *wanted_cells, size_t wanted_cells_len,
                                   const uint8_t *wanted_functions, size_t wanted_functions_len,
                                   uint32_t *marks, size_t marks_len,
                                   uint32_t *lengths, size_t lengths_len);

/*
 * The calls on planes; what planes are is said at the top. Refusal 3 is for either plane and for
 * the table that is lent beside them, and 4 comes first for planes that are not in order.
 */

/* As wallmirror_open: every cell and function of level 0 active, the rest absent and passive, spare
 * bits 0. Refuses 1 to 3; what planes and functions held does not matter. */
uint32_t wallmirror_planes_open(WallmirrorPlan plan,
                                uint64_t *present, size_t present_len,
                                uint64_t *refined, size_t refined_len,
                                uint8_t *functions, size_t functions_len);

/* As wallmirror_check: 0, or the first of refusals 1 to 6. */
uint32_t wallmirror_planes_check(WallmirrorPlan plan,
                                 const uint64_t *present, size_t present_len,
                                 const uint64_t *refined, size_t refined_len,
                                 const uint8_t *functions, size_t functions_len);

/* As wallmirror_count, with the cells counted by whole words. Refuses 1 to 6. */
WallmirrorCount wallmirror_planes_count(WallmirrorPlan plan,
                                        const uint64_t *present, size_t present_len,
                                        const uint64_t *refined, size_t refined_len,
                                        const uint8_t *functions, size_t functions_len);

/*
 * The refining and coarsening calls on planes. Marks, lists and answer are those of the call that
 * each is named after, and so is the effect. They refuse 1 to 11 (coarsening never 9). Nothing is
 * said of the order in which an accepted call writes planes, functions and lists. Lists of
 * wallmirror_cells_len and wallmirror_functions_len entries are never too short.
 */

/* As wallmirror_refine_cells. */
WallmirrorAnswer wallmirror_planes_refine_cells(
    WallmirrorPlan plan,
    uint64_t *present, size_t present_len,
    uint64_t *refined, size_t refined_len,
    uint8_t *functions, size_t functions_len,
    const uint32_t *marks, size_t marks_len,
    uint32_t *cell_list, size_t cell_list_len,
    uint32_t *function_list, size_t function_list_len);

/* As wallmirror_refine_functions. */
WallmirrorAnswer wallmirror_planes_refine_functions(
    WallmirrorPlan plan,
    uint64_t *present, size_t present_len,
    uint64_t *refined, size_t refined_len,
    uint8_t *functions, size_t functions_len,
    const uint32_t *marks, size_t marks_len,
    uint32_t *cell_list, size_t cell_list_len,
    uint32_t *function_list, size_t function_list_len);

/* As wallmirror_coarsen_cells. */
WallmirrorAnswer wallmirror_planes_coarsen_cells(
    WallmirrorPlan plan,
    uint64_t *present, size_t present_len,
    uint64_t *refined, size_t refined_len,
    uint8_t *functions, size_t functions_len,
    const uint32_t *marks, size_t marks_len,
    uint32_t *cell_list, size_t cell_list_len,
    uint32_t *function_list, size_t function_list_len);

/* As wallmirror_coarsen_functions. */
WallmirrorAnswer wallmirror_planes_coarsen_functions(
    WallmirrorPlan plan,
    uint64_t *present, size_t present_len,
    uint64_t *refined, size_t refined_len,
    uint8_t *functions, size_t functions_len,
    const uint32_t *marks, size_t marks_len,
    uint32_t *cell_list, size_t cell_list_len,
    uint32_t *function_list, size_t function_list_len);

/* Makes the planes of a cell table; what they held does not matter. Refuses 1 to 3, and 4
 * only for a byte above 2: cells that are no mesh are taken too. */
uint32_t wallmirror_planes_from_cells(WallmirrorPlan plan,
                                      const uint8_t *cells, size_t cells_len,
                                      uint64_t *present, size_t present_len,
                                      uint64_t *refined, size_t refined_len);

/* Makes the cell table that planes hold, and so undoes wallmirror_planes_from_cells; what it held
 * does not matter. Refuses 1 to 3, and 4 only for planes that are not in order. */
uint32_t wallmirror_planes_to_cells(WallmirrorPlan plan,
                                    const uint64_t *present, size_t present_len,
                                    const uint64_t *refined, size_t refined_len,
                                    uint8_t *cells, size_t cells_len);

#ifdef __cplusplus
}
#endif

#endif
