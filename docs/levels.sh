#!/bin/sh
# Draws two meshes as an SVG picture on standard output: plan 6 4 3, degrees 1 and 1, in which the four children of the cell in row 1 and
# column 3 of level 0 are refined, on the left in class 0 and on the right in class 2. Dots are the functions of level 1 over the active
# cells of level 2, and lines lead to those over one of these cells. In class 2 they have to be active or deactivated, which is seen to.
# docs/levels.svg is what this wrote; the gate compares the two.
# Usage: docs/levels.sh > docs/levels.svg
set -eu
awk '
BEGIN {
    S = 64 ; M = 8 ; A = 6 ; B = 4
    split("#faf3e0 #dbe7f7 #f3d9d6", fill, " ")
    split("passive active deactivated", name, " ")
    look[0] = "fill=\"#ffffff\" stroke=\"#b0413e\" stroke-width=\"2\"" ; look[1] = "fill=\"#3f8f5f\"" ; look[2] = "fill=\"#5a6272\""
    W = 2 * A * S + 4 * M ; H = B * S + 2 * M + 54
    printf "<svg xmlns=\"http://www.w3.org/2000/svg\" width=\"%d\" height=\"%d\" viewBox=\"0 0 %d %d\" font-family=\"sans-serif\" font-size=\"13\">\n", W, H, W, H
    print "<title>The functions of level 1 over the active cells of level 2, in class 0 and in class 2</title>"
    printf "<rect width=\"%d\" height=\"%d\" fill=\"#ffffff\"/>\n", W, H
    for (class = 0; class <= 2; class += 2) {
        X = class == 0 ? M : A * S + 3 * M
        for (row = 0; row < B; row++) for (column = 0; column < A; column++) draw(0, row, column)
        # the cell in row 7 and column 12 of level 2 has its ancestor in row 3 and column 6 of level 1
        one(7, 12)
        for (i = 2; i <= 4; i++) for (j = 6; j <= 8; j++) dot(x(1, j), y(1, i), state(1, i, j))
    }
    legend()
    print "</svg>"
}
# Level 1: the four cells in rows 2 and 3, columns 6 and 7. Level 0: their parent; in class 2 the neighbourhoods too. A function of level 1
# covers one of the four with a cell in rows 1 to 4 and columns 5 to 8, and these cells have their parents in rows 0 to 2, columns 2 to 4.
function refined(level, row, column) {
    if (level == 1) return row >= 2 && row <= 3 && column >= 6 && column <= 7
    if (level == 0 && class == 2) return row <= 2 && column >= 2 && column <= 4
    if (level == 0) return row == 1 && column == 3
    return 0
}
function present(level, row, column) {
    return level == 0 || refined(level - 1, int(row / 2), int(column / 2))
}
# The function in row i and column j covers rows i-1 to i and columns j-1 to j, as far as there are any. It is passive, 0, where one of these
# cells is absent, deactivated, 2, where all are refined, and otherwise active, 1.
function state(level, i, j,    row, column, all) {
    all = 2
    for (row = i - 1; row <= i; row++) for (column = j - 1; column <= j; column++) {
        if (row < 0 || column < 0 || row >= B * 2 ^ level || column >= A * 2 ^ level) continue
        if (!present(level, row, column)) return 0
        if (!refined(level, row, column)) all = 1
    }
    return all
}
# the line before a column, and the one below a row, on a level
function x(level, column) { return X + column * S / 2 ^ level }
function y(level, row) { return M + (B - row / 2 ^ level) * S }
function square(level, row, column, more) {
    printf "<rect x=\"%g\" y=\"%g\" width=\"%g\" height=\"%g\" %s/>\n", x(level, column), y(level, row + 1), S / 2 ^ level, S / 2 ^ level, more
}
function draw(level, row, column,    a, b) {
    if (!refined(level, row, column)) { square(level, row, column, "fill=\"" fill[level + 1] "\" stroke=\"#9aa3b2\"") ; return }
    for (a = 0; a < 2; a++) for (b = 0; b < 2; b++) draw(level + 1, 2 * row + a, 2 * column + b)
}
# an active cell of level 2, with a line to each function of level 1 over it: those of row i cover the ancestor where it is in row i-1 or i
function one(row, column,    i, j) {
    square(2, row, column, "fill=\"#b0413e\" stroke=\"#222\"")
    for (i = int(row / 2); i <= int(row / 2) + 1; i++) for (j = int(column / 2); j <= int(column / 2) + 1; j++) {
        if (class == 2 && state(1, i, j) == 0) { print "levels.sh: a function is passive" > "/dev/stderr" ; exit 1 }
        printf "<path d=\"M%g %g L%g %g\" stroke=\"#222\"/>\n", x(2, column + 0.5), y(2, row + 0.5), x(1, j), y(1, i)
    }
}
function dot(across, up, as) { printf "<circle cx=\"%g\" cy=\"%g\" r=\"5\" %s/>\n", across, up, look[as] }
function text(across, up, said) { printf "<text x=\"%g\" y=\"%g\" fill=\"#1b2536\">%s</text>\n", across, up, said }
function legend(    l, as, at, up) {
    up = M + B * S + 20
    text(M, up, "class 0") ; text(A * S + 3 * M, up, "class 2")
    up += 26
    for (l = 0; l < 3; l++) {
        at = M + l * 84
        printf "<rect x=\"%g\" y=\"%g\" width=\"14\" height=\"14\" fill=\"%s\" stroke=\"#9aa3b2\"/>\n", at, up - 11, fill[l + 1]
        text(at + 20, up, "level " l)
    }
    text(A * S + 3 * M, up, "functions of level 1:")
    for (as = 0; as < 3; as++) {
        at = A * S + 3 * M + 140 + as * 78
        dot(at, up - 4, as)
        text(at + 11, up, name[as + 1])
    }
}' </dev/null
