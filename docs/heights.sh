#!/bin/sh
# Draws the height along a line as an SVG picture on standard output: two functions of the mesh of examples/c/height.c, each times its
# height, and their sum. docs/heights.svg is what this wrote; the gate compares the two.
# Usage: docs/heights.sh > docs/heights.svg
set -eu
awk '
# the B-spline of degree d that begins at knot i of the open knots over n cells
function knot(n, p, i) { i -= p ; return i < 0 ? 0 : i > n ? n : i }
function spline(n, p, i, d, x,    a, b, c, e) {
    a = knot(n, p, i) ; b = knot(n, p, i + d) ; c = knot(n, p, i + 1) ; e = knot(n, p, i + d + 1)
    if (d == 0) return (a <= x && x < c) || (a < c && c == n && x == n) ? 1 : 0
    return (b > a ? (x - a) / (b - a) * spline(n, p, i, d - 1, x) : 0) + (e > c ? (e - x) / (e - c) * spline(n, p, i + 1, d - 1, x) : 0)
}
# the heights of the two functions at a point across, at the middle of the mesh; 4 cells of level 0 are 64 points
function coarse(x) { return 160 * spline(4, 2, 2, 2, x / 16) * spline(4, 2, 2, 2, 2) }
function fine(x) { return 24 * spline(8, 2, 4, 2, x / 8) * spline(8, 2, 4, 2, 4) }
function px(x) { return M + x * 9 }
function py(h) { return 190 - h * 2 }
function curve(kind, colour, width, dash,    x, h, d) {
    for (x = 0; x <= 64; x++) {
        h = kind == 1 ? coarse(x) : kind == 2 ? fine(x) : coarse(x) + fine(x)
        d = d (x ? " L" : "M") sprintf("%.1f %.2f", px(x), py(h))
    }
    printf "<path d=\"%s\" fill=\"none\" stroke=\"%s\" stroke-width=\"%s\"%s/>\n", d, colour, width, dash ? " stroke-dasharray=\"" dash "\"" : ""
}
function label(x, y, anchor, colour, text) { printf "<text x=\"%.1f\" y=\"%.1f\" text-anchor=\"%s\" fill=\"%s\">%s</text>\n", x, y, anchor, colour, text }
BEGIN {
    M = 56
    printf "<svg xmlns=\"http://www.w3.org/2000/svg\" width=\"680\" height=\"260\" viewBox=\"0 0 680 260\" font-family=\"sans-serif\" font-size=\"13\">\n"
    print "<title>The height along a line: a bulge of level 0, a hold of level 1 on it, and their sum</title>"
    print "<rect width=\"680\" height=\"260\" fill=\"#ffffff\"/>"
    for (h = 0; h <= 60; h += 20) {
        printf "<path d=\"M%.1f %.1f H%.1f\" stroke=\"#dfe3ea\"/>\n", px(0), py(h), px(64)
        label(px(0) - 8, py(h) + 4, "end", "#40506a", h " mm")
    }
    curve(1, "#3b6fb5", 2, "6 4") ; curve(2, "#c8702a", 2, "6 4") ; curve(3, "#1b2536", 3, "")
    label(px(10), py(34), "middle", "#3b6fb5", "level 0") ; label(px(40), py(22), "start", "#c8702a", "level 1") ; label(px(32), py(61), "start", "#1b2536", "their sum")
    # the active cells on the line, level 0 at both ends and level 1 between
    for (x = 0; x < 64; x += w) {
        w = x < 16 || x >= 48 ? 16 : 8
        printf "<rect x=\"%.1f\" y=\"204\" width=\"%.1f\" height=\"14\" fill=\"%s\" stroke=\"#40506a\"/>\n", px(x), w * 9, w == 16 ? "#dbe7f7" : "#f8e4d3"
    }
    for (x = 0; x <= 64; x += 8) label(px(x), 236, "middle", "#40506a", x)
    label(px(32), 253, "middle", "#40506a", "across, in eighths of a cell of the last level")
    print "</svg>"
}' </dev/null
