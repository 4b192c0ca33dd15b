#!/bin/sh
# Draws what a refinement with heights does as an SVG picture on standard output: the surface along a line before and after, side by side,
# with the heights of the active functions that carry it, which are passed on by the two-scale coefficients 1/4, 3/4, 3/4, 1/4. Both curves
# are computed from their own functions and seen to be the same. docs/shape.svg is what this wrote; the gate compares the two.
# Usage: docs/shape.sh > docs/shape.svg
set -eu
awk '
# the B-spline of degree d that begins at knot i of the open knots over n cells
function knot(n, p, i) { i -= p ; return i < 0 ? 0 : i > n ? n : i }
function spline(n, p, i, d, x,    a, b, c, e) {
    a = knot(n, p, i) ; b = knot(n, p, i + d) ; c = knot(n, p, i + 1) ; e = knot(n, p, i + d + 1)
    if (d == 0) return (a <= x && x < c) || (a < c && c == n && x == n) ? 1 : 0
    return (b > a ? (x - a) / (b - a) * spline(n, p, i, d - 1, x) : 0) + (e > c ? (e - x) / (e - c) * spline(n, p, i + 1, d - 1, x) : 0)
}
# function i of a level, of degree 2 over 6 cells of level 0, at a point in cells of level 0; where the middle of its support is
function value(level, i, x) { return spline(6 * 2 ^ level, 2, i, 2, x * 2 ^ level) }
function middle(level, i) { return (knot(6 * 2 ^ level, 2, i) + knot(6 * 2 ^ level, 2, i + 3)) / 2 / 2 ^ level }
function surface(x,    level, i, sum) {
    for (level = 0; level < 2; level++) for (i = 0; i < 14; i++) if ((level, i) in height) sum += height[level, i] * value(level, i, x)
    return sum
}
function px(x) { return left + x * 49 }
function py(h) { return 216 - h * 2.2 }
function label(x, y, anchor, colour, said) { printf "<text x=\"%.1f\" y=\"%.1f\" text-anchor=\"%s\" fill=\"%s\">%s</text>\n", x, y, anchor, colour, said }
function dot(level, i, h, more) { printf "<circle cx=\"%.1f\" cy=\"%.2f\" r=\"4.5\" %s/>\n", px(middle(level, i)), py(h), more }
function curve(    x, d) {
    for (x = 0; x <= 96; x++) d = d (x ? " L" : "M") sprintf("%.2f %.2f", x * 49 / 16, py(surface(x / 16)))
    return d
}
# one function times its height
function bump(level, i,    x, d) {
    for (x = knot(6 * 2 ^ level, 2, i) * 16 / 2 ^ level; x <= knot(6 * 2 ^ level, 2, i + 3) * 16 / 2 ^ level; x++)
        d = d (d ? " L" : "M") sprintf("%.1f %.2f", px(x / 16), py(height[level, i] * value(level, i, x / 16)))
    printf "<path d=\"%s\" fill=\"none\" stroke=\"%s\" stroke-dasharray=\"4 3\"/>\n", d, colours[level]
}
function panel(at, said, carried,    h, level, i, x, w) {
    left = at
    label(left, 30, "start", "#1b2536", said)
    for (h = 0; h <= 80; h += 20) {
        printf "<path d=\"M%.1f %.1f H%.1f\" stroke=\"#dfe3ea\"/>\n", px(0), py(h), px(6)
        if (at < 100) label(px(0) - 8, py(h) + 4, "end", "#40506a", h " mm")
    }
    for (level = 0; level < 2; level++) for (i = 0; i < 14; i++) if ((level, i) in height) bump(level, i)
    printf "<path transform=\"translate(%d 0)\" d=\"%s\" fill=\"none\" stroke=\"#1b2536\" stroke-width=\"3\"/>\n", left, curve()
    for (i = 0; i < 8; i++) if (!((0, i) in height)) dot(0, i, old[i], "fill=\"#ffffff\" stroke=\"#9fb6d8\" stroke-width=\"2\"")
    for (level = 0; level < 2; level++) for (i = 0; i < 14; i++) if ((level, i) in height) dot(level, i, height[level, i], "fill=\"" colours[level] "\"")
    # the active cells
    for (x = 0; x < 6; x += w) {
        w = carried && x >= 1 && x < 5 ? 0.5 : 1
        printf "<rect x=\"%.1f\" y=\"230\" width=\"%.1f\" height=\"14\" fill=\"%s\" stroke=\"#40506a\"/>\n", px(x), w * 49, w == 1 ? "#dbe7f7" : "#f8e4d3"
    }
}
BEGIN {
    colours[0] = "#3b6fb5" ; colours[1] = "#c8702a"
    split("0 14 40 72 64 40 22 8", given, " ")
    for (i = 0; i < 8; i++) height[0, i] = old[i] = given[i + 1]
    print "<svg xmlns=\"http://www.w3.org/2000/svg\" width=\"720\" height=\"286\" viewBox=\"0 0 720 286\" font-family=\"sans-serif\" font-size=\"13\">"
    print "<title>The height along a line before and after cells are refined with heights: two functions of level 0 pass theirs to six of level 1, and the curve is the same</title>"
    print "<rect width=\"720\" height=\"286\" fill=\"#ffffff\"/>"
    panel(56, "before: eight functions of level 0", 0)
    was = curve()
    # cells 1 to 4 are refined: functions 3 and 4, which cover none but these, pass their heights to four children each
    split("1 3 3 1", quarters, " ")
    for (i = 3; i <= 4; i++) {
        for (j = 1; j <= 4; j++) height[1, 2 * i - 3 + j] += old[i] * quarters[j] / 4
        delete height[0, i]
    }
    if (curve() != was) { print "shape.sh: the curves differ" > "/dev/stderr" ; exit 1 }
    panel(400, "after: six of level 0 and six of level 1", 1)
    x = 56
    for (level = 0; level < 2; level++) {
        printf "<circle cx=\"%d\" cy=\"267\" r=\"4.5\" fill=\"%s\"/>\n", x + 5, colours[level]
        label(x + 16, 271, "start", "#40506a", "height on level " level)
        x += 150
    }
    printf "<circle cx=\"%d\" cy=\"267\" r=\"4.5\" fill=\"#ffffff\" stroke=\"#9fb6d8\" stroke-width=\"2\"/>\n", x + 5
    label(x + 16, 271, "start", "#40506a", "deactivated, height passed on")
    printf "<path d=\"M%d 267 H%d\" stroke=\"#1b2536\" stroke-width=\"3\"/>\n", x + 226, x + 248
    label(x + 256, 271, "start", "#40506a", "the surface")
    print "</svg>"
}' </dev/null
