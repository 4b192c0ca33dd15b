#!/bin/sh
# Draws what a nudge moves as an SVG picture on standard output: the height along the line of docs/heights.sh, before and after the hold of
# level 1 rises by 16 mm, over the band that no point leaves. docs/nudge.svg is what this wrote; the gate compares the two.
# Usage: docs/nudge.sh > docs/nudge.svg
set -eu
awk '
# the B-spline of degree 2 over the knots 0, 1, 2, 3
function bump(t) { return t < 0 || t > 3 ? 0 : t < 1 ? t * t / 2 : t < 2 ? 0.75 - (t - 1.5) ^ 2 : (3 - t) ^ 2 / 2 }
# at a point across, at the middle of the mesh: a bulge over the cells 0 to 2 of level 0, a hold over the cells 2 to 4 of level 1
function height(x, hold) { return 160 * bump(x / 16) * bump(2) + hold * bump(x / 8 - 2) * bump(2) }
function px(x) { return 56 + x * 9 }
function py(h) { return 216 - h * 2 }
function along(from, to, hold, more,    x, d) {
    for (x = from; x != to; x += from < to ? 0.5 : -0.5) d = d sprintf("%.1f %.2f L", px(x), py(height(x, hold) + more))
    return d sprintf("%.1f %.2f", px(to), py(height(to, hold) + more))
}
function curve(hold, colour, dash) { printf "<path d=\"M%s\" fill=\"none\" stroke=\"%s\" stroke-width=\"3\"%s/>\n", along(0, 64, hold, 0), colour, dash }
function label(x, y, anchor, colour, said) { printf "<text x=\"%.1f\" y=\"%.1f\" text-anchor=\"%s\" fill=\"%s\">%s</text>\n", x, y, anchor, colour, said }
BEGIN {
    print "<svg xmlns=\"http://www.w3.org/2000/svg\" width=\"680\" height=\"306\" viewBox=\"0 0 680 306\" font-family=\"sans-serif\" font-size=\"13\">"
    print "<title>The height along a line before and after a hold rises by 16 mm: no point leaves the band of 16 mm, and none outside the support moves</title>"
    print "<rect width=\"680\" height=\"306\" fill=\"#ffffff\"/>"
    printf "<path d=\"M%s L%s Z\" fill=\"#eef3fb\"/>\n", along(0, 64, 24, 16), along(64, 0, 24, -16)
    for (h = 0; h <= 80; h += 20) {
        printf "<path d=\"M%.1f %.1f H%.1f\" stroke=\"#dfe3ea\"/>\n", px(0), py(h), px(64)
        label(px(0) - 8, py(h) + 4, "end", "#40506a", h " mm")
    }
    # the lines where the support ends
    for (x = 16; x <= 40; x += 24) printf "<path d=\"M%.1f %.1f V262\" stroke=\"#c8702a\" stroke-dasharray=\"3 3\"/>\n", px(x), py(90)
    curve(40, "#c8702a", "") ; curve(24, "#1b2536", " stroke-dasharray=\"7 5\"")
    label(px(31), py(70), "start", "#c8702a", "after") ; label(px(25), py(49), "middle", "#1b2536", "before") ; label(px(63), py(7), "end", "#5a76a8", "16 mm either way")
    printf "<rect x=\"%.1f\" y=\"248\" width=\"%.1f\" height=\"14\" fill=\"#f8e4d3\" stroke=\"#c8702a\"/>\n", px(16), 24 * 9
    label(px(28), 259, "middle", "#7a4216", "support of the hold")
    for (x = 0; x <= 64; x += 8) label(px(x), 280, "middle", "#40506a", x)
    label(px(32), 298, "middle", "#40506a", "across, in eighths of a cell of the last level")
    print "</svg>"
}' </dev/null
