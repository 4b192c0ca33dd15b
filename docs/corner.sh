#!/bin/sh
# Draws the functions of one direction as an SVG picture on standard output: six columns of degree 2, on the left without a corner and
# on the right with one before column 3. Of each function its B-spline is drawn, and below the knots a bar over the columns that it
# covers; those on both sides of the line before column 3 have a colour of their own. docs/corner.svg is what this wrote; the gate
# compares the two.
# Usage: docs/corner.sh > docs/corner.svg
set -eu
awk '
# the knots K[0] to K[many-1] of n columns: the ends degree + 1 times, the corner degree times, other lines once
function lay(corner,    line, times) {
    many = 0
    for (line = 0; line <= n; line++)
        for (times = line == 0 || line == n ? degree + 1 : line == corner ? degree : 1; times > 0; times--) K[many++] = line
}
# the B-spline of degree d that begins at knot i, where 0/0 is 0 and the last column has its far end too
function spline(i, d, x,    rising, falling) {
    if (d == 0) return (K[i] <= x && x < K[i + 1]) || (K[i] < K[i + 1] && K[i + 1] == n && x == n) ? 1 : 0
    rising = K[i + d] > K[i] ? (x - K[i]) / (K[i + d] - K[i]) * spline(i, d - 1, x) : 0
    falling = K[i + d + 1] > K[i + 1] ? (K[i + d + 1] - x) / (K[i + d + 1] - K[i + 1]) * spline(i + 1, d - 1, x) : 0
    return rising + falling
}
function px(x) { return X + x * 52 }
function py(value) { return 158 - value * 112 }
# before the line, over it, behind it
function colour(i) { return K[i + degree + 1] <= middle ? "#3b6fb5" : K[i] >= middle ? "#3f8f5f" : "#c8702a" }
function text(x, y, anchor, size, fill, said) {
    printf "<text x=\"%.1f\" y=\"%.1f\" text-anchor=\"%s\" font-size=\"%d\" fill=\"%s\">%s</text>\n", x, y, anchor, size, fill, said
}
function curve(i,    k, x, d) {
    for (k = 0; k <= 16 * (K[i + degree + 1] - K[i]); k++) {
        x = K[i] + k / 16
        d = d (k ? " L" : "M") sprintf("%.1f %.2f", px(x), py(spline(i, degree, x)))
    }
    printf "<path d=\"%s\" fill=\"none\" stroke=\"%s\" stroke-width=\"2\"/>\n", d, colour(i)
}
# a knot that is taken often has its ticks side by side, about the line
function ticks(    i, first, last, x) {
    for (i = 0; i < many; i = last) {
        for (last = first = i; last < many && K[last] == K[first]; last++);
        for (; i < last; i++) {
            x = px(K[i]) + (i - (first + last - 1) / 2) * 5
            printf "<path d=\"M%.1f 166 V180\" stroke=\"#1b2536\" stroke-width=\"2\"/>\n", x
        }
    }
}
function bar(i,    y) {
    y = 204 + i * 14
    printf "<rect x=\"%.1f\" y=\"%d\" width=\"%.1f\" height=\"12\" fill=\"%s\"/>\n", px(K[i]) + 1, y, (K[i + degree + 1] - K[i]) * 52 - 2, colour(i)
    text(px((K[i] + K[i + degree + 1]) / 2), y + 10, "middle", 10, "#ffffff", i)
}
function panel(corner, said,    functions, line, i) {
    lay(corner)
    functions = many - degree - 1
    text(px(n / 2), 24, "middle", 14, "#1b2536", said functions " functions")
    for (line = 0; line <= n; line++)
        printf "<path d=\"M%.1f %.1f V%.1f M%.1f 184 V330\" stroke=\"%s\"/>\n", px(line), py(1), py(0), px(line), line == corner ? "#1b2536" : "#dfe3ea"
    printf "<path d=\"M%.1f %.1f H%.1f\" stroke=\"#40506a\"/>\n", px(0), py(0), px(n)
    for (i = 0; i < functions; i++) curve(i)
    ticks()
    for (line = 0; line < n; line++) text(px(line + 0.5), 195, "middle", 11, "#40506a", line)
    for (i = 0; i < functions; i++) bar(i)
}
BEGIN {
    n = 6 ; degree = 2 ; middle = 3
    printf "<svg xmlns=\"http://www.w3.org/2000/svg\" width=\"764\" height=\"340\" viewBox=\"0 0 764 340\" font-family=\"sans-serif\">\n"
    print "<title>The functions of six columns of degree 2, without a corner and with one before column 3</title>"
    print "<rect width=\"764\" height=\"340\" fill=\"#ffffff\"/>"
    text(64, py(1) + 4, "end", 12, "#40506a", "1") ; text(64, py(0) + 4, "end", 12, "#40506a", "0")
    text(64, 177, "end", 12, "#40506a", "knots") ; text(64, 195, "end", 12, "#40506a", "columns") ; text(64, 214, "end", 12, "#40506a", "supports")
    X = 78 ; panel(-1, "no corner: ")
    X = 434 ; panel(3, "a corner before column 3: ")
    print "</svg>"
}' </dev/null
