#!/bin/sh
# Draws the crates of crates.txt as an SVG picture on standard output: a crate stands below everything that it uses, and a line leads
# to each crate that it uses and reaches through no other. docs/crates.svg is what this wrote; the gate compares the two.
# Usage: docs/crates.sh > docs/crates.svg
set -eu
cd "$(dirname "$0")/.."
awk '
BEGIN { FS = ":" ; W = 118 ; H = 30 ; DX = 22 ; DY = 46 ; M = 16 }
/^[ \t]*(#|$)/ { next }
{
    # a static library has the word "staticlib" after its name
    split($1, head, " ") ; name = head[1] ; order[++n] = name ; known[name] = 1
    uses[name] = $2
}
function has(a, b,    w, i, k) { k = split(uses[a], w, /[ \t]+/) ; for (i = 1; i <= k; i++) if (w[i] == b) return 1 ; return 0 }
# the longest way down to a crate that uses none
function depth(a,    w, i, k, d, e) {
    if (a in deep) return deep[a]
    d = 0 ; k = split(uses[a], w, /[ \t]+/)
    for (i = 1; i <= k; i++) if (known[w[i]]) { e = depth(w[i]) + 1 ; if (e > d) d = e }
    return deep[a] = d
}
# just above the first crate that uses it
function late(a,    i, d, e) {
    if (a in low) return low[a]
    d = -1
    for (i = 1; i <= n; i++) if (has(order[i], a)) { e = late(order[i]) - 1 ; if (d < 0 || e < d) d = e }
    return low[a] = d < 0 ? deep[a] : d
}
END {
    for (i = 1; i <= n; i++) depth(order[i])
    for (i = 1; i <= n; i++) { d = late(order[i]) ; row[order[i]] = d ; if (d > rows) rows = d ; col[order[i]] = count[d]++ ; if (count[d] > widest) widest = count[d] }
    width = 2 * M + widest * W + (widest - 1) * DX ; height = 2 * M + (rows + 1) * H + rows * DY
    printf "<svg xmlns=\"http://www.w3.org/2000/svg\" width=\"%d\" height=\"%d\" viewBox=\"0 0 %d %d\" font-family=\"sans-serif\" font-size=\"14\">\n", width, height, width, height
    printf "<title>The crates of the library: each uses those above it that its lines lead to</title>\n"
    printf "<rect width=\"%d\" height=\"%d\" fill=\"#ffffff\"/>\n", width, height
    for (i = 1; i <= n; i++) { a = order[i] ; d = row[a] ; line = count[d] * W + (count[d] - 1) * DX ; x[a] = (width - line) / 2 + col[a] * (W + DX) ; y[a] = M + d * (H + DY) }
    for (i = 1; i <= n; i++) for (j = 1; j <= n; j++) {
        a = order[i] ; b = order[j]
        if (!has(a, b)) continue
        through = 0
        for (k = 1; k <= n; k++) if (order[k] != b && has(a, order[k]) && has(order[k], b)) through = 1
        if (!through) printf "<path d=\"M%.1f %.1f C%.1f %.1f %.1f %.1f %.1f %.1f\" fill=\"none\" stroke=\"#8a8f98\"/>\n", x[a] + W / 2, y[a], x[a] + W / 2, y[a] - DY / 2, x[b] + W / 2, y[b] + H + DY / 2, x[b] + W / 2, y[b] + H
    }
    for (i = 1; i <= n; i++) { a = order[i]
        printf "<rect x=\"%.1f\" y=\"%.1f\" width=\"%d\" height=\"%d\" rx=\"6\" fill=\"%s\" stroke=\"#40506a\"/>\n", x[a], y[a], W, H, "#eef3fb"
        printf "<text x=\"%.1f\" y=\"%.1f\" text-anchor=\"middle\" fill=\"#1b2536\">%s</text>\n", x[a] + W / 2, y[a] + 20, a
    }
    print "</svg>"
}' crates.txt
