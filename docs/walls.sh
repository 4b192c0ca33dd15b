#!/bin/sh
# Draws the walls of README.md and docs/TOOL.md with the command wallmirror, which is to be on the PATH, as SVG pictures in a folder.
# docs/wall*.svg are what this wrote; a test compares them.
# Usage: PATH="$PWD/target:$PATH" docs/walls.sh docs
set -eu
out=$(cd "$1" && pwd)
work=$(mktemp -d)
trap 'rm -rf "$work"' EXIT
cd "$work"

# draw WALL NAME OPTION..: a picture of the wall as it is
draw() {
    wall=$1 name=$2
    shift 2
    wallmirror draw "$wall" -o "$out/$name.svg" "$@"
}

# The wall that opens the README.
wallmirror new cave.wall 6 4 3 1 1 2
wallmirror split cave.wall 8
wallmirror split cave.wall 53
wallmirror split cave.wall 66
draw cave.wall wall --changed

# The season of docs/TOOL.md: its wall before both splits and after, and walked back.
wallmirror new march.wall 3 1 3 1 1 2
draw march.wall wall-before --functions
wallmirror split march.wall 0
wallmirror split march.wall 3 4
draw march.wall wall-after --functions --changed
wallmirror back march.wall
draw march.wall wall-back --functions --changed

# What a split can reach.
wallmirror new reach.wall 8 6 4 1 1 2
wallmirror split reach.wall 19
wallmirror split reach.wall 135
draw reach.wall wall-reach --reach 574

# A wall with a corner.
wallmirror new corner.wall 3 2 3 2 2 2 2 0
wallmirror split corner.wall 0
wallmirror split corner.wall 1
wallmirror back corner.wall 1
wallmirror fsplit corner.wall 3
draw corner.wall wall-corner --functions --changed
