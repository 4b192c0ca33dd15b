#!/bin/sh
# Prints the picture of a surface's grid: what rust/wallmirror/examples/projector.rs draws, as it is stored beside it. The gate runs the
# example and compares. docs/projector.svg is what this wrote; the gate compares the two.
# Usage: docs/projector.sh > docs/projector.svg
set -eu
cat "$(dirname "$0")/../rust/wallmirror/examples/projector.expected"
