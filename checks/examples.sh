#!/bin/sh
# The scripts and reports in examples/ are those that the gate plays.
cd "$(dirname "$0")/.." || exit 2
for file in crates/board_examples/data/*.script crates/board_examples/data/*.report; do
    cmp "$file" "examples/$(basename "$file")" || exit 1
done
