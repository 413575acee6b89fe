#!/bin/sh
# Proves and builds the program `plan`, plans examples/raceways.txt, prints its dates and draws them.
set -e
cd "$(dirname "$0")/.."
mkdir -p target
tools/sheet_text.py sheet examples/raceways.txt > target/raceways.sheet
log=$(mktemp)
(cd crates/plan && rt run < ../../target/raceways.sheet) > "$log" 2>&1 || { tail -5 "$log"; exit 1; }
rm -f "$log"
crates/plan/out/plan < target/raceways.sheet | tools/gantt.py target/raceways.sheet --names examples/raceways.txt --svg target/raceways.svg
