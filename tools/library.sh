#!/bin/sh
# Proves and builds the static library for C and Rust: target/staticlib/libsched.a.
set -e
cd "$(dirname "$0")/.."
log=$(mktemp)
(cd crates/sched_c && rt lib) > "$log" 2>&1 || { tail -5 "$log"; exit 1; }
rm -f "$log"
mkdir -p target/staticlib
cp crates/sched_c/out/libsched_c.a target/staticlib/libsched.a
