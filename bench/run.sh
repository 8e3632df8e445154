#!/bin/sh
# Times the search and the marks against the original: sh bench/run.sh, with the original's folder in ORIGINAL (the one that has walls.rs).
# What is timed of it is cut out at run time and is not part of this repository.
set -eu
: "${ORIGINAL:?the folder that has the original walls.rs}"
root=$(cd "$(dirname "$0")/.." && pwd)
work=$(mktemp -d)
trap 'rm -rf "$work"' EXIT
awk '/^(fn (route|stamp_terrain_blockers|stamp_expanded|stamp_expanded_i64|blocked_centers)\(|struct DifferenceGrid |impl DifferenceGrid )/ { on = 1 }
    /^const PIXELS_PER_WALK_CELL/ { print }
    on { print }
    /^}/ { on = 0 }' "$ORIGINAL/walls.rs" >"$work/original.rs"
cd "$root"
(cd crates/bench_c && rt lib) >"$work/log" 2>&1 || { cat "$work/log"; exit 1; }
BENCH_DIR=$work rustc --edition 2021 -C opt-level=3 bench/main.rs -o "$work/bench" -L crates/bench_c/out -l static=bench_c
"$work/bench"
