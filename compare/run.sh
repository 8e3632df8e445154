#!/bin/sh
# Compares the library, the safe Rust crate and, where it is listed, the program wall_report with the original, query by query:
#   sh compare/run.sh [QUERIES]
# 200,000 by default, of which some 97,000 are all queries of some small kinds; below that number only random ones. The seeds are fixed.
# The original is the folder in ORIGINAL, the one that has walls.rs, or ../shared/docs/src/broodmap-analysis/src. Nothing of it is kept.
# A static library that is already made can be named by its folder in WALLS_C_DIR.
set -eu
root=$(cd "$(dirname "$0")/.." && pwd)
cd "$root"
export CARGO_TARGET_DIR="$root/target/cargo"
[ -n "${WALLS_C_DIR:-}" ] || (cd crates/walls_c && rt lib)
cargo test --offline --quiet --manifest-path bindings/rust/Cargo.toml
cargo build --offline --quiet --release --manifest-path compare/Cargo.toml
compare=$CARGO_TARGET_DIR/release/compare
"$compare" run "${1:-200000}"
if grep -q '^wall_report:' crates.txt; then
    (cd crates/wall_report && rt run </dev/null >/dev/null)
    "$compare" program crates/wall_report/out/wall_report 2000
fi
if command -v valgrind >/dev/null; then
    valgrind --quiet --leak-check=full --error-exitcode=9 "$compare" run 300
    echo "valgrind: no error in 300 queries"
else
    echo "valgrind is not on this machine: memory not looked at"
fi
