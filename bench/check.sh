#!/bin/sh
# Times the whole check against the original: sh bench/check.sh, with the original's folder in ORIGINAL (the one that has walls.rs) or beside
# the repository, as compare/run.sh has it. A static library that is already made can be named by its folder in WALLS_C_DIR.
set -eu
root=$(cd "$(dirname "$0")/.." && pwd)
cd "$root"
export CARGO_TARGET_DIR="$root/target/cargo"
[ -n "${WALLS_C_DIR:-}" ] || (cd crates/walls_c && rt lib)
cargo run --offline --quiet --release --manifest-path compare/Cargo.toml --bin check_speed
