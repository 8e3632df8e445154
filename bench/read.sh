#!/bin/sh
# Times reading a packed query of 1,024 by 1,024 cells beside the same reader written in Rust: sh bench/read.sh.
# A static library that is already made can be named by its folder in WALLS_C_DIR.
set -eu
root=$(cd "$(dirname "$0")/.." && pwd)
cd "$root"
[ -n "${WALLS_C_DIR:-}" ] || (cd crates/walls_c && rt lib)
work=$(mktemp -d)
trap 'rm -rf "$work"' EXIT
rustc --edition 2021 -C opt-level=3 bench/read.rs -o "$work/read" -L "${WALLS_C_DIR:-crates/walls_c/out}" -l static=walls_c
"$work/read"
