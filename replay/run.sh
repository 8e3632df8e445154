#!/bin/sh
# Replays the stored answers of the original, which stand in replay/answers.txt, against the library: sh replay/run.sh
# They were made by `compare store` (compare/src/store.rs) from the original's own answers: 30 of each verdict and 5 of each refusal that a
# packed query of small size can have, two lines each: the query's bytes as hex digits, and the answer's words.
# The C program is compiled against include/walls_c.h. A static library that is already made can be named by its folder in WALLS_C_DIR.
set -eu
root=$(cd "$(dirname "$0")/.." && pwd)
cd "$root"
[ -n "${WALLS_C_DIR:-}" ] || (cd crates/walls_c && rt lib)
work=$(mktemp -d)
trap 'rm -rf "$work"' EXIT
"${CC:-cc}" -std=c99 -O1 -Wall -Wextra -Werror -I include replay/replay.c "${WALLS_C_DIR:-crates/walls_c/out}/libwalls_c.a" -o "$work/replay"
"$work/replay" replay/answers.txt
