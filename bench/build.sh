#!/usr/bin/env bash
# Builds the programs and writes the inputs into target/bench. LIBRARY=FILE takes another libwaldumre.a and skips its build.
# bench/build.sh one builds what needs no SQLite.
set -eu
cd "$(dirname "$0")/.."
. tools/need.sh
need gcc python3
mkdir -p target/bench
python3 bench/make.py target/bench/inputs
LIBRARY=$(tools/library.sh)
build=(gcc -std=c11 -D_GNU_SOURCE -O2 -g -Wall -Wextra -Wpedantic -Werror -Iinclude)
common=(bench/src/load.c bench/src/engine.c bench/src/measure.c "$LIBRARY")
loops=(bench/src/loops.c bench/src/loops_n.c)
"${build[@]}" bench/src/one.c "${common[@]}" -o target/bench/one
"${build[@]}" bench/src/growth.c "${loops[@]}" "${common[@]}" -o target/bench/growth
if [[ ${1:-} != one ]]; then
  "${build[@]}" bench/src/main.c bench/src/database.c "${loops[@]}" "${common[@]}" -lsqlite3 -o target/bench/bench
fi
