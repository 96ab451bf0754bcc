#!/usr/bin/env bash
# Writes the expected answers of B1 to B8 and N1 to N10 with the judge, an evaluator by another hand. Takes some minutes.
set -euo pipefail
cd "$(dirname "$0")/.."
out=target/bench
mkdir -p "$out/empty"
python3 bench/make.py "$out/inputs"
(cd tests && CARGO_TARGET_DIR=../target/judge cargo build --quiet --offline --release -p judge)
program=$PWD/target/judge/release/program

for name in B1 B2 B3 B4 B5 B7 B8 N1 N2 N3 N4 N5 N6@32 N8 N9; do
  mkdir -p "bench/inputs/$name"
  (cd "$out/inputs/$name" && "$program") >"bench/inputs/$name/expected"
done

# What is rewritten depends on no row, so it can be asked over no rows.
over_no_rows() { # WORKLOAD
  cp "$out/inputs/$1"/{permits,question} "$out/empty"
  python3 -c 'import sys; c = bytearray(sys.stdin.buffer.read()); c[2::4] = c[3::4] = bytes(len(c) // 4); sys.stdout.buffer.write(c)' \
    <"$out/inputs/$1/catalogue" >"$out/empty/catalogue"
  : >"$out/empty/values"
  (cd "$out/empty" && "$program")
}

# B6 never ends for the judge. Its answer is empty.
over_no_rows B6 >bench/inputs/B6/expected

# N6 never ends for the judge, N7 has more cells than its program lends, N10 is many questions: the rows are left to the loop by hand and SQLite.
for name in N6 N7 N10; do
  mkdir -p "bench/inputs/$name"
  over_no_rows "$name" | sed '1s/.*/rows by the loop/' >"bench/inputs/$name/expected"
done

# B7 has room for one row only: 'refused 41', then the answer cut after it.
{ echo 'refused 41'; sed '1s/.*/rows 1/; 6,$d' bench/inputs/B7/expected; } >"$out/cut"
mv "$out/cut" bench/inputs/B7/expected
