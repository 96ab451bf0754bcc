#!/usr/bin/env bash
# How the engine's work grows with the rows: instructions of waldumre_ask (callgrind) at 128, 256, 512 and 1,024 rows of each relation that
# grows, and the factor at each doubling. bench/growth.sh [--keep] [WORKLOAD...]
# Every answer is held to the loop by hand. A call that takes over LIMIT seconds (60) under callgrind is left and shown as slow.
# --keep puts the table into bench/README.md. Needs gcc, python3, valgrind; no SQLite. LIBRARY=FILE as in build.sh.
set -euo pipefail
cd "$(dirname "$0")/.."
. tools/need.sh
need valgrind
keep=no
if [[ ${1:-} == --keep ]]; then keep=yes; shift; fi
if [[ $# -eq 0 ]]; then set -- G1 N1 N2 N3 G2 N6 G4 N9 G3 N7; fi
bench/build.sh one
out=target/bench
results=$out/results
mkdir -p "$results"

words() {
  case $1 in
    G1) echo "two ranges joined" ;;
    N1) echo "a join by SOME" ;;
    N2) echo "SOME in SOME" ;;
    N3) echo "NOT SOME" ;;
    G2) echo "a join by SOME in an aggregate" ;;
    N6) echo "four ranges joined in a chain" ;;
    G4) echo "a permit that joins by SOME" ;;
    N9) echo "an OR of two equalities" ;;
    G3) echo "as many distinct rows" ;;
    N7) echo "16 times as many distinct rows" ;;
  esac
}

instructions() { # WORKLOAD
  local status=0
  valgrind --tool=callgrind --toggle-collect=waldumre_ask --callgrind-out-file="$out/callgrind.growth" \
    "$out/growth" "$out/inputs" "$1" "${LIMIT:-60}" 2>"$out/callgrind.log" || status=$?
  case $status in
    0) awk '/^(summary|totals):/ { print $2; exit }' "$out/callgrind.growth" ;;
    3) echo slow ;;
    *) cat "$out/callgrind.log" >&2; exit 1 ;;
  esac
}

{
  echo "| instructions, by rows | 128 | 256 | times | 512 | times | 1,024 | times |"
  echo "|---|--:|--:|--:|--:|--:|--:|--:|"
  for name; do
    counts=()
    for rows in 128 256 512 1024; do
      count=$(instructions "$name@$rows") || exit 1
      counts+=("$count")
      if [[ $count == slow ]]; then break; fi # more rows do not make it quicker
    done
    awk -v name="$name: $(words "$name")" -v counts="${counts[*]}" '
      function grouped(n,  text) { text = sprintf("%d", n); while (match(text, /[0-9][0-9][0-9][0-9]($|,)/)) text = substr(text, 1, RSTART) "," substr(text, RSTART + 1); return text }
      BEGIN {
        n = split(counts, count, " ")
        line = "| " name
        for (i = 1; i <= 4; i++) {
          known = i <= n && count[i] != "slow"
          line = line " | " (known ? grouped(count[i]) : "slow")
          if (i > 1) line = line " | " (known ? sprintf("%.2f", count[i] / count[i - 1]) : "–")
        }
        print line " |"
      }'
  done
} | tee "$results/growth.md"
if [[ $keep == yes ]]; then
  mkdir -p bench/results
  cp "$results/growth.md" bench/results
  python3 - bench/README.md "$results/growth.md" <<'PYTHON'
import sys
before, rest = open(sys.argv[1]).read().split('<!-- growth -->\n')
after = rest.split('<!-- end of growth -->\n')[1]
open(sys.argv[1], 'w').write(f'{before}<!-- growth -->\n{open(sys.argv[2]).read()}<!-- end of growth -->\n{after}')
PYTHON
fi
