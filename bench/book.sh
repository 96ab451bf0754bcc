#!/usr/bin/env bash
# What the label book costs beside its question, and what 500 labels cost one question each: instructions and CPU time.
# Prints a table. Needs gcc and valgrind. ENGINE=FILE and BOOK=FILE take other libraries and skip their build.
set -euo pipefail
cd "$(dirname "$0")/.."
out=target/bench
mkdir -p "$out"
ENGINE=$(LIBRARY=${ENGINE:-} tools/library.sh)
BOOK=$(LIBRARY=${BOOK:-} tools/library.sh waldumre_book)
gcc -std=c11 -D_GNU_SOURCE -O2 -g -Wall -Wextra -Wpedantic -Werror -Iinclude \
  bench/src/book.c bench/src/measure.c "$ENGINE" "$BOOK" -o "$out/book"

instructions() { # WORKLOAD CALL
  valgrind --tool=callgrind --toggle-collect=measured --callgrind-out-file="$out/callgrind.$1.$2" \
    "$out/book" once "$1" "$2" 2>"$out/callgrind.log" || { cat "$out/callgrind.log" >&2; exit 1; }
  awk '/^(summary|totals):/ { print $2; exit }' "$out/callgrind.$1.$2"
}

echo "| workload | call | instructions | CPU µs |"
echo "|---|---|--:|--:|"
for workload in ready ranked; do
  times=$("$out/book" times "$workload")
  for call in ask book labels; do
    echo "$workload $call $(instructions "$workload" "$call") $(awk -v c="$call" '$1 == c { print $2 }' <<<"$times")"
  done
done | awk '
  BEGIN { words["ask"] = "the question alone"; words["book"] = "the book"; words["labels"] = "500 questions, one a label" }
  { count[$2] = $3; time[$2] = $4; printf "| %s | %s | %d | %.0f |\n", $1, words[$2], $3, $4 }
  $2 == "labels" {
    ratios[++n] = sprintf("%s: the book adds %.2f %% of instructions to its question; 500 questions take %.2f times its instructions, %.2f times its CPU time",
                          $1, 100 * (count["book"] / count["ask"] - 1), count["labels"] / count["book"], time["labels"] / time["book"])
  }
  END { print ""; for (i = 1; i <= n; i++) print ratios[i] }'
