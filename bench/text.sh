#!/usr/bin/env bash
# What reading a text of about 200 bytes costs beside the tiny call (W8): instructions and CPU time. Prints a table.
# Needs gcc and valgrind. LIBRARY=FILE takes another library and skips the build.
set -euo pipefail
cd "$(dirname "$0")/.."
out=target/bench
mkdir -p "$out"
LIBRARY=$(tools/library.sh)
# symbols are bound at the start, or the first call of memset would be counted with the loader's work
gcc -std=c11 -D_GNU_SOURCE -O2 -g -Wall -Wextra -Wpedantic -Werror -Iinclude \
  bench/src/text.c bench/src/engine.c bench/src/load.c bench/src/measure.c "$LIBRARY" -Wl,-z,now -o "$out/text"

instructions() { # CALL
  valgrind --tool=callgrind --toggle-collect=measured --callgrind-out-file="$out/callgrind.text.$1" \
    "$out/text" once bench/inputs "$1" 2>"$out/callgrind.log" || { cat "$out/callgrind.log" >&2; exit 1; }
  awk '/^(summary|totals):/ { print $2; exit }' "$out/callgrind.text.$1"
}

times=$("$out/text" times bench/inputs)
lengths=$("$out/text" lengths)
echo "| call | bytes of text | instructions | CPU µs |"
echo "|---|--:|--:|--:|"
for call in ask A B C D; do
  bytes=$(awk -v c="$call" '$1 == c { print $2 }' <<<"$lengths")
  echo "$call ${bytes:--} $(instructions "$call") $(awk -v c="$call" '$1 == c { print $2 }' <<<"$times")"
done | awk '
  $1 == "ask" { printf "| the tiny call | | %d | %.2f |\n", $3, $4; next }
  { printf "| read %s | %d | %d | %.2f |\n", $1, $2, $3, $4 }'
