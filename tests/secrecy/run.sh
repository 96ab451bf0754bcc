#!/usr/bin/env bash
# Nothing of a hidden row is looked at, but what permits' conditions name: README.md.
#     tests/secrecy/run.sh                the library
#     tests/secrecy/run.sh --reference    a slow evaluator over permitted rows: passes
#     tests/secrecy/run.sh --guard-last   a slow evaluator that tries the guard last: fails
# LIBRARY=FILE takes another libwaldumre.a and skips its build. EACH and DRAWN: cases a shape, and of the judge's generator.
# MODE=noaccess: not even a load of a marked cell is let pass; stricter than what is owed.
set -euo pipefail
cd "$(dirname "$0")/../.."
. tools/need.sh
need cargo gcc valgrind
out=target/secrecy
mkdir -p "$out"
nice=(nice -n 5)

(cd tests/secrecy && CARGO_TARGET_DIR=../../$out "${nice[@]}" cargo build --quiet --offline --release)
ask=waldumre_ask
case ${1:-} in
  '') ;;
  --reference) ask=reference_ask LIBRARY=$out/release/libreference.a ;;
  --guard-last) ask=guard_last_ask LIBRARY=$out/release/libreference.a ;;
  *) echo "run.sh [--reference | --guard-last]" >&2; exit 2 ;;
esac
if [[ -z ${LIBRARY:-} ]]; then
  LIBRARY=$(tools/library.sh)
fi
cases=$out/cases
"$out/release/draw" "${EACH:-30}" "${DRAWN:-250}" "$cases"
gcc -std=c11 -O1 -g -Wall -Wextra -Werror -DASK="$ask" -Iinclude tests/secrecy/secrecy.c "$LIBRARY" -o "$out/secrecy"
"$out/secrecy" plain "$cases"

# What memcheck says of the first failures is in $out/memcheck.log. It runs beside callgrind.
"${nice[@]}" valgrind --quiet --error-limit=no --log-file="$out/memcheck.log" "$out/secrecy" "${MODE:-memcheck}" "$cases" >"$out/reported" &
memcheck=$!

# Two parts of callgrind's file for each case: the first collection, the second.
rm -f "$out/callgrind.out"
"${nice[@]}" valgrind --quiet --tool=callgrind --toggle-collect="$ask" --combine-dumps=yes --callgrind-out-file="$out/callgrind.out" \
  "$out/secrecy" callgrind "$cases" >"$out/shapes"
wait "$memcheck"
awk '/^desc: Trigger: Client Request/ { wanted = 1 } /^(totals|summary):/ && wanted { print $2; wanted = 0 }' "$out/callgrind.out" >"$out/counts"
if [[ $(wc -l <"$out/counts") != $((2 * $(wc -l <"$out/shapes"))) ]]; then echo "secrecy: callgrind has not counted every call"; exit 1; fi

paste -d '\t' - - <"$out/counts" | paste "$out/shapes" - >"$out/pairs"
awk -F '\t' -v reported="$out/reported" '
  BEGIN {
    while ((getline line < reported) > 0) { split(line, part, "\t"); order[++n] = part[1]; cases[part[1]] = part[2]; failed[part[1]] = part[3]; marked[part[1]] = part[4]; sought[part[1]] = part[5] }
  }
  { pairs[$1]++; gap = $2 > $3 ? $2 - $3 : $3 - $2; if (gap > 0) unequal[$1]++; if (gap > most[$1]) most[$1] = gap }
  END {
    printf "%-24s %6s %8s %8s  %-22s %s\n", "shape", "cases", "marked", "in S", "no read of the hidden", "equal instruction counts"
    for (i = 1; i <= n; i++) {
      s = order[i]
      read = failed[s] == 0 ? "pass" : sprintf("FAIL: %d of %d", failed[s], cases[s])
      count = unequal[s] == 0 ? "pass" : sprintf("FAIL: %d of %d, by up to %d", unequal[s], pairs[s], most[s])
      printf "%-24s %6d %8d %8d  %-22s %s\n", s, cases[s], marked[s], sought[s], read, count
      bad += failed[s] > 0 || unequal[s] > 0
      all += cases[s]
    }
    printf "secrecy: %d cases, %d of %d shapes pass\n", all, n - bad, n
    exit bad > 0
  }' "$out/pairs"
