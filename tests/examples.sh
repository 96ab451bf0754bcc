#!/usr/bin/env bash
# The README's first command prints what is stored, exits by what came of the question, and says how far its proof is.
set -eu
cd "$(dirname "$0")/.."
room=$(mktemp -d)
trap 'rm -rf "$room"' EXIT
fail() { echo "examples: $1"; exit 1; }

examples/run.sh | diff - examples/run.expected

# run.sh FOLDER exits with STATUS; the last line printed and, if given, the last line on stderr
ends() { # STATUS PRINTED SAID FOLDER
  local status=0
  examples/run.sh "$4" >"$room/printed" 2>"$room/said" || status=$?
  [[ $status == "$1" ]] || fail "$4: exit status $status, not $1"
  [[ $(tail -n 1 "$room/printed") == "$2" ]] || fail "$4 prints $(tail -n 1 "$room/printed")"
  [[ -z $3 || $(tail -n 1 "$room/said") == "$3" ]] || fail "$4 says $(tail -n 1 "$room/said")"
}
ends 0 12 '' examples/offers
cp -r examples/offers "$room/offers"
rm "$room/offers/permits"
ends 1 'refused 33' '' "$room/offers"
printf '\001\000\000\041\000\011\020' >"$room/offers/question"
ends 1 'refused 32' 'refused 32: byte 3: attribute 9, and relation 0 has 3' "$room/offers"
printf '\101' >"$room/offers/permits"
ends 1 'refused 20' 'refused 20: byte 0: 65 where a permit (kind 64) was expected' "$room/offers"
ends 2 '' '' "$room/nowhere"

# progress, with a toolchain that proves nothing: how long it takes, crate k of n; and its failure is handed on
mkdir "$room/bin"
cat >"$room/bin/rt" <<'END'
#!/bin/sh
echo "$(basename "$PWD") $*" >>"$0.calls"
# a crate that is new, one that has not changed, one that has
echo "crate model: modules loaded=0 checked=30"; echo "logic=proved functions=1 sum=0"
echo "crate kinds: modules loaded=30 checked=0"; echo "logic=proved functions=1 sum=0"
echo "library kinds: modules loaded=20 checked=0"
echo "crate rows: modules loaded=7 checked=2"; echo "axioms std: none reached of the 2 declared"; echo "logic=proved functions=1 sum=0"
mkdir -p out
printf '#!/bin/sh\necho "refused 10"\n' >out/program
chmod +x out/program
END
chmod +x "$room/bin/rt"
cp -r tools crates.txt Makefile include examples "$room"
mkdir -p "$room/crates/program" "$room/crates/waldumre"
PATH=$room/bin:$PATH "$room/tools/prove.sh" lib waldumre 2>/dev/null || fail "prove.sh lib fails"
status=0
PATH=$room/bin:$PATH "$room/examples/run.sh" >"$room/printed" 2>"$room/said" || status=$?
[[ $status == 1 && $(tail -n 1 "$room/printed") == 'refused 10' ]] || fail "a first run prints $(tail -n 1 "$room/printed"), and exits with $status"
diff "$room/bin/rt.calls" <(printf '%s\n' 'waldumre lib' 'program run') || fail "prove.sh calls rt otherwise"
grep -q 'crates: about [0-9]* minutes' "$room/said" || fail "it does not say how long it takes"
sed 's/[0-9]*:[0-9][0-9]$/TIME/; s/of [0-9]* crates*/of N/; s/of [0-9]*,/of N,/; s/, [0-9]* crates:.*/, N crates/' "$room/said" |
  diff - <(printf '%s\n' 'proving program, N crates' 'proved crate 1 of N, model, TIME' 'proved crate 3 of N, rows, TIME' 'proved program, TIME')
printf '#!/bin/sh\necho "crate model: modules loaded=0 checked=30"; echo "logic=not-proved"; exit 1\n' >"$room/bin/rt"
status=0
PATH=$room/bin:$PATH "$room/tools/prove.sh" run program 2>"$room/said" || status=$?
[[ $status == 1 ]] || fail "a failed proof gives $status"
grep -q 'logic=not-proved' "$room/said" || fail "a failed proof is not shown"
if grep -q '^proved' "$room/said"; then fail "a failed proof counts as proved"; fi
echo "examples: all passed"
