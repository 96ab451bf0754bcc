#!/usr/bin/env bash
# tools/decode.py: against the whole kit, then some texts and some damaged bytes to the letter.
set -eu
cd "$(dirname "$0")/.."
. tools/need.sh
need python3
python3 tests/decode.py
room=$(mktemp -d)
trap 'rm -rf "$room"' EXIT
printf 'OFFER ARTICLE BRAND PRICE\nSUPPLY BRAND BUYER\n' >"$room/names"
printf '\060\003\004\000\060\002\002\000' >"$room/catalogue"

# the bytes, as decimal numbers, come to the status and the lines
comes() { # STATUS WHAT BYTES LINES
  local status=0
  tools/decode.py "$2" - --decimal --names "$room/names" --catalogue "$room/catalogue" <<<"$3" >"$room/said" || status=$?
  diff "$room/said" <(printf '%s\n' "$4") || { echo "decode: $2 $3"; exit 1; }
  [[ $status == "$1" ]] || { echo "decode: exit status $status for $3"; exit 1; }
}
comes 0 question '1 0 0 33 0 0 33 0 2 21 4 33 0 2 34 3 1 0 2 16' 'RANGE OFFER(A,B)
RETRIEVE W: A.ARTICLE, A.PRICE:
  A.PRICE <= AVE(B.PRICE)'
comes 0 rewritten '34 1 0 0 0 19 16 22 8 1 20 21 1 33 8 0 33 0 1 18 17 16' 'RANGE OFFER(A)
RETRIEVE W: COUNT(A.ARTICLE; TRUE ^ SOME I IN SUPPLY (I.BRAND = A.BRAND V NOT FALSE))'
comes 0 question '1 0 0 33 0 0 19 20 16 17 20 16 19 17 18 19 16 17' 'RANGE OFFER(A)
RETRIEVE W: A.ARTICLE:
  (TRUE V FALSE) ^ (TRUE V FALSE ^ NOT (TRUE ^ FALSE))'
comes 0 question '1 3 0 34 3 1 1 1 16 16' 'RANGE OFFER(D):SUPPLY(B)
RETRIEVE W: AVE(B.BUYER)
(RANGE binds D, which is used nowhere: QUEL as text has no such record)'
comes 0 permits '64 0 5 0 21 2 33 0 1 32 255 255 255 255 64 1 255 255 17' 'permit 0, bytes 0 to 13
RANGE OFFER(A)
RETRIEVE A.ARTICLE, A.PRICE:
  A.BRAND # -1
permit 1, bytes 14 to 18
RANGE SUPPLY(A)
RETRIEVE ALL:
  NO ACCESS'
comes 0 permits '' 'no permits'
comes 1 question '' 'refused 30: byte 0: no target (kinds 33 and 34) before this'
comes 1 question '1 0 0 33 0 0 21 7 33 0 0 33 0 0' 'refused 30: byte 7: operator 7, not 1 to 6'
comes 1 question '1 0 0 33 0 0 19 16' 'refused 30: byte 8: the end, where a condition was expected, in the AND at byte 6'
comes 1 question '1 0 0 33 0 0 21 1 33 0 0 32 1 0' \
  'refused 30: byte 12: cut short: the body of constant has 4 bytes, 2 are left, in the comparison at byte 6'
comes 1 question '1 0 0 33 0 0 16 16' 'refused 30: byte 7: the question has ended before this; bytes too many: 1'
comes 1 question "1 0 0 33 0 0 $(printf '18 %.0s' {1..32})16" 'refused 31: byte 38: level 33, where 32 are the most'
comes 1 question '1 0 0 33 0 3 22 0 9 21 1 33 1 0 33 0 0' 'refused 32: byte 3: attribute 3, and relation 0 has 3
refused 32: byte 6: variable 0 is bound a second time
refused 32: byte 6: relation 9 is not in the catalogue
refused 32: byte 11: variable 1 is out of reach'
comes 1 permits '64 0 8 0 16 64 1 0 0 16' 'refused 22: byte 2: mask 8 names an attribute that relation 0 has not
refused 22: byte 7: mask 0'
# usage, and bytes from a file
status=0
tools/decode.py question "$room/nowhere" 2>/dev/null || status=$?
[[ $status == 2 ]] || { echo "decode: exit status $status for a missing file"; exit 1; }
tools/decode.py question examples/offers/question | diff - <(printf 'RANGE R0(A,B)\nRETRIEVE W: A.A2:\n  A.A1 = MIN(B.A1)\n')
echo "decode: all passed"
