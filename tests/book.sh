#!/usr/bin/env bash
# The label book from outside: its library, beside the engine's in one C program, and the example that draws a shelf.
# Exits 0 if all pass. No network.
set -eu
cd "$(dirname "$0")/.."
fail() { echo "book: $1"; exit 1; }

out=target/c
room=$(mktemp -d)
trap 'rm -rf "$room"' EXIT
mkdir -p "$out"
libraries=target/staticlib
make --silent $libraries/libwaldumre.a $libraries/libwaldumre_book.a
library=$libraries/libwaldumre_book.a

# What the header says: one function, no variable, nothing needed but memcpy, memset and their like; and no name that both libraries export.
exported() { nm -g --defined-only "$1" | awk 'NF == 3 { print $2, $3 }' | sort; }
if nm -u "$library" | grep ' U ' | grep -vE ' U mem(cpy|set|move|cmp)$'; then fail "the library needs more"; fi
if nm "$library" | grep -E ' [bBdDC] '; then fail "the library has variables"; fi
exported "$library" | diff - <(echo "T waldumre_label_book") || fail "the library exports something else"
exported $libraries/libwaldumre.a >"$room/engine"
if exported "$library" | comm -12 - "$room/engine" | grep .; then fail "both libraries export this"; fi

# Runs a program, under valgrind too where there is one. What it prints goes to $room/said.
run() {
  "$@" >"$room/said" || { head -n 40 "$room/said"; fail "$*"; }
  command -v valgrind >/dev/null || return 0
  valgrind --quiet --error-exitcode=9 --leak-check=full "$@" >"$room/again" || fail "valgrind: $*"
  cmp "$room/said" "$room/again"
}

echo "book: beside the engine"
strict=(gcc -std=c11 -O1 -g -Wall -Wextra -Wpedantic -Werror -Iinclude -L"$libraries")
"${strict[@]}" tests/c/book.c -lwaldumre -lwaldumre_book -o "$out/book-after"
"${strict[@]}" tests/c/book.c -lwaldumre_book -lwaldumre -o "$out/book-before"
for program in "$out/book-after" "$out/book-before"; do
  run "$program"
  tail -n 1 "$room/said"
done

echo "book: the example"
examples/shelf/make.sh "$room/store"
diff -r "$room/store" examples/shelf/store || fail "the example's files are not those of make.sh"
examples/shelf.sh | diff - examples/shelf.expected || fail "the example prints something else"
"${strict[@]}" examples/shelf/shelf.c -lwaldumre_book -o "$out/shelf"
run "$out/shelf" examples/shelf/store
diff "$room/said" examples/shelf.expected
run "$out/shelf" examples/shelf/store 1-28
[[ $(grep -c '^page ' "$room/said") == 28 ]] || fail "not all pages"
run "$out/shelf" examples/shelf/store 28
[[ $(grep '^page ' "$room/said") == "page 28 of 28, labels 486 to 499" ]] || fail "not page 28"

# shelf WORDS exits with STATUS and says SENTENCE on stderr, and nothing else.
says() { # STATUS SENTENCE WORDS...
  local status=0 expected=$1 sentence=$2
  shift 2
  "$out/shelf" "$@" >"$room/said" 2>"$room/errors" || status=$?
  [[ $status == "$expected" && ! -s $room/said && $(<"$room/errors") == "$sentence" ]] || fail "shelf $*: $status, $(<"$room/errors")"
}
usage="usage: shelf FOLDER [PAGE | FIRST-LAST], pages 1 to 28"
says 2 "$usage"
for pages in 0 29 2-1 1-29 x 1- -1 1-2x 1,2 ''; do says 2 "$usage" examples/shelf/store "$pages"; done
says 2 "$usage" examples/shelf/store 1 2
says 1 "shelf: refused 10: the catalogue is missing or damaged" "$room/nowhere"
# one byte of the store is changed or added at a time
changed() { # FILE PLACE BYTE
  rm -rf "$room/store"
  cp -r examples/shelf/store "$room/store"
  printf "\\$(printf %03o "$3")" | dd of="$room/store/$1" bs=1 seek="$2" conv=notrunc status=none
}
changed question 14 4 # for the price, the cost
says 1 "shelf: refused 33: no permit covers what the question combines" "$room/store"
changed question 11 4 # for the number, the cost
says 1 "shelf: refused 33: no permit covers what the question combines" "$room/store"
changed values 548 0
says 1 "shelf: refused 11: the values are not as many as the catalogue says" "$room/store"
changed permits 20 0
says 1 "shelf: refused 20: the permits are too long or not well formed" "$room/store"
changed question 45 0
says 1 "shelf: refused 30: the question is missing, too long or not well formed" "$room/store"
changed values 121 2 # the label of the last row is 499 + 256
says 1 "shelf: refused 53: the question does not give labels, offers and prices in range" "$room/store"

# the header is C++ too
if command -v g++ >/dev/null; then g++ -Wall -Wextra -Werror -fsyntax-only -x c++ include/waldumre_book.h; fi
echo "book: all passed"
