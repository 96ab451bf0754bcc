#!/usr/bin/env bash
# The library from outside: held to the judge (another hand's evaluator) and used from C.
# Exits 0 if all pass. No network.
set -eu
cd "$(dirname "$0")/.."
. tools/need.sh
need make rt cargo gcc g++ valgrind
nice=(nice -n 5)

# The source decides: once it exports waldumre_ask, all that is said of ask is tested; likewise the reader of texts and the label book.
features=()
calls=(evaluate)
crates=(waldumre)
if grep -q 'fn waldumre_ask' crates/waldumre/src/lib.rt; then
  features+=(--features ask)
  calls=(evaluate ask)
fi
if grep -q 'fn waldumre_read_query' crates/waldumre/src/lib.rt; then
  features+=(--features text)
fi
if [[ -e crates/waldumre_book/src/lib.rt ]] && grep -q 'fn waldumre_label_book' crates/waldumre_book/src/lib.rt; then
  features+=(--features book)
  crates+=(waldumre_book)
fi

for crate in "${crates[@]}"; do
  make --silent "target/staticlib/lib$crate.a"
  # What the header says: nothing is needed but memcpy, memset and their like, and there is no variable.
  archive=target/staticlib/lib$crate.a
  if nm -u "$archive" | grep ' U ' | grep -vE ' U (mem(cpy|set|move|cmp)|waldumre_(ask|evaluate))$'; then echo "tests: $crate needs more"; exit 1; fi
  if nm "$archive" | grep -E ' [bBdDC] '; then echo "tests: $crate has variables"; exit 1; fi
done
library=target/staticlib/libwaldumre.a

echo "tests: the judge's own examples"
(cd tests && "${nice[@]}" cargo test --quiet --offline --release -p judge --test examples)

echo "tests: the library against the judge"
(cd tests && "${nice[@]}" cargo test --offline --release -p library "${features[@]}" -- --nocapture --test-threads=1)

echo "tests: from C"
out=target/c
mkdir -p "$out/empty"
for call in "${calls[@]}"; do
  flags=()
  if [[ $call == ask ]]; then flags=(-DWALDUMRE_ASK); fi
  gcc -std=c11 -O1 -g -Wall -Wextra -Wpedantic -Werror "${flags[@]}" -Iinclude tests/c/label.c \
    "$library" -o "$out/label-$call"
  "$out/label-$call" examples/offers 7 8 -1 | diff - tests/c/label.expected
  # an empty folder: the keeper of the relations has given no catalogue
  if "$out/label-$call" "$out/empty" 7 >"$out/refused"; then exit 1; fi
  echo "article 7: refused 10" | diff - "$out/refused"
  valgrind --quiet --error-exitcode=9 --leak-check=full "$out/label-$call" examples/offers 7 8 -1 >/dev/null
  echo "valgrind, $call: no errors"
done
# the headers are C++ too
for header in include/*.h; do g++ -Wall -Wextra -Werror -Iinclude -fsyntax-only -x c++ "$header"; done
echo "tests: all passed"
