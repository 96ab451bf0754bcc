#!/usr/bin/env bash
# The kit of conformance/: both hands' programs pass it, a wrong one does not, and its cases are those that the tool writes.
# Then files that the kit cannot hold: a folder in a file's place, and files far over their limits.
set -eu
cd "$(dirname "$0")/.."
. tools/need.sh
need make rt cargo gcc
ours=target/bin/program
theirs=tests/target/release/program
room=$(mktemp -d)
trap 'rm -rf "$room"' EXIT

make --silent "$ours"
(cd tests && nice -n 5 cargo build --quiet --offline --release -p judge --bins)

echo "conformance: the cases are those of the tool"
tests/target/release/conformance "$room/cases"
diff -r "$room/cases" conformance/cases

for program in "$theirs" "$ours"; do
  echo "conformance: $program"
  conformance/run.sh "$program" | tail -n 20 | tee "$room/said"
  [[ $(tail -n 1 "$room/said") == *' passed, 0 failed' ]]
done

echo "conformance: the texts"
tests/target/release/texts "$room/texts"
diff -r "$room/texts" conformance/texts
gcc -std=c11 -O1 -Wall -Wextra -Werror -Iinclude tests/c/read_text.c "$(tools/library.sh)" -o "$room/read_text"
for reader in tests/target/release/read_text "$room/read_text"; do
  conformance/run-texts.sh "$reader" | tail -n 20 | tee "$room/said"
  [[ $(tail -n 1 "$room/said") == *' passed, 0 failed' ]]
done
printf '#!/bin/sh\necho "refused 50"\n' >"$room/wrong"
chmod +x "$room/wrong"
if conformance/run-texts.sh "$room/wrong" >"$room/said"; then echo "conformance: a reader that refuses all passes"; exit 1; fi

printf '#!/bin/sh\necho "refused 10"\n' >"$room/wrong"
chmod +x "$room/wrong"
if conformance/run.sh --only 'catalogue-*' "$room/wrong" >"$room/said"; then echo "conformance: a program that refuses all passes"; exit 1; fi

# What the runner says of a case that fails, of one by its name, of a program that hangs, and in TAP.
says() { # what it prints for the arguments, all of it
  if conformance/run.sh "$@" >"$room/said"; then echo "conformance: run.sh $* passes"; exit 1; fi
  diff "$room/said" - || { echo "conformance: run.sh $* says otherwise"; exit 1; }
}
printf '#!/bin/sh\necho "refused 10"\necho "why" >&2\nexit 3\n' >"$room/wrong"
says --only no-permit-001 "$room/wrong" <<'END'
FAILED no-permit-001: No permits at all.
  expected: refused 33
  printed: refused 10
  exit status 3
  standard error: why
0 passed, 1 failed
END
says --tap --only 'catalogue-00[45]' "$room/wrong" <<'END'
1..2
ok 1 - catalogue-004: Four files with no byte.
not ok 2 - catalogue-005: One relation.
# expected: rows 1
# expected: columns 1
# expected: question 9
# expected: 1 0 0 33 0 0 19 16 16
# expected: 5
# printed: refused 10
# exit status 3
# standard error: why
# 1 passed, 1 failed
END
if command -v timeout >/dev/null; then
  printf '#!/bin/sh\necho "refused 10"\nsleep 60\n' >"$room/wrong"
  says --limit 1 --only catalogue-001 "$room/wrong" <<'END'
FAILED catalogue-001: An empty catalogue.
  took over 1 seconds
0 passed, 1 failed
END
fi

# Each file of the stored run in turn: a folder in its place counts as empty; a million bytes more are noticed.
ours=$PWD/$ours
prints() { # NUMBER FOLDER
  (cd "$2" && "$ours") | diff - <(echo "refused $1") || { echo "program: not refused $1 for $3"; exit 1; }
}
for item in catalogue:10:10 values:11:11 permits:33:20 question:30:30; do
  IFS=: read -r file empty long <<<"$item"
  rm -rf "$room/run"
  cp -r crates/program/data "$room/run"
  head -c 1000000 /dev/zero >>"$room/run/$file"
  prints "$long" "$room/run" "a long $file"
  rm "$room/run/$file"
  prints "$empty" "$room/run" "no $file"
  mkdir "$room/run/$file"
  prints "$empty" "$room/run" "a folder for $file"
done
echo "conformance: all passed"
