#!/bin/sh
# run-texts.sh PROGRAM: runs a reader's program over all texts, each in a folder of its own, and says 'N passed, M failed'.
# run-texts.sh --unpack FOLDER: writes each case as a folder with the files `names`, `text` and `room`, `expected` and `about`.
# POSIX sh; needs cat, cmp, basename, dirname, mkdir, mktemp, mv, rm.
set -u
here=$(cd "$(dirname "$0")" && pwd)

# A line of bytes, as decimal numbers, to the file $1.
write_bytes() {
  file=$1
  shift
  if [ $# -eq 0 ]; then : >"$file"; return; fi
  # shellcheck disable=SC2059
  printf "$(printf '\\%03o' "$@")" >"$file"
}

# The case $1 to the folder $2.
unpack() {
  {
    IFS= read -r about
    printf '%s\n' "$about" >"$2/about"
    while IFS= read -r line && [ "$line" != prints ]; do
      # the bytes are the words of the line
      # shellcheck disable=SC2086
      case $line in
        shows*) ;;
        room*) printf '%s\n' "${line#room }" >"$2/room" ;;
        names' '* | text' '*) write_bytes "$2/${line%% *}" ${line#* } ;;
        names | text) : >"$2/$line" ;;
      esac
    done
    cat >"$2/expected"
  } <"$1"
}

if [ $# -eq 2 ] && [ "$1" = --unpack ]; then
  for case in "$here"/texts/*; do
    folder=$2/$(basename "$case")
    mkdir -p "$folder" && unpack "$case" "$folder" || exit 2
  done
  exit 0
fi
[ $# -eq 1 ] || { echo "usage: run-texts.sh PROGRAM, or run-texts.sh --unpack FOLDER" >&2; exit 2; }
program=$(cd "$(dirname "$1")" && pwd)/$(basename "$1")
[ -x "$program" ] || { echo "run-texts.sh: $1 is no program" >&2; exit 2; }

room=$(mktemp -d) || exit 2
trap 'rm -rf "$room"' EXIT
passed=0
failed=0
for case in "$here"/texts/*; do
  rm -rf "$room/run" "$room/case"
  mkdir "$room/run" "$room/case"
  unpack "$case" "$room/case"
  for file in names text room; do
    mv "$room/case/$file" "$room/run/$file"
  done
  (cd "$room/run" && "$program") >"$room/printed" 2>"$room/said"
  if cmp -s "$room/printed" "$room/case/expected"; then
    passed=$((passed + 1))
  else
    failed=$((failed + 1))
    echo "FAILED $(basename "$case"): $(cat "$room/case/about")"
  fi
done
echo "$passed passed, $failed failed"
[ "$failed" -eq 0 ]
