#!/bin/sh
# run.sh [--only CASE] [--limit SECONDS] [--tap] PROGRAM
#   runs a program over the cases, each in a folder of its own, and says 'N passed, M failed'. CASE is the name of a case or
#   a pattern of names; SECONDS bound each run, where there is a `timeout` (10 if not said); --tap prints TAP.
# run.sh --unpack FOLDER
#   writes each case as a folder with the program's files, `expected` and `about`.
# POSIX sh; needs basename, cat, cmp, diff, dirname, mkdir, mktemp, rm, sed.
set -u
here=$(cd "$(dirname "$0")" && pwd)

usage() {
  sed -n 's/^# \(run\.sh .*\)/usage: \1/p' "$0" >&2
  exit 2
}

# Bytes, as decimal numbers, to the file $1.
write_bytes() {
  file=$1
  shift
  # shellcheck disable=SC2059
  printf "$(printf '\\%03o' "$@")" >"$file"
}

# The case $1: its files to the folder $2, `expected` to the folder $3, and the line of explanation to $about.
unpack() {
  {
    IFS= read -r about
    while IFS= read -r line && [ "$line" != prints ]; do
      if [ "$line" = "${line#* }" ]; then
        : >"$2/$line"
      else
        # the bytes are the words of the line
        # shellcheck disable=SC2086
        write_bytes "$2/${line%% *}" ${line#* }
      fi
    done
    cat >"$3/expected"
  } <"$1"
}

only='*'
limit=10
tap=no
while [ $# -gt 0 ]; do
  case $1 in
    --unpack)
      [ $# -eq 2 ] || usage
      for case in "$here"/cases/*; do
        folder=$2/$(basename "$case")
        mkdir -p "$folder" && unpack "$case" "$folder" "$folder" || exit 2
        printf '%s\n' "$about" >"$folder/about"
      done
      exit 0
      ;;
    --only) [ $# -ge 2 ] || usage; only=$2; shift 2 ;;
    --limit) [ $# -ge 2 ] || usage; limit=$2; shift 2 ;;
    --tap) tap=yes; shift ;;
    -*) usage ;;
    *) break ;;
  esac
done
[ $# -eq 1 ] || usage
program=$(cd "$(dirname "$1")" && pwd)/$(basename "$1")
[ -x "$program" ] || { echo "run.sh: $1 is no program" >&2; exit 2; }

# the pattern may match many
# shellcheck disable=SC2086
set -- "$here"/cases/$only
[ -e "$1" ] || { echo "run.sh: no case $only" >&2; exit 2; }

bounded=
if command -v timeout >/dev/null; then bounded="timeout -k 1 $limit"; fi
room=$(mktemp -d) || exit 2
trap 'rm -rf "$room"' EXIT
trap 'exit 2' HUP INT TERM

# 124, or 137 if the program had to be killed.
is_late() {
  [ -n "$bounded" ] && { [ "$status" -eq 124 ] || [ "$status" -eq 137 ]; }
}

# The first lines of a text, none of them long, with carriage returns to be seen.
return=$(printf '\r')
short() {
  sed -n -e "s/$return/\\\\r/g" -e '1,10{s/^\(.\{160\}\)..*/\1 ../;p;}' -e '11s/.*/../p'
}

# What is wrong with the last run: the lines that differ, and how the program ended.
explain() {
  diff "$room/expected" "$room/printed" >"$room/lines"
  sed -n 's/^< /expected: /p' "$room/lines" | short
  sed -n -e 's/^> /printed: /p' -e '/^\\/p' -e 's/^B.*/printed bytes that are no text/p' "$room/lines" | short
  [ -s "$room/printed" ] || echo "printed nothing"
  if is_late; then
    echo "took over $limit seconds"
  elif [ "$status" -ne 0 ]; then
    echo "exit status $status"
  fi
  sed 's/^/standard error: /' "$room/said" | short
}

[ $tap = no ] || echo "1..$#"
number=0
failed=0
for case in "$@"; do
  number=$((number + 1))
  name=${case##*/}
  rm -rf "$room/run"
  mkdir "$room/run"
  unpack "$case" "$room/run" "$room"
  # the exit lets this shell, and not the outer one, say that a program was killed
  # shellcheck disable=SC2086
  (cd "$room/run" && $bounded "$program"; exit $?) </dev/null >"$room/printed" 2>"$room/said"
  status=$?
  if ! is_late && cmp -s "$room/printed" "$room/expected"; then
    [ $tap = no ] || echo "ok $number - $name: $about"
    continue
  fi
  failed=$((failed + 1))
  if [ $tap = yes ]; then
    echo "not ok $number - $name: $about"
    explain | sed 's/^/# /'
  else
    echo "FAILED $name: $about"
    explain | sed 's/^/  /'
  fi
done
summary="$((number - failed)) passed, $failed failed"
if [ $tap = yes ]; then echo "# $summary"; else echo "$summary"; fi
[ "$failed" -eq 0 ]
