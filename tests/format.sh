#!/usr/bin/env bash
# docs/FORMAT.md is true: its tables are the model's and the header's, its examples print what it says.
#     format.sh [PROGRAM [READER]]     runs the examples with other programs
set -eu
cd "$(dirname "$0")/.."
. tools/need.sh
need python3
reader=${2:-}
if [[ $# -eq 0 ]]; then
  need make rt gcc
  set -- target/bin/program
  make --silent "$1"
  reader=target/c/read_text
  mkdir -p target/c
  gcc -std=c11 -O1 -Wall -Wextra -Werror -Iinclude tests/c/read_text.c "$(tools/library.sh)" -o "$reader"
fi
python3 tests/format.py "$1" "$reader"
