#!/usr/bin/env bash
# Builds the library, proved, and asks it from C for what the labels of some articles show (7 and 8 if none is named).
set -eu
cd "$(dirname "$0")/.."
. tools/need.sh
need gcc
library=$(tools/library.sh)
mkdir -p target/c
gcc -std=c11 -O1 -DWALDUMRE_ASK -Iinclude tests/c/label.c "$library" -o target/c/label
if [[ $# -eq 0 ]]; then set -- 7 8; fi
target/c/label examples/offers "$@"
