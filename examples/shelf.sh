#!/usr/bin/env bash
# Builds the label book, proved, and draws the shelf of examples/shelf/store: all pages with an offer, or those named, as 2 or 1-3.
set -eu
cd "$(dirname "$0")/.."
mkdir -p target/c
make --silent target/staticlib/libwaldumre_book.a
gcc -std=c11 -O1 -Iinclude examples/shelf/shelf.c target/staticlib/libwaldumre_book.a -o target/c/shelf
target/c/shelf examples/shelf/store "$@"
