#!/usr/bin/env bash
# library.sh [NAME]: prints where the static library is (waldumre if none is named), and before that proves and builds it if it is missing
# or older than a file of crates/. LIBRARY=FILE takes that file instead.
set -eu
cd "$(dirname "$0")/.."
if [[ -n ${LIBRARY:-} ]]; then
  [[ -e $LIBRARY ]] || { echo "library.sh: there is no $LIBRARY" >&2; exit 2; }
  echo "$LIBRARY"
  exit 0
fi
. tools/need.sh
need make rt
archive=target/staticlib/lib${1:-waldumre}.a
make --silent "$archive" >&2
echo "$archive"
