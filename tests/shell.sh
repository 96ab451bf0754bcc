#!/usr/bin/env bash
# The shell (shell/waldumre) over the library: damaged folders, scripts, a terminal, drawn questions read back, docs/CLASS.md, the page.
# WALDUMRE_LIBRARY=FILE takes that library instead of the one that make builds.
set -eu
cd "$(dirname "$0")/.."
. tools/need.sh
need python3
python3 -c 'import sys; sys.exit(sys.version_info < (3, 11))' || { echo "shell: needs Python 3.11 or later"; exit 1; }
if [[ -z ${WALDUMRE_LIBRARY:-} ]]; then
  need make gcc
  make --silent all
fi
examples/shop.sh | diff - examples/shop.expected
for test in folders script terminal readback class page; do
  python3 -B "tests/shell/$test.py"
done
echo "shell: all passed"
