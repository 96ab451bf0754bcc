#!/usr/bin/env bash
# The pages name files that are there. SECURITY.md names the toolchain that proved; another one proves as well, so that is only said.
set -eu
cd "$(dirname "$0")/.."
. tools/need.sh
need rt
failed=0
for page in README.md SECURITY.md docs/FORMAT.md conformance/README.md; do
  # words in backticks with a slash or the ending of a page, up to the first space
  for name in $(grep -o '`[^`]*`' "$page" | tr -d '`' | grep -E '/|\.md$' | sed 's/ .*//' | grep -vE '^(target|/)|[*:{}(]' | sort -u); do
    [[ -e $name || -e $(dirname "$page")/$name ]] || { echo "pages: $page names $name, which is not there"; failed=1; }
  done
done
grep -qE '`rattle-kit-[^ `]+ logic [0-9a-f]{16}`' SECURITY.md || { echo "pages: SECURITY.md names no toolchain"; failed=1; }
grep -qF "\`$(rt version)\`" SECURITY.md || echo "pages: this toolchain is $(rt version), SECURITY.md names another"
[[ $failed -eq 0 ]] && echo "pages: all passed"
exit "$failed"
