#!/usr/bin/env bash
# What header and README promise of the C library: NULL with length 0, calls that are left, README's sample, the version.
set -eu
cd "$(dirname "$0")/.."
. tools/need.sh
need gcc g++ valgrind
library=$(tools/library.sh)
out=target/c
mkdir -p "$out"
build=(gcc -std=c11 -O1 -g -Wall -Wextra -Wpedantic -Werror -Iinclude)

"${build[@]}" tests/c/null.c "$library" -o "$out/null"
"$out/null"
valgrind --quiet --error-exitcode=9 "$out/null" >/dev/null || { echo "header: valgrind finds errors"; exit 1; }

# the first indented block of README that includes the header
awk '/^    #include "waldumre.h"/ {on = 1} /^[^ ]/ {if (on) exit} on' README.md >"$out/readme.h"
"${build[@]}" -DSAMPLE='"../../target/c/readme.h"' tests/c/sample.c "$library" -o "$out/sample"
"$out/sample"

# calls that are left: as an example, and at many moments
"${build[@]}" -pthread examples/budget.c "$library" -o "$out/budget"
timeout 60 "$out/budget" 300 | diff - <(printf 'slow: over its budget\nquick: 1024\n')
"${build[@]}" -pthread tests/c/leave.c "$library" -o "$out/leave"
timeout 60 "$out/leave" 100

# one version, three ways; the header is C++ too
cat >"$out/version.c" <<'END'
#include "waldumre.h"
#include <stdio.h>
#include <string.h>
int main(void)
{
    char text[32];
    snprintf(text, sizeof text, "%d.%d.%d", WALDUMRE_VERSION_MAJOR, WALDUMRE_VERSION_MINOR, WALDUMRE_VERSION_PATCH);
    return strcmp(text, WALDUMRE_VERSION) != 0 ||
           WALDUMRE_VERSION_NUMBER !=
               10000 * WALDUMRE_VERSION_MAJOR + 100 * WALDUMRE_VERSION_MINOR + WALDUMRE_VERSION_PATCH;
}
END
"${build[@]}" "$out/version.c" -o "$out/version"
"$out/version" || { echo "header: the versions differ"; exit 1; }
g++ -Wall -Wextra -Wpedantic -Werror -fsyntax-only -x c++ include/waldumre.h
echo "header: all passed"
