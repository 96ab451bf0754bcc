#!/usr/bin/env bash
# Installs into a temporary folder, and builds the label server with pkg-config alone, against the shared and the static library.
set -eu
cd "$(dirname "$0")/.."
. tools/need.sh
need make gcc pkg-config man python3
fail() { echo "install: $1"; exit 1; }
room=$(mktemp -d)
trap 'rm -rf "$room"' EXIT
version=$(sed -n 's/^#define WALDUMRE_VERSION "\(.*\)"/\1/p' include/waldumre.h)
abi=${version%.*}

make --silent install PREFIX="$room/usr" >"$room/log" 2>&1 || { cat "$room/log"; exit 1; }
export PKG_CONFIG_PATH=$room/usr/lib/pkgconfig
strict=(gcc -std=c11 -O1 -g -Wall -Wextra -Wpedantic -Werror)
# words on purpose: flags
# shellcheck disable=SC2046
for kind in shared static; do
  flags=()
  [[ $kind == shared ]] || flags=(-static)
  "${strict[@]}" -DWALDUMRE_ASK tests/c/label.c "${flags[@]}" $(pkg-config --cflags --libs waldumre) -o "$room/label-$kind"
  "${strict[@]}" tests/c/package.c "${flags[@]}" $(pkg-config --cflags --libs waldumre) -o "$room/package-$kind"
  env LD_LIBRARY_PATH="$room/usr/lib" "$room/label-$kind" examples/offers 7 8 -1 | diff - tests/c/label.expected
  env LD_LIBRARY_PATH="$room/usr/lib" "$room/package-$kind"
done
loaded() { readelf -d "$1" | sed -n 's/.*(NEEDED).*\[\(libwaldumre.*\)\]/\1/p'; }
[[ $(loaded "$room/label-shared") == "libwaldumre.so.$abi" ]] || fail "the shared one loads '$(loaded "$room/label-shared")'"
[[ -z $(loaded "$room/label-static") ]] || fail "the static one loads $(loaded "$room/label-static")"

# a shared library has the functions of its header and no others, no stack that can be run, and needs only the C library
libraries=(waldumre)
if [[ -e crates/waldumre_book ]]; then libraries+=(waldumre_book); fi
for name in "${libraries[@]}"; do
  library=$room/usr/lib/lib$name.so
  nm -D --defined-only "$library" | awk '$2 == "T" {sub("@.*", "", $3); print $3}' |
    diff - <(grep -oE '\bwaldumre_[a-z_]+\(' "include/$name.h" | tr -d '(' | sort -u) || fail "$name: these symbols differ"
  readelf -lW "$library" | grep -q 'GNU_STACK.* RWE ' && fail "$name: the stack can be run"
  readelf -d "$library" | grep NEEDED | grep -v 'libc\.so' && fail "$name needs more than the C library"
  [[ $(pkg-config --modversion "$name") == "$version" ]] || fail "pkg-config has another version of $name"
  grep -q "_$abi " "package/$name.map" || fail "package/$name.map has another version"
done

# one version everywhere
[[ $(sed -n 's/^## //p' CHANGELOG.md | head -n 1) == "$version" ]] || fail "CHANGELOG.md has another version"
for page in man/*; do
  grep -q "\"waldumre $version\"" "$page" || fail "$page has another version"
  said=$(man --warnings -l "$page" 2>&1 >/dev/null)
  [[ -z $said ]] || fail "$page: $said"
done
[[ -e $room/usr/share/man/man1/waldumre.1 && -e $room/usr/share/man/man1/waldumre-bytes.1 && -e $room/usr/share/man/man3/waldumre.3 ]] || fail "the man pages are not there"
for page in README.md examples/bindings/waldumre.py; do
  grep -q "libwaldumre\.so\.$abi\b" "$page" || fail "$page names another version"
done

# the program, on the example of its man page
mkdir "$room/run"
grep "printf '" man/waldumre-bytes.1 | sed 's/\\e/\\/g' >"$room/example"
(cd "$room/run" && sh "$room/example" && "$room/usr/bin/waldumre-bytes") |
  diff - <(printf 'rows 2\ncolumns 1\nquestion 9\n1 0 0 33 0 0 19 16 16\n5\n6\n') || fail "the man page's example"

# the shell as installed finds its modules, the library and the practice shops; it leaves no file behind
if [[ -n $(nm -D --defined-only "$room/usr/lib/libwaldumre.so" | grep waldumre_ask_text) ]]; then
  (cd / && env -u WALDUMRE_LIBRARY "$room/usr/bin/waldumre" "$room/usr/share/waldumre/practice/harbour" --format csv \
    -c 'RANGE OFFER(X) RETRIEVE W: X.ARTICLE, X.BRAND: X.PRICE < 100') | diff - <(printf 'ARTICLE,BRAND\nYOGURT,ALPEN\n') || fail "the shell"
  [[ -z $(find "$room/usr" -name '__pycache__') ]] || fail "the shell wrote to its folder"
else
  echo "install: the library has no reader of QUEL yet, so the shell was NOT run"
fi

# below DESTDIR lie the same files, and nothing names the folder that they were built or staged in
make --silent install PREFIX=/usr DESTDIR="$room/stage" >"$room/log" 2>&1 || { cat "$room/log"; exit 1; }
diff <(cd "$room/usr" && find . | sort) <(cd "$room/stage/usr" && find . | sort) || fail "DESTDIR has other files"
grep -q '^prefix=/usr$' "$room/stage/usr/lib/pkgconfig/waldumre.pc" || fail "the prefix is wrong"
if grep -rlF -e "$room" -e "$PWD" "$room/stage"; then fail "these files name the folder"; fi
echo "install: all passed"
