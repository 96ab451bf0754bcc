#!/usr/bin/env bash
# The bindings from Python and C++ (examples/bindings) print the stored answers, and say what is wrong with what they are given.
set -eu
cd "$(dirname "$0")/.."
. tools/need.sh
need make gcc g++ python3 valgrind
make --silent all
out=target/c
mkdir -p "$out"
library=$PWD/target/package/libwaldumre.so.$(sed -n 's/^#define WALDUMRE_VERSION "\(.*\)"/\1/p' include/waldumre.h)
folder=examples/bindings

python3 -B "$folder/example.py" "$library" | diff - "$folder/example.expected"
for flags in "-fsanitize=address,undefined" "-DNDEBUG"; do
  g++ -std=c++17 -O1 -g -Wall -Wextra -Wpedantic -Werror $flags -Iinclude "$folder/example.cpp" target/package/libwaldumre.a -o "$out/example"
  "$out/example" | diff - "$folder/example.expected"
done
valgrind --quiet --error-exitcode=9 --leak-check=full "$out/example" >/dev/null

# what the Python class refuses, and calls from several threads at once
PYTHONPATH=$folder python3 -B - "$library" <<'END'
import struct
import sys
import threading
from waldumre import Collection, Refused, TRUE, attribute, constant, each, permit, compare, EQ, GT
from waldumre import name_attribute, name_relation, name_value

def fails(error, call):
    try:
        call()
    except error as raised:
        return raised
    sys.exit(f"bindings: no {error.__name__}")

shop = Collection(sys.argv[1])
assert fails(Refused, lambda: shop.ask(b"", b"")).number == 10          # no relation
fails(ValueError, lambda: shop.stored(2, [(1, 2), (3,)]))
fails(struct.error, lambda: shop.stored(1, [(2**31,)]))
assert (shop.catalogue, shop.values) == (b"", b"")
shop.stored(1, [(number,) for number in range(1024)])
assert fails(Refused, lambda: shop.ask(permit(0, 65535, TRUE), b"\x21")).number == 30
assert fails(Refused, lambda: shop.ask(b"\x40", b"\x21")).number == 20
names = name_relation(0, "R") + name_attribute(0, 0, "A") + name_value(-1, "LOW")
for text, number in (("", 50), ("RANGE R(X) RETRIEVE W:X.B", 51), (b"RANGE R(X)\xffRETRIEVE W:X.A", 50)):
    assert fails(Refused, lambda: shop.ask_text(b"", text, names)).number == number
    assert fails(Refused, lambda: shop.read_query(text, names)).number == number
assert shop.read_query("RANGE R(X) RETRIEVE W:X.A:X.A=LOW", names) == each(0, 0) + attribute(0, 0) + compare(attribute(0, 0), EQ, constant(-1))
assert fails(Refused, lambda: shop.ask_text(b"", "RANGE R(X) RETRIEVE W:X.A", names)).number == 33
fails(ValueError, lambda: name_relation(0, "ABCDEFGHIJKLM"))
empty = shop.ask(permit(0, 65535, TRUE), each(0, 0) + attribute(0, 0) + TRUE, cells=0)
assert (empty.rows, empty.complete) == ([], False)
wrong = []

def work(limit):
    for _ in range(50):
        answer = shop.ask(permit(0, 1, compare(attribute(0, 0), GT, constant(limit))), each(0, 0) + attribute(0, 0) + TRUE)
        if answer.rows != [(number,) for number in range(limit + 1, 1024)]:
            wrong.append(limit)

threads = [threading.Thread(target=work, args=(1000 + n,)) for n in range(4)]
for thread in threads:
    thread.start()
for thread in threads:
    thread.join()
assert not wrong, wrong
END
# README's sample in Python, with the library where it is
awk '/^    from waldumre import/ {on = 1} /^[^ ]/ {if (on) exit} on {sub("    ", ""); print}' README.md |
  sed "s|Collection()|Collection('$library')|" >"$out/readme.py"
PYTHONPATH=$folder python3 -B "$out/readme.py" | diff - <(echo '[(8,)]')
echo "bindings: all passed"
