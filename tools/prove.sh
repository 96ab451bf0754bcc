#!/usr/bin/env bash
# prove.sh lib NAME (a static library), or prove.sh run NAME (a program): proves the crate and what it depends on and builds it, which leaves it in crates/NAME/out,
# and says on stderr how long that takes and how far it is. What rt prints goes to target/NAME.log, and to stderr if something is not proved.
# rt runs a program that it has built: here with no file beside it.
set -eu
cd "$(dirname "$0")/.."
. tools/need.sh
need rt awk
name=$2
mkdir -p target
log=$PWD/target/$name.log
# the crate and all that it depends on, as far as it is in this repository
total=$(awk -v name="$name" -F: '
  !/^#/ && NF { split($1, head, " "); own[head[1]] = 1; needs[head[1]] = $2 }
  function visit(crate,   list, i, n) {
    if (!(crate in own) || crate in seen) return
    seen[crate] = 1; count++
    n = split(needs[crate], list, " ")
    for (i = 1; i <= n; i++) visit(list[i])
  }
  END { visit(name); print count + 0 }' crates.txt)
[[ $total -gt 0 ]] || { echo "prove.sh: crates.txt has no $name" >&2; exit 2; }
echo "proving $name, $total crates: about 25 minutes on four idle cores; what has not changed since the last time is not proved again" >&2
SECONDS=0
k=0
time_so_far() { printf '%d:%02d' $((SECONDS / 60)) $((SECONDS % 60)); }
# of each crate that rt checks it prints how many modules it had and how many are new, and then whether all is proved
(cd "crates/$name" && nice -n 5 rt "$1" </dev/null 2>&1) | {
  crate=
  new=0
  while IFS= read -r line; do
    printf '%s\n' "$line"
    case $line in
      'crate '*' checked='*)
        crate=${line#crate }
        crate=${crate%%:*}
        new=${line##*checked=}
        ;;
      'logic=proved '*)
        if [[ -n $crate ]]; then
          k=$((k + 1))
          [[ $new == 0 ]] || echo "proved crate $k of $total, $crate, $(time_so_far)" >&2
          crate=
        fi
        ;;
    esac
  done
} >"$log" || true
status=${PIPESTATUS[0]}
if [[ $status -ne 0 ]]; then cat "$log" >&2; exit "$status"; fi
echo "proved $name, $(time_so_far)" >&2
