#!/usr/bin/env bash
# The benchmark: bench/run.sh [--keep | --check] [WORKLOAD...]
# --check compares all answers and measures nothing. Else: builds, compares all answers, measures, and writes table.tsv, table.md and picture.svg to target/bench/results.
# --keep copies them to bench/results and puts the table into bench/README.md. LIMIT=SECONDS is the most that one call may take.
set -euo pipefail
cd "$(dirname "$0")/.."
keep=no
check=no
case ${1:-} in
  --keep) keep=yes; shift ;;
  --check) check=yes; shift ;;
esac
if [[ $# -eq 0 ]]; then set -- W{1,2,3,5,7,8} B{1..8} N{1..10}; fi
bench/build.sh
inputs=target/bench/inputs
results=target/bench/results
mkdir -p "$results"
if [[ $check == yes ]]; then exec target/bench/bench check "$inputs" "${LIMIT:-20}" "$@" N6@32; fi

load() { cut -d ' ' -f 1-3 /proc/loadavg; }
{
  echo "load before: $(load)"
  { target/bench/bench columns; target/bench/bench "$inputs" "${LIMIT:-20}" "$@"; } | tee "$results/table.tsv" >&2
  echo "load after: $(load)"
  echo "cores: $(nproc), $(sed -n 's/^model name[^:]*: //p' /proc/cpuinfo | head -n 1)"
  echo "SQLite $(target/bench/bench version), $(gcc --version | head -n 1)"
} >"$results/machine.txt"
python3 bench/report.py "$results"
cat "$results/table.md"
if [[ $keep == yes ]]; then
  mkdir -p bench/results
  cp "$results"/{table.tsv,table.md,machine.txt,picture.svg} bench/results
  python3 bench/report.py bench/results bench/README.md
fi
