#!/usr/bin/env bash
# Nothing of the asker's runs on a hidden row (tests/secrecy/README.md): the library passes, and an evaluator that tries the guard last does not.
# Exits 0 if both are so.
set -eu
cd "$(dirname "$0")/.."
bash tests/secrecy/run.sh
if EACH=2 DRAWN=5 bash tests/secrecy/run.sh --guard-last >target/secrecy/guard-last.log 2>&1; then
  echo "secrecy: a guard that is tried last was not found"
  exit 1
fi
grep -q 'FAIL' target/secrecy/guard-last.log || { cat target/secrecy/guard-last.log; exit 1; }
echo "secrecy: all passed"
