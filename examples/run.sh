#!/usr/bin/env bash
# run.sh [FOLDER]: proves and builds the program, and shows of a collection (examples/offers if none is named) the question, as it was
# rewritten by the permits, and the answer. Bytes are shown as decimal numbers. How far the proof is goes to stderr.
# Exits 0 if the question was answered, 1 if it was refused, 2 if something is missing.
set -eu
cd "$(dirname "$0")/.."
. tools/need.sh
need make rt od sed
folder=${1:-examples/offers}
[[ -d $folder ]] || { echo "run.sh: there is no folder $folder" >&2; exit 2; }
make --silent target/bin/program || exit 2
program=$PWD/target/bin/program
printed=$(cd "$folder" && "$program")
echo "the question:"
if [[ -f $folder/question ]]; then od -An -v -tu1 "$folder/question" | tr -s ' \n' ' ' | sed 's/^ //; s/ $//'; fi
echo
if [[ $printed == refused* ]]; then
  echo "$printed"
  # where the bytes are wrong, as far as the bytes alone tell
  if command -v python3 >/dev/null && [[ -f $folder/catalogue ]]; then
    case $printed in
      'refused 2'?) tools/decode.py permits "$folder/permits" --catalogue "$folder/catalogue" >&2 || true ;;
      'refused 3'[012]) tools/decode.py question "$folder/question" --catalogue "$folder/catalogue" >&2 || true ;;
    esac
  fi
  exit 1
fi
echo "the question with the permits written into it:"
sed -n 4p <<<"$printed"
echo "the answer ($(sed -n 1p <<<"$printed")):"
sed -n '5,$p' <<<"$printed"
