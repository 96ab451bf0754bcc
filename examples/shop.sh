#!/usr/bin/env bash
# shop.sh: proves and builds the libraries, then opens the practice shop, asks one question and shows why the answer is as it is.
# How far the proof is goes to stderr. Exits as shell/waldumre does: 0 answered, 1 refused, 2 if something is missing.
set -eu
cd "$(dirname "$0")/.."
. tools/need.sh
need python3 make
[[ -n ${WALDUMRE_LIBRARY:-} ]] || make --silent all || exit 2
exec shell/waldumre practice/harbour --echo -c 'RANGE OFFER(X) RETRIEVE W: X.ARTICLE, X.BRAND, X.PRICE: X.PRICE <= AVE(X.PRICE);' -c '\explain'
