#!/bin/sh
# Writes the collection of the example, its permits and its question: make.sh FOLDER (examples/shelf/store if none is named).
# Here stand all bytes of the four files as decimal numbers; what follows a # is for the reader.
set -eu
folder=${1:-$(dirname "$0")/store}
mkdir -p "$folder"

numbers() { sed 's/#.*//' | tr -s ' ' '\n' | grep . ; }
byte() { printf "\\$(printf %03o "$1")"; }
bytes() { numbers | while read -r n; do byte "$n"; done; }
# 4 bytes each, low byte first
values() { numbers | while read -r n; do for shift in 0 8 16 24; do byte $((n >> shift & 255)); done; done; }

bytes >"$folder/catalogue" <<END
48 2 16 0       # relation 0, LABEL (label, article), 16 rows: which article hangs where
48 5 18 0       # relation 1, OFFER (article, rank, number, price, cost), 18 rows: price and cost in cents, the best rank is the lowest
48 1 15 0       # relation 2, RELEASE (number), 15 rows: the offers that may be shown
END

values >"$folder/values" <<END
# LABEL
  0 101         # milk
  1 102         # butter
  2 103         # yoghurt
  3 104         # gouda
  4 105         # cream
  5 106         # eggs
  7 107         # feta
  8 108         # oat drink: has no offer
 12 109         # honey
 17 101         # milk once more, at the end of the shelf
 18 201         # paper bag
 19 202         # candles
 21 203         # coffee machine
 22 204         # wine cabinet
 30 205         # recipe card
499 301         # chewing gum, at the till
# OFFER
101 1 1001    119     84
101 2 1002    129     90
102 1 1003    249    190
103 2 1004     89     61
103 1 1005     79     60    # better rank than the row before it
104 1 1006    329    240    # equal ranks: this row is met first, the label shows it
104 1 1007    299    235    # and not this one, though it costs less
105 0 1008     99     95    # best rank, but not released: neither shown nor in the way of the next
105 1 1009    159    120
106 1 1010    349    260
107 1 1011    279    201    # not released, and the only one: the label stays empty
109 1 1012    549    400
201 1 2001      5      2
202 1 2002   1299    700
203 1 2003 123456  98000
204 1 2004 999999 810000
205 1 2005      0     12    # free
301 1 3001    110     55
# RELEASE: all but 1008 and 1011, and 1002 is withdrawn
1001 1003 1004 1005 1006 1007 1009 1010 1012 2001 2002 2003 2004 2005 3001
END

bytes >"$folder/permits" <<END
64 0 255 255    # of LABEL, all attributes,
16              #   of all rows
64 1 15 0       # of OFFER, attributes 0 to 3, so not the cost,
22 1 2          #   where SOME row 1 of RELEASE
21 1 33 1 0     #     has as its number
33 0 2          #     the number of the offer
END

bytes >"$folder/question" <<END
1 0 0           # RANGE variable 0 over LABEL
1 1 1           # RANGE variable 1 over OFFER
33 0 0          # the label,
33 1 2          # the number
33 1 3          # and the price,
19              # where
21 1 33 0 1     #   the label's article =
33 1 0          #     the offer's article
18 22 2 1       # AND NOT SOME offer, variable 2,
19              #   has
21 1 33 2 0     #     an article =
33 1 0          #       the offer's article
21 3 33 2 1     #     AND a rank <
33 1 1          #       the offer's rank
END
