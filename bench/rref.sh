#!/usr/bin/env bash
# Times `spasm rref` on random sparse matrices modulo 42013, the whole run from text to text, and prints seconds (best of three), the peak
# memory and the rank. Where FLINT's library is installed (Debian: libflint-dev), also the ratio to its dense `nmod_mat_rref` on the first
# matrix, elimination alone.
set -eu
cd "$(dirname "$0")/.."
. bench/common.sh
random_text 2000 2000 3 bench/out/square.sms 3
test -f bench/out/wide.sms || random_text 20000 30000 2 bench/out/wide.sms 5
need_programs
for text in bench/out/square.sms bench/out/wide.sms; do
    rank=$(./spasm rank < "$text")
    for workers in 1 4; do
        seconds=$(best 1 "$text" seconds_and_peak ./spasm rref --workers "$workers")
        peak=$(best 2 "$text" seconds_and_peak ./spasm rref --workers "$workers")
        awk -v t="$text" -v w="$workers" -v s="$seconds" -v k="$peak" -v r="$rank" \
            'BEGIN { printf "spasm rref --workers %d < %s: %.2f s, peak %.0f MB, %s\n", w, t, s, k / 1024, r }'
    done
done
ours=$(best 1 bench/out/square.sms seconds_and_peak ./spasm rref)
flint=$(flint rref bench/out/square.sms)
test -z "$flint" || awk -v f="$flint" -v o="$ours" \
    'BEGIN { printf "FLINT nmod_mat_rref on the first: %.2f s; spasm takes %.2f times as long, reading and writing included\n", f, o / f }'
