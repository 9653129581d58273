#!/usr/bin/env bash
# Times the dense elimination: multiples of rows added by lanes against the plain loop, modulo 2147483647; and the factors, whose pivots
# `spasm rank --rounds 0` counts, of a dense random matrix of this size (or 2000 x 2000) modulo 42013 and modulo 2147483647: with 1 worker,
# best of three, against FLINT's `nmod_mat_rank` and fflas-ffpack's `Rank` where these libraries are installed (Debian: libflint-dev;
# fflas-ffpack and libopenblas-dev) and take the modulus; and with 1 and with 4 workers in turn, so many times (or nine), and likewise the
# products of such an elimination alone, in C (`bench/products.c`): what the processors give to one and to four threads. The elimination
# alone; then the whole command modulo 42013, without rounds and as it is called by default.
set -eu
cd "$(dirname "$0")/.."
. bench/common.sh
size=${1:-2000}
runs=${2:-9}
text=bench/out/dense.sms
random_text "$size" "$size" "$size" "$text" 4
program=$(timed_program)
lanes=$(best 1 /dev/null "$program" lanes)
plain=$(best 2 /dev/null "$program" lanes)
awk -v l="$lanes" -v p="$plain" \
    'BEGIN { printf "rows of 2000: by lanes %.2f ns an entry, plainly %.2f ns; %.1f times as fast\n", l / 40000, p / 40000, p / l }'
if grep -q avx2 /proc/cpuinfo && gcc -O3 -march=x86-64-v3 -pthread -o bench/out/products bench/products.c; then
    echo "the products alone, in C, ms, the least (the middle): $(by_workers "$runs" /dev/null '{ print $1 }' bench/out/products)"
fi
for p in 42013 2147483647; do
    one=$(best 1 "$text" "$program" factors "$p" 1)
    awk -v o="$one" -v n="$size" -v p="$p" 'BEGIN { printf "factors of a dense %d x %d matrix modulo %s: %.2f s with 1 worker\n", n, n, p, o / 1e6 }'
    echo "  ms, the least (the middle): $(by_workers "$runs" "$text" '{ print $1 }' "$program" factors "$p")"
    flint=$(flint rank "$text" "$p")
    test -z "$flint" || awk -v f="$flint" -v o="$one" \
        'BEGIN { printf "  FLINT nmod_mat_rank: %.2f s; the factors take %.2f times as long\n", f, o / 1e6 / f }'
    ffpack=$(ffpack "$text" "$p")
    test -z "$ffpack" || awk -v f="$ffpack" -v o="$one" \
        'BEGIN { printf "  fflas-ffpack Rank: %.2f s; the factors take %.2f times as long\n", f, o / 1e6 / f }'
done
need_programs
for rounds in "--rounds 0" ""; do
    for workers in 1 4; do
        seconds=$(best 1 "$text" seconds_and_peak ./spasm rank $rounds --workers "$workers")
        echo "spasm rank $rounds --workers $workers, from the text: $seconds s"
    done
done
