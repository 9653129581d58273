#!/usr/bin/env bash
# Times `spasm rank` on ten matrices, which it makes itself: the rank, the seconds of the elimination alone with 1 and 4 workers (best of
# three), of each round the pivots, the size and the entries of what they leave, and its seconds with 1 and with 4 workers (best of three,
# by one worker's pivots), and the peak memory of the whole run. Beside it stands LinBox's sparse elimination, where its library is installed
# (Debian: liblinbox-dev). Then what the first round leaves of four of them, with 1 and with 4 workers in turn, so many times (or nine).
set -eu
cd "$(dirname "$0")/.."
. bench/common.sh
runs=${1:-9}
need_programs
test -f bench/out/mk10-b3.sms || matching_text 10 3 bench/out/mk10-b3.sms
test -f bench/out/mk11-b3.sms || matching_text 11 3 bench/out/mk11-b3.sms
test -f bench/out/mk12-b3.sms || matching_text 12 3 bench/out/mk12-b3.sms
test -f bench/out/ch7-6-b3.sms || chessboard_text 7 6 3 bench/out/ch7-6-b3.sms
test -f bench/out/ch7-6-b4.sms || chessboard_text 7 6 4 bench/out/ch7-6-b4.sms
test -f bench/out/ch8-8-b3.sms || chessboard_text 8 8 3 bench/out/ch8-8-b3.sms
test -f bench/out/r5000.sms || random_text 5000 5000 3 bench/out/r5000.sms 5
test -f bench/out/random.sms || random_text 10000 10000 3 bench/out/random.sms 5
test -f bench/out/product.sms || product_text 4000 4000 2000 4 bench/out/product.sms 5
test -f bench/out/wide.sms || random_text 20000 30000 2 bench/out/wide.sms 5
program=$(timed_program)
linbox=bench/out/linbox
g++ -O2 -std=c++14 -o "$linbox" bench/linbox.cpp -llinbox -lntl -lgivaro -lgmpxx -lgmp -lopenblas 2> bench/out/linbox.log || linbox=

# least_rounds WORKERS TEXT: what the program says of the rank and of each round, with the least times of three runs.
least_rounds() {
    for _ in 1 2 3; do "$program" rounds "$1" < "$2" | awk '{ print NR, $0 }'; done | awk '
        !($1 in first) || $2 < first[$1] { first[$1] = $2 }
        !($1 in third) || $4 < third[$1] { third[$1] = $4 }
        { found[$1] = $3; rest[$1] = $5 " " $6 " " $7; last = $1 }
        END { for (k = 1; k <= last; k++) print first[k], found[k], third[k], rest[k] }'
}

for name in mk10-b3 mk11-b3 mk12-b3 ch7-6-b3 ch7-6-b4 ch8-8-b3 r5000 random wide product; do
    text=bench/out/$name.sms
    one=$(least_rounds 1 "$text")
    four=$(least_rounds 4 "$text")
    peak=$(best 2 "$text" seconds_and_peak ./spasm rank)
    field=$(test -z "$linbox" || best 2 "$text" "$linbox" 42013)
    printf '%s\n' "$four" "$one" | awk -v n="$name" -v k="$peak" -v l="$field" -v count="$(echo "$four" | wc -l)" '
        NR <= count { time[NR] = $1; left[NR] = $3; next }
        NR == count + 1 {
            printf "%s: rank %d in %.3f s, with 4 workers %.3f s, peak %.0f MB", n, $2, $1 / 1e6, time[1] / 1e6, k / 1024
            if (l != "") printf ", LinBox %.3f s, ratio %.2f", l, $1 / 1e6 / l
            printf "\n"
        }
        NR > count + 1 && $2 > 0 {
            r = NR - count
            printf "  round %d: %d pivots in %.3f s leave %d x %d with %d entries in %.4f s, with 4 workers %.4f s\n", r - 1, $2, $1 / 1e6, $4, $5, $6, $3 / 1e6, left[r] / 1e6
        }'
done
for name in product random r5000 mk12-b3; do
    echo "$name, what the first round leaves, ms, the least (the middle): $(by_workers "$runs" "bench/out/$name.sms" 'NR == 2 { print $3 }' "$program" rounds)"
done
