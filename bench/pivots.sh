#!/usr/bin/env bash
# Times the search for structural pivots on boundary maps of chessboard and matching complexes and on random matrices, which it makes itself.
# For each it prints the pivots found by the first selection and in all, the seconds of each phase with one worker (best of three), the steps
# a row and the nanoseconds a step of a search by one walk a row, and, for 1, 2 and 4 workers on a board, the seconds of the search, the
# steps a row, how often a worker was overtaken for each pivot that the search found, how many claims failed (those of rows of the first
# selection too), and how much faster the search is than that by walks (the quickest of three). A step is an entry of a row that is taken up.
set -eu
cd "$(dirname "$0")/.."
. bench/common.sh
test -f bench/out/mk11-b3.sms || matching_text 11 3 bench/out/mk11-b3.sms
test -f bench/out/mk12-b3.sms || matching_text 12 3 bench/out/mk12-b3.sms
test -f bench/out/ch7-6-b3.sms || chessboard_text 7 6 3 bench/out/ch7-6-b3.sms
test -f bench/out/ch7-6-b4.sms || chessboard_text 7 6 4 bench/out/ch7-6-b4.sms
test -f bench/out/ch8-8-b3.sms || chessboard_text 8 8 3 bench/out/ch8-8-b3.sms
test -f bench/out/ch9-9-b3.sms || chessboard_text 9 9 3 bench/out/ch9-9-b3.sms
test -f bench/out/random.sms || random_text 10000 10000 3 bench/out/random.sms 5
program=$(timed_program)

# quickest FIELD COMMAND..: of three runs the line whose FIELD-th number is least.
quickest() {
    local field=$1 text=$2
    shift 2
    for _ in 1 2 3; do "$@" < "$text"; done | sort -n -k "$field" | head -n 1
}

for name in mk11-b3 mk12-b3 ch7-6-b3 ch7-6-b4 ch8-8-b3 ch9-9-b3 random; do
    text=bench/out/$name.sms
    height=$(head -n 1 "$text" | cut -d ' ' -f 1)
    walks=$(quickest 1 "$text" "$program" walks)
    phases=$(quickest 3 "$text" "$program" pivots 1)
    leftmost=$(echo "$phases" | cut -d ' ' -f 2)
    echo "$phases" | awk -v n="$name" -v m="$height" -v w="$walks" '{
        split(w, walk, " ")
        printf "%s: %d pivots, %d of them leftmost; leftmost %.3f s, search %.3f s, order %.3f s\n", n, $4, $2, $1 / 1e6, $3 / 1e6, $5 / 1e6
        printf "  by one walk a row: %.3f s, %.1f steps a row, %.1f ns a step\n", walk[1] / 1e6, walk[3] / m, walk[1] * 1000 / (walk[3] + 1)
    }'
    for workers in 1 2 4; do
        quickest 1 "$text" "$program" board "$workers" | awk -v c="$workers" -v m="$height" -v w="$walks" -v first="$leftmost" '{
            split(w, walk, " ")
            printf "  %d on a board: %.3f s, %.1f steps a row, %.3f overtakings a pivot, %d claims failed, %.1f times as fast as by walks\n",
                c, $1 / 1e6, $3 / m, $4 / ($2 > first ? $2 - first : 1), $5, walk[1] / ($1 + 1)
        }'
    done
done
