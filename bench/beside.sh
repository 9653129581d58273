#!/usr/bin/env bash
# beside.sh PROGRAM: times `rank` and `rref` of this repository's program beside those of another one of the same command line, such as an
# older build, on boundary maps of a matching and a chessboard complex and on a random matrix, which it makes itself, modulo 42013. It prints
# seconds from text to text (best of three, one worker each) and their ratio, and stops where the answers differ.
set -eu
other=$(realpath "$1")
cd "$(dirname "$0")/.."
. bench/common.sh
need_programs
test -f bench/out/mk11-b3.sms || matching_text 11 3 bench/out/mk11-b3.sms
test -f bench/out/ch7-6-b4.sms || chessboard_text 7 6 4 bench/out/ch7-6-b4.sms
test -f bench/out/random_5000.sms || random_text 5000 5000 3 bench/out/random_5000.sms 5
for name in mk11-b3 ch7-6-b4 random_5000; do
    text=bench/out/$name.sms
    for command in rank rref; do
        cmp <(./spasm "$command" < "$text") <("$other" "$command" < "$text")
        old=$(best 1 "$text" seconds_and_peak "$other" "$command")
        new=$(best 1 "$text" seconds_and_peak ./spasm "$command")
        awk -v n="$name" -v c="$command" -v o="$old" -v s="$new" \
            'BEGIN { printf "%s of %s: %.2f s, the other %.2f s: %.1f times as fast\n", c, n, s, o, o / (s > 0 ? s : 0.01) }'
    done
done
