#!/usr/bin/env bash
# Times `spasm grow` on 5,000 appended rows of 3 entries in 5,000 columns modulo 42013, with a `rank` behind each hundred, beside one `spasm rank`
# of the matrix of all rows, and prints seconds (best of three), the ratio and the peak memory of both. The last ranks are compared. Then on 3,000
# rows of 3 entries in 200,000 columns, behind each of which it is asked whether the row before it is a combination.
set -eu
cd "$(dirname "$0")/.."
. bench/common.sh
need_programs
whole=bench/out/grown.sms
script=bench/out/grown.txt
random_text 5000 5000 3 "$whole" 7

# script_text EVERY TEXT SCRIPT: a matrix of no row, and a script that appends the rows of a text, with `rank` behind each EVERY rows.
script_text() {
    awk -v every="$1" '
        NR == 1 { rows = $1; print 0, $2, "M"; print "0 0 0"; next }
        $1 > 0 { terms[$1] = terms[$1] " " $2 " " $3 }
        END { for (i = 1; i <= rows; i++) { print "row" terms[i]; if (i % every == 0) print "rank" } print "end" }
    ' "$2" > "$3"
}

script_text 100 "$whole" "$script"
last=$(./spasm grow < "$script" | tail -n 1)
rank=$(./spasm rank < "$whole")
test "$last" = "$rank" || { echo "the ranks differ: $last, $rank" >&2; exit 1; }
grown=$(best 1 "$script" seconds_and_peak ./spasm grow)
grown_peak=$(best 2 "$script" seconds_and_peak ./spasm grow)
ranked=$(best 1 "$whole" seconds_and_peak ./spasm rank)
ranked_peak=$(best 2 "$whole" seconds_and_peak ./spasm rank)
awk -v g="$grown" -v r="$ranked" -v a="$grown_peak" -v b="$ranked_peak" -v t="$rank" 'BEGIN {
    printf "spasm grow, 50 ranks: %.2f s, peak %.0f MB; spasm rank of the whole, %s: %.2f s, peak %.0f MB\n", g, a / 1024, t, r, b / 1024
    printf "ratio %.2f\n", g / (r > 0 ? r : 0.01)
}'

# asked_text TEXT SCRIPT: a matrix of no row, and a script that appends the rows of a text and asks behind each for the one before.
asked_text() {
    awk '
        NR == 1 { rows = $1; print 0, $2, "M"; print "0 0 0"; next }
        $1 > 0 { terms[$1] = terms[$1] " " $2 " " $3 }
        END { for (i = 1; i <= rows; i++) { before = i > 1 ? i - 1 : 1; print "row" terms[i]; print "in" terms[before] } print "end" }
    ' "$1" > "$2"
}

random_text 3000 200000 3 bench/out/asked.sms 8
asked_text bench/out/asked.sms bench/out/asked.txt
test "$(./spasm grow < bench/out/asked.txt | sort | uniq -c | xargs)" = "3000 yes" || { echo "a row before is no combination" >&2; exit 1; }
echo "spasm grow, 3000 questions on 200000 columns: $(best 1 bench/out/asked.txt seconds_and_peak ./spasm grow) s"
