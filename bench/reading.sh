#!/usr/bin/env bash
# Times reading texts of ENTRIES entries (two million if left out) into compressed rows, and writing the first again, each by itself, beside
# `cat`, `wc -l`, two readers in C (bench/readers.c: by fscanf, and by hand without checks) and LinBox's, if its library is installed. The texts: ten
# entries a row in order, modulo 42013; a boundary map; one row in which some values are 0 modulo the prime; the first in no order; and in
# no order at few places, where most are summed away. It prints a table of megabytes a second (the least of five runs), and the peak memory
# of the program in bytes an entry. TIMED=FILE times another program of the command line of crates/spasm_timed.
set -eu
cd "$(dirname "$0")/.."
. bench/common.sh
entries=${1:-2000000}
rows=$((entries / 10))
to=bench/out
random_text "$rows" "$rows" 10 $to/ordered.sms 2
test -s $to/ch9-9-b3.sms || chessboard_text 9 9 3 $to/ch9-9-b3.sms
one_row_text "$entries" $to/one_row.sms
shuffled_text $to/ordered.sms $to/unordered.sms
summed_text 100 100 "$entries" $to/summed.sms
program=${TIMED:-$(timed_program)}
gcc -O3 -march=native -o $to/readers bench/readers.c
linbox=$to/linbox
g++ -O2 -std=c++14 -o "$linbox" bench/linbox.cpp -llinbox -lntl -lgivaro -lgmpxx -lgmp -lopenblas 2> $to/linbox.log || linbox=

# microseconds COMMAND..: of a whole run.
microseconds() {
    local from
    from=$(date +%s%N)
    "$@" > /dev/null
    echo $((($(date +%s%N) - from) / 1000))
}
# least TEXT COMMAND..: the least number that five runs on the text print.
least() {
    local text=$1
    shift
    for _ in 1 2 3 4 5; do "$@" < "$text" 2> /dev/null; done | sort -n | head -n 1
}
# rate TEXT MICROSECONDS: megabytes a second.
rate() { awk -v b="$(stat -c %s "$1")" -v t="$2" 'BEGIN { printf "%.0f", b / t }'; }

echo '| Text | MB | cat | wc -l | fscanf | C by hand | LinBox | SpaSM | bytes an entry at the peak |'
echo '|---|---|---|---|---|---|---|---|---|'
for name in ordered ch9-9-b3 one_row unordered summed; do
    text=$to/$name.sms
    peak=$(best 2 "$text" seconds_and_peak "$program" read 42013)
    lines=$(($(wc -l < "$text") - 2))
    echo "| $name | $(($(stat -c %s "$text") / 1000000)) \
| $(rate "$text" "$(least "$text" microseconds cat)") | $(rate "$text" "$(least "$text" microseconds wc -l)") \
| $(rate "$text" "$(least "$text" $to/readers scanf)") | $(rate "$text" "$(least "$text" $to/readers hand)") \
| $(test -n "$linbox" && rate "$text" "$("$linbox" 42013 read < "$text")" || echo -) \
| $(rate "$text" "$(least "$text" "$program" read 42013)") | $(awk -v k="$peak" -v n="$lines" 'BEGIN { printf "%.0f", k * 1024 / n }') |"
done
# The program writes to the file, and says its time on standard error.
written() { "$program" write 42013 2>&1 > $to/written.sms; }
for name in ordered ch9-9-b3; do
    time=$(for _ in 1 2 3 4 5; do written < $to/$name.sms; done | sort -n | head -n 1)
    if test "$name" = ordered; then cmp $to/ordered.sms $to/written.sms; fi
    echo "$name: written at $(rate $to/written.sms "$time") MB/s"
done
