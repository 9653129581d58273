#!/usr/bin/env bash
# Times `spasm rank` on twenty matrices of twelve kinds, which it makes itself: the rank, the seconds and the peak memory of whole runs with 1
# and with 4 workers (best of three), the processor seconds of one worker's less those of reading alone, and beside them LinBox's sparse
# elimination, which is stopped after 100 seconds, if its library is installed (Debian: liblinbox-dev). With PEERS=FOLDER the program
# `policy` of that folder is run in turns with ours: the seconds that it says of its elimination, without reading, its peak memory, and how
# many times as long ours takes; and `method`, whole runs. SPASM=FILE and TIMED=FILE time other programs of the same command
# lines; LINBOX=no leaves LinBox out, and KINDS='NAME ..' takes these matrices alone.
set -eu
cd "$(dirname "$0")/.."
. bench/common.sh
test -n "${SPASM:-}" || need_programs
program=${SPASM:-crates/spasm_main/out/spasm_main}
timed=${TIMED:-$(timed_program)}
limit=100
made() { test -s "bench/out/$1.sms" || "${@:2}" > "bench/out/$1.sms"; }
python=bench/kinds.py
test -s bench/out/mk11-b3.sms || matching_text 11 3 bench/out/mk11-b3.sms
test -s bench/out/mk12-b3.sms || matching_text 12 3 bench/out/mk12-b3.sms
test -s bench/out/mk13-b4.sms || matching_text 13 4 bench/out/mk13-b4.sms
test -s bench/out/ch7-6-b4.sms || chessboard_text 7 6 4 bench/out/ch7-6-b4.sms
test -s bench/out/ch8-8-b3.sms || chessboard_text 8 8 3 bench/out/ch8-8-b3.sms
test -s bench/out/ch9-9-b3.sms || chessboard_text 9 9 3 bench/out/ch9-9-b3.sms
test -s bench/out/ch8-8-b5.sms || chessboard_text 8 8 5 bench/out/ch8-8-b5.sms
test -s bench/out/r5000.sms || random_text 5000 5000 3 bench/out/r5000.sms 5
test -s bench/out/random.sms || random_text 10000 10000 3 bench/out/random.sms 5
test -s bench/out/r30000.sms || random_text 30000 30000 3 bench/out/r30000.sms 5
test -s bench/out/product.sms || product_text 4000 4000 2000 4 bench/out/product.sms 5
made band $python band 20000 13 1
made subsets $python subsets 18 5
made sieve20 $python sieve 20000 18000 14 1
made sieve60 $python sieve 60000 60000 12 1
made rips2 $python rips 3000 2 1
made rips3 $python rips 2500 3 1
made incidence $python incidence 100000 300000 1
made blocks $python blocks 50 100 1
made shuffled $python shuffled 1 bench/out/mk12-b3.sms
linbox=bench/out/linbox
test "${LINBOX:-}" != no && g++ -O2 -std=c++14 -o "$linbox" bench/linbox.cpp -llinbox -lntl -lgivaro -lgmpxx -lgmp -lopenblas 2> bench/out/linbox.log || linbox=

# seconds_of COMMAND..: the seconds of one run within the limit, or a dash.
seconds_of() { timeout "$limit" bash -c 'TIMEFORMAT=%R; { time "$@" > /dev/null 2> /dev/null; } 2>&1' - "$@" || echo -; }
# whole WORKERS TEXT: seconds and MB, the best of three, or a dash.
whole() {
    for _ in 1 2 3; do
        timeout "$limit" /usr/bin/time -f '%e %M' "$program" rank --workers "$1" < "$2" 2>&1 > /dev/null | tail -n 1 | grep '^[0-9.]* [0-9]*$' || { echo '- -'; break; }
    done | sort -n | awk 'NR == 1 { print $1, $2 == "-" ? "-" : int($2 / 1024) }'
}
# processor COMMAND..: the processor seconds of a command within the limit, which reads standard input.
processor() { TIMEFORMAT='%U %S'; { time timeout "$limit" "$@" > /dev/null 2> /dev/null; } 2>&1 | awk '{ print $1 + $2 }'; }
# beside TEXT: the processor seconds of one worker's elimination (a whole run less reading), those of policy, its peak in MB, and how many
# times as long ours takes; each the least of TURNS runs in turns, or of those that were begun within 20 seconds.
beside() {
    local began=$SECONDS
    for _ in $(seq "${TURNS:-7}"); do
        test $((SECONDS - began)) -lt 20 || break
        echo "whole $(processor "$program" rank < "$1")"
        echo "reading $(processor "$timed" read 42013 < "$1")"
        test -z "${PEERS:-}" || timeout "$limit" "$PEERS/policy" "$1" | awk '$1 == "RANK" { print "policy", $4; print "peak", $(NF - 1) }'
    done | awk '!($1 in least) || $2 < least[$1] { least[$1] = $2 }
        END {
            own = least["whole"] - least["reading"]
            printf "%.3f", own
            if (least["policy"]) printf "; %.3f %d; %.2f", least["policy"], least["peak"], own / least["policy"]
            else if (peers) printf "; -; -"
        }' peers="${PEERS:-}"
}
echo "matrix: rank; 1 worker s MB; 4 workers s MB; LinBox s; elimination s${PEERS:+; policy s MB; times as long; method s}"
for name in ${KINDS:-r5000 random r30000 product band subsets sieve20 sieve60 mk11-b3 mk12-b3 mk13-b4 ch7-6-b4 ch8-8-b3 ch9-9-b3 ch8-8-b5 rips2 rips3 incidence blocks shuffled}; do
    text=bench/out/$name.sms
    line="$name: $(timeout "$limit" "$program" rank < "$text" | awk '{ print $2 }'); $(whole 1 "$text"); $(whole 4 "$text")"
    line="$line; $(test -z "$linbox" && echo - || seconds_of sh -c "'$linbox' 42013 < '$text'"); $(beside "$text")"
    test -z "${PEERS:-}" || line="$line; $(seconds_of "$PEERS/method" "$text")"
    echo "$line"
done
