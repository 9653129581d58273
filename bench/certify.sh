#!/usr/bin/env bash
# Times `spasm certify`, of the rank and of the echelon form, and `spasm check` of what it wrote behind its matrix, on boundary maps of a
# matching and a chessboard complex and on two random matrices, a square one and a wide one whose left factor is as sparse as it is, which
# it makes itself, modulo 42013. It prints the rank, the bytes of the certificate, the seconds of both runs from text to text (best of
# three), their ratio, and their peak memory; and for the rank the seconds of the elimination and of the check without texts (best of
# three), their ratio, and the entries of the matrix and of its factors.
set -eu
cd "$(dirname "$0")/.."
. bench/common.sh
need_programs
test -f bench/out/mk11-b3.sms || matching_text 11 3 bench/out/mk11-b3.sms
test -f bench/out/ch7-6-b4.sms || chessboard_text 7 6 4 bench/out/ch7-6-b4.sms
test -f bench/out/random_5000.sms || random_text 5000 5000 3 bench/out/random_5000.sms 5
test -f bench/out/wide.sms || random_text 20000 30000 2 bench/out/wide.sms 5
program=$(timed_program)
for text in mk11-b3 ch7-6-b4 random_5000 wide; do
    path=bench/out/$text.sms
    elimination=$(best 1 "$path" "$program" certified)
    checking=$(best 2 "$path" "$program" certified)
    "$program" certified < "$path" | awk -v t="$text" -v e="$elimination" -v c="$checking" '{
        printf "%s without texts: elimination in %.3f s, check says %s in %.3f s, %.2f times as long; %d entries, L has %d and U %d\n", \
            t, e / 1e6, $3, c / 1e6, c / e, $4, $5, $6
    }'
    for kind in rank rref; do
        certificate=bench/out/$text.$kind
        ./spasm certify --kind "$kind" < "$path" > "$certificate"
        cat "$path" "$certificate" > "$certificate.sms"
        verdict=$(./spasm check < "$certificate.sms")
        certifying=$(best 1 "$path" seconds_and_peak ./spasm certify --kind "$kind")
        peak=$(best 2 "$path" seconds_and_peak ./spasm certify --kind "$kind")
        checking=$(best 1 "$certificate.sms" seconds_and_peak ./spasm check)
        check_peak=$(best 2 "$certificate.sms" seconds_and_peak ./spasm check)
        head -n 1 "$certificate" | awk -v t="$text" -v k="$kind" -v b="$(stat -c %s "$certificate")" -v m="$(stat -c %s "$path")" -v v="$verdict" \
            -v c="$certifying" -v p="$peak" -v h="$checking" -v q="$check_peak" \
            '{ printf "%s (%.1f MB): rank %d; certify --kind %s in %.2f s, peak %.0f MB; certificate of %.1f MB", t, m / 1e6, $4, k, c, p / 1024, b / 1e6
               printf "; check says %s in %.2f s, %.2f times as long, peak %.0f MB\n", v, h, h / c, q / 1024 }'
        rm "$certificate" "$certificate.sms"
    done
done
