#!/usr/bin/env bash
# Runs the program on texts whose header names huge sizes and which have few entries, and prints the seconds and the peak memory of each run:
# what a header asks for has to cost what its entries and its answer cost.
set -eu
cd "$(dirname "$0")/.."
. bench/common.sh
need_programs
few='1 1 3\n2 2147483647 5\n0 0 0\n'
turned='1 1 3\n2147483647 2 5\n0 0 0\n'
printf "6 2147483647 M\n$few" > bench/out/broad.sms
printf "2147483647 6 M\n$turned" > bench/out/tall.sms
{ cat bench/out/broad.sms; printf '6 1 M\n1 1 1\n0 0 0\n'; } > bench/out/broad_system.sms
{ cat bench/out/tall.sms; printf '2147483647 1 M\n1 1 1\n0 0 0\n'; } > bench/out/tall_system.sms
{ cat bench/out/broad.sms; printf 'row 1 1 2147483647 2\nrank\nin 5 1\nrref\nend\n'; } > bench/out/broad_script.txt
{ cat bench/out/tall.sms; printf 'row 1 1 2 2\nrank\nin 5 1\nrref\nend\n'; } > bench/out/tall_script.txt
{
    echo "2147483647 2147483647 M"
    for k in 1 2 3 4 5 6 7 8 9 10; do echo "$((k * 200000000)) $(((11 - k) * 190000000)) $k"; done
    echo "0 0 0"
} > bench/out/square_of_ten.sms

# timed TEXT COMMAND: one run, its status, seconds and peak memory.
timed() {
    local status=0 line
    line=$({ /usr/bin/time -f '%e %M' ./spasm "$2" < "$1" > bench/out/answer 2>&3; } 3>&1) || status=$?
    echo "$line" | awk -v c="$2" -v t="$1" -v a="$(head -n 1 bench/out/answer)" -v s="$status" \
        'END { printf "spasm %s < %s: status %d, %s s, peak %.0f MB, %s\n", c, t, s, $(NF - 1), $NF / 1024, a }'
}

for text in bench/out/broad.sms bench/out/tall.sms; do
    for command in rank rref; do timed "$text" "$command"; done
done
timed bench/out/broad.sms leftkernel
timed bench/out/tall.sms kernel
timed bench/out/broad_system.sms solve
timed bench/out/tall_system.sms solve
timed bench/out/broad_script.txt grow
timed bench/out/tall_script.txt grow
for command in rank rref; do timed bench/out/square_of_ten.sms "$command"; done
# Answers of 2^31 rows: want of memory, soon.
timed bench/out/broad.sms kernel
timed bench/out/tall.sms leftkernel
