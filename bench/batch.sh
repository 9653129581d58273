#!/usr/bin/env bash
# Times `spasm_batch` on a random system of 2000 x 2000 with 5 entries a row modulo 42013 and 1, 10 and 1000 right-hand sides, with 1 and 4
# workers, beside that many runs of `spasm solve` (one is timed, and its seconds are multiplied), and prints seconds (best of three). What each
# further answer costs is told as a part of one `solve`. The first right-hand sides' answers are compared.
set -eu
cd "$(dirname "$0")/.."
. bench/common.sh
need_programs
matrix=bench/out/batch_matrix.sms
random_text 2000 2000 5 "$matrix" 11

# sides_text FIRST LAST: right-hand sides of 2000 entries from 0 to 42012, each from a seed of its own.
sides_text() {
    python3 - "$@" <<'P'
import random, sys
for k in range(int(sys.argv[1]), int(sys.argv[2]) + 1):
    random.seed(1000 + k)
    values = [random.randrange(42013) for _ in range(2000)]
    print("2000 1 M")
    print("".join(f"{i} 1 {v}\n" for i, v in enumerate(values, 1) if v), end="")
    print("0 0 0")
P
}

for count in 1 10 1000; do
    { cat "$matrix"; sides_text 1 "$count"; } > "bench/out/batch_$count.sms"
done
test "$(./spasm_batch --count 1 < bench/out/batch_1.sms)" = "$(./spasm solve < bench/out/batch_1.sms)" || { echo "the answers differ" >&2; exit 1; }
for workers in 1 4; do
    solved=$(best 1 bench/out/batch_1.sms seconds_and_peak ./spasm solve --workers "$workers")
    first=$(best 1 bench/out/batch_1.sms seconds_and_peak ./spasm_batch --count 1 --workers "$workers")
    for count in 1 10 1000; do
        seconds=$(best 1 "bench/out/batch_$count.sms" seconds_and_peak ./spasm_batch --count "$count" --workers "$workers")
        awk -v k="$count" -v w="$workers" -v s="$solved" -v f="$first" -v t="$seconds" 'BEGIN {
            printf "%d right-hand sides, workers %d: spasm_batch %.2f s; as many runs of spasm solve %.2f s", k, w, t, s * k
            if (k > 1) printf "; each further answer %.3f of a solve", (t - f) / (k - 1) / (s > 0 ? s : 0.01)
            print ""
        }'
    done
done
