#!/usr/bin/env bash
# How much of the time of four workers is work: of the factors of a dense random 2000 x 2000 matrix, and of what the first round leaves of
# four matrices, so many runs each (or nine). A preloaded library notes when threads start and end and when one waits for another; what a
# thread does between counts as work. So this tells how well the work is shared even where processors are shared with others, which makes
# seconds vary by half. It prints the least and the middle of the milliseconds, and of the share of work the middle and the range.
set -eu
cd "$(dirname "$0")/.."
. bench/common.sh
runs=${1:-9}
test -f bench/out/dense.sms || random_text 2000 2000 2000 bench/out/dense.sms 4
test -f bench/out/product.sms || product_text 4000 4000 2000 4 bench/out/product.sms 5
test -f bench/out/random.sms || random_text 10000 10000 3 bench/out/random.sms 5
test -f bench/out/r5000.sms || random_text 5000 5000 3 bench/out/r5000.sms 5
test -f bench/out/mk12-b3.sms || matching_text 12 3 bench/out/mk12-b3.sms
program=$(timed_program)
gcc -O2 -shared -fPIC -o bench/out/threads.so bench/threads.c -ldl

# shares STRETCH TEXT COMMAND..: of runs of the command, the milliseconds and the share of work in the STRETCH-th stretch of time between
# two readings of the clock in which threads are begun.
shares() {
    local stretch=$1 text=$2
    shift 2
    for _ in $(seq "$runs"); do
        THREADS=bench/out/threads.notes LD_PRELOAD=bench/out/threads.so "$@" < "$text" > /dev/null
        python3 - "$stretch" 4 <<'P'
import struct, sys
BEGUN, STARTS, ENDS, WAITS, GOES_ON, CLOCK = range(6)
stretch, workers = int(sys.argv[1]), int(sys.argv[2])
with open("bench/out/threads.notes", "rb") as f:
    data = f.read()
count = struct.unpack_from("<q", data)[0]
notes = [struct.unpack_from("<dii", data, 16 + 16 * k) for k in range(count)]
clocks = [k for k, note in enumerate(notes) if note[2] == CLOCK]
stretches = [notes[a:b + 1] for a, b in zip(clocks, clocks[1:]) if any(what == BEGUN for _, _, what in notes[a:b])]
notes = stretches[stretch - 1]
since, work = {notes[0][1]: notes[0][0]}, 0.0
for at, thread, what in notes[1:]:
    if what in (ENDS, WAITS, CLOCK) and thread in since:
        work += at - since.pop(thread)
    if what in (STARTS, GOES_ON):
        since[thread] = at
length = notes[-1][0] - notes[0][0]
print(length, work / (workers * length))
P
    done
}

# told NAME: what the lines of milliseconds and shares that it reads come to.
told() {
    cat > bench/out/threads.runs
    { sort -n bench/out/threads.runs; sort -n -k 2 bench/out/threads.runs; } | awk -v name="$1" '
        { t[NR] = $1; s[NR] = $2 }
        END {
            n = NR / 2
            m = int((n + 1) / 2)
            printf "%s: %.1f (%.1f) ms, of four threads %.3f is work (%.3f to %.3f)\n", name, t[1], t[m], s[n + m], s[n + 1], s[2 * n]
        }'
}

shares 1 bench/out/dense.sms "$program" factors 42013 4 | told "factors of the dense matrix"
for name in product random r5000 mk12-b3; do
    shares 2 "bench/out/$name.sms" "$program" rounds 4 | told "$name, what the first round leaves"
done
