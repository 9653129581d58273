# What the timed scripts share; each sources it at the repository's root. Texts are made in bench/out.
mkdir -p bench/out

# random_text M N PER FILE SEED: M rows of PER entries from 1 to 42012 at random places of N, in order.
random_text() {
    python3 - "$@" <<'P'
import random, sys
m, n, per, path, seed = int(sys.argv[1]), int(sys.argv[2]), int(sys.argv[3]), sys.argv[4], int(sys.argv[5])
random.seed(seed)
with open(path, "w") as f:
    f.write(f"{m} {n} M\n")
    for i in range(1, m + 1):
        f.writelines(f"{i} {j} {random.randrange(1, 42013)}\n" for j in sorted(random.sample(range(1, n + 1), per)))
    f.write("0 0 0\n")
P
}

# one_row_text N FILE: one row of N entries, in order, some of them 0 modulo 42013.
one_row_text() {
    python3 - "$@" <<'P'
import random, sys
n, path = int(sys.argv[1]), sys.argv[2]
random.seed(1)
with open(path, "w") as f:
    f.write(f"1 {n} M\n")
    f.writelines(f"1 {j} {random.randrange(-999999999, 999999999)}\n" for j in range(1, n + 1))
    f.write("0 0 0\n")
P
}

# shuffled_text FROM TO: the entries of a text in no order.
shuffled_text() {
    python3 - "$@" <<'P'
import random, sys
random.seed(2)
with open(sys.argv[1]) as f:
    lines = f.readlines()
entries = lines[1:-1]
random.shuffle(entries)
with open(sys.argv[2], "w") as f:
    f.writelines(lines[:1] + entries + lines[-1:])
P
}

# summed_text M N COUNT FILE: COUNT entries at random places of a matrix, which fall on one another.
summed_text() {
    python3 - "$@" <<'P'
import random, sys
m, n, count, path = int(sys.argv[1]), int(sys.argv[2]), int(sys.argv[3]), sys.argv[4]
random.seed(2)
with open(path, "w") as f:
    f.write(f"{m} {n} M\n")
    f.writelines(f"{random.randint(1, m)} {random.randint(1, n)} {random.randrange(1, 42013)}\n" for _ in range(count))
    f.write("0 0 0\n")
P
}

# own_processor: the flag by which a program is compiled for x86-64-v2 if CPU=v2 is set; nothing else, as ./spasm is compiled.
own_processor() {
    test "${CPU:-}" != v2 || echo --cpu=x86-64-v2
}

# timed_program: builds the timed program where it isn't built or is older than its sources, and prints its path.
timed_program() {
    local program=crates/spasm_timed/out/spasm_timed
    if test ! -x "$program" || test -n "$(find crates.txt crates/*/src crates/*/specs crates/*/proofs -newer "$program" -type f | head -n 1)"; then
        ./build $(own_processor) spasm_timed > bench/out/build.log 2>&1 || { tail -n 30 bench/out/build.log >&2; exit 1; }
        touch "$program"
    fi
    echo "$program"
}

# need_programs: stops if the programs aren't built; what is compiled without proofs tells nothing about times.
need_programs() {
    local program
    for program in spasm_main spasm_batch; do
        test -x "crates/$program/out/$program" || { echo "$program isn't built: run ./build" >&2; exit 1; }
    done
}

# best FIELD TEXT COMMAND..: the least of the numbers that stand as the FIELD-th word in the output of three runs on the text.
best() {
    local field=$1 text=$2
    shift 2
    for _ in 1 2 3; do "$@" < "$text"; done | awk -v k="$field" 'NR == 1 || $k + 0 < least + 0 { least = $k } END { print least }'
}

# least_and_middle: of the numbers on the lines that it reads.
least_and_middle() {
    sort -n | awk '{ v[NR] = $1 } END { print v[1], v[int((NR + 1) / 2)] }'
}

# by_workers RUNS TEXT PICK COMMAND..: runs a command, whose last word is a number of workers, on the text in turn: by one worker alone; by one
# worker in each of four processes at once; and by four workers. PICK is an awk program that prints the microseconds from what the command
# prints. It prints of the three the least and the middle, in ms, and how many times as fast four workers are as one alone and as each of
# four at once, by the middle. Where processors are shared, or are halves of one, a worker alone goes up to twice as fast in some seconds
# as in others, and each of four at once as fast as each of four workers can.
by_workers() {
    local runs=$1 text=$2 pick=$3 to=bench/out/by_workers
    shift 3
    rm -f "$to".*
    for _ in $(seq "$runs"); do
        "$@" 1 < "$text" | awk "$pick" >> "$to.alone"
        for process in 1 2 3 4; do "$@" 1 < "$text" | awk "$pick" > "$to.process$process" & done
        wait
        cat "$to".process* >> "$to.at_once"
        "$@" 4 < "$text" | awk "$pick" >> "$to.four"
    done
    echo "$(least_and_middle < "$to.alone") $(least_and_middle < "$to.at_once") $(least_and_middle < "$to.four")" | awk '{
        printf "1 worker %.1f (%.1f), in each of four processes at once %.1f (%.1f), 4 workers %.1f (%.1f): ", $1 / 1e3, $2 / 1e3, $3 / 1e3, $4 / 1e3, $5 / 1e3, $6 / 1e3
        printf "%.2f times as fast as 1 alone, %.2f as each of four\n", $2 / $6, $4 / $6
    }'
}

# seconds_and_peak COMMAND..: runs a command, and prints its seconds and its peak memory in KiB.
seconds_and_peak() {
    { /usr/bin/time -f '%e %M' "$@" > /dev/null 2>&3; } 3>&1 | tail -n 1
}

# flint TASK TEXT [P]: FLINT's seconds for TASK (rank or rref) modulo P (or 42013), best of three; nothing where its library isn't
# installed (Debian: libflint-dev).
flint() {
    gcc -O2 -o bench/out/flint bench/flint.c -lflint -lgmp -lm 2> /dev/null || { echo "FLINT isn't installed: no comparison" >&2; return 0; }
    best 2 "$2" bench/out/flint "$1" "${3:-42013}"
}

# ffpack TEXT P: fflas-ffpack's seconds for the rank modulo P, by one thread, best of three; nothing where its library isn't installed
# (Debian: fflas-ffpack, libopenblas-dev) or doesn't take P.
ffpack() {
    g++ -O3 -march=x86-64-v2 -o bench/out/ffpack bench/ffpack.cpp -lopenblas -lgivaro -lgmpxx -lgmp 2> /dev/null \
        || { echo "fflas-ffpack isn't installed: no comparison" >&2; return 0; }
    OPENBLAS_NUM_THREADS=1 best 2 "$1" bench/out/ffpack "$2"
}

# chessboard_text M N K FILE: the boundary map of the chessboard complex of M x N squares, from K + 1 rooks to K.
chessboard_text() {
    python3 - "$@" <<'P'
import itertools, sys
m, n, k, path = int(sys.argv[1]), int(sys.argv[2]), int(sys.argv[3]), sys.argv[4]
def placed(count):
    for rows in itertools.combinations(range(m), count):
        for cols in itertools.permutations(range(n), count):
            yield tuple(zip(rows, cols))
faces = {face: j for j, face in enumerate(sorted(placed(k)), 1)}
rows = list(placed(k + 1))
with open(path, "w") as f:
    f.write(f"{len(rows)} {len(faces)} M\n")
    for i, facet in enumerate(rows, 1):
        row = sorted((faces[facet[:t] + facet[t + 1:]], 1 if t % 2 == 0 else -1) for t in range(k + 1))
        f.writelines(f"{i} {j} {v}\n" for j, v in row)
    f.write("0 0 0\n")
P
}

# matching_text N K FILE: the boundary map of the matching complex of the complete graph on N vertices, from K + 1 edges to K.
matching_text() {
    python3 - "$@" <<'P'
import itertools, sys
n, k, path = int(sys.argv[1]), int(sys.argv[2]), sys.argv[3]
edges = list(itertools.combinations(range(n), 2))
def matchings(count, start=0, used=()):
    if count == 0:
        yield ()
        return
    for e in range(start, len(edges)):
        if edges[e][0] not in used and edges[e][1] not in used:
            for rest in matchings(count - 1, e + 1, used + edges[e]):
                yield (e,) + rest
faces = {face: j for j, face in enumerate(sorted(matchings(k)), 1)}
rows = list(matchings(k + 1))
with open(path, "w") as f:
    f.write(f"{len(rows)} {len(faces)} M\n")
    for i, facet in enumerate(rows, 1):
        row = sorted((faces[facet[:t] + facet[t + 1:]], 1 if t % 2 == 0 else -1) for t in range(k + 1))
        f.writelines(f"{i} {j} {v}\n" for j, v in row)
    f.write("0 0 0\n")
P
}

# product_text M N R PER FILE SEED: the product of two random matrices with PER entries a row, of M rows and R columns, and of R rows and N
# columns, so that its rank is at most R.
product_text() {
    python3 - "$@" <<'P'
import random, sys
m, n, r, per, path, seed = int(sys.argv[1]), int(sys.argv[2]), int(sys.argv[3]), int(sys.argv[4]), sys.argv[5], int(sys.argv[6])
p = 42013
random.seed(seed)
def rows(height, width):
    return [[(random.randrange(width), random.randrange(1, p)) for _ in range(per)] for _ in range(height)]
left, right = rows(m, r), rows(r, n)
with open(path, "w") as f:
    f.write(f"{m} {n} M\n")
    for i, terms in enumerate(left, 1):
        row = {}
        for k, a in terms:
            for j, b in right[k]:
                row[j] = (row.get(j, 0) + a * b) % p
        f.writelines(f"{i} {j + 1} {row[j]}\n" for j in sorted(row) if row[j])
    f.write("0 0 0\n")
P
}
