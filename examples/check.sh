#!/bin/sh
# Runs the built program and looks at what no contract can see: which stream is which, that the words are the user's, and the exit status.
# Prints a line for each run that is not as it should be, and ends with the number of such runs; the tests of examples/tests count as one.
cd "$(dirname "$0")/.." || exit
results=$(mktemp -d) || exit
failures=0

# expect STATUS OUTPUT ERRORS INPUT WORD..: runs the program on the text with these words; expect_batch the one for many right-hand sides.
program=./spasm
expect_batch() {
    program=./spasm_batch
    expect "$@"
    program=./spasm
}
expect() {
    status=$1 output=$2 errors=$3 input=$4
    shift 4
    printf "$input" | "$program" "$@" >"$results/out" 2>"$results/err"
    code=$?
    printf "$output" >"$results/wanted_out"
    printf "$errors" >"$results/wanted_err"
    if test "$code" -ne "$status" || ! cmp -s "$results/out" "$results/wanted_out" || ! cmp -s "$results/err" "$results/wanted_err"; then
        echo "$program $*: status $code where $status was wanted, output '$(cat "$results/out")', errors '$(cat "$results/err")'"
        failures=$((failures + 1))
    fi
}

answer='2 2 M\n1 1 1\n1 2 2\n2 1 2\n2 2 4\n0 0 0\n'
expect 0 'rank 1\n' '' "$answer" rank --modulus 7
expect 0 '1 2 M\n1 1 1\n1 2 2\n0 0 0\n' '' "$answer" rref --modulus=7
expect 0 '1 2 M\n1 1 5\n1 2 1\n0 0 0\n' '' "$answer" kernel --modulus 7 --workers 2
expect 2 '' 'error 2 usage\n' "$answer" rang
expect 2 '' 'error 2 usage\n' "$answer"
expect 2 '' 'error 2 usage\n' "$answer" rank --modulus 1
expect 2 '' 'error 2 usage\n' "$answer" rank "$(printf '\377')"
expect 3 '' 'error 3 line 2 kind 4\n' '2 2 M\n3 1 1\n0 0 0\n' rank
expect 3 '' 'error 3 line 1 kind 6\n' '' rank
expect 4 '' 'error 4 shape 1 2\n' '1 2 M\n0 0 0\n' inverse
expect 0 'yes\n' '' '1 1 M\n0 0 0\ncertificate rank 7 0\n1 0 M\n0 0 0\n0 1 M\n0 0 0\n' check --modulus 7
expect 1 'no\n' '' '1 1 M\n1 1 1\n0 0 0\ncertificate rank 7 0\n1 0 M\n0 0 0\n0 1 M\n0 0 0\n' check --modulus 7
expect 0 'trace 7 1\n1 1 0\n' '' "$answer" trace --modulus 7
expect 0 'yes\n' '' '1 1 M\n1 1 1\n0 0 0\ntrace 7 1\n1 1 0\n' replay --modulus 7
expect 1 'no\n' '' '1 1 M\n1 1 1\n0 0 0\ntrace 7 1\n1 1 1\n' replay --modulus 7
expect 0 'rank 1\nyes\n' '' '0 2 M\n0 0 0\nrow 1 3\nrank\nin 1 5\nend\n' grow --modulus 7

expect_batch 0 'solution\n1 1 M\n1 1 4\n0 0 0\nsolution\n1 1 M\n0 0 0\n' '' '1 1 M\n1 1 2\n0 0 0\n1 1 M\n1 1 1\n0 0 0\n1 1 M\n0 0 0\n' --count 2 --modulus 7
expect_batch 2 '' 'error 2 usage\n' '' --modulus 7
expect_batch 2 '' 'error 2 usage\n' '' --count "$(printf '\377')"
expect_batch 3 '' 'error 3 line 3 kind 6\n' '1 1 M\n0 0 0\n' --count 1
expect_batch 4 '' 'error 4 shape 2 1 question 2\n' '1 1 M\n0 0 0\n1 1 M\n0 0 0\n2 1 M\n0 0 0\n' --count=2
expect_batch 9 '' 'error 9 wide 2147483647 2\n' '2147483647 2 M\n0 0 0\n1 1 M\n0 0 0\n' --count=1

# A source that fails, and an output and an error stream that take nothing.
./spasm rank </ >"$results/out" 2>"$results/err"
test $? -eq 6 && test ! -s "$results/out" && test "$(cat "$results/err")" = 'error 6 read' || { echo "spasm rank </: no failed source"; failures=$((failures + 1)); }
if test -w /dev/full; then
    ./spasm rank <examples/x.sms >/dev/full 2>"$results/err"
    test $? -eq 7 && test "$(cat "$results/err")" = 'error 7 write' || { echo "spasm rank >/dev/full: no failed output"; failures=$((failures + 1)); }
    ./spasm rang <examples/x.sms 2>/dev/full
    test $? -eq 2 || { echo "spasm rang 2>/dev/full: another status"; failures=$((failures + 1)); }
fi

# A long answer is whole when the program ends, though its output is a pipe.
awk 'BEGIN { n = 10000; print n, n, "M"; for (i = 1; i <= n; i++) print i, i, 1; print 0, 0, 0 }' >"$results/long"
./spasm rref --modulus 7 <"$results/long" 2>"$results/err" | cat >"$results/out"
cmp -s "$results/out" "$results/long" && test ! -s "$results/err" || { echo "spasm rref | cat: the answer isn't whole"; failures=$((failures + 1)); }

# Rows that come with columns that no row before them had are appended as often as memory for columns has to grow.
awk -v whole="$results/whole" 'BEGIN {
    n = 500; width = 100000
    print 1, width, "M\n1 1 1\n0 0 0"
    print n + 1, width, "M\n1 1 1" > whole
    for (i = 1; i <= n; i++) {
        c = (7919 * i) % width + 1; d = (104729 * i) % width + 1
        print "row", c, i % 5 + 1, d, 1
        print i + 1, c, i % 5 + 1 > whole; print i + 1, d, 1 > whole
    }
    print 0, 0, 0 > whole
    print "rref\nend"
}' >"$results/long"
./spasm grow --modulus 7 <"$results/long" >"$results/out" 2>"$results/err"
./spasm rref --modulus 7 <"$results/whole" 2>>"$results/err" | cmp -s "$results/out" - && test ! -s "$results/err" || { echo "spasm grow: not the form of all rows"; failures=$((failures + 1)); }

# What is known from outside, in tables, and what can be searched for.
python3 -m unittest discover -q -s examples/tests || failures=$((failures + 1))

rm -r "$results"
test "$failures" -eq 0 && echo "all runs are as they should be"
exit "$failures"
