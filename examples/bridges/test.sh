#!/bin/sh
# Runs the bridge of each system that is installed, and compares what it prints with the file .out beside it. The program is what
# SPASM names, else the script at the repository's root.
set -eu
cd "$(dirname "$0")"
SPASM=${SPASM:-$(cd ../.. && pwd)/spasm}
export SPASM
passed=0 failed=0 skipped=0
results=$(mktemp -d)
trap 'rm -r "$results"' EXIT

# try SYSTEM CHECK WORD..: runs a system with these words if it is installed, and compares its output.
try() {
    system=$1 check=$2
    shift 2
    if ! command -v "$system" >/dev/null; then
        echo "$system isn't installed: $check is skipped"
        skipped=$((skipped + 1))
    elif "$system" "$@" </dev/null >"$results/out" 2>"$results/err" && diff "$check.out" "$results/out"; then
        passed=$((passed + 1))
    else
        echo "$check: not as it should be"
        cat "$results/err"
        failed=$((failed + 1))
    fi
}

try sage check.sage -c 'load("check.sage")'
try gp check.gp -q -f check.gp
try gap check.g -q check.g
try M2 check.m2 --script check.m2

echo "$passed passed, $failed failed, $skipped skipped"
test "$failed" -eq 0
