#!/usr/bin/env bash
# Tests the C library as it is built: from C, linked statically and under AddressSanitizer, linked to the shared object, and from Python.
# Without c/build/libspasm.so, which c/build.sh makes, it says so and tests nothing: of a static library `rt ci` checks the proofs alone, and
# leaves nothing of which an archive could be made.
set -euo pipefail
cd "$(dirname "${BASH_SOURCE[0]}")/.."

if ! test -f c/build/libspasm.so; then
    echo "c/test.sh: skipped: c/build.sh hasn't built the library"
    exit 0
fi
results=$(mktemp -d)
trap 'rm -r "$results"' EXIT
cc -std=c11 -Wall -Wextra -Werror -O1 -g -fsanitize=address,undefined c/test.c c/build/libspasm.a -pthread -o "$results/static"
"$results/static"
cc -std=c11 -Wall -Wextra -Werror -O2 c/test.c -Lc/build -lspasm -Wl,-rpath,"$PWD/c/build" -pthread -o "$results/shared"
"$results/shared"
if command -v c++ >/dev/null; then
    echo '#include "spasm.h"' | c++ -Wall -Wextra -Werror -Ic -fsyntax-only -x c++ -
fi
python3 c/test.py
