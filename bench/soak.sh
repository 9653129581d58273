#!/bin/sh
# Runs bench/soak.py, which says what it does: bench/soak.sh --help
exec "$(dirname "$0")/soak.py" "$@"
