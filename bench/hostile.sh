#!/bin/sh
# Runs bench/hostile.py, which says what it does: bench/hostile.sh --help
exec "$(dirname "$0")/hostile.py" "$@"
