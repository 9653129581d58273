#!/bin/sh
# Runs bench/refuse.py, which says what it does: bench/refuse.sh --help
exec "$(dirname "$0")/refuse.py" "$@"
