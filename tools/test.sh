#!/bin/sh
# Runs the tests of the tools.
set -eu
cd "$(dirname "$0")/.."
exec python3 -m unittest discover -q -s tools/tests
