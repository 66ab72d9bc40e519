#!/bin/sh
# Takes figures of the program beside other tools that do the like, and prints a table for each section; bench.py has what each one is.
#
#   bench/bench.sh [--cpu] [SECTION..]
#
# Without a SECTION all are taken, which lasts about a quarter of an hour. A figure is the least wall clock of five runs, of fewer where
# they are long; with --cpu it is the least of the processor's time, user's and system's, which other work beside it disturbs less. It takes
# the programs that `rt ci` built, or the shipped one, and builds those of rows that a section asks for and that aren't there; makes its
# files in a folder of its own. It asks for python3 and jq, and for valgrind where instructions are counted.
set -eu
top=$(CDPATH='' cd -P -- "$(dirname -- "$0")/.." && pwd -P)
for tool in python3 jq; do
    command -v "$tool" >/dev/null || {
        echo "bench: $tool is missing" >&2
        exit 1
    }
done
exec python3 "$top/bench/bench.py" "$@"
