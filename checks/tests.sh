#!/bin/sh
# Runs the tests of all crates without their proofs: `rt try --test` compiles them with checks in the code, and an address sanitizer. It shows
# of no contract that it holds. Prints a line for each crate, and ends with 1 where a test didn't pass, else with 0.
#
#     checks/tests.sh [WORD]      all crates of tests, or those whose names have the word
#
# It needs the Rattle toolchain and python3, and 3 GB of memory for each crate that is compiled at the same time.
set -eu
command -v python3 > /dev/null || { echo "checks/tests.sh: there is no python3" >&2; exit 1; }
exec python3 -B "$(dirname "$(readlink -f "$0")")/tests.py" "$@"
