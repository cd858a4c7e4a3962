#!/bin/sh
# Tests the script `run` over a copy of it and of the sources, with a stand-in for the toolchain (checks/stand-in-rt), which proves
# nothing: so they take two minutes. Prints a line for each row, and ends with 1 where one failed.
#
#     checks/run.sh [WORD]             all rows, or those whose names have the word
#     checks/run.sh --broken [WORD]    breaks the script in a way for each row, and wants that row to fail
#
# It needs python3 and script (Debian: util-linux), and no toolchain. The row `costs` wants a machine that does little else.
set -eu
command -v python3 > /dev/null || { echo "checks/run.sh: there is no python3" >&2; exit 1; }
command -v script > /dev/null || { echo "checks/run.sh: there is no script: it is in Debian's package util-linux" >&2; exit 1; }
exec python3 "$(dirname "$(readlink -f "$0")")/run.py" "$@"
