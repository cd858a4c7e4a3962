#!/usr/bin/env bash
# `mxfetch` with little stack, each command with 192 KiB for each thread, and `get` and `save` with little memory. A run may neither hang nor
# end by a signal, and a file that it saved is whole. It ends with 1 where one does otherwise.
#
#     checks/memory.sh [WORD]     all cases, or those whose names have the word
#
# It needs python3, and installs nothing. It uses ports that the system gives, on 127.0.0.1, and no other network. PROGRAM names the program,
# where it isn't the one that ./run builds.
set -eu
top=$(cd "$(dirname "$0")/.." && pwd)
command -v python3 > /dev/null || { echo "checks/memory.sh: there is no python3" >&2; exit 1; }
if [ -z "${PROGRAM:-}" ]; then
    PROGRAM=$("$top/run" --which)
fi
work=$(mktemp -d)
trap 'rm -rf "$work"' EXIT
PROGRAM=$PROGRAM WORK=$work python3 -B "$top/checks/memory.py" "$@"
