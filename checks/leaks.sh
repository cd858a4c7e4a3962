#!/usr/bin/env bash
# `mxfetch get` and `mxfetch save` under valgrind, with servers that answer, redirect, close early and refuse:
# all memory that was allocated is freed, or can still be reached, when the program ends, also where a growth of memory is refused. It ends
# with 1 where valgrind says that a block is lost, with where that was allocated, or where a run ends otherwise than it should.
#
#     checks/leaks.sh [WORD]      all cases, or those whose names have the word
#
# It needs valgrind, python3 and a C compiler (Debian: gcc), and installs nothing. It uses ports that the system gives, on 127.0.0.1, and no
# other network. PROGRAM names the program, where it isn't the one that ./run builds.
set -eu
top=$(cd "$(dirname "$0")/.." && pwd)
for tool in valgrind python3 cc; do
    command -v "$tool" > /dev/null || { echo "checks/leaks.sh: there is no $tool" >&2; exit 1; }
done
if [ -z "${PROGRAM:-}" ]; then
    PROGRAM=$("$top/run" --which)
fi
work=$(mktemp -d)
trap 'rm -rf "$work"' EXIT
cc -O2 -shared -fPIC -o "$work/refuse.so" "$top/checks/refuse.c"
PROGRAM=$PROGRAM WORK=$work python3 -B "$top/checks/leaks.py" "$@"
