#!/usr/bin/env bash
# `mxfetch get` against real servers: nginx, and small servers that close, stall, trickle, reset, flood and redirect; without threads, polls
# or clocks; and with each growth of memory refused in turn. It compares every body byte by byte, every code, the exit status, the time and
# the peak memory, and ends with 1 where one differs from what is expected. Chains of redirects are compared with `curl -L` too, request by
# request; a line is printed for each where curl has another rule. The rules named there are those of curl 7.88.1.
#
#     checks/get.sh [WORD]        all cases, or those whose names have the word
#
# It needs nginx, curl, python3 and a C compiler (Debian: gcc), and installs nothing. It uses ports that the system gives, on 127.0.0.1 and
# 127.0.0.2, and no other network. PROGRAM names the program, where it isn't the one that ./run builds.
set -eu
top=$(cd "$(dirname "$0")/.." && pwd)
PATH=$PATH:/usr/sbin
for tool in nginx curl python3 cc; do
    command -v "$tool" > /dev/null || { echo "checks/get.sh: there is no $tool" >&2; exit 1; }
done
if [ -z "${PROGRAM:-}" ]; then
    PROGRAM=$("$top/run" --which)
fi
export RES_OPTIONS='timeout:1 attempts:1' # a name server that can't be reached is soon given up
work=$(mktemp -d)
chmod 755 "$work" # nginx's workers run as another user
trap 'rm -rf "$work"' EXIT
cc -O2 -shared -fPIC -o "$work/refuse.so" "$top/checks/refuse.c"
PROGRAM=$PROGRAM WORK=$work python3 -B "$top/checks/get.py" "$@"
