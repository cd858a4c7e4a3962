#!/usr/bin/env bash
# `mxfetch save` against real servers: nginx, Python's http.server, and small servers that fail, lie and hang. It kills the program in
# mid-run and takes the run up again, fills a disk, refuses to flush, puts links and folders in the way, has servers forge lines and names,
# and counts memory, threads and descriptors over 10,000 URLs; and it refuses threads, polls and clocks, and each growth of memory in turn.
# Every file is compared byte by byte, and every line with the expected one. It ends with 1 where one differs.
#
#     checks/save.sh [WORD]       all cases, or those whose names have the word
#
# It needs nginx, python3 and a C compiler (Debian: gcc), and installs nothing. It uses ports that the system gives, on 127.0.0.1, and no
# other network. As root it mounts small file systems in its own folder, and takes them away; a case that can't is printed as skipped. PROGRAM
# names the program, where it isn't the one that ./run builds.
set -eu
top=$(cd "$(dirname "$0")/.." && pwd)
PATH=$PATH:/usr/sbin
for tool in nginx python3 cc; do
    command -v "$tool" > /dev/null || { echo "checks/save.sh: there is no $tool" >&2; exit 1; }
done
if [ -z "${PROGRAM:-}" ]; then
    PROGRAM=$("$top/run" --which)
fi
export RES_OPTIONS='timeout:1 attempts:1' # a name server that can't be reached is soon given up
work=$(mktemp -d)
chmod 755 "$work" # nginx's workers run as another user
trap 'rm -rf "$work"' EXIT
for library in refuse count; do
    cc -O2 -shared -fPIC -o "$work/$library.so" "$top/checks/$library.c"
done
PROGRAM=$PROGRAM WORK=$work python3 -B "$top/checks/save.py" "$@"
