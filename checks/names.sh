#!/usr/bin/env bash
# `mxfetch get` where names are slow, unknown, silent or have several addresses: from a name server of its own, on 127.0.0.1 in a network and
# with an /etc/resolv.conf and /etc/hosts of its own. It compares every code, body and order, and times with bounds ten times as wide as what
# is promised; and it prints the times. It ends with 1 where one differs from what is expected.
#
#     checks/names.sh [WORD]        all cases, or those whose names have the word
#
# It needs python3, unshare (util-linux) and ip (Debian: iproute2), and the right to make a namespace; it installs nothing and reaches no other
# network. PROGRAM names the program, where it isn't the one that ./run builds.
set -eu
top=$(cd "$(dirname "$0")/.." && pwd)
PATH=$PATH:/usr/sbin:/sbin
for tool in python3 unshare ip; do
    command -v "$tool" > /dev/null || { echo "checks/names.sh: there is no $tool" >&2; exit 1; }
done
if [ -z "${PROGRAM:-}" ]; then
    PROGRAM=$("$top/run" --which)
fi
# in memory, where there is such a folder: what a check before this one wrote may keep a disk busy for a minute
memory=/dev/shm
[ -d "$memory" ] && [ -w "$memory" ] || memory=${TMPDIR:-/tmp}
work=$(mktemp -d -p "$memory")
trap 'rm -rf "$work"' EXIT
# a question whose answer is lost is asked again soon, and a silent name is given up after ten seconds, as the C library does by itself
printf 'nameserver 127.0.0.1\noptions timeout:2 attempts:5\n' > "$work/resolv.conf"
printf '127.0.0.1 localhost\n::1 localhost\n' > "$work/hosts"
echo 'hosts: files dns' > "$work/nsswitch.conf"
export PROGRAM WORK=$work TOP=$top
unshare --mount --net sh -eu -c '
    ip link set lo up
    for file in resolv.conf hosts nsswitch.conf; do mount --bind "$WORK/$file" "/etc/$file"; done
    [ ! -d /run/nscd ] || mount --bind "$WORK" /run/nscd # a daemon that keeps names is asked for none
    exec python3 -B "$TOP/checks/names.py" "$@"' sh "$@"
