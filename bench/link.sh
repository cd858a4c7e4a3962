#!/usr/bin/env bash
# What the history of a link costs a running program: instructions per byte for reads of 16 KiB through a ScriptLink,
# beside the same copy with no history. It needs rt and valgrind, which it looks for first, and builds in a folder of its own,
# which it removes. Ends with 1 where a number didn't come.
set -eu
for tool in rt:'the Rattle toolchain' valgrind:"Debian's package valgrind" awk:"Debian's package mawk"; do
    command -v "${tool%%:*}" > /dev/null || { echo "there is no ${tool%%:*} on the path: it is in ${tool#*:}" >&2; exit 2; }
done
top=$(cd "$(dirname "$(readlink -f "$0")")/.." && pwd)
work=$(mktemp -d)
trap 'rm -rf "$work"' EXIT
mkdir -p "$work/crates/link_bench/src" "$work/crates/link_bench/specs"
cp -r "$top/crates/mx_types" "$top/crates/mx_link" "$work/crates/"
cp "$top/bench/link-program.txt" "$work/crates/link_bench/src/main.rt"
touch "$work/crates/link_bench/specs/Lib.antt"
printf 'mx_types: arrayvec\nmx_link: mx_types mio\nlink_bench: mx_types mx_link\n' > "$work/crates.txt"
cp "$top/HANDLES" "$work/"
cd "$work/crates/link_bench"
rt run -- copy 0 > "$work/build.log" 2>&1 || { tail -20 "$work/build.log"; exit 1; }

reads=1024
bytes=$((reads * 16384))
# how many instructions the program ran, by callgrind's count; a run without one ends all
instructions() {
    local said number
    said=$(valgrind --tool=callgrind --callgrind-out-file=/dev/null out/link_bench "$@" 2>&1 > /dev/null) || {
        echo "$said" >&2
        return 1
    }
    number=$(echo "$said" | awk '/Collected/ { print $4 }')
    [[ $number =~ ^[0-9]+$ ]] && [ "$number" -gt 0 ] || { echo "callgrind counted nothing: $said" >&2; return 1; }
    echo "$number"
}
for way in copy script; do
    before=$(instructions "$way" 0)
    after=$(instructions "$way" "$reads")
    [ "$after" -gt "$before" ] || { echo "$way: $reads reads cost no instruction more than none" >&2; exit 1; }
    awk -v way="$way" -v n=$((after - before)) -v bytes="$bytes" -v reads="$reads" \
        'BEGIN { printf "%s: %d instructions for %d reads, %.5f a byte, %.1f a read\n", way, n, reads, n / bytes, n / reads }'
done
