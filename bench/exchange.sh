#!/usr/bin/env bash
# What an exchange costs a running program: instructions per byte for a response that a ScriptLink gives in reads of
# 16 KiB, through a transfer and its decoder, beside the same reads into one vector: a counted body, and chunks of 16,384,
# 100 and 1 bytes. From 1 to 16 MiB each, so that a cost which grows with the body shows. It needs rt and valgrind, which it
# looks for first, and builds in a folder of its own, which it removes. Ends with 1 where a number didn't come.
set -eu
for tool in rt:'the Rattle toolchain' valgrind:"Debian's package valgrind" awk:"Debian's package mawk"; do
    command -v "${tool%%:*}" > /dev/null || { echo "there is no ${tool%%:*} on the path: it is in ${tool#*:}" >&2; exit 2; }
done
top=$(cd "$(dirname "$(readlink -f "$0")")/.." && pwd)
work=$(mktemp -d)
trap 'rm -rf "$work"' EXIT
mkdir -p "$work/crates/exchange_bench/src" "$work/crates/exchange_bench/specs"
# mx_transfer and all crates below it
reached='mx_transfer mx_request mx_link mx_types' seen=
while [ "$reached" != "$seen" ]; do
    seen=$reached
    reached=$(for crate in $seen; do
        for name in "$crate" $(sed -n "s/^$crate://p" "$top/crates.txt"); do
            [ ! -d "$top/crates/$name" ] || echo "$name"
        done
    done | sort -u)
done
for crate in $reached; do
    cp -r "$top/crates/$crate" "$work/crates/"
    grep "^$crate:" "$top/crates.txt" >> "$work/crates.txt"
done
echo 'exchange_bench: mx_types mx_request mx_link mx_transfer futures' >> "$work/crates.txt"
cp "$top/bench/exchange-program.txt" "$work/crates/exchange_bench/src/main.rt"
touch "$work/crates/exchange_bench/specs/Lib.antt"
cp "$top/HANDLES" "$work/"
cd "$work/crates/exchange_bench"
rt run -- copy 0 > "$work/build.log" 2>&1 || { tail -20 "$work/build.log"; exit 1; }

# how many instructions the program ran, by callgrind's count; a run without one ends all
instructions() {
    local said number
    said=$(valgrind --tool=callgrind --callgrind-out-file=/dev/null out/exchange_bench "$@" 2>&1 > /dev/null) || {
        echo "$said" >&2
        return 1
    }
    number=$(echo "$said" | awk '/Collected/ { print $4 }')
    [[ $number =~ ^[0-9]+$ ]] && [ "$number" -gt 0 ] || { echo "callgrind counted nothing: $said" >&2; return 1; }
    echo "$number"
}
for body in counted by-16384 by-100 by-1; do
    for pieces in 64 256 1024; do
        copy=$(instructions copy "$body" "$pieces")
        exchange=$(instructions exchange "$body" "$pieces")
        base=$(instructions none "$body" "$pieces")
        [ "$copy" -gt "$base" ] && [ "$exchange" -gt "$base" ] || { echo "$body: $pieces pieces cost no instruction" >&2; exit 1; }
        awk -v body="$body" -v bytes=$((pieces * 16384)) -v copy=$((copy - base)) -v exchange=$((exchange - base)) \
            'BEGIN { printf "%-8s %5d KiB: copy %.3f instructions a byte, exchange %.3f, %.2f times\n", body, bytes / 1024, copy / bytes, exchange / bytes, exchange / copy }'
    done
done
