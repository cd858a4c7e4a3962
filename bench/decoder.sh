#!/usr/bin/env bash
# What the decoder costs a running program: instructions a byte (callgrind) of responses in several shapes, fed whole and in
# pieces of 1, 100 and 16,384 bytes, beside a loop written by hand in C that keeps the bytes and the parts as well, and beside
# Rust's httparse, which keeps no place: a head or a size line that isn't whole is parsed again. Making the bytes is counted
# apart and taken off. Heads have no loop in C beside them; httparse takes no trailers. It needs valgrind and a C compiler
# (Debian's packages valgrind and gcc), and builds in a folder of its own, which it removes. Without rustc and Debian's
# librust-httparse-dev it says so, and leaves httparse out.
set -eu
for tool in valgrind cc rt; do
    command -v "$tool" > /dev/null || { echo "decoder.sh: $tool is missing (Debian: valgrind, gcc; rt is the Rattle toolchain's)" >&2; exit 2; }
done
top=$(cd "$(dirname "$0")/.." && pwd)
work=$(mktemp -d)
trap 'rm -rf "$work"' EXIT
mkdir -p "$work/crates/decoder_bench/src" "$work/crates/decoder_bench/specs"
for crate in mx_types mx_head mx_body; do
    cp -r "$top/crates/$crate" "$work/crates/"
    grep "^$crate:" "$top/crates.txt" >> "$work/crates.txt"
done
echo 'decoder_bench: mx_types mx_body' >> "$work/crates.txt"
cp "$top/bench/decoder-program.txt" "$work/crates/decoder_bench/src/main.rt"
touch "$work/crates/decoder_bench/specs/Lib.antt"
cp "$top/HANDLES" "$work/"
cc -O2 -o "$work/by_hand" "$top/bench/decoder.c"
httparse=$(ls -d /usr/share/cargo/registry/httparse-*/src/lib.rs 2> /dev/null | tail -n 1 || true)
if command -v rustc > /dev/null && [ -n "$httparse" ]; then
    rustc --edition 2018 -O --cap-lints allow --crate-type rlib --crate-name httparse --cfg 'feature="std"' --cfg httparse_simd \
        -o "$work/libhttparse.rlib" "$httparse"
    rustc --edition 2021 -O --extern httparse="$work/libhttparse.rlib" -o "$work/beside" "$top/bench/decoder-httparse.rs"
    echo "beside it ${httparse#/usr/share/cargo/registry/}, built by $(rustc --version)"
else
    echo "decoder.sh: no rustc, or no httparse (Debian: librust-httparse-dev): its numbers are left out" >&2
fi
cd "$work/crates/decoder_bench"
rt run -- bytes 1 1 > "$work/build.log" 2>&1 || { tail -20 "$work/build.log"; exit 1; }
[ "$(out/decoder_bench bytes 1 1)" = complete ] || { echo "decoder.sh: the program doesn't decode" >&2; exit 1; }

instructions() {
    local found
    found=$(valgrind --tool=callgrind --callgrind-out-file=/dev/null "$@" 2>&1 >/dev/null | awk '/Collected/ { print $4 }')
    [ -n "$found" ] || { echo "decoder.sh: no number came of: $*" >&2; exit 1; }
    echo "$found"
}
# NAME SHAPE COUNT BYTES PIECE...: instructions a byte; beside it those of the loop in C, and of httparse where it takes the
# shape and doesn't begin again at each piece of a long line
row() {
    local name=$1 shape=$2 count=$3 bytes=$4 base by_hand_base beside_base=0
    shift 4
    base=$(instructions out/decoder_bench "$shape" "$count" 0)
    by_hand_base=0
    [ "$shape" = head ] || [ "$shape" = interim ] || by_hand_base=$(instructions "$work/by_hand" "$shape" "$count" 0)
    [ ! -x "$work/beside" ] || [ "$shape" = interim ] || beside_base=$(instructions "$work/beside" "$shape" "$count" 0)
    for piece in "$@"; do
        local all=$(($(instructions out/decoder_bench "$shape" "$count" "$piece") - base)) hand=0 beside=0
        [ "$shape" = head ] || [ "$shape" = interim ] || hand=$(($(instructions "$work/by_hand" "$shape" "$count" "$piece") - by_hand_base))
        case "$shape,$piece" in
            trailer*,* | interim,* | extension,100 | extension,16384) ;;
            *) [ ! -x "$work/beside" ] || beside=$(($(instructions "$work/beside" "$shape" "$count" "$piece") - beside_base)) ;;
        esac
        awk -v name="$name" -v piece="$piece" -v bytes="$bytes" -v all="$all" -v hand="$hand" -v beside="$beside" 'BEGIN {
            printf "%-28s pieces of %9d: %9.3f a byte", name, piece, all / bytes
            if (hand > 0) printf ", by hand %8.3f, %.2f times", hand / bytes, all / hand
            if (beside > 0) printf ", httparse %8.3f, %.2f times", beside / bytes, all / beside
            printf "\n" }'
    done
}
all=100000000
row 'chunks of one byte' bytes 200000 1200000 1 100 16384 $all
row 'chunks of 100 bytes' hundreds 20000 2120000 1 100 16384 $all
row 'chunks of 16 KiB' blocks 256 4196352 100 16384 $all
row 'an extension of 4 MiB' extension 4096 4194304 100 16384 $all
row 'a trailer line of 4 MiB' trailer 4096 4194304 100 16384 $all
row '1,000,000 trailer lines' trailers 1000000 6000000 100 16384 $all
row 'a head of 60 KB' head 120 60027 1 100 16384 $all
row 'a head of 6 KB' head 12 6027 1 100
row '16 interim heads of 60 KB' interim 120 960475 1 100
