#!/usr/bin/env bash
# Many threads on one multi handle, for so long: rounds of 16 seats and 8 workers' seats on 8 threads, 10,000 turns of each
# over 40 handles by chance, each round on a multi handle of its own. After a round all its calls, in the order of their
# cuts, are made once more on the control core of one thread, which has to answer the same. Prints the seed of each round;
# ends with 0 where all rounds agreed, with 1 where one didn't.
#
# Use: bench/stress.sh [--receipts FILE] [SECONDS] [SEED]        10 seconds, and a seed of the clock
#
# FILE gets a line for each call, `MAKER CUT CALL = REPLY` in the words of `mxfetch play`, each maker's in its own order; a
# line that begins with # begins a round. It needs rt, and proves the crates below over the work kept in their out/.
set -eu
receipts=
if [ "${1-}" = --receipts ]; then
    receipts=${2:?a file}
    shift 2
fi
seconds=${1-10} seed=${2-$(date +%s)}
[[ $seconds =~ ^[0-9]{1,6}$ && $seed =~ ^[0-9]{1,18}$ ]] || { echo "bench/stress.sh [--receipts FILE] [SECONDS] [SEED]" >&2; exit 2; }
command -v rt > /dev/null || { echo "there is no rt on the path: it is in the Rattle toolchain" >&2; exit 2; }
top=$(cd "$(dirname "$(readlink -f "$0")")/.." && pwd)
work=$(mktemp -d)
trap 'rm -rf "$work"' EXIT
mkdir -p "$work/crates/stress_program/src" "$work/crates/stress_program/specs"
cp "$top/HANDLES" "$work/"
# mx_multi and all crates below it, with what is built of them
(cd "$top/crates/mx_multi" && rt lib) > "$work/build.log" 2>&1 || { tail -n 20 "$work/build.log"; exit 1; }
reached=mx_multi seen=
while [ "$reached" != "$seen" ]; do
  seen=$reached
  reached=$(for crate in $seen; do
    for name in $crate $(sed -n "s/^$crate\( [^:]*\)\?://p" "$top/crates.txt"); do
      [ ! -d "$top/crates/$name" ] || echo "$name"
    done
  done | sort -u)
done
for crate in $reached; do
  mkdir -p "$work/crates/$crate/out"
  for part in src specs proofs out/rlib; do
    [ ! -d "$top/crates/$crate/$part" ] || cp -a "$top/crates/$crate/$part" "$work/crates/$crate/$part"
  done
  grep "^$crate\( [^:]*\)\?:" "$top/crates.txt" >> "$work/crates.txt"
done
# the seats, the claims and the calls by chance that the programs are made of: text here, as the programs are
(cd "$top/bench/multi-seats" && find . -name '*.txt') | while read -r file; do
  mkdir -p "$work/crates/multi_seats/${file%/*}"
  cp "$top/bench/multi-seats/$file" "$work/crates/multi_seats/${file%.txt}"
done
echo 'multi_seats: mx_types mx_append_log mx_journal mx_lock mx_multi logbook' >> "$work/crates.txt"
echo 'stress_program: mx_types multi_seats' >> "$work/crates.txt"
cp "$top/bench/stress-program.txt" "$work/crates/stress_program/src/main.rt"
touch "$work/crates/stress_program/specs/Lib.antt"
cd "$work/crates/stress_program"
rt run -- 0 1 > "$work/build.log" 2>&1 || { tail -20 "$work/build.log"; exit 1; }

out/stress_program "$seconds" "$seed" ${receipts:+receipts} > "$work/printed"
grep '^#' "$work/printed"
[ -z "$receipts" ] || (cd "$OLDPWD" && cat "$work/printed" > "$receipts")
! grep -q '^# WRONG' "$work/printed" && grep -q '^# all rounds' "$work/printed"
