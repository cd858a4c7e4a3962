#!/usr/bin/env bash
# A million transfers through one multi handle whose history has room for 2,048 events and is retired as it fills; before that a tenth of
# them. For each run how long a transfer takes by the clock, and the most memory that the process had at any moment: both stay as they
# are. Where a call wasn't answered as it should be, the run says WRONG, and the script ends with 1.
#
#     bench/retire.sh [TRANSFERS]       1,000,000
#
# It needs rt and python3, and proves the crates below over the work kept in their out/.
set -euo pipefail
count=${1-1000000}
[[ $count =~ ^[1-9][0-9]{0,8}$ ]] || { echo "bench/retire.sh [TRANSFERS]" >&2; exit 2; }
command -v rt > /dev/null || { echo "there is no rt on the path: it is in the Rattle toolchain" >&2; exit 2; }
top=$(cd "$(dirname "$(readlink -f "$0")")/.." && pwd)
work=$(mktemp -d)
trap 'rm -rf "$work"' EXIT
mkdir -p "$work/crates/retire_program/src" "$work/crates/retire_program/specs"
cp "$top/HANDLES" "$work/"
# mx_multi and all crates below it, with what is built of them
(cd "$top/crates/mx_multi" && rt lib) > "$work/build.log" 2>&1 || { tail -n 20 "$work/build.log"; exit 1; }
reached=mx_multi seen=
while [ "$reached" != "$seen" ]; do
  seen=$reached
  reached=$(for crate in $seen; do
    for name in $crate $(sed -n "s/^$crate\( [^:]*\)\?://p" "$top/crates.txt"); do
      [ ! -d "$top/crates/$name" ] || echo "$name"
    done
  done | sort -u)
done
for crate in $reached; do
  mkdir -p "$work/crates/$crate/out"
  for part in src specs proofs out/rlib; do
    [ ! -d "$top/crates/$crate/$part" ] || cp -a "$top/crates/$crate/$part" "$work/crates/$crate/$part"
  done
  grep "^$crate\( [^:]*\)\?:" "$top/crates.txt" >> "$work/crates.txt"
done
# the seats, the claims and the calls by chance that the programs are made of: text here, as the programs are
(cd "$top/bench/multi-seats" && find . -name '*.txt') | while read -r file; do
  mkdir -p "$work/crates/multi_seats/${file%/*}"
  cp "$top/bench/multi-seats/$file" "$work/crates/multi_seats/${file%.txt}"
done
echo 'multi_seats: mx_types mx_append_log mx_journal mx_lock mx_multi logbook' >> "$work/crates.txt"
echo 'retire_program: mx_types mx_multi multi_seats' >> "$work/crates.txt"
cp "$top/bench/retire-program.txt" "$work/crates/retire_program/src/main.rt"
touch "$work/crates/retire_program/specs/Lib.antt"
cd "$work/crates/retire_program"
rt run -- 10 > "$work/build.log" 2>&1 || { tail -20 "$work/build.log"; exit 1; }
python3 - "$count" <<'PY'
import os, subprocess, sys
wrong = False
for count in (max(1, int(sys.argv[1]) // 10), int(sys.argv[1])):
    process = subprocess.Popen(['out/retire_program', str(count)], stdout=subprocess.PIPE, text=True)
    said = process.stdout.read().strip()
    _, status, used = os.wait4(process.pid, 0)
    wrong |= status != 0 or not said.endswith(': all as they are to be')
    print(f'{said}; {used.ru_maxrss} KiB at most')
sys.exit(wrong)
PY
