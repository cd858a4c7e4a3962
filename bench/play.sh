#!/usr/bin/env bash
# The time of a line of `mxfetch play`, with a history that has room for all events: it has to stay flat as scripts grow.
# Beside it, where they are calls of libcurl too, the time of curl_multi_add_handle(3) and curl_multi_remove_handle(3) of an
# idle handle, a call. Processor time, user and system, the least of nine runs, less that of a run without lines (a start
# and the space for the history). With `--instructions` it counts instructions in place of nanoseconds, by callgrind, once
# a row: these don't depend on what else the machine does. Asserts that each row's last line is as it must be, else prints.
#
#   cycles    add, done, read and remove of one handle
#   beside K  add and remove of one handle beside K others
#   polls     pause, unpause, and a poll that would wait
#   stale     add and remove, and the end of each addition reported at once
#   kept      add and remove, and then the ends of all additions, from the first on
#   last      add and remove, and then the ends of all additions, from the last on
#   retire K  retire alone, an event that there is: a handle was added, ended and removed, again and again, beside K that ended
#
# It needs python3; for `--instructions` valgrind (Debian's package valgrind); for libcurl a C compiler, `cc` (Debian: gcc),
# and the library (Debian: libcurl4).
set -eu
top=$(cd "$(dirname "$(readlink -f "$0")")/.." && pwd)
unit=ns
case ${1-} in
  '') ;;
  --instructions) unit=instructions ;;
  *) sed -n '2,/^set/s/^# \{0,1\}//p' "$0"; exit 2 ;;
esac
command -v python3 > /dev/null || { echo "bench/play.sh: there is no python3" >&2; exit 2; }
[ "$unit" = ns ] || command -v valgrind > /dev/null || { echo "bench/play.sh: there is no valgrind" >&2; exit 2; }
if [ -z "${PROGRAM:-}" ]; then # else it names the program
  "$top/run" --prove
  PROGRAM=$top/crates/mxfetch/out/mxfetch
fi
work=$(mktemp -d)
trap 'rm -rf "$work"' EXIT

cat > "$work/cycles.c" <<'C'
#include <stdlib.h>

/* from curl/multi.h and curl/easy.h; CURLM_OK is 0 */
void *curl_multi_init(void);
void *curl_easy_init(void);
int curl_multi_add_handle(void *multi, void *easy);
int curl_multi_remove_handle(void *multi, void *easy);

int main(int argc, char **argv) {
  long cycles = argc < 3 ? 0 : atol(argv[1]), beside = argc < 3 ? 0 : atol(argv[2]);
  void *multi = curl_multi_init();
  for (long i = 0; i < beside; i++)
    if (curl_multi_add_handle(multi, curl_easy_init()) != 0) return 1;
  void *easy = curl_easy_init();
  for (long i = 0; i < cycles; i++) {
    if (curl_multi_add_handle(multi, easy) != 0) return 1;
    if (curl_multi_remove_handle(multi, easy) != 0) return 1;
  }
  return 0;
}
C
libcurl=
if cc -O2 -o "$work/cycles" "$work/cycles.c" -l:libcurl.so.4 2> "$work/cc.log"; then
  libcurl=$work/cycles
else
  echo "without libcurl, since this doesn't compile with it: $(head -n 1 "$work/cc.log")" >&2
fi
PROGRAM=$PROGRAM LIBCURL=$libcurl UNIT=$unit WORK=$work python3 - <<'P'
import os, re, subprocess, sys

PROGRAM, LIBCURL, UNIT, WORK = (os.environ[name] for name in ("PROGRAM", "LIBCURL", "UNIT", "WORK"))
PRINTED = f"{WORK}/printed"

def run(words, script):
    """The processor time of a run, in nanoseconds, or its instructions."""
    if UNIT == "instructions":
        words = ["valgrind", "--tool=callgrind", f"--callgrind-out-file={WORK}/callgrind", *words]
    with open(script, "rb") as read, open(PRINTED, "wb") as printed, open(f"{WORK}/said", "wb") as said:
        child = subprocess.Popen(words, stdin=read, stdout=printed, stderr=said)
        _, status, used = os.wait4(child.pid, 0)
        child.returncode = os.waitstatus_to_exitcode(status)
    said = open(f"{WORK}/said", encoding="utf-8", errors="replace").read()
    if status != 0:
        sys.exit(f"{words}: status {child.returncode}: {said}")
    if UNIT == "instructions":
        count = re.search(r"Collected : (\d+)", said)
        return int(count[1]) if count else sys.exit(f"valgrind gives no count: {said}")
    return (used.ru_utime + used.ru_stime) * 1e9

def least(words, script):
    return min(run(words, script) for _ in range(1 if UNIT == "instructions" else 9))

PLAY = [PROGRAM, "play", "--history", "1048576"]
open(f"{WORK}/none", "wb").close()
START = least(PLAY, f"{WORK}/none")

def row(name, times, lines, last, beside=None):
    with open(f"{WORK}/script", "w") as script:
        script.writelines(line + "\n" for line in lines)
    used = least(PLAY, f"{WORK}/script") - START
    replies = open(PRINTED).read().splitlines()
    if len(replies) != len(lines) or replies[-1] != last:
        sys.exit(f"{name}: {len(replies)} replies to {len(lines)} lines, the last of them {replies[-1:]}")
    curl = "-"
    if LIBCURL and beside is not None:
        start = least([LIBCURL, "0", str(beside)], f"{WORK}/none")
        curl = f"{(least([LIBCURL, str(times), str(beside)], f'{WORK}/none') - start) / (2 * times):.0f}"
    print(f"| {name} | {times:,} | {len(lines):,} | {used / len(lines):.0f} | {curl} |", flush=True)

def each(times, *lines):
    return [line.format(i) for i in range(times) for line in lines]

ROUNDS = (10_000, 100_000, 250_000)
print(f"| Row | Rounds | Lines | play, {UNIT} a line | libcurl, {UNIT} a call |\n|---|---|---|---|---|")
for n in ROUNDS:
    row("cycles", n, each(n, "add 7", "done {} 0 5", "read", "remove 7"), "removed", 0)
for k in (1, 16, 64, 255):
    for n in ROUNDS:
        row(f"beside {k}", n, [f"add {i}" for i in range(1, k + 1)] + each(n, "add 0", "remove 0"), "removed", k)
for n in ROUNDS:
    row("polls", n, ["add 7"] + each(n, "pause 7", "unpause 7", "poll"), "would-wait")
for n in ROUNDS:
    row("stale", n, each(n, "add 7", "remove 7", "done {} 0 5"), "stale")
for n in ROUNDS:
    row("kept", n, each(n, "add 7", "remove 7") + each(n, "done {} 0 5"), "stale")
def retire(k, n):
    """What `retire` takes for an event, beside k handles that stay."""
    stay = [line for i in range(k) for line in (f"add {i + 1}", f"done {i} 0 5")]
    # a reading takes the oldest message, which is that of a handle that stays: so these are removed unread
    lines = stay + [line.format(i + k) for i in range(n) for line in ("add 0", "done {} 0 5", "remove 0")]
    used = []
    for more in ([], ["retire"]):
        with open(f"{WORK}/script", "w") as script:
            script.writelines(line + "\n" for line in lines + more)
        used.append(least(PLAY, f"{WORK}/script"))
    replies = open(PRINTED).read().splitlines()
    if replies[-1] != f"retired {2 * k}":
        sys.exit(f"retire {k}: {replies[-1]}")
    print(f"| retire {k} | {n:,} | {len(lines):,} events | {(used[1] - used[0]) / len(lines):.0f} | - |", flush=True)

for n in ROUNDS:
    row("last", n, each(n, "add 7", "remove 7") + each(n, "done {} 0 5")[::-1], "stale")
for k in (0, 64, 255):
    for n in ROUNDS:
        retire(k, n)
P
