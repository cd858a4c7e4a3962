#!/usr/bin/env bash
# Nanoseconds a call of a multi handle that threads share: from 1, 2, 4 and 8 threads, each with a seat of its own, with 1, 64
# and 255 handles added (beside those that the threads add and remove themselves, at most 256 together); by the clock, and of
# the threads' processor time, the mean of the threads, the least of RUNS runs row by row. Then the reads beside a writer, who
# adds and removes for as long as they last (the last column is the writer's own), and beside a keeper, whose call keeps the
# lock from before the first read to behind the last. Where calls weren't all answered as they should be, the row says so, and
# the script ends with 1.
#
# Beside it libcurl, whose multi handle is no thread's but its owner's: one under one pthread mutex. Of its calls are alike:
# curl_multi_add_handle with curl_multi_remove_handle, curl_multi_wakeup, curl_multi_info_read, curl_multi_get_handles where
# the library has it (from 8.4.0 on), and for progress curl_easy_getinfo of CURLINFO_SIZE_DOWNLOAD_T. There is none for state.
#
#     bench/multi.sh [RUNS]            3 runs
#     bench/multi.sh --instructions    instructions a call in place of times, by callgrind, of one thread: these don't depend on
#                                      what else the machine does
#
# It needs rt, and proves the crates below over the work kept in their out/; for libcurl a C compiler, `cc` (Debian: gcc),
# and the library (Debian: libcurl4); for instructions valgrind. Where PROGRAM names a program that was built of
# bench/multi-program.txt, it takes that one, and builds none.
set -euo pipefail
runs=${1-3}
[[ $runs =~ ^([1-9][0-9]?|--instructions)$ ]] || { echo "bench/multi.sh [RUNS | --instructions]" >&2; exit 2; }
[ "$runs" != --instructions ] || command -v valgrind > /dev/null || { echo "bench/multi.sh: there is no valgrind" >&2; exit 2; }
top=$(cd "$(dirname "$(readlink -f "$0")")/.." && pwd)
work=$(mktemp -d)
trap 'rm -rf "$work"' EXIT

# multi_program, built of the crates as they are
build() {
command -v rt > /dev/null || { echo "there is no rt on the path: it is in the Rattle toolchain" >&2; exit 2; }
mkdir -p "$work/crates/multi_program/src" "$work/crates/multi_program/specs" "$work/crates/multi_program/proofs"
cp "$top/HANDLES" "$work/"
# mx_multi and all crates below it, with what is built of them
(cd "$top/crates/mx_multi" && rt lib) > "$work/build.log" 2>&1 || { tail -n 20 "$work/build.log"; exit 1; }
reached=mx_multi seen=
while [ "$reached" != "$seen" ]; do
  seen=$reached
  reached=$(for crate in $seen; do
    for name in $crate $(sed -n "s/^$crate\( [^:]*\)\?://p" "$top/crates.txt"); do
      [ ! -d "$top/crates/$name" ] || echo "$name"
    done
  done | sort -u)
done
for crate in $reached; do
  mkdir -p "$work/crates/$crate/out"
  for part in src specs proofs out/rlib; do
    [ ! -d "$top/crates/$crate/$part" ] || cp -a "$top/crates/$crate/$part" "$work/crates/$crate/$part"
  done
  grep "^$crate\( [^:]*\)\?:" "$top/crates.txt" >> "$work/crates.txt"
done
# the seats, the claims and the calls by chance that the programs are made of: text here, as the programs are
(cd "$top/bench/multi-seats" && find . -name '*.txt') | while read -r file; do
  mkdir -p "$work/crates/multi_seats/${file%/*}"
  cp "$top/bench/multi-seats/$file" "$work/crates/multi_seats/${file%.txt}"
done
echo 'multi_seats: mx_types mx_append_log mx_journal mx_lock mx_multi logbook' >> "$work/crates.txt"
echo 'multi_program: mx_types mx_journal mx_multi multi_seats' >> "$work/crates.txt"
cp "$top/bench/multi-program.txt" "$work/crates/multi_program/src/main.rt"
touch "$work/crates/multi_program/specs/Lib.antt"
cat > "$work/crates/multi_program/proofs/Lib.antt" <<'ANTT'
mod Sends
ANTT
cat > "$work/crates/multi_program/proofs/Sends.antt" <<'ANTT'
-- A meter may go to another thread.
use denote.Ref.{NamedLft}
use denote.Param.Send.{IsSend, struct_send, recorded_send, sendable}
use denote.Struct.Declared.{shape}
use Rattle.std.proofs.Crossing.{crosses}
use Rattle.multi_seats.proofs.Sends.{client_send}
use Rattle.multi_program.specs.contracts.Meter as Meter

pub meter_field : (x : NamedLft) → IsSend (Meter.the_field x).row
meter_field x = struct_send (shape (Meter.the_type x)) (
  client_send x,
  (search (sendable, crosses) depth 40, (search (sendable, crosses) depth 40, (search (sendable, crosses) depth 40,
  (search (sendable, crosses) depth 40, (search (sendable, crosses) depth 40, (search (sendable, crosses) depth 40,
  (search (sendable, crosses) depth 40, (search (sendable, crosses) depth 40, tt)))))))),
)

pub meter_send : (x : NamedLft) → IsSend (Meter.the_row x)
meter_send x = recorded_send (Meter.the_field x).row _ _ (Meter.the_type x).to_one (meter_field x)
ANTT
mkdir -p "$work/crates/multi_program/proofs/repeat" "$work/crates/multi_program/proofs/repeat_kept"
cat > "$work/crates/multi_program/proofs/repeat/Answers.antt" <<'ANTT'
use denote.Param.Send.{sendable}
use Rattle.multi_program.proofs.Sends.{meter_send}
use Rattle.multi_program.proofs.repeat.Goals as goal

pub for_each_mut-requires-send-T : goal.for_each_mut-requires-send-T
for_each_mut-requires-send-T g c κs within = search (meter_send, sendable) depth 40
ANTT
cat > "$work/crates/multi_program/proofs/repeat_kept/Answers.antt" <<'ANTT'
use denote.Param.Send.{sendable}
use Rattle.multi_seats.proofs.Sends.{worker_field, worker_send, end_field, end_send}
use Rattle.multi_program.proofs.repeat_kept.Goals as goal

pub join-meters-requires-send-F : goal.join-meters-requires-send-F
join-meters-requires-send-F g c κs within = search (worker_field, worker_send, end_field, end_send, sendable) depth 40
ANTT
(cd "$work/crates/multi_program" && rt run -- nothing) > "$work/build.log" 2>&1 || { tail -20 "$work/build.log"; exit 1; }
PROGRAM=$work/crates/multi_program/out/multi_program
}

cat > "$work/calls.c" <<'C'
#define _GNU_SOURCE
#include <dlfcn.h>
#include <pthread.h>
#include <stdatomic.h>
#include <stdio.h>
#include <stdlib.h>
#include <time.h>

/* from curl/multi.h and curl/easy.h; CURLM_OK and CURLE_OK are 0 */
void *curl_multi_init(void);
void *curl_easy_init(void);
int curl_multi_add_handle(void *multi, void *easy);
int curl_multi_remove_handle(void *multi, void *easy);
int curl_multi_wakeup(void *multi);
void *curl_multi_info_read(void *multi, int *left);
int curl_easy_getinfo(void *easy, int info, ...);
void curl_free(void *memory);
char *curl_version(void);
enum { SIZE_DOWNLOAD_T = 0x600000 + 8 };

enum { ADD_AND_REMOVE, WAKEUP, INFO_READ, HANDLES, PROGRESS, KINDS };
static const char *names[] = {"add+remove", "wakeup", "info_read", "handles", "progress"};

static void **(*get_handles)(void *multi);
static pthread_mutex_t lock = PTHREAD_MUTEX_INITIALIZER;
static void *multi;
static long rounds;
static atomic_int before, left;

struct meter {
  int kind, is_timed;
  void *easy;
  long made;
  double wall, used;
};

static void call(struct meter *meter) {
  int count;
  long long size;
  void **list;
  pthread_mutex_lock(&lock);
  switch (meter->kind) {
  case ADD_AND_REMOVE: if (curl_multi_add_handle(multi, meter->easy)) abort(); break;
  case WAKEUP: if (curl_multi_wakeup(multi)) abort(); break;
  case INFO_READ: if (curl_multi_info_read(multi, &count)) abort(); break;
  case HANDLES: if (!(list = get_handles(multi))) abort(); curl_free(list); break;
  default: if (curl_easy_getinfo(meter->easy, SIZE_DOWNLOAD_T, &size) || size) abort();
  }
  pthread_mutex_unlock(&lock);
  if (meter->kind == ADD_AND_REMOVE) {
    pthread_mutex_lock(&lock);
    if (curl_multi_remove_handle(multi, meter->easy)) abort();
    pthread_mutex_unlock(&lock);
  }
  meter->made++;
}

static double nanoseconds(clockid_t clock) {
  struct timespec t;
  clock_gettime(clock, &t);
  return t.tv_sec * 1e9 + t.tv_nsec;
}

static void *run(void *words) {
  struct meter *meter = words;
  before--;
  while (before > 0)
    ;
  double used = nanoseconds(CLOCK_THREAD_CPUTIME_ID), wall = nanoseconds(CLOCK_MONOTONIC);
  if (meter->is_timed)
    for (long i = 0; i < rounds; i++) call(meter);
  else
    for (long i = 0; i < 500000 && left > 0; i++) call(meter);
  meter->wall = nanoseconds(CLOCK_MONOTONIC) - wall;
  meter->used = nanoseconds(CLOCK_THREAD_CPUTIME_ID) - used;
  if (meter->is_timed) left--;
  return NULL;
}

static void row(int kind, int threads, int others, int writers) {
  pthread_t ids[9];
  struct meter meters[9] = {0};
  void *last = NULL;
  int added = others;
  if (kind == ADD_AND_REMOVE && added > 256 - threads) added = 256 - threads;
  multi = curl_multi_init();
  for (int i = 0; i < added; i++)
    if (curl_multi_add_handle(multi, last = curl_easy_init())) abort();
  rounds = (kind == PROGRESS ? 2400000 : kind == HANDLES ? 480000 : 240000) / threads;
  before = threads + writers;
  left = threads;
  for (int i = 0; i < threads + writers; i++) {
    meters[i].is_timed = i < threads;
    meters[i].kind = i < threads ? kind : ADD_AND_REMOVE;
    meters[i].easy = meters[i].kind == ADD_AND_REMOVE ? curl_easy_init() : last;
  }
  for (int i = 0; i < threads + writers; i++)
    if (pthread_create(&ids[i], NULL, run, &meters[i])) abort();
  for (int i = 0; i < threads + writers; i++) pthread_join(ids[i], NULL);
  double wall = 0, used = 0, theirs = 0;
  for (int i = 0; i < threads + writers; i++) {
    double calls = meters[i].made * (meters[i].kind == ADD_AND_REMOVE ? 2.0 : 1.0);
    if (!meters[i].is_timed) { theirs = calls > 0 ? meters[i].wall / calls : 0; continue; }
    wall += meters[i].wall / calls / threads;
    used += meters[i].used / calls / threads;
  }
  printf("%-10s %7d %6d %-7s %8.0f %8.0f %9.0f\n", names[kind], threads, others, writers ? "writer" : "-", wall, used, theirs);
  fflush(stdout);
}

int main(int count, char **words) {
  static const int others[] = {1, 64, 255}, counts[] = {1, 2, 4, 8};
  if (count > 1) return puts(curl_version()) < 0;
  *(void **)&get_handles = dlsym(RTLD_DEFAULT, "curl_multi_get_handles");
  for (int kind = 0; kind < KINDS; kind++)
    for (int o = 0; o < 3 && (kind != HANDLES || get_handles); o++)
      for (int c = 0; c < 4; c++) row(kind, counts[c], others[o], 0);
  for (int kind = HANDLES; kind < KINDS; kind++)
    for (int o = 0; o < 3 && (kind != HANDLES || get_handles); o++)
      for (int c = 1; c < 4; c += 2) row(kind, c, others[o], 1);
  return 0;
}
C

# the least of the runs, row by row
least() {
  local run
  for ((run = 0; run < runs; run++)); do "$@" || return 1; done | awk '
    { key = sprintf("%-10s %7d %6d %-7s", $1, $2, $3, $4) }
    NF < 7 { print "no row: " $0; wrong = 1; next }
    !(key in wall) { order[++count] = key; wall[key] = $5; cpu[key] = $6; writer[key] = $7 }
    $5 < wall[key] { wall[key] = $5 }
    $6 < cpu[key] { cpu[key] = $6 }
    $7 < writer[key] { writer[key] = $7 }
    NF > 7 { bad[key] = "  NOT ALL ANSWERED"; wrong = 1 }
    END {
      for (i = 1; i <= count; i++) {
        key = order[i]
        print key sprintf(" %8d %8d %9d%s", wall[key], cpu[key], writer[key], bad[key])
      }
      exit wrong
    }'
}

[ -n "${PROGRAM:-}" ] || build

# KIND OTHERS ROUNDS: the instructions of that row
instructions() {
  local found
  found=$(valgrind --tool=callgrind --callgrind-out-file=/dev/null "$PROGRAM" "$@" 2>&1 > "$work/row" | awk '/Collected/ { print $4 }')
  [ -n "$found" ] && [ "$(awk '{ print NF }' "$work/row")" = 7 ] || { echo "bench/multi.sh: no number came of: $*" >&2; exit 1; }
  echo "$found"
}

if [ "$runs" = --instructions ]; then
  rounds=2000
  echo 'call       others instructions'
  for kind in add+remove wakeup info_read handles state progress; do
    for others in 1 64 255; do
      few=$(instructions "$kind" "$others" "$rounds")
      many=$(instructions "$kind" "$others" $((2 * rounds)))
      calls=$rounds
      [ "$kind" != add+remove ] || calls=$((2 * rounds))
      printf '%-10s %6d %12d\n' "$kind" "$others" $(((many - few) / calls))
    done
  done
  exit
fi

heading='call       threads others beside   wall_ns   cpu_ns writer_ns'
echo "this multi handle, least of $runs runs, $(nproc) cores"
echo "$heading"
least "$PROGRAM"
if cc -O2 -pthread -o "$work/calls" "$work/calls.c" -l:libcurl.so.4 2> /dev/null; then
  echo "under one mutex: $("$work/calls" version)"
  echo "$heading"
  least "$work/calls"
else
  echo "no cc, or no libcurl.so.4: nothing of libcurl" >&2
fi
