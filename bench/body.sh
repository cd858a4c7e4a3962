#!/usr/bin/env bash
# `mxfetch body GET` on a file's bytes, beside programs that do less: `cat`, which copies them; `hold`, in C, which holds its
# input as `mxfetch` must (it reads all by reads of 64 KiB into a growing buffer, and then writes it at once); and for chunks
# `by hand`, in C, which reads as `hold` does, looks for the end of the head, takes the chunks apart in place, and writes the
# line and the data at once. Processor time, the least of nine runs that take turns, and peak memory, as ratios. Prints only.
#
# It needs python3, and a C compiler, `cc` (Debian: gcc).
set -eu
top=$(cd "$(dirname "$0")/.." && pwd)
for tool in python3 cc; do
    command -v "$tool" > /dev/null || { echo "bench/body.sh: there is no $tool" >&2; exit 1; }
done
"$top/run" --prove
work=$(mktemp -d)
trap 'rm -rf "$work"' EXIT
cat > "$work/copies.c" <<'C'
#define _GNU_SOURCE
#include <stdio.h>
#include <stdlib.h>
#include <string.h>
#include <unistd.h>

static char *bytes;
static size_t held;

/* all of standard input */
static int read_all(void) {
  size_t room = 65536;
  bytes = malloc(room);
  for (;;) {
    if (bytes == NULL) return 27;
    ssize_t count = read(0, bytes + held, 65536);
    if (count < 0) return 56;
    if (count == 0) return 0;
    held += count;
    if (room - held < 65536) bytes = realloc(bytes, room *= 2);
  }
}

static int write_all(const char *from, size_t size) {
  for (size_t at = 0; at < size;) {
    ssize_t count = write(1, from + at, size - at);
    if (count <= 0) return 121;
    at += count;
  }
  return 0;
}

static int digit(char b) {
  if (b >= '0' && b <= '9') return b - '0';
  b |= 32;
  return b >= 'a' && b <= 'f' ? b - 'a' + 10 : -1;
}

/* the data of the chunks, moved to the front of the body; trailers aren't taken */
static int take_chunks(char *at, size_t *size) {
  char *end = bytes + held, *to = at;
  char *first = at;
  for (;;) {
    size_t count = 0;
    if (at == end || digit(*at) < 0) return 56;
    for (; at < end && digit(*at) >= 0; at++) {
      count = count * 16 + digit(*at);
      if (count > 67108864) return 63;
    }
    if (end - at < 2 || at[0] != '\r' || at[1] != '\n') return 56;
    at += 2;
    if ((size_t)(end - at) < count + 2) return 18;
    if (at[count] != '\r' || at[count + 1] != '\n') return 56;
    if (count == 0) break;
    memmove(to, at, count);
    to += count;
    at += count + 2;
  }
  *size = to - first;
  return 0;
}

int main(int count, char **words) {
  int fault = read_all();
  if (fault != 0) return fault;
  if (count < 2) return write_all(bytes, held);
  char *body = memmem(bytes, held, "\r\n\r\n", 4);
  if (body == NULL) return 8;
  size_t size;
  fault = take_chunks(body + 4, &size);
  if (fault != 0) return fault;
  char line[100];
  fault = write_all(line, sprintf(line, "OK status=200 body=%zu keep=yes left=0\n", size));
  return fault != 0 ? fault : write_all(body + 4, size);
}
C
cc -O2 -o "$work/copies" "$work/copies.c"
PROGRAM=$top/crates/mxfetch/out/mxfetch COPIES=$work/copies python3 - <<'P'
import filecmp, os, subprocess, tempfile

MIB = 1 << 20
CAT, HOLD, BY_HAND = ["cat"], [os.environ["COPIES"]], [os.environ["COPIES"], "chunks"]
MXFETCH = [os.environ["PROGRAM"], "body", "GET"]

# The bytes are made a MiB at a time: what a child is charged for begins with its parent's memory.
def counted(size):
    yield b"HTTP/1.1 200 OK\r\nContent-Length: %d\r\n\r\n" % size
    for _ in range(size // MIB):
        yield os.urandom(MIB)

def chunked(count, chunk):
    yield b"HTTP/1.1 200 OK\r\nTransfer-Encoding: chunked\r\n\r\n"
    piece = b"%x\r\n" % chunk + b"v" * chunk + b"\r\n"
    at_once = max(MIB // len(piece), 1)
    while count > 0:
        yield piece * min(count, at_once)
        count -= at_once
    yield b"0\r\n\r\n"

def run(words, path, taker):
    """The processor time of a run, and its greatest resident size."""
    with open(path, "rb") as source, open(taker, "wb") as target:
        child = subprocess.Popen(words, stdin=source, stdout=target)
        _, status, usage = os.wait4(child.pid, 0)
    child.returncode = os.waitstatus_to_exitcode(status)
    assert child.returncode == 0, (words, child.returncode)
    return usage.ru_utime + usage.ru_stime, usage.ru_maxrss * 1024

def show(name, pieces, parts, is_chunked):
    commands = [CAT, HOLD] + ([BY_HAND] if is_chunked else []) + [MXFETCH]
    with tempfile.NamedTemporaryFile() as file, tempfile.NamedTemporaryFile() as taker, tempfile.NamedTemporaryFile() as wanted:
        for piece in pieces:
            file.write(piece)
        file.flush()
        size = os.path.getsize(file.name)
        least, peak = [None] * len(commands), 0
        for _ in range(9):
            for at, words in enumerate(commands):
                took, most = run(words, file.name, (wanted if words is BY_HAND else taker).name)
                least[at] = took if least[at] is None else min(least[at], took)
        peak = most
        if is_chunked:
            assert filecmp.cmp(taker.name, wanted.name, shallow=False), "the two decoders don't agree"
    cat, hold, *by_hand, mxfetch = (took * 1000 for took in least)
    beside = f"  by hand {by_hand[0]:6.1f} ms" if is_chunked else " " * 19
    times = f", {mxfetch / by_hand[0]:5.2f} of by hand" if is_chunked else ""
    print(f"{name:<30} {size / MIB:5.1f} MiB  cat {cat:6.1f} ms  hold {hold:6.1f} ms{beside}  mxfetch {mxfetch:6.1f} ms, "
          f"{mxfetch / cat:5.2f} of cat, {mxfetch / hold:5.2f} of hold{times}  "
          f"memory {(peak - 8 * parts) / size:4.2f} of the input and 8 bytes a part")

print(f"{os.cpu_count()} cores; from a file to a file; least processor time of nine runs, peak memory")
for size in (15, 30, 60):
    show("one counted body", counted(size * MIB), 1, False)
for size in (15, 30, 60):
    show("chunks of 16 KiB", chunked(size * 64, 16384), size * 64, True)
for count in (250_000, 500_000, 1_000_000):
    show(f"{count} chunks of one byte", chunked(count, 1), count, True)
P
