#!/usr/bin/env bash
# `mxfetch save` beside `curl --parallel --remote-name-all` and `aria2c`, from nginx over loopback: 2,000 files of 4 KiB, 64 of 1 MiB, 4 of
# 60 MiB and 4 of 256 MiB, each saved in one run into a file system in memory, with 8 and 64 transfers at a time, and on a disk; and the 2,000
# files on a disk with --fsync and without. Wall and processor time, the median of five runs that take turns, and processor time beside the
# first curl's. Last, a body of 10 GB on a disk, from a server of its own, with 1, 2, 4 and 16 workers: time and peak memory. Each run's files
# are compared, byte by byte. Prints only.
#
#     bench/save.sh [WORD]        all tables, or those whose titles have the word
#
# PROGRAM names another program than this checkout's, MEMORY another folder in memory than /dev/shm, which takes 2 GiB, and DISK another one
# on a disk than /tmp, which takes 10 GB.
#
# It needs nginx, curl, aria2c (Debian: aria2) and python3, and installs nothing.
set -eu
top=$(cd "$(dirname "$0")/.." && pwd)
PATH=$PATH:/usr/sbin
for tool in nginx curl aria2c python3; do
    command -v "$tool" > /dev/null || { echo "bench/save.sh: there is no $tool" >&2; exit 1; }
done
if [ -z "${PROGRAM:-}" ]; then
    "$top/run" --prove
    PROGRAM=$top/crates/mxfetch/out/mxfetch
fi
memory=$(mktemp -d -p "${MEMORY:-/dev/shm}") disk=$(mktemp -d -p "${DISK:-/tmp}")
trap 'rm -rf "$memory" "$disk"' EXIT
chmod 755 "$memory" # nginx's workers run as another user
PROGRAM=$PROGRAM MEMORY=$memory DISK=$disk WORK=$disk PYTHONPATH=$top/checks python3 -B - "$@" <<'P'
import os, shutil, signal, socket, statistics, subprocess, sys, time

from bodies import blocks, sending
from saving import Saved
from servers import Server

PROGRAM, MEMORY, DISK = os.environ["PROGRAM"], os.environ["MEMORY"], os.environ["DISK"]
KIB, MIB = 1 << 10, 1 << 20
ROUNDS = 5
WORD = sys.argv[1] if len(sys.argv) > 1 else ""
TUNABLES = {"GLIBC_TUNABLES": "glibc.malloc.hugetlb=1"}  # as ./run has it

def serve():
    root = f"{MEMORY}/files"
    os.makedirs(root)
    with socket.socket() as probe:
        probe.bind(("127.0.0.1", 0))
        port = probe.getsockname()[1]
    with open(f"{MEMORY}/nginx.conf", "w") as file:
        file.write(f"""
daemon off; worker_processes 2; pid {MEMORY}/nginx.pid; error_log {MEMORY}/error.log;
events {{ worker_connections 1024; }}
http {{
  access_log off; keepalive_requests 100000; sendfile on;
  client_body_temp_path {MEMORY}/t1; proxy_temp_path {MEMORY}/t2; fastcgi_temp_path {MEMORY}/t3;
  uwsgi_temp_path {MEMORY}/t4; scgi_temp_path {MEMORY}/t5;
  server {{ listen 127.0.0.1:{port} backlog=511; root {root}; }}
}}
""")
    child = subprocess.Popen(["nginx", "-e", f"{MEMORY}/error.log", "-c", f"{MEMORY}/nginx.conf"], stderr=subprocess.DEVNULL)
    for _ in range(200):
        try:
            socket.create_connection(("127.0.0.1", port)).close()
            return child, f"http://127.0.0.1:{port}"
        except OSError:
            time.sleep(0.02)
    raise SystemExit("nginx doesn't answer")

# Each program as a function from the list of URLs, its file and a folder to its words.
def save(*options):
    return lambda urls, list_, into: [PROGRAM, "save", "--input", list_, "--into", into, *options]

def curl(most):
    words = ["curl", "-s", "--parallel", "--parallel-max", str(most), "--remote-name-all", "--output-dir"]
    return lambda urls, list_, into: [*words, into, *urls]

def aria2c(most):
    return lambda urls, list_, into: ["aria2c", "--no-conf", "--quiet", "--file-allocation=none", "-j", str(most), "-i", list_, "-d", into]

def run(words, into):
    os.makedirs(into)
    tunables = TUNABLES if words[0] == PROGRAM else {}
    quiet = {"stdin": subprocess.DEVNULL, "stdout": subprocess.DEVNULL, "stderr": subprocess.DEVNULL}
    begun = time.monotonic()
    child = subprocess.Popen(words, env={**os.environ, **tunables}, **quiet)
    _, status, usage = os.wait4(child.pid, 0)
    if status != 0:
        raise SystemExit(f"{words[:4]}: status {status}")
    return time.monotonic() - begun, usage.ru_utime + usage.ru_stime

def read(path):
    with open(path, "rb") as file:
        return file.read()

def show(title, count, length, base, at, programs):
    if WORD not in title:
        return
    files, list_ = [f"file{number}" for number in range(count)], f"{MEMORY}/urls"
    for name in files:
        with open(f"{MEMORY}/files/{name}", "wb") as file:
            file.write(os.urandom(length))
    urls = [f"{base}/{name}" for name in files]
    with open(list_, "w") as file:
        file.write("".join(f"{url}\n" for url in urls))
    found = {name: [] for name in programs}
    for _ in range(ROUNDS):
        for name, words in programs.items():
            into = f"{at}/into"
            found[name].append(run(words(urls, list_, into), into))
            if sorted(os.listdir(into)) != sorted(files) or any(read(f"{into}/{it}") != read(f"{MEMORY}/files/{it}") for it in files):
                raise SystemExit(f"{name}: other files")
            shutil.rmtree(into)
    for name in files:
        os.remove(f"{MEMORY}/files/{name}")
    print(f"{title}:")
    first = next((statistics.median(processor for _, processor in rows) for name, rows in found.items() if name.startswith("curl")), None)
    for name, rows in found.items():
        wall, processor = map(statistics.median, zip(*rows))
        beside = f"  beside curl {processor / first:5.2f}" if first else ""
        print(f"  {name:24} wall {wall:7.3f} s  processor {processor:6.3f} s{beside}", flush=True)

def show_peaks(title, length):
    if WORD not in title:
        return
    print(f"{title}:")
    with Server(sending) as server:
        for workers in (1, 2, 4, 16):
            into = f"{DISK}/into"
            run = Saved(["--workers", str(workers), server.url(f"/counted/{length}")], into, seconds=3600, asked=TUNABLES)
            with open(f"{into}/{length}", "rb") as file:
                if run.status != 0 or any(file.read(len(block)) != block for block in blocks(length)) or file.read(1):
                    raise SystemExit(f"{workers} workers: another file, status {run.status}")
            shutil.rmtree(into)
            print(f"  save, {workers:2} workers         wall {run.seconds:7.3f} s  processor {run.processor:6.3f} s  "
                  f"peak {run.peak / MIB:.1f} MiB", flush=True)

server, base = serve()
try:
    beside = {"save": save(), "save, 64 at once": save("--at-once", "64"), "save, 64, 1 worker": save("--at-once", "64", "--workers", "1"),
              "curl 8": curl(8), "curl 64": curl(64), "aria2c 8": aria2c(8), "aria2c 64": aria2c(64)}
    show("2,000 files of 4 KiB", 2000, 4 * KIB, base, MEMORY, beside)
    show("64 files of 1 MiB", 64, MIB, base, MEMORY, beside)
    few = {"save": save(), "save, 1 worker": save("--workers", "1"), "curl 8": curl(8), "aria2c 8": aria2c(8)}
    show("4 files of 60 MiB", 4, 60 * MIB, base, MEMORY, few)
    show("4 files of 256 MiB", 4, 256 * MIB, base, MEMORY, few)
    show("64 files of 1 MiB on a disk", 64, MIB, base, DISK, beside)
    show("4 files of 60 MiB on a disk", 4, 60 * MIB, base, DISK, few)
    show("4 files of 256 MiB on a disk", 4, 256 * MIB, base, DISK, few)
    show("2,000 files of 4 KiB on a disk", 2000, 4 * KIB, base, DISK, {"save": save(), "save --fsync": save("--fsync")})
    show_peaks("a body of 10 GB on a disk", 10 ** 10)
finally:
    server.send_signal(signal.SIGTERM)
    server.wait()
P
