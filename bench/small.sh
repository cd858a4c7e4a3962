#!/usr/bin/env bash
# `mxfetch get` beside `curl --parallel --parallel-max 64`, 2,000 files of 4 KiB in runs of 250, with 1, 2 and 16 workers: from nginx over
# loopback, and from a server of its own that takes a millisecond for each answer; and how many connections 1,000 of them take in runs of
# 256, from nginx. Processor time, the median of nine runs that take turns, beside curl's; curl writes a file for each body, in memory and
# on a disk, mxfetch one for all. Prints only.
#
#     bench/small.sh
#
# PROGRAM names another program than this checkout's, MEMORY another folder in memory than /dev/shm, and DISK one on a disk than /tmp.
#
# It needs nginx, curl and python3, and installs nothing.
set -eu
top=$(cd "$(dirname "$0")/.." && pwd)
PATH=$PATH:/usr/sbin
for tool in nginx curl python3; do
    command -v "$tool" > /dev/null || { echo "bench/small.sh: there is no $tool" >&2; exit 1; }
done
if [ -z "${PROGRAM:-}" ]; then
    "$top/run" --prove
    PROGRAM=$top/crates/mxfetch/out/mxfetch
fi
memory=$(mktemp -d -p "${MEMORY:-/dev/shm}") disk=$(mktemp -d -p "${DISK:-/tmp}")
trap 'rm -rf "$memory" "$disk"' EXIT
chmod 755 "$memory" # nginx's workers run as another user
PROGRAM=$PROGRAM MEMORY=$memory DISK=$disk python3 -B - <<'P'
import http.server, os, signal, socket, socketserver, statistics, subprocess, sys, time

PROGRAM, MEMORY, DISK = os.environ["PROGRAM"], os.environ["MEMORY"], os.environ["DISK"]
ROUNDS, FILES, RUN = 9, 2000, 250
BODY = bytes(4096)


class Slow(http.server.BaseHTTPRequestHandler):
    protocol_version, wbufsize = "HTTP/1.1", -1

    def do_GET(self):
        time.sleep(0.001)
        self.send_response(200)
        self.send_header("Content-Length", str(len(BODY)))
        self.end_headers()
        self.wfile.write(BODY)

    def log_message(self, *words):
        pass


class Threads(socketserver.ThreadingMixIn, http.server.HTTPServer):
    daemon_threads, request_queue_size = True, 511


def nginx():
    os.makedirs(f"{MEMORY}/files")
    for number in range(FILES):
        with open(f"{MEMORY}/files/{number}", "wb") as file:
            file.write(os.urandom(len(BODY)))
    with socket.socket() as probe:
        probe.bind(("127.0.0.1", 0))
        port = probe.getsockname()[1]
    with open(f"{MEMORY}/nginx.conf", "w") as file:
        file.write(f"""
daemon off; worker_processes 2; pid {MEMORY}/nginx.pid; error_log {MEMORY}/error.log;
events {{ worker_connections 1024; }}
http {{
  log_format connections '$connection'; access_log {MEMORY}/connections connections; keepalive_requests 100000; sendfile on;
  client_body_temp_path {MEMORY}/t1; proxy_temp_path {MEMORY}/t2; fastcgi_temp_path {MEMORY}/t3;
  uwsgi_temp_path {MEMORY}/t4; scgi_temp_path {MEMORY}/t5;
  server {{ listen 127.0.0.1:{port} backlog=511; root {MEMORY}/files; }}
}}
""")
    child = subprocess.Popen(["nginx", "-e", f"{MEMORY}/error.log", "-c", f"{MEMORY}/nginx.conf"], stderr=subprocess.DEVNULL)
    for _ in range(200):
        try:
            socket.create_connection(("127.0.0.1", port)).close()
            return child, port
        except OSError:
            time.sleep(0.05)
    raise SystemExit("nginx doesn't come up")


def slow():
    """In a process of its own, so that its time isn't the program's."""
    inner, outer = os.pipe()
    child = os.fork()
    if child == 0:
        server = Threads(("127.0.0.1", 0), Slow)
        os.write(outer, str(server.server_address[1]).encode())
        server.serve_forever()
    return child, int(os.read(inner, 16))


def get(workers):
    return lambda urls, into: [PROGRAM, "get", "--workers", str(workers), *urls]


def curl(urls, into):
    words = ["curl", "-s", "--parallel", "--parallel-max", "64"]
    return words + [word for at, url in enumerate(urls) for word in ("-o", f"{into}/{at}", url)]


def cost(words_of, urls, length, into):
    processor = 0.0
    for at in range(0, len(urls), length):
        with open(f"{into}/stdout", "wb") as out:
            child = subprocess.Popen(words_of(urls[at:at + length], into), stdout=out, stderr=subprocess.DEVNULL)
            _, status, usage = os.wait4(child.pid, 0)
        if status != 0:
            raise SystemExit(f"status {status}")
        processor += usage.ru_utime + usage.ru_stime
    return processor


web, port = nginx()
server, slow_port = slow()
try:
    for name, at in ("nginx", port), ("a server that takes a millisecond", slow_port):
        urls = [f"http://127.0.0.1:{at}/{number}" for number in range(FILES)]
        rows = {"get, 1 worker": (get(1), MEMORY), "get, 2 workers": (get(2), MEMORY), "get, 16 workers": (get(16), MEMORY),
                "curl, in memory": (curl, MEMORY), "curl, on a disk": (curl, DISK)}
        found = {row: [] for row in rows}
        for _ in range(ROUNDS):
            for row, (words_of, into) in rows.items():
                found[row].append(cost(words_of, urls, RUN, into))
        middle = {row: statistics.median(times) for row, times in found.items()}
        print(f"{name}:")
        for row, time_ in middle.items():
            print(f"  {row:16} processor {time_:6.3f} s  beside curl in memory {time_ / middle['curl, in memory']:5.2f}"
                  f"  on a disk {time_ / middle['curl, on a disk']:5.2f}", flush=True)
    for workers in 2, 16:
        counts = []
        for _ in range(ROUNDS):
            os.truncate(f"{MEMORY}/connections", 0)
            cost(get(workers), [f"http://127.0.0.1:{port}/{number}" for number in range(1000)], 256, MEMORY)
            time.sleep(0.2)
            with open(f"{MEMORY}/connections", encoding="ascii") as file:
                counts.append(len(set(file.read().replace("\0", "").split())))
        print(f"1,000 files, {workers:2} workers: {min(counts)} to {max(counts)} connections", flush=True)
finally:
    os.kill(server, signal.SIGKILL)
    web.send_signal(signal.SIGTERM)
    web.wait()
P
