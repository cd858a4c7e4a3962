#!/usr/bin/env bash
# `mxfetch get` beside `curl --parallel` with --parallel-max 64 and 16, from nginx over loopback: 1,000 small files in runs of 256,
# and 4 files of 16 MiB, counted and chunked. Wall time, processor time and page faults, the least of five runs that take turns, and the
# system calls a transfer of one run more under strace. curl writes a file for each body, or none ("to null"); mxfetch writes one for all,
# and has the huge pages that ./run asks the C library for, or in the row "small pages" hasn't. Then heads of 6,000 and 60,000 bytes that
# come whole, or byte by byte, from a server of its own: processor time, and how often the program waited. Then the peak memory of 64
# bodies, one after another, that each end after 8 of their 16 MiB. Prints only.
#
#     bench/get.sh [heads|failed]        all of it, or the heads or the bodies that end early alone
#
# PROGRAM names another program than this checkout's, and OLD one more, whose rows ("old") take turns with its.
#
# It needs nginx, curl, strace and python3, and installs nothing.
set -eu
top=$(cd "$(dirname "$0")/.." && pwd)
PATH=$PATH:/usr/sbin
for tool in nginx curl strace python3; do
    command -v "$tool" > /dev/null || { echo "bench/get.sh: there is no $tool" >&2; exit 1; }
done
if [ -z "${PROGRAM:-}" ]; then
    "$top/run" --prove
    PROGRAM=$top/crates/mxfetch/out/mxfetch
fi
work=$(mktemp -d)
chmod 755 "$work" # nginx's workers run as another user
trap 'rm -rf "$work"' EXIT
PROGRAM=$PROGRAM OLD=${OLD:-} WORK=$work python3 - "$@" <<'P'
import os, re, signal, socket, subprocess, sys, threading, time

PROGRAM, OLD, WORK = os.environ["PROGRAM"], os.environ["OLD"], os.environ["WORK"]
MIB = 1 << 20
ROUNDS = 5
HUGE_PAGES = "glibc.malloc.hugetlb=1"

def serve():
    root = f"{WORK}/files"
    os.makedirs(root)
    for number in range(1000):
        with open(f"{root}/small{number}", "wb") as file:
            file.write(os.urandom((number * 4001) % 20001))
    for number in range(4):
        with open(f"{root}/large{number}", "wb") as file:
            for _ in range(16):
                file.write(os.urandom(MIB))
    with socket.socket() as probe:
        probe.bind(("127.0.0.1", 0))
        port = probe.getsockname()[1]
    with open(f"{WORK}/nginx.conf", "w") as file:
        # ssi over a file makes nginx send it chunked
        file.write(f"""
daemon off; worker_processes 2; pid {WORK}/nginx.pid; error_log {WORK}/error.log;
events {{ worker_connections 1024; }}
http {{
  access_log off; keepalive_requests 100000; sendfile on;
  client_body_temp_path {WORK}/t1; proxy_temp_path {WORK}/t2; fastcgi_temp_path {WORK}/t3;
  uwsgi_temp_path {WORK}/t4; scgi_temp_path {WORK}/t5;
  server {{
    listen 127.0.0.1:{port} backlog=511; root {root};
    location /chunked/ {{ alias {root}/; ssi on; ssi_types *; }}
  }}
}}
""")
    child = subprocess.Popen(["nginx", "-e", f"{WORK}/error.log", "-c", f"{WORK}/nginx.conf"], stderr=subprocess.DEVNULL)
    for _ in range(200):
        try:
            socket.create_connection(("127.0.0.1", port)).close()
            return child, f"http://127.0.0.1:{port}"
        except OSError:
            time.sleep(0.02)
    raise SystemExit("nginx doesn't answer")

def get(workers, *options, program=PROGRAM):
    return lambda urls: [[program, "get", "--workers", str(workers), *options] + urls[at:at + 256] for at in range(0, len(urls), 256)]

def curl(most, keeps=True):
    def words(urls):
        return [["curl", "-s", "--parallel", "--parallel-max", str(most), "--parallel-immediate"]
                + [word for number, url in enumerate(urls[at:at + 256])
                   for word in ("-o", f"{WORK}/out{number}" if keeps else "/dev/null", url)]
                for at in range(0, len(urls), 256)]
    return words

def environment(program):
    tunables = {"GLIBC_TUNABLES": HUGE_PAGES} if "get" in program and "small pages" not in program else {}
    return {**os.environ, **tunables}

def run(program, commands):
    begun, processor, waits, faults = time.monotonic(), 0.0, 0, 0
    for words in commands:
        with open(f"{WORK}/stdout", "wb") as out:
            child = subprocess.Popen(words, stdout=out, stderr=subprocess.DEVNULL, env=environment(program))
            _, status, usage = os.wait4(child.pid, 0)
        if status != 0:
            raise SystemExit(f"{words[:4]}: status {status}")
        processor += usage.ru_utime + usage.ru_stime
        waits += usage.ru_nvcsw
        faults += usage.ru_minflt
    return time.monotonic() - begun, processor, waits, faults

def peak_of(program, words):
    """The most memory that a run has. What the system counts to its end is this process's memory too, from which it was made, so it is
    looked at while it runs."""
    child = subprocess.Popen(words, stdout=subprocess.DEVNULL, stderr=subprocess.DEVNULL, env=environment(program))
    peak = 0
    while child.poll() is None:
        try:
            with open(f"/proc/{child.pid}/status") as file:
                found = re.search(r"VmHWM:\s+(\d+) kB", file.read())
        except OSError:
            break
        peak = max(peak, int(found[1]) * 1024) if found else peak
        time.sleep(0.002)
    if child.wait() != 18:
        raise SystemExit(f"{words[:4]}: status {child.returncode}")
    return peak

# rule gate-no-wait
def calls(program, commands):
    total = {}
    for words in commands:
        subprocess.run(["strace", "-f", "-c", "-o", f"{WORK}/strace"] + words, stdout=subprocess.DEVNULL, stderr=subprocess.DEVNULL, check=True,
                       env=environment(program))
        with open(f"{WORK}/strace") as file:
            for line in file:
                found = re.match(r"\s*[\d.]+\s+[\d.]+\s+\d+\s+(\d+)\s+(?:\d+\s+)?(\w+)$", line)
                if found and found.group(2) != "total":
                    total[found.group(2)] = total.get(found.group(2), 0) + int(found.group(1))
    return total

def show(name, programs, urls):
    print(f"{name}: {len(urls)} transfers")
    least = {}
    for _ in range(ROUNDS):
        for program, words in programs.items():
            wall, processor, _, faults = run(program, words(urls))
            found = (wall, processor, faults)
            least[program] = tuple(map(min, least.get(program, found), found))
    for program, words in programs.items():
        wall, processor, faults = least[program]
        total = calls(program, words(urls))
        most = sorted(total.items(), key=lambda call: -call[1])[:6]
        print(f"  {program:19} wall {wall:6.3f} s  processor {processor:6.3f} s  faults {faults:5}  calls a transfer {sum(total.values()) / len(urls):7.2f}  "
              + ", ".join(f"{name} {count}" for name, count in most), flush=True)

# --- heads ---

BYTES_APART = 40e-6  # seconds between the bytes of a head, so that each is read by itself

def head_of(length):
    head = b"HTTP/1.1 200 OK\r\nContent-Length: 0\r\n"
    while (left := length - len(head) - len("\r\n")) > 0:
        line = 600 if left >= 1200 else left
        head += b"Field: " + b"x" * (line - len("Field: \r\n")) + b"\r\n"
    return head + b"\r\n"

def answer_with_head(connection):
    with connection:
        connection.setsockopt(socket.IPPROTO_TCP, socket.TCP_NODELAY, 1)
        while request := connection.recv(65536):
            _, how, length = request.split(b" ")[1].decode().split("/")
            head = head_of(int(length))
            if how == "whole":
                connection.sendall(head)
                continue
            next_at = time.perf_counter()
            for at in range(len(head)):
                connection.send(head[at:at + 1])
                next_at = max(next_at + BYTES_APART, time.perf_counter())
                while time.perf_counter() < next_at:
                    pass

def serve_by(answer):
    listener = socket.create_server(("127.0.0.1", 0))

    def accept():
        while True:
            threading.Thread(target=answer, args=(listener.accept()[0],), daemon=True).start()

    threading.Thread(target=accept, daemon=True).start()
    return "http://127.0.0.1:%d" % listener.getsockname()[1]

def show_heads(base):
    for how in ("whole", "bytes"):
        for length in (6_000, 60_000):
            least = {}
            for _ in range(ROUNDS):
                for program, words in {"curl": curl(1, False), "get, 1": get(1)}.items():
                    _, *found, _ = run(program, words([f"{base}/{how}/{length}"]))
                    least[program] = min(least.get(program, found), found)
            (by_curl, curl_waits), (by_get, get_waits) = least["curl"], least["get, 1"]
            print(f"a head of {length:6} bytes, {how:5}: curl {by_curl:6.3f} s ({curl_waits} waits), "
                  f"get {by_get:6.3f} s ({get_waits} waits), {by_get / by_curl:.2f} times", flush=True)

def show_files():
    server, base = serve()
    try:
        programs = {"curl 64": curl(64), "curl 16": curl(16), "curl 16, to null": curl(16, False)}
        programs.update({f"get, {workers}": get(workers) for workers in (1, 2, 4, 16)})
        if OLD:
            programs.update({f"old get, {workers}": get(workers, program=OLD) for workers in (1, 2, 4, 16)})
        programs["get, 1, small pages"] = get(1)
        programs["get, 2, 16 at once"] = get(2, "--at-once", "16")
        show("small files", programs, [f"{base}/small{number}" for number in range(1000)])
        show("16 MiB counted", programs, [f"{base}/large{number}" for number in range(4)])
        show("16 MiB chunked", programs, [f"{base}/chunked/large{number}" for number in range(4)])
    finally:
        server.send_signal(signal.SIGTERM)
        server.wait()

# --- bodies that end early ---

def answer_in_part(connection):
    with connection:
        if connection.recv(65536):
            try:
                connection.sendall(b"HTTP/1.1 200 OK\r\nContent-Length: %d\r\n\r\n" % (16 * MIB) + bytes(8 * MIB))
            except OSError:
                pass  # the program has ended

def show_failed():
    base = serve_by(answer_in_part)
    urls = [f"{base}/{number}" for number in range(64)]
    for name, program in {"get": PROGRAM, "old get": OLD}.items():
        if program:
            for pages in ("", ", small pages"):
                peak = peak_of(name + pages, get(1, program=program)(urls)[0])
                print(f"64 URLs one after another, each cut after 8 of 16 MiB, {name}{pages}: {peak / MIB:.1f} MiB at most", flush=True)

if sys.argv[1:] not in (["heads"], ["failed"]):
    show_files()
if sys.argv[1:] != ["failed"]:
    show_heads(serve_by(answer_with_head))
if sys.argv[1:] != ["heads"]:
    show_failed()
P
