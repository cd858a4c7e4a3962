#!/usr/bin/env bash
# `mxfetch save` under stress, from nginx over loopback, which of 256 requests leaves 4 unanswered, cuts 4 off, closes 4 without a byte,
# fails 16 with 503 and redirects 32 to where the same holds. Prints what it saw; says WRONG, and ends with 1, where a URL is reported
# other than once, a file isn't whole, a part is left by a run that ended by itself, or a run hangs or is ended by a signal.
#
#     bench/soak.sh urls [N]          one run of N URLs, 1,000,000, with its resident memory and its descriptors once a minute
#     bench/soak.sh kills [N]         N runs, 200, each killed at a random moment, over one folder, and then one that takes them up
#     bench/soak.sh memory [A B C]    runs under `ulimit -v`, from A, 10,000, to B, 60,000, in steps of C, 100, KiB; with 1, 2 and 4 workers
#     bench/soak.sh held [N S]        one run of N URLs, 20,000, of which one, after four fifths, isn't answered in S seconds, 30, its
#                                     timeout: how many others were reported before it, and when the last of them was
#
# It needs nginx and python3, and installs nothing. PROGRAM names another program than the one that ./run starts. Files lie below TMPDIR.
set -eu
top=$(cd "$(dirname "$(readlink -f "$0")")/.." && pwd)
[ $# != 0 ] && [ "$1" != -h ] && [ "$1" != --help ] || { sed -n '2,/^set/s/^# \{0,1\}//p' "$0"; exit 2; }
PATH=$PATH:/usr/sbin
for tool in nginx python3; do
    command -v "$tool" > /dev/null || { echo "bench/soak.sh: there is no $tool" >&2; exit 2; }
done
if [ -z "${PROGRAM:-}" ]; then
    PROGRAM=$("$top/run" --which)
fi
work=$(mktemp -d)
chmod 755 "$work" # nginx's workers run as another user
trap 'rm -rf "$work"' EXIT
PROGRAM=$PROGRAM WORK=$work python3 - "$@" <<'P'
import collections, os, random, re, resource, signal, socket, subprocess, sys, threading, time

PROGRAM, WORK = os.environ["PROGRAM"], os.environ["WORK"]
LINE = re.compile(rb"(saved|done|skipped|failed) (\d+) (\d+) (\d+) (\S+) (\S+)\n")
wrong = 0

def say_wrong(what):
    global wrong
    wrong += 1
    print(f"WRONG: {what}", flush=True)

def free_port():
    with socket.socket() as probe:
        probe.bind(("127.0.0.1", 0))
        return probe.getsockname()[1]

def serve_silent_and_short():
    """Answers what is asked for below /short with a body that is cut off, and nothing else."""
    listener = socket.socket()
    listener.setsockopt(socket.SOL_SOCKET, socket.SO_REUSEADDR, 1)
    listener.bind(("127.0.0.1", 0))
    listener.listen(1024)
    def one(connection):
        with connection:
            try:
                if b"/short" in connection.recv(4096):
                    connection.sendall(b"HTTP/1.1 200 OK\r\nContent-Length: 100\r\n\r\nshort")
                else:
                    while connection.recv(4096):
                        pass
            except OSError:
                pass
    def all_():
        while True:
            threading.Thread(target=one, args=(listener.accept()[0],), daemon=True).start()
    threading.Thread(target=all_, daemon=True).start()
    return listener.getsockname()[1]

def serve():
    port, other = free_port(), serve_silent_and_short()
    with open(f"{WORK}/nginx.conf", "w") as file:
        file.write(f"""
daemon off; worker_processes 2; pid {WORK}/nginx.pid; error_log {WORK}/error.log crit; worker_rlimit_nofile 8192;
events {{ worker_connections 4096; }}
http {{
  access_log off; keepalive_requests 1000;
  client_body_temp_path {WORK}/t1; proxy_temp_path {WORK}/t2; fastcgi_temp_path {WORK}/t3;
  uwsgi_temp_path {WORK}/t4; scgi_temp_path {WORK}/t5;
  map $request_id $fate {{ ~^0[0-3] hang; ~^0[4-7] short; ~^0[8-b] close; ~^1 fail; ~^[23] redirect; default whole; }}
  server {{
    listen 127.0.0.1:{port} backlog=4096;
    location ~ ^/(?:again/)*(u[0-9]+)$ {{
      set $name $1;
      if ($fate = close) {{ return 444; }}
      if ($fate = fail) {{ return 503; }}
      if ($fate = redirect) {{ return 302 /again$uri; }}
      if ($fate = hang) {{ rewrite ^ /hang last; }}
      if ($fate = short) {{ rewrite ^ /short last; }}
      return 200 "the body of $name";
    }}
    location ~ ^/(q[0-9]+)$ {{ return 200 "the body of $1"; }}
    location = /hang {{ proxy_pass http://127.0.0.1:{other}; }}
    location = /short {{ proxy_pass http://127.0.0.1:{other}; }}
  }}
}}
""")
    child = subprocess.Popen(["nginx", "-e", f"{WORK}/error.log", "-c", f"{WORK}/nginx.conf"], stderr=subprocess.DEVNULL)
    for _ in range(200):
        try:
            socket.create_connection(("127.0.0.1", port)).close()
            return child, f"http://127.0.0.1:{port}/"
        except OSError:
            time.sleep(0.02)
    raise SystemExit("nginx doesn't answer")

def list_of(base, numbers, name):
    with open(f"{WORK}/{name}", "w") as file:
        file.writelines(f"{base}u{number}\n" for number in numbers)
    return f"{WORK}/{name}"

def files_of(into):
    """How many files lie in the folder, each whole, and how many parts."""
    files = parts = 0
    for entry in os.scandir(into) if os.path.isdir(into) else ():
        if entry.name.endswith(".part"):
            parts += 1
            continue
        with open(entry.path, "rb") as file:
            content = file.read()
        if content != b"the body of " + entry.name.encode():
            say_wrong(f"{entry.name} has {content[:60]!r}")
        files += 1
    return files, parts

def reports(path, base, count):
    """How many lines have each verdict and code; each URL has one line."""
    told, seen = collections.Counter(), bytearray(count)
    with open(path, "rb") as file:
        for line in file:
            found = LINE.fullmatch(line)
            number = found and int(found.group(6)[len(base) + 1:])
            if not found or number >= count:
                say_wrong(f"a line: {line[:100]!r}")
                continue
            seen[number] += 1
            told[found.group(1).decode(), int(found.group(2))] += 1
    if set(seen) != {1}:
        say_wrong(f"{seen.count(0)} URLs without a line, {sum(it > 1 for it in seen)} with several")
    return told

def saving(list_, into, *more, out=subprocess.DEVNULL, **how):
    words = [PROGRAM, "save", "--input", list_, "--into", into, "--timeout-ms", "250", "--no-progress", *more]
    return subprocess.Popen(words, stdin=subprocess.DEVNULL, stdout=out, stderr=subprocess.DEVNULL, **how)

def urls(base, count):
    list_, into, begun = list_of(base, range(count), "urls"), f"{WORK}/urls.d", time.monotonic()
    with open(f"{WORK}/told", "wb") as out:
        child = saving(list_, into, "--at-once", "256", "--workers", "4", "--retry", "1", out=out)
        shown = 0
        while child.poll() is None:
            if time.monotonic() - begun >= shown * 60:
                shown += 1
                with open(f"/proc/{child.pid}/status") as file:
                    resident = re.search(r"VmRSS:\s+(\d+) kB", file.read())
                print(f"after {time.monotonic() - begun:4.0f} s: {int(resident.group(1)) if resident else 0} KiB resident, "
                      f"{len(os.listdir(f'/proc/{child.pid}/fd'))} descriptors, {os.path.getsize(f'{WORK}/told')} bytes told", flush=True)
            time.sleep(0.1)
    told = reports(f"{WORK}/told", base, count)
    files, parts = files_of(into)
    saved = sum(number for (verdict, _), number in told.items() if verdict == "saved")
    if child.returncode < 0 or parts or files != saved:
        say_wrong(f"status {child.returncode}, {files} files of {saved} that were saved, {parts} parts")
    print(f"{count} URLs in {time.monotonic() - begun:.0f} s: status {child.returncode}, {files} files, "
          + ", ".join(f"{verdict} {code}: {number}" for (verdict, code), number in sorted(told.items())))

def kills(base, count):
    chance, into, killed, urls = random.Random(1), f"{WORK}/kills.d", 0, 1500 * count # so many that none is without work
    list_ = list_of(base, range(urls), "urls")
    for _ in range(count):
        child = saving(list_, into, "--at-once", "64", "--workers", "2", "--skip-existing")
        time.sleep(chance.uniform(0, 0.5))
        child.send_signal(signal.SIGKILL)
        killed += child.wait() == -signal.SIGKILL
    files, parts = files_of(into)
    print(f"{killed} of {count} runs killed: {files} files, each whole, and {parts} parts")
    with open(f"{WORK}/told", "wb") as out:
        status = saving(list_, into, "--at-once", "256", "--workers", "2", "--skip-existing", out=out).wait()
    told = reports(f"{WORK}/told", base, urls)
    files, after = files_of(into)
    there = sum(number for (verdict, _), number in told.items() if verdict in ("saved", "skipped"))
    if status < 0 or after != parts or files != there:
        say_wrong(f"status {status}, {files} files of {there}, {after} parts in place of {parts}")
    print(f"taken up: status {status}, {files} files, "
          + ", ".join(f"{verdict} {code}: {number}" for (verdict, code), number in sorted(told.items())))

def memory(base, least, most, step):
    list_ = list_of(base, range(100), "urls")
    ended = collections.Counter()
    for limit in range(least, most + 1, step):
        for workers in (1, 2, 4):
            into = f"{WORK}/memory.{limit}.{workers}"
            def limited():
                resource.setrlimit(resource.RLIMIT_AS, (limit << 10, limit << 10))
            child = saving(list_, into, "--workers", str(workers), preexec_fn=limited)
            try:
                status = child.wait(60)
            except subprocess.TimeoutExpired:
                child.kill()
                status = f"no end ({child.wait()})"
            if not isinstance(status, int) or status < 0:
                say_wrong(f"ulimit -v {limit}, {workers} workers: {status}")
            ended[status] += 1
            if files_of(into)[1] and isinstance(status, int) and status >= 0:
                say_wrong(f"ulimit -v {limit}, {workers} workers: a part is left")
            subprocess.run(["rm", "-rf", into], check=True)
    print(f"{sum(ended.values())} runs: " + ", ".join(f"{number} ended with {status}" for status, number in sorted(ended.items(), key=str)))

def held(base, count, seconds):
    paths, into = [f"q{number}" for number in range(count)], f"{WORK}/held.d"
    paths[count * 4 // 5] = "hang"
    with open(f"{WORK}/urls", "w") as file:
        file.writelines(f"{base}{path}\n" for path in paths)
    begun, moments = time.monotonic(), []
    words = [PROGRAM, "save", "--input", f"{WORK}/urls", "--into", into, "--timeout-ms", str(1000 * seconds), "--no-progress"]
    child = subprocess.Popen(words, stdin=subprocess.DEVNULL, stdout=subprocess.PIPE)
    lines = []
    for line in child.stdout:
        lines.append(line)
        moments.append(time.monotonic() - begun)
    status = child.wait()
    told = {line.rsplit(b" ", 1)[1].strip().decode()[len(base):]: number for number, line in enumerate(lines)}
    files, parts = files_of(into)
    if len(lines) != count or set(told) != set(paths) or status != 28 or files != count - 1 or parts:
        say_wrong(f"status {status}, {len(lines)} lines, {files} files, {parts} parts")
    before = told.get("hang", 0)
    print(f"{before} of {count - 1} others reported before the one that hangs for {seconds} s, the last of them after "
          f"{moments[before - 1]:.1f} s; all after {moments[-1]:.1f} s")

words = sys.argv[1:]
usual = {"urls": [1000000], "kills": [200], "memory": [10000, 60000, 100], "held": [20000, 30]}
if words[0] not in usual or not all(it.isdigit() for it in words[1:]):
    sys.exit("bench/soak.sh urls|kills|memory|held [NUMBER..]; --help says more")
server, base = serve()
try:
    {"urls": urls, "kills": kills, "memory": memory, "held": held}[words[0]](base, *([int(it) for it in words[1:]] or usual[words[0]]))
finally:
    server.terminate()
    server.wait()
sys.exit(1 if wrong else 0)
P
