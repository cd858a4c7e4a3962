#!/usr/bin/env bash
# Processor time, system calls and memory of a program over the C library beside the same over libcurl: bodies of 10 kB, 1 MB and 32 MB from
# nginx on 127.0.0.1, many at once. Prints for each the medians of so many runs in turn, and the ratio.
#
#     bench/c.sh [RUNS] [ARCHIVE]    after `rt ci`; needs make, gcc, nginx-light, libcurl4-openssl-dev and python3
set -eu
[ "${1-}" != -h ] && [ "${1-}" != --help ] || { sed -n '2,/^set/s/^# \{0,1\}//p' "$0"; exit 0; }
top=$(cd "$(dirname "$(readlink -f "$0")")/.." && pwd)
work=$(mktemp -d)
trap 'kill "$(cat "$work/nginx.pid" 2> /dev/null)" 2> /dev/null; rm -rf "$work"' EXIT
archive=${2-$top/crates/mx_c/out/libmx_c.a}
[ $# = 2 ] || make -s -C "$top/c" ../crates/mx_c/out/libmx_c.a > "$work/log" 2>&1 || { tail -20 "$work/log"; exit 1; }
cp -r "$top/c" "$work/c"
rm -rf "$work/c/out"
make -s -C "$work/c" out/libmx.a ARCHIVE="$(readlink -f "$archive")"
cc -O2 -I"$top/c" -o "$work/mx" "$top/checks/c/many.c" "$work/c/out/libmx.a"
cc -O2 -o "$work/curl" "$top/bench/many-curl.c" -lcurl
python3 -B - "$work" "${1-5}" <<'PYTHON'
import os, random, resource, statistics, subprocess, sys, time

work, runs = sys.argv[1], int(sys.argv[2])
sizes = {"10 kB": (10_240, 5000, 100), "1 MB": (1_000_000, 500, 64), "32 MB": (32_000_000, 24, 4)}
os.makedirs(f"{work}/www")
for size, _, _ in sizes.values():
    with open(f"{work}/www/{size}", "wb") as file:  # in pieces: what this process had at most counts for its children
        for at in range(0, size, 65536):
            file.write(random.randbytes(min(65536, size - at)))
port = 20000 + os.getpid() % 20000
with open(f"{work}/nginx.conf", "w") as file:
    file.write(f"""worker_processes 2; pid {work}/nginx.pid; error_log {work}/error.log; events {{ worker_connections 1024; }}
http {{ access_log off; sendfile on; keepalive_requests 1000000; client_body_temp_path {work}/a; proxy_temp_path {work}/b;
fastcgi_temp_path {work}/c1; uwsgi_temp_path {work}/d; scgi_temp_path {work}/e; server {{ listen 127.0.0.1:{port} backlog=1024; root {work}/www; }} }}
""")
os.chmod(work, 0o755)
subprocess.run(["/usr/sbin/nginx", "-c", f"{work}/nginx.conf"], check=True)
time.sleep(0.5)


def one(program, size, count, at_once):
    child = subprocess.Popen([f"{work}/{program}", f"http://127.0.0.1:{port}/{size}", str(count), str(at_once), str(size)], stdout=subprocess.DEVNULL)
    begun = time.monotonic()
    _, status, used = os.wait4(child.pid, 0)
    if status:
        sys.exit(f"{program} failed at {size}")
    return used.ru_utime + used.ru_stime, time.monotonic() - begun, used.ru_maxrss / 1024


for name, (size, count, at_once) in sizes.items():
    found = {"mx": [], "curl": []}
    for _ in range(runs):
        for program, all_of in found.items():
            all_of.append(one(program, size, count, at_once))
    middle = {program: [statistics.median(it) for it in zip(*all_of)] for program, all_of in found.items()}
    for program in found:
        used, wall, most = middle[program]
        print(f"{name}: {program}: {used / count * 1e6:.0f} us of processor time for each, {wall:.2f} s by the clock, {most:.1f} MB")
    print(f"{name}: processor time {middle['mx'][0] / middle['curl'][0]:.2f} of libcurl's, wall {middle['mx'][1] / middle['curl'][1]:.2f}, memory {middle['mx'][2] / middle['curl'][2]:.2f}")
PYTHON
