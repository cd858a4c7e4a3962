#!/usr/bin/env bash
# What waits cost `mxfetch get` that nobody should wait for, from servers of its own over loopback; in milliseconds the least of five runs that
# take turns, beside `curl --parallel` where that is there:
#   - 64 URLs, one worker: the server closes each connection without a word, beside one that says `Connection: close`;
#   - 20 URLs behind 60 whose connections don't come about, two workers: how long until the last of the 20 is asked for;
#   - 63 transfers that are silent beside one whose body comes in 10,000 bytes, one worker: instructions an event and a silent transfer, and
#     system calls an event, by the difference to a run without the silent ones.
# Prints only.
#
#     bench/waits.sh
#
# It needs python3; curl, valgrind and strace for the rows that name them. It installs nothing.
set -eu
top=$(cd "$(dirname "$0")/.." && pwd)
if [ -z "${PROGRAM:-}" ]; then
    "$top/run" --prove
    PROGRAM=$top/crates/mxfetch/out/mxfetch
fi
work=$(mktemp -d)
trap 'rm -rf "$work"' EXIT
PROGRAM=$PROGRAM WORK=$work python3 - <<'P'
import os, re, shutil, socket, subprocess, threading, time

PROGRAM, WORK = os.environ["PROGRAM"], os.environ["WORK"]
ROUNDS = 5
COUNTED = b"HTTP/1.1 200 OK\r\nContent-Length: 2\r\n\r\nok"
CLOSING = b"HTTP/1.1 200 OK\r\nConnection: close\r\nContent-Length: 2\r\n\r\nok"


def read_request(connection):
    """The path that is asked for; None where the connection has ended."""
    head = b""
    while not head.endswith(b"\r\n\r\n"):
        got = connection.recv(4096)
        if not got:
            return None
        head += got
    return head.split(b" ", 2)[1].decode()


class Server:
    """Serves each connection by a function, on a thread of its own."""

    def __init__(self, serve):
        self.listener = socket.socket()
        self.listener.bind(("127.0.0.1", 0))
        self.listener.listen(512)
        self.port = self.listener.getsockname()[1]
        self.serve = serve
        threading.Thread(target=self.accept, daemon=True).start()

    def accept(self):
        while True:
            connection, _ = self.listener.accept()
            connection.setsockopt(socket.IPPROTO_TCP, socket.TCP_NODELAY, 1)
            threading.Thread(target=self.one, args=[connection], daemon=True).start()

    def one(self, connection):
        with connection:
            try:
                self.serve(connection)
            except OSError:
                pass  # the program has ended

    def urls(self, count):
        return [f"http://127.0.0.1:{self.port}/{number}" for number in range(count)]


def once(answer):
    """One response a connection, which then ends."""
    def serve(connection):
        if read_request(connection) is not None:
            connection.sendall(answer)
    return serve


def run(words):
    begun = time.monotonic()
    child = subprocess.run(words, stdin=subprocess.DEVNULL, stdout=subprocess.PIPE, stderr=subprocess.DEVNULL)
    return time.monotonic() - begun, child


def get(words):
    return run([PROGRAM, "get"] + words)


def curl(words):
    return run(["curl", "-s", "--no-progress-meter"] + words)


def least(runs):
    """The least of each of these, which take turns."""
    found = [[] for _ in runs]
    for _ in range(ROUNDS):
        for which, one in enumerate(runs):
            found[which].append(one())
    return [min(times) for times in found]


def to_null(urls):
    return [word for url in urls for word in ("-o", "/dev/null", url)]


def unannounced():
    silent, told = Server(once(COUNTED)), Server(once(CLOSING))
    rows = [("mxfetch, closed without a word", lambda: get(["--workers", "1"] + silent.urls(64))[0]),
            ("mxfetch, Connection: close", lambda: get(["--workers", "1"] + told.urls(64))[0])]
    if shutil.which("curl"):
        rows.append(("curl, closed without a word", lambda: curl(to_null(silent.urls(64)))[0]))
        rows.append(("curl, Connection: close", lambda: curl(to_null(told.urls(64)))[0]))
    times = least([row for _, row in rows])
    print("64 URLs one after another, ms")
    for (name, _), seconds in zip(rows, times):
        print(f"  {name:34} {seconds * 1000:8.1f}")
    print(f"  {'mxfetch, the first by the second':34} {times[0] / times[1]:8.2f}")


def unconnected():
    """A port whose queue is full: connections to it don't come about."""
    listener = socket.socket()
    listener.bind(("127.0.0.1", 0))
    listener.listen(0)
    held = []
    for _ in range(4):
        held.append(socket.socket())
        held[-1].setblocking(False)
        held[-1].connect_ex(listener.getsockname())
    time.sleep(0.1)
    return listener, held


def behind():
    listener, held = unconnected()
    begun, times = [0.0], []

    def serve(connection):
        while read_request(connection) is not None:
            times.append(time.monotonic() - begun[0])
            connection.sendall(COUNTED)

    server = Server(serve)
    port = listener.getsockname()[1]
    urls = [f"http://127.0.0.1:{port}/{number}" for number in range(60)] + server.urls(20)

    def last(one):
        def measured():
            times.clear()
            begun[0] = time.monotonic()
            one()
            return max(times)
        return measured

    rows = [("mxfetch, two workers", last(lambda: get(["--workers", "2", "--timeout-ms", "500"] + urls)))]
    if shutil.which("curl"):
        rows.append(("curl", last(lambda: curl(["--parallel", "--parallel-max", "80", "--max-time", "1"] + to_null(urls)))))
    print("20 URLs behind 60 that don't connect, ms until the last is asked for")
    for (name, _), seconds in zip(rows, least([row for _, row in rows])):
        print(f"  {name:34} {seconds * 1000:8.1f}")


def silent():
    events = 10_000

    def trickle(connection):
        path = read_request(connection)
        if path == "/0":
            connection.sendall(b"HTTP/1.1 200 OK\r\nContent-Length: %d\r\n\r\n" % events)
            for _ in range(events):
                connection.sendall(b"x")
                time.sleep(0.0003)
        connection.recv(1)

    server = Server(trickle)

    def counted(tool, count):
        words = tool + [PROGRAM, "get", "--workers", "2", "--timeout-ms", "60000"] + server.urls(count)
        # the silent ones end at the deadline of their own: the server's body is over long before
        words[words.index("60000")] = "12000" if tool[0] == "valgrind" else "8000"
        return run(words)[1]

    def instructions(count):
        file = f"{WORK}/callgrind.{count}"
        counted(["valgrind", "--tool=callgrind", f"--callgrind-out-file={file}"], count)
        with open(file) as out:
            return int(re.search(r"^(?:summary|totals): (\d+)", out.read(), re.M)[1])

    def calls(count):
        file = f"{WORK}/strace.{count}"
        counted(["strace", "-f", "-c", "-o", file], count)
        with open(file) as out:
            total = [line for line in out.read().splitlines() if line.endswith(" total")][0]
            return int(total.split()[3])

    print(f"126 silent transfers beside one of {events} bytes one by one, two workers, by the difference to none")
    if shutil.which("valgrind"):
        few, many = instructions(1), instructions(127)
        print(f"  {'instructions an event and silent one':34} {(many - few) / events / 63:8.1f}")
    if shutil.which("strace"):
        few, many = calls(1), calls(127)
        print(f"  {'system calls an event':34} {(many - few) / events:8.3f}")


unannounced()
behind()
silent()
P
