"""The cases of checks/get.sh: what servers do, and what is expected of `mxfetch get`."""

import contextlib
import os
import resource
import socket
import subprocess
import sys
import threading
import time

import bodies
import hostile
import redirects
from servers import (MIB, PROGRAM, WORK, Nginx, Run, Server, Wrong, body_of, chunked, counted, deaf, keeping, read_request, refuse_growths,
                     until_closed, want, want_ends)


def files_256():
    return {f"f{number}": os.urandom((number * 4001) % 20001) for number in range(256)}


def case_nginx_256_files():
    files = files_256()
    with Nginx(files) as server:
        for workers in ("1", "4", "16"):
            run = Run(["--workers", workers] + [server.url(name) for name in files])
            want_ends(run, [(0, 200, content) for content in files.values()])
            print(f"    {workers} workers: {run.seconds:.2f} s, processor {run.processor:.2f} s, peak {run.peak // MIB} MiB")


def case_nginx_large_files():
    files = {f"large{number}": os.urandom(16 * MIB) for number in range(4)}
    with Nginx(files) as server:
        run = Run(["--workers", "4"] + [server.url(name) for name in files])
        want_ends(run, [(0, 200, content) for content in files.values()])
        print(f"    4 x 16 MiB: {run.seconds:.2f} s, processor {run.processor:.2f} s, peak {run.peak // MIB} MiB")


def case_nginx_statuses():
    with Nginx({"there": b"here"}) as server:
        run = Run([server.url("there"), server.url("missing"), server.url("there")])
        want(run.codes() == [0, 0, 0] and run.status == 0, f"codes {run.codes()}")
        want([status for _, status, _ in run.ends] == [200, 404, 200], "other statuses")


def case_closes_after_each_response():
    def closing(connection, _):
        path = read_request(connection)
        connection.sendall(counted(body_of(path)))

    with Server(closing) as server:
        paths = [f"/c{number}" for number in range(100)]
        for workers in ("1", "4"):
            run = Run(["--workers", workers] + [server.url(path) for path in paths])
            want_ends(run, [(0, 200, body_of(path)) for path in paths])


def case_closes_idle_connections():
    def impatient(connection, _):
        try:
            connection.sendall(counted(body_of(read_request(connection))))
            connection.settimeout(0.01)
            keeping(connection, 0)
        except socket.timeout:
            pass

    with Server(impatient) as server:
        paths = [f"/i{number}" for number in range(200)]
        for workers in ("1", "4"):
            run = Run(["--workers", workers] + [server.url(path) for path in paths])
            want_ends(run, [(0, 200, body_of(path)) for path in paths])


def case_closes_a_reused_connection_at_the_request():
    def once(connection, number):
        path = read_request(connection)
        connection.sendall(counted(body_of(path)))
        if number % 2 == 0:
            read_request(connection)
        else:
            keeping(connection, number)

    with Server(once) as server:
        paths = [f"/r{number}" for number in range(40)]
        run = Run(["--workers", "1"] + [server.url(path) for path in paths])
        want_ends(run, [(0, 200, body_of(path)) for path in paths])


def case_stalls():
    def stalling(connection, _):
        read_request(connection)
        connection.sendall(b"HTTP/1.1 200 OK\r\nContent-Length: 100\r\n\r\nhalf")
        until_closed(connection)

    with Server(stalling) as server, Server(keeping) as good:
        run = Run(["--timeout-ms", "2000", server.url("/s"), good.url("/g"), server.url("/s")])
        want_ends(run, [(28, 200, b""), (0, 200, body_of("/g")), (28, 200, b"")])
        want(1.9 < run.seconds < 20, f"{run.seconds:.2f} s")


def case_never_answers():
    with Server(lambda connection, _: until_closed(connection)) as server:
        run = Run(["--timeout-ms", "300", server.url()])
        want_ends(run, [(28, 0, b"")])
        want(0.25 < run.seconds < 3, f"{run.seconds:.2f} s")


def case_idle_costs_nothing():
    with Server(lambda connection, _: until_closed(connection)) as server:
        run = Run(["--timeout-ms", "3000", "--workers", "4"] + [server.url(f"/{number}") for number in range(64)])
        want(run.codes() == [28] * 64, f"codes {run.codes()}")
        want(run.processor < run.seconds / 5, f"{run.processor:.2f} s of processor time in {run.seconds:.1f} s")
        print(f"    64 transfers held for {run.seconds:.2f} s: processor {run.processor:.2f} s")


def case_refused_connection():
    # a listener that closes while a thread accepts at it takes one connection more: so it is a port that never listened
    with Server(keeping) as server, deaf() as nobody:
        run = Run([f"http://{nobody}/x", server.url("/a")])
        want_ends(run, [(7, 0, b""), (0, 200, body_of("/a"))])


def case_host_that_does_not_resolve():
    run = Run(["http://nowhere.invalid/"])
    want_ends(run, [(6, 0, b"")])


def case_refused_urls():
    with Server(keeping) as server:
        run = Run(["ftp://127.0.0.1/", "127.0.0.1", "http://u:p@127.0.0.1/", server.url("/ok")])
        want_ends(run, [(1, 0, b""), (3, 0, b""), (3, 0, b""), (0, 200, body_of("/ok"))])


def case_chunked_server():
    def serve(connection, _):
        while (path := read_request(connection)) is not None:
            connection.sendall(chunked(body_of(path), 1 + len(path) * 13 % 97))

    with Server(serve) as server:
        paths = [f"/k{number}" for number in range(64)]
        for workers in ("1", "4"):
            run = Run(["--workers", workers] + [server.url(path) for path in paths])
            want_ends(run, [(0, 200, body_of(path)) for path in paths])


def case_http_1_0_server():
    def serve(connection, _):
        path = read_request(connection)
        connection.sendall(b"HTTP/1.0 200 OK\r\n\r\n" + body_of(path))

    with Server(serve) as server:
        paths = [f"/z{number}" for number in range(32)]
        run = Run([server.url(path) for path in paths])
        want_ends(run, [(0, 200, body_of(path)) for path in paths])


def case_redirects_are_delivered():
    def serve(connection, _):
        while (path := read_request(connection)) is not None:
            connection.sendall(counted(b"moved", f"HTTP/1.1 {path[1:]} Moved", "Location: http://127.0.0.1:1/\r\n"))

    with Server(serve) as server:
        statuses = [301, 302, 303, 307, 308]
        run = Run([server.url(f"/{status}") for status in statuses])
        want_ends(run, [(0, status, b"moved") for status in statuses])


def case_statuses_without_body():
    def serve(connection, _):
        while (path := read_request(connection)) is not None:
            connection.sendall(f"HTTP/1.1 {path[1:]} x\r\n\r\n".encode())

    with Server(serve) as server:
        run = Run(["--workers", "1"] + [server.url(f"/{status}") for status in (204, 304, 204)])
        want_ends(run, [(0, 204, b""), (0, 304, b""), (0, 204, b"")])


def case_max_connects_0():
    with Server(keeping) as server:
        paths = [f"/m{number}" for number in range(20)]
        run = Run(["--workers", "1", "--max-connects", "0"] + [server.url(path) for path in paths])
        want_ends(run, [(0, 200, body_of(path)) for path in paths])
        want(server.count == 20, f"{server.count} connections for 20 transfers")
    with Server(keeping) as server:
        run = Run(["--workers", "1"] + [server.url(path) for path in paths])
        want_ends(run, [(0, 200, body_of(path)) for path in paths])
        want(server.count == 1, f"{server.count} connections for 20 transfers with one kept")


def case_at_once():
    lock, paths = threading.Lock(), [f"/o{number}" for number in range(20)]

    def run_with(words, wanted):
        # holds each request until as many as are wanted have been open at a time, and a little longer
        asked, now, most = [], 0, 0

        def holding(connection, _):
            nonlocal now, most
            while (path := read_request(connection)) is not None:
                with lock:
                    asked.append(path)
                    now += 1
                    most = max(most, now)
                until = time.monotonic() + 5
                while most < wanted and time.monotonic() < until:
                    time.sleep(0.001)
                time.sleep(0.01)
                with lock:
                    now -= 1
                connection.sendall(counted(body_of(path)))

        with Server(holding) as server:
            run = Run(words + [server.url(path) for path in paths])
        want_ends(run, [(0, 200, body_of(path)) for path in paths])
        want(most == wanted, f"{words}: {most} open at a time in place of {wanted}")
        want(wanted > 1 or asked == paths, f"{words}: asked for in another order: {asked}")

    for workers in ("1", "2", "4", "16"):
        run_with(["--workers", workers], 1 if workers == "1" else 20)
        for width in (1, 3, 19, 256):
            run_with(["--workers", workers, "--at-once", str(width)], 1 if workers == "1" else min(width, 20))


def case_more_than_one_worker_may_have():
    # a worker has 64 transfers at most: all 100 are open at a time only where two are at work
    paths, all_open = [f"/w{number}" for number in range(100)], threading.Barrier(100)

    def holding(connection, _):
        path = read_request(connection)
        try:
            all_open.wait(30)
        except threading.BrokenBarrierError:
            return
        connection.sendall(counted(body_of(path), more="Connection: close\r\n"))

    with Server(holding) as server:
        run = Run(["--workers", "2", "--timeout-ms", "60000"] + [server.url(path) for path in paths])
        want_ends(run, [(0, 200, body_of(path)) for path in paths])


# rule gate-file-limit
# rule program-file-limit-hint
def case_too_many_open_files():
    hint = b"  hint: too many files were open for a connection: ulimit -n allows more, --at-once fewer transfers\n"

    def run_with(words):
        return subprocess.run([PROGRAM, "get", "--explain"] + words + urls, stdin=subprocess.DEVNULL, capture_output=True, timeout=300,
                              preexec_fn=lambda: resource.setrlimit(resource.RLIMIT_NOFILE, (24, 24)))

    # connections that are at work for longer than others are tried for
    with Server(lambda connection, number: (time.sleep(2), keeping(connection, number))) as server:
        urls = [server.url(f"/{number}") for number in range(150)]
        run = run_with([])
        want(run.returncode == 7, f"exit status {run.returncode}")
        want(run.stderr.endswith(b" (7)\n" + hint) and run.stderr.count(b"  hint: ") == 1, f"{run.stderr[-300:]!r}")
    # with fewer at once all are fetched, and nothing is said
    with Server(keeping) as server:
        urls = [server.url(f"/{number}") for number in range(150)]
        run = run_with(["--at-once", "4"])
        want(run.returncode == 0 and run.stderr == b"", f"exit status {run.returncode}, {run.stderr[-300:]!r}")


# rule turn-files
def case_idle_connections_make_room():
    # each URL has an endpoint of its own, so that the connections that are kept are of no use to the next
    with contextlib.ExitStack() as stack:
        servers = [stack.enter_context(Server(keeping)) for _ in range(40)]
        run = Run(["--explain", "--workers", "1", "--max-connects", "64"] + [server.url("/a") for server in servers],
                  first=lambda: resource.setrlimit(resource.RLIMIT_NOFILE, (24, 24)))
        want_ends(run, [(0, 200, body_of("/a"))] * 40)
        want(run.err == b"", f"{run.err[-300:]!r}")


# rule turn-files
def case_idle_connections_of_other_workers_make_room():
    # there is room for fewer connections than there are workers: where all are kept, some worker has none that it could close
    with contextlib.ExitStack() as stack:
        servers = [stack.enter_context(Server(keeping)) for _ in range(60)]
        run = Run(["--explain", "--workers", "8", "--at-once", "2", "--max-connects", "64"] + [server.url("/a") for server in servers],
                  first=lambda: resource.setrlimit(resource.RLIMIT_NOFILE, (40, 40)))
        want_ends(run, [(0, 200, body_of("/a"))] * 60)
        want(run.err == b"", f"{run.err[-300:]!r}")


# rule get-url-count
def case_257_urls():
    run = Run(["http://127.0.0.1:1/"] * 257)
    want(run.status == 120, f"exit status {run.status}")
    want(run.err == b"too many URLs\n", f"standard error {run.err!r}")
    want(run.out == b"", "standard output")


def case_refused_command_lines():
    for words in ([], ["--workers", "0", "http://a/"], ["--workers", "17", "http://a/"], ["--max-connects", "65", "http://a/"],
                  ["--timeout-ms", "4294967296", "http://a/"], ["--max-redirects", "256", "http://a/"],
                  ["--max-redirects", "-1", "http://a/"], ["--max-redirects", "", "http://a/"], ["--max-redirects", "http://a/"],
                  ["--at-once", "0", "http://a/"], ["--at-once", "257", "http://a/"], ["--at-once", "-1", "http://a/"],
                  ["--at-once", "", "http://a/"], ["--at-once", "http://a/"], ["--at-once", "2", "--at-once", "3", "http://a/"],
                  ["--what", "http://a/"]):
        run = Run(words)
        want(run.status == 120 and run.out == b"" and run.err != b"", f"{words}: exit status {run.status}")
    asked = subprocess.run([PROGRAM, "get", "--help"], capture_output=True, timeout=300)
    want(asked.returncode == 0 and b"transfer H code C" in asked.stdout and asked.stderr == b"", "help")
    want(b"--max-redirects" in asked.stdout and b"\n   47  " in asked.stdout, "help has no --max-redirects, or no 47")
    want(b"--at-once <N>" in asked.stdout and b"1 to 256 URLs" in asked.stdout, "help has no --at-once, or not how many URLs there may be")


def case_full_output():
    with Server(keeping) as server, open("/dev/full", "wb") as full:
        child = subprocess.run([PROGRAM, "get", server.url("/f")], stdout=full, stderr=subprocess.DEVNULL, timeout=300)
        want(child.returncode == 121, f"exit status {child.returncode}")


class Printing:
    """A run of `get` whose output is read as it comes, over a server that answers `/held` only once `go` is set."""

    def __init__(self, words, paths):
        self.go, self.asked = threading.Event(), []

        def serve(connection, _):
            while (path := read_request(connection)) is not None:
                self.asked.append(path)
                want(path != "/held" or self.go.wait(60), "it was held for a minute")
                connection.sendall(counted(body_of(path)))

        self.server = Server(serve)
        with self.server:
            # SIGPIPE is ignored, as by a shell that was started so: a write to a pipe that nobody reads fails
            self.child = subprocess.Popen([PROGRAM, "get"] + words + [self.server.url(path) for path in paths], stdin=subprocess.DEVNULL,
                                          stdout=subprocess.PIPE, stderr=subprocess.DEVNULL, restore_signals=False)
            watch = threading.Timer(300, self.child.kill)  # one that hangs
            watch.start()
            try:
                self.check()
            finally:
                self.go.set()
                self.child.stdout.close()
                self.status = self.child.wait()
                watch.cancel()

    def read(self, wanted):
        """Reads as many bytes as are wanted, and compares them."""
        found = self.child.stdout.read(len(wanted))
        want(found == wanted, f"{found[:60]!r} in place of {wanted[:60]!r}")


def text_of(handle, path):
    body = body_of(path)
    return f"transfer {handle} code 0 status 200 length {len(body)}\n".encode() + body + b"\n"


# rule get-at-once
def case_printed_while_others_run():
    class Early(Printing):
        def check(self):
            self.read(text_of(0, "/a"))
            want(not self.go.is_set() and self.child.poll() is None, "it had ended")
            self.go.set()
            self.read(text_of(1, "/held") + text_of(2, "/b"))
            want(self.child.stdout.read() == b"", "it printed more")

    for words in (["--workers", "1"], ["--workers", "2"], ["--at-once", "1"]):
        run = Early(words, ["/a", "/held", "/b"])
        want(run.status == 0, f"{words}: exit status {run.status}")


# rule get-at-once
def case_printed_bodies_are_freed():
    # a body that was printed is freed, whatever comes after it
    large = bytes(16 * MIB)

    def serve(connection, _):
        while read_request(connection) is not None:
            connection.sendall(counted(large))

    with Server(serve) as server:
        run = Run(["--workers", "1", "--at-once", "1"] + [server.url(f"/{number}") for number in range(16)])
        want(run.status == 0 and len(run.ends) == 16 and all(end == (0, 200, large) for end in run.ends), f"exit status {run.status}")
        want(run.peak < 80 * MIB, f"a peak of {run.peak // MIB} MiB")
        print(f"    16 x 16 MiB in turn: peak {run.peak // MIB} MiB")


# rule get-at-once
# rule program-unwritten
def case_later_write_fails():
    class Left(Printing):
        def check(self):
            self.read(text_of(0, "/a"))
            self.child.stdout.close()
            self.go.set()
            self.child.wait()

    run = Left(["--workers", "1"], ["/a", "/held", "/b", "/c"])
    want(run.status == 121, f"exit status {run.status}")
    want(run.asked == ["/a", "/held"], f"asked for {run.asked}")


def case_what_the_system_refuses():
    # the first new thread, poll or reading of a clock, and all others
    rows = [("thread", "a thread can't be started"), ("poll", "the system gives no poll of sockets, or has too many open files"),
            ("clock", "the system's clock can't be read")]
    with Server(keeping) as server:
        for refused, why in rows:
            asked = {"REFUSE_SYSTEM": refused, "LD_PRELOAD": os.path.join(WORK, "refuse.so")}
            for words, said in (([], ""), (["--workers", "1"], ""), (["--explain"], f"mxfetch: {why} (27)\n")):
                run = Run(words + [server.url("/a"), server.url("/b")], asked=asked)
                want(run.status == 27 and run.out == b"FAULT 27\n", f"no {refused}, {words}: {run.status}, {run.out[:60]!r}")
                want(run.err.decode() == said, f"no {refused}, {words}: {run.err!r}")
        want(server.count == 0, "something was asked for")


def case_refused_growths():
    paths = [f"/n{number}" for number in range(6)]
    with Server(keeping) as server:
        for workers in ("1", "2"):
            refuse_growths(["--workers", workers] + [server.url(path) for path in paths], [(0, 200, body_of(path)) for path in paths])


def main():
    cases = [(name[5:], case) for name, case in [*globals().items(), *vars(bodies).items(), *vars(hostile).items(),
                                                 *vars(redirects).items()] if name.startswith("case_")]
    word = sys.argv[1] if len(sys.argv) > 1 else ""
    if not any(word in name for name, _ in cases):
        sys.exit(f"no case has {word!r} in its name")
    wrong = 0
    for name, case in cases:
        if word not in name:
            continue
        print(name, flush=True)
        try:
            case()
        except Wrong as error:
            wrong += 1
            print(f"    WRONG: {error}", flush=True)
    print(f"{wrong} wrong" if wrong else "all as expected")
    sys.exit(1 if wrong else 0)


main()
