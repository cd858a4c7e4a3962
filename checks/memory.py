"""The cases of checks/memory.sh: runs with little stack, and with little memory."""

import os
import resource
import subprocess
import sys
import time

from saving import files_in, folder, parts_in
from servers import PROGRAM, WORK, Server, Wrong, body_of, counted, keeping, read_request, want

KIB = 1 << 10
STACK = 192 * KIB        # of each thread
SECONDS = 20             # which no run takes a tenth of: one that takes longer hangs
RESPONSE = b"HTTP/1.1 200 OK\r\nContent-Length: 5\r\n\r\nhello"
SCRIPT = b"add 7\nadd 7\ndone 0 0 5\nread\n"
PATHS = [f"/m{number}" for number in range(40)]


def limit_stack():
    resource.setrlimit(resource.RLIMIT_STACK, (STACK, resource.getrlimit(resource.RLIMIT_STACK)[1]))


def run(words, stdin=b"", limit=limit_stack):
    """A run whose process is limited so. One that hangs or ends by a signal is wrong."""
    try:
        ended = subprocess.run([PROGRAM] + words, input=stdin, capture_output=True, preexec_fn=limit, timeout=SECONDS)
    except subprocess.TimeoutExpired:
        raise Wrong(f"{words[:3]}: it hangs") from None
    want(ended.returncode >= 0, f"{words[:3]}: ended by signal {-ended.returncode}")
    return ended


def taking(connection, _):
    """Answers a request whose body ends with END."""
    came = b""
    while not came.endswith(b"END"):
        came += connection.recv(65536)
    connection.sendall(counted(b"taken"))


def holding(connection, _):
    """Answers a request of /slow after two seconds, and others at once."""
    while (path := read_request(connection)) is not None:
        if path == "/slow":
            time.sleep(2)
        connection.sendall(counted(body_of(path)))


def case_little_stack():
    with Server(keeping) as server, Server(taking) as taker, Server(holding) as holder:
        urls = [server.url(path) for path in PATHS]
        lines = "".join(f"{url}\n" for url in urls).encode()
        with open(os.path.join(WORK, "urls"), "wb") as file:
            file.write(lines)
        with open(os.path.join(WORK, "data"), "wb") as file:
            file.write(b"x" * 100_000 + b"END")
        named = server.url("/named").replace("127.0.0.1", "localhost")
        rows = [
            (["--help"], b"", 0),
            (["--version"], b"", 0),
            *(([command, "--help"], b"", 0) for command in ("get", "save", "body", "play")),
            ([], b"", 120),
            (["fetch"], b"", 120),
            (["get"], b"", 120),
            (["get", "--timeout-ms", "soon", urls[0]], b"", 120),
            (["save", "--at-once", "0", urls[0]], b"", 120),
            (["body", "BREW"], b"", 120),
            (["body", "GET"], RESPONSE, 0),
            (["body", "--explain", "GET"], RESPONSE + b"!", 0),
            (["play"], SCRIPT, 0),
            (["get"] + urls, b"", 0),
            (["get", "--body", urls[0]], b"", 0),
            (["get", "--explain", "--workers", "1", "http://127.0.0.1:1/"], b"", 7),
            (["get", "--workers", "4", named] + urls, b"", 0),
            (["save", "--into", folder()] + urls, b"", 0),
            (["save", "--workers", "4", "--progress", "--into", folder(), "--input", "-"], lines, 0),
            (["save", "--json", "--fsync", "--into", folder(), "--input", os.path.join(WORK, "urls")], b"", 0),
            # with a second multi handle beside one whose history is full
            (["save", "--history", "16", "--into", folder()] + [holder.url(path) for path in ["/slow"] + PATHS], b"", 0),
            (["save", "--into", folder(), "--data", "@" + os.path.join(WORK, "data"), taker.url("/t")], b"", 0),
        ]
        for words, stdin, status in rows:
            ended = run(words, stdin=stdin)
            want(ended.returncode == status, f"{words[:4]}: exit status {ended.returncode} in place of {status}: {ended.stderr[-200:]!r}")


# from too little for the start of a worker to enough for four of them
def case_little_memory():
    with Server(keeping) as server:
        urls = [server.url(path) for path in PATHS]
        for workers, command in [(workers, command) for workers in ("1", "2", "4") for command in ("get", "save")]:
            codes = set()
            for kib in range(10_000, 52_000, 200):
                into = folder()
                ended = run([command, "--workers", workers, "--timeout-ms", "3000"] + (["--into", into] if command == "save" else []) + urls,
                            limit=lambda: resource.setrlimit(resource.RLIMIT_AS, (kib * KIB, kib * KIB)))
                codes.add(ended.returncode)
                want(not parts_in(into), f"{command} --workers {workers} at {kib} KiB: parts are left")
                for name, content in files_in(into).items():
                    want(content == body_of(f"/{name}"), f"{command} --workers {workers} at {kib} KiB: {name} isn't whole")
            # before the program runs the loader ends with 127
            want({0, 27} <= codes <= {0, 7, 27, 127}, f"{command} --workers {workers}: exit status {sorted(codes)}")


def main():
    cases = [(name[5:], case) for name, case in globals().items() if name.startswith("case_")]
    word = sys.argv[1] if len(sys.argv) > 1 else ""
    wrong = 0
    for name, case in cases:
        if word not in name:
            continue
        print(name, flush=True)
        try:
            case()
        except Wrong as error:
            wrong += 1
            print(f"    WRONG: {error}", flush=True)
    print(f"{wrong} wrong" if wrong else "all as expected")
    sys.exit(1 if wrong else 0)


main()
