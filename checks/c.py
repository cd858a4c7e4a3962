"""Runs the programs that checks/c.sh built: c.py WORK TOP."""

import http.server
import os
import re
import socket
import subprocess
import sys
import threading

work, top = sys.argv[1:3]
SMALL = bytes(i % 251 for i in range(10240))
failed = []


class Handler(http.server.BaseHTTPRequestHandler):
    protocol_version = "HTTP/1.1"

    def do_GET(self):
        if self.path == "/here":
            self.send_response(302)
            self.send_header("Location", "/small")
            self.send_header("Content-Length", "0")
            self.end_headers()
        elif self.path == "/chunked":
            self.send_response(200)
            self.send_header("Transfer-Encoding", "chunked")
            self.end_headers()
            for at in range(0, len(SMALL), 999):
                piece = SMALL[at:at + 999]
                self.wfile.write(b"%x\r\n%s\r\n" % (len(piece), piece))
            self.wfile.write(b"0\r\n\r\n")
        else:
            self.send_response(200)
            self.send_header("Content-Length", str(len(SMALL)))
            self.end_headers()
            if self.command != "HEAD":
                self.wfile.write(SMALL)

    do_HEAD = do_GET

    def do_POST(self):
        self.rfile.read(int(self.headers["Content-Length"]))
        self.do_GET()

    def log_message(self, *words):
        pass


class Server(http.server.ThreadingHTTPServer):
    request_queue_size = 256
    daemon_threads = True

    def handle_error(self, request, client_address):
        pass  # a client may end at any time


def listener():
    made = socket.create_server(("127.0.0.1", 0), backlog=256)
    return made, made.getsockname()[1]


def cut(made):
    while True:
        one = made.accept()[0]
        one.recv(4096)
        one.sendall(b"HTTP/1.1 200 OK\r\nContent-Length: 100\r\n\r\nhalf")
        one.close()


def say(name, wrong=""):
    print(f"c: {name}: {wrong or 'as expected'}", flush=True)
    if wrong:
        failed.append(name)


def run(words, **how):
    return subprocess.run(words, stdout=subprocess.PIPE, stderr=subprocess.STDOUT, text=True, errors="replace", timeout=600, **how)


def names(file, *flags):
    return {it.split()[-1] for it in run(["nm", "-g", "--defined-only", *flags, file]).stdout.splitlines() if len(it.split()) == 3}


def growths(words):
    """Refuses each growth in turn, and returns what went wrong. A program whose growth is refused may end as it likes, but by no signal."""
    for number in range(1, 2000):
        note = f"{work}/note"
        if os.path.exists(note):
            os.remove(note)
        ran = run(words, env={**os.environ, "LD_PRELOAD": f"{work}/refuse.so", "REFUSE_GROWTH": str(number), "REFUSE_NOTE": note})
        if ran.returncode < 0 or ran.returncode > 1:
            return f"growth {number}: exit status {ran.returncode}"
        if not os.path.exists(note):
            print(f"c: {number - 1} growths were refused, each once")
            return "" if ran.returncode == 0 and number > 50 else f"{number - 1} growths, and exit status {ran.returncode}"
    return "no end of growths"


server = Server(("127.0.0.1", 0), Handler)
threading.Thread(target=server.serve_forever, daemon=True).start()
port = str(server.server_address[1])
silent, silent_port = listener()
half, half_port = listener()
threading.Thread(target=cut, args=(half,), daemon=True).start()
ports = [port, str(silent_port), str(half_port)]
url = f"http://127.0.0.1:{port}"

header = open(f"{top}/c/mx_multi.h", encoding="utf-8").read()
declared = set(re.findall(r"^[a-z0-9_]+ +\*?(mx_\w+)\(", header, re.M))
for library, flags in ("libmx.a", ()), ("libmx.so.0", ("-D",)):
    found = names(f"{work}/usr/lib/{library}", *flags)
    say(f"names of {library}", "" if found == declared and len(declared) > 15 else f"{sorted(found ^ declared)}")

ran = run([f"{work}/calls", *ports])
say("each call", "" if ran.returncode == 0 else ran.stdout)
ran = run(["valgrind", "-q", "--error-exitcode=9", "--leak-check=full", "--show-leak-kinds=all", "--errors-for-leak-kinds=all", f"{work}/calls", *ports,
           "no-fork"])  # its child would leave what its parent has
say("each call, under valgrind", "" if ran.returncode == 0 else ran.stdout)
say("transfers, with each growth refused", growths([f"{work}/many", f"{url}/chunked", "3", "2", "10240"]))
ran = run([f"{work}/many", f"{url}/small", "10000", "100", "10240"])
say("10,000 transfers through a handle that is never idle", "" if ran.returncode == 0 else ran.stdout)
ran = run([f"{work}/get", f"{url}/small", f"{url}/here", "ftp://x/"])
wanted = f"ftp://x/: refused with 1\n{url}/here: code 0, status 200, 10240 bytes\n{url}/small: code 0, status 200, 10240 bytes\n"
say("the example in C", "" if sorted(ran.stdout.splitlines()) == sorted(wanted.splitlines()) else ran.stdout)
ran = subprocess.run([sys.executable, f"{top}/c/examples/get.py", f"{url}/here"], capture_output=True, timeout=60)
say("the example in Python", "" if ran.stdout == SMALL and ran.returncode == 0 else ran.stderr.decode(errors="replace"))
if os.path.exists(f"{work}/get-rust"):
    ran = run([f"{work}/get-rust", f"{url}/here"])
    say("the example in Rust", "" if ran.stdout == "code 0, status 200, 10240 bytes\n" and ran.returncode == 0 else ran.stdout)
sys.exit(1 if failed else 0)
