"""Runs of `mxfetch get`, and servers on 127.0.0.1 for them."""

import contextlib
import errno
import os
import re
import signal
import socket
import struct
import subprocess
import tempfile
import threading
import time

PROGRAM = os.environ["PROGRAM"]
WORK = os.environ["WORK"]
MIB = 1 << 20
LINE = re.compile(rb"transfer (\d+) code (\d+) status (\d+) length (\d+)\n")
FAULT = b"FAULT 27\n"


class Wrong(Exception):
    pass


def want(is_so, what):
    if not is_so:
        raise Wrong(what)


# --- runs ---------------------------------------------------------------------------------------------------------------

class Run:
    """What a run of `mxfetch get` printed: its ends are (code, status, body), in the order of the handles, and `has_stopped` says whether
    `FAULT 27` stands behind them. One that hangs is ended after these seconds. `first` is called in its process before it starts."""

    def __init__(self, words, seconds=300, asked=None, first=None):
        begun = time.monotonic()
        with tempfile.TemporaryFile(dir=WORK) as out, tempfile.TemporaryFile(dir=WORK) as err:
            child = subprocess.Popen([PROGRAM, "get"] + words, stdin=subprocess.DEVNULL, stdout=out, stderr=err,
                                     env={**os.environ, **(asked or {})}, preexec_fn=first)
            watch = threading.Timer(seconds, child.kill)
            watch.start()
            self.peak = self.descriptors = 0
            counter = threading.Thread(target=self.count, args=(child.pid,), daemon=True)
            counter.start()
            _, status, usage = os.wait4(child.pid, 0)
            watch.cancel()
            counter.join()
            child.returncode = os.waitstatus_to_exitcode(status)
            out.seek(0)
            err.seek(0)
            self.out, self.err = out.read(), err.read()
        self.status = child.returncode
        self.seconds = time.monotonic() - begun
        self.processor = usage.ru_utime + usage.ru_stime
        want(self.status >= 0, f"ended by signal {-self.status} after {self.seconds:.1f} s")
        self.ends, self.has_stopped = parse(self.out) if self.status not in (120, 121) else ([], False)

    def count(self, pid):
        """The most memory and descriptors that it has, as looks 20 milliseconds apart see them: what the system counts to its end is this
        process's memory too, from which it was made."""
        try:
            while True:
                self.descriptors = max(self.descriptors, len(os.listdir(f"/proc/{pid}/fd")))
                with open(f"/proc/{pid}/status") as file:
                    peak = re.search(r"VmHWM:\s+(\d+) kB", file.read())
                self.peak = int(peak.group(1)) * 1024 if peak else self.peak
                time.sleep(0.02)
        except OSError:
            pass

    def codes(self):
        return [code for code, _, _ in self.ends]


def parse(out):
    ends, at = [], 0
    while at < len(out):
        if out[at:] == FAULT:
            return ends, True
        line = LINE.match(out, at)
        want(line is not None, f"no line of a transfer at byte {at}: {out[at:at + 60]!r}")
        handle, code, status, length = map(int, line.groups())
        want(handle == len(ends), f"handle {handle} in place of {len(ends)}")
        body = out[line.end():line.end() + length]
        at = line.end() + length
        want(out[at:at + 1] == b"\n", f"no end of line behind the body of {handle}")
        at += 1
        ends.append((code, status, body))
    return ends, False


def first_fault(codes):
    return next((code for code in codes if code != 0), 0)


def want_ends(run, ends):
    want(len(run.ends) == len(ends), f"{len(run.ends)} ends in place of {len(ends)}")
    for handle, (found, wanted) in enumerate(zip(run.ends, ends)):
        want(found[:2] == wanted[:2], f"handle {handle}: code and status {found[:2]} in place of {wanted[:2]}")
        want(found[2] == wanted[2], f"handle {handle}: another body, of {len(found[2])} bytes in place of {len(wanted[2])}")
    status = first_fault([code for code, _, _ in ends])
    want(run.status == status, f"exit status {run.status} in place of {status}")


def refuse_growths(words, ends):
    """Runs with each growth of memory refused in turn: each end is the one that is wanted, or has code 27, and one that stopped has the ends
    of the first URLs."""
    note = os.path.join(WORK, "note")
    counts = [0, 0, 0]
    for which in range(1, 5000):
        if os.path.exists(note):
            os.remove(note)
        asked = {"REFUSE_GROWTH": str(which), "REFUSE_NOTE": note, "LD_PRELOAD": os.path.join(WORK, "refuse.so")}
        run = Run(["--timeout-ms", "5000"] + words, asked=asked)
        if not os.path.exists(note):
            break
        if run.has_stopped:
            want(run.status == 27 and len(run.ends) <= len(ends), f"growth {which}: exit status {run.status}, {len(run.ends)} ends")
        else:
            want(len(run.ends) == len(ends), f"growth {which}: {len(run.ends)} ends")
            want(run.status == first_fault(run.codes()), f"growth {which}: exit status {run.status}")
        for handle, (found, wanted) in enumerate(zip(run.ends, ends)):
            want(found[0] == 27 or found == wanted, f"growth {which}: handle {handle} has code {found[0]}")
        counts[0 if run.has_stopped else 2 if run.ends == ends else 1] += 1
    want_ends(run, ends)
    print(f"    {' '.join(words[:2])}, growths refused: {counts[0]} ended the run, {counts[1]} ended a transfer, "
          f"{counts[2]} were done without")


# --- servers ------------------------------------------------------------------------------------------------------------

class Server:
    """Serves each connection by `serve(connection, number)` on a thread of its own. A port that is named may still have the last state of a
    connection that is over, which the system keeps for a minute: so it is waited for."""

    def __init__(self, serve, host="127.0.0.1", port=0):
        self.listener = socket.socket()
        until = time.monotonic() + 120
        while True:
            try:
                self.listener.bind((host, port))
                break
            except OSError as error:
                if port == 0 or error.errno != errno.EADDRINUSE or time.monotonic() > until:
                    raise
                time.sleep(0.2)
        self.listener.listen(512)
        self.port = self.listener.getsockname()[1]
        self.name = f"{host}:{self.port}"
        self.count = 0
        self.serve = serve
        self.thread = threading.Thread(target=self.accept, daemon=True)
        self.thread.start()

    def accept(self):
        while True:
            try:
                connection, _ = self.listener.accept()
            except OSError:
                return
            number, self.count = self.count, self.count + 1
            threading.Thread(target=self.handle, args=(connection, number), daemon=True).start()

    def handle(self, connection, number):
        try:
            with connection:
                connection.setsockopt(socket.IPPROTO_TCP, socket.TCP_NODELAY, 1)
                self.serve(connection, number)
        except OSError:
            pass

    def __enter__(self):
        return self

    def __exit__(self, *_):
        # a thread that still accepts could take a connection of a later server, whose listener has the same descriptor
        self.listener.shutdown(socket.SHUT_RDWR)
        self.thread.join()
        self.listener.close()

    def url(self, path="/"):
        return f"http://{self.name}{path}"


def read_head(connection):
    """A request's head, behind which nothing comes before it is answered; or None where the other side has ended."""
    head = b""
    while not head.endswith(b"\r\n\r\n"):
        piece = connection.recv(65536)
        if not piece:
            return None
        head += piece
    return head


def read_request(connection):
    """A request's path, or None where the other side has ended."""
    head = read_head(connection)
    return None if head is None else head.split(b" ")[1].decode()


def body_of(path):
    """A body that its path alone decides."""
    seed = sum(path.encode()) + 7 * len(path)
    length = (seed * 7919 + len(path)) % 5003
    return bytes((seed + 31 * at) % 251 for at in range(length))


def counted(body, line="HTTP/1.1 200 OK", more=""):
    return f"{line}\r\nContent-Length: {len(body)}\r\n{more}\r\n".encode() + body


def chunked(body, size):
    out = b"HTTP/1.1 200 OK\r\nTransfer-Encoding: chunked\r\n\r\n"
    for at in range(0, len(body), size):
        piece = body[at:at + size]
        out += b"%x\r\n" % len(piece) + piece + b"\r\n"
    return out + b"0\r\n\r\n"


def keeping(connection, _):
    while (path := read_request(connection)) is not None:
        connection.sendall(counted(body_of(path)))


def reset(connection):
    connection.setsockopt(socket.SOL_SOCKET, socket.SO_LINGER, struct.pack("ii", 1, 0))
    connection.close()


def until_closed(connection):
    while connection.recv(65536):
        pass


@contextlib.contextmanager
def deaf():
    """The name of a place where nobody listens: a port that is bound, so that nobody else is given it meanwhile."""
    with socket.socket() as bound:
        bound.bind(("127.0.0.1", 0))
        yield f"127.0.0.1:{bound.getsockname()[1]}"


class Nginx:
    """nginx over a folder of files, with more lines of its server's configuration. The log has a line for each request. It is handed a
    socket that listens already, by the variable NGINX as a newer nginx is by an older one: so nobody else takes its port before."""

    def __init__(self, files, more=""):
        self.root = os.path.join(WORK, "files")
        self.log = os.path.join(WORK, "access.log")
        if os.path.exists(self.log):
            os.remove(self.log)
        for name, content in files.items():
            os.makedirs(os.path.dirname(os.path.join(self.root, name)), exist_ok=True)
            with open(os.path.join(self.root, name), "wb") as file:
                file.write(content)
        self.listener = socket.socket()
        self.listener.bind(("127.0.0.1", 0))
        self.listener.listen(511)
        # as nginx takes it to be: of two workers that are woken for one connection, the one that gets none would wait for the next
        self.listener.setblocking(False)
        self.port = self.listener.getsockname()[1]
        conf = os.path.join(WORK, "nginx.conf")
        with open(conf, "w") as file:
            file.write(f"""
daemon off; worker_processes 2; pid {WORK}/nginx.pid; error_log {WORK}/error.log;
events {{ worker_connections 1024; }}
http {{
  log_format asked '$http_user_agent $connection $request_method $request_uri $http_host $status';
  access_log {self.log} asked; keepalive_requests 100000; sendfile on;
  client_body_temp_path {WORK}/t1; proxy_temp_path {WORK}/t2; fastcgi_temp_path {WORK}/t3;
  uwsgi_temp_path {WORK}/t4; scgi_temp_path {WORK}/t5;
  server {{ listen 127.0.0.1:{self.port} backlog=511; root {self.root}; {more} }}
}}
""")
        handed = {"pass_fds": [self.listener.fileno()], "env": {**os.environ, "NGINX": f"{self.listener.fileno()};"}}
        self.child = subprocess.Popen(["nginx", "-e", f"{WORK}/error.log", "-c", conf], stderr=subprocess.DEVNULL, **handed)
        self.listener.close()
        if not self.answers():
            self.child.kill()
            self.child.wait()
            raise Wrong("nginx doesn't answer")

    def answers(self):
        """Waits until it answers a request, which it logs as one of `check`."""
        asked = f"GET / HTTP/1.1\r\nHost: 127.0.0.1:{self.port}\r\nUser-Agent: check\r\nConnection: close\r\n\r\n"
        try:
            with socket.create_connection(("127.0.0.1", self.port), 60) as connection:
                connection.sendall(asked.encode())
                return bool(connection.recv(1))
        except OSError:
            return False

    def __enter__(self):
        return self

    def __exit__(self, *_):
        self.child.send_signal(signal.SIGTERM)
        self.child.wait()

    def url(self, name):
        return f"http://127.0.0.1:{self.port}/{name}"
