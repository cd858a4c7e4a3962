"""The cases of checks/get.sh on `mxfetch get --body`: what it writes, and how it ends."""

import hashlib
import os
import re
import subprocess
import time

from servers import MIB, PROGRAM, WORK, Server, body_of, chunked, counted, keeping, read_request, until_closed, want

BLOCK = os.urandom(MIB)


class BodyRun:
    """What a run of `mxfetch get --body` wrote: how many bytes, and their sum. Its output is read `pause` seconds after each piece. The most
    memory that it had is looked at when the first piece and the last came."""

    def __init__(self, words, pause=0, asked=None):
        child = subprocess.Popen([PROGRAM, "get", "--body"] + words, stdin=subprocess.DEVNULL, stdout=subprocess.PIPE, stderr=subprocess.PIPE,
                                 env={**os.environ, **(asked or {})})
        self.length, self.peak, sums = 0, 0, hashlib.blake2b()
        while piece := os.read(child.stdout.fileno(), MIB):
            self.length += len(piece)
            sums.update(piece)
            time.sleep(pause)
            self.look(child.pid)
        self.err = child.stderr.read()
        self.status = child.wait(timeout=60)
        self.sum = sums.hexdigest()

    def look(self, pid):
        try:
            with open(f"/proc/{pid}/status") as file:
                peak = re.search(r"VmHWM:\s+(\d+) kB", file.read())
            self.peak = max(self.peak, int(peak.group(1)) * 1024 if peak else 0)
        except OSError:
            pass


def sum_of_all(pieces):
    sums = hashlib.blake2b()
    for piece in pieces:
        sums.update(piece)
    return sums.hexdigest()


def sum_of(body):
    return sum_of_all([body])


def want_body(run, body, status=0):
    want(run.status == status, f"exit status {run.status} in place of {status}: {run.err!r}")
    want(run.length == len(body) and run.sum == sum_of(body), f"another body, of {run.length} bytes in place of {len(body)}")


def want_told(run, url, words):
    want(run.err.decode() == f"mxfetch: {url}: {words}\n", f"standard error {run.err!r}")


def blocks(length):
    """So many bytes, block by block, each with its number in front."""
    for number in range(-(-length // MIB)):
        yield (number.to_bytes(8, "big") + BLOCK[8:])[:length - number * MIB]


def sending(connection, _):
    """Answers a request of /FRAMING/LENGTH with so many bytes in that framing."""
    _, framing, length = read_request(connection).split("/")
    length = int(length)
    head = {"counted": f"Content-Length: {length}\r\n", "chunked": "Transfer-Encoding: chunked\r\n", "close": ""}[framing]
    connection.sendall(f"HTTP/1.1 200 OK\r\n{head}\r\n".encode())
    for block in blocks(length):
        connection.sendall(b"%x\r\n" % len(block) + block + b"\r\n" if framing == "chunked" else block)
    if framing == "chunked":
        connection.sendall(b"0\r\n\r\n")


# rule get-body
def case_body_alone():
    with Server(keeping) as server:
        for path in ("/a", "/bc", "/def"):
            run = BodyRun([server.url(path)])
            want_body(run, body_of(path))
            want(run.err == b"", f"standard error {run.err!r}")


def case_body_in_small_chunks():
    body = body_of("/small") * 20
    with Server(lambda connection, _: connection.sendall(chunked(body, 1 + len(read_request(connection)) % 7))) as server:
        want_body(BodyRun([server.url("/small")]), body)


# rule get-body
def case_body_of_any_length():
    # more than a response that is held may have, and more than 32 bits count
    with Server(sending) as server:
        for framing, length in (("chunked", 80 * MIB), ("close", 80 * MIB + 3), ("counted", 2 ** 32 + 5)):
            run = BodyRun([server.url(f"/{framing}/{length}")])
            want(run.status == 0 and run.length == length, f"{framing}: exit status {run.status}, {run.length} bytes of {length}")
            want(run.sum == sum_of_all(blocks(length)), f"{framing}: other bytes")
            want(run.peak <= 12 * MIB, f"{framing}: a peak of {run.peak // 1024} KiB")
            print(f"    {framing}, {length} bytes: peak {run.peak // 1024} KiB")


def case_body_to_a_slow_reader():
    length = 3 * MIB
    with Server(sending) as server:
        run = BodyRun([server.url(f"/counted/{length}")], pause=0.005)
        want_body(run, b"".join(blocks(length)))
        want(run.peak <= 12 * MIB, f"a peak of {run.peak // 1024} KiB")


# rule redirect-content
def case_body_behind_a_redirect():
    def leading(connection, _):
        while (path := read_request(connection)) is not None:
            connection.sendall(counted(body_of(path)) if path == "/there"
                               else counted(b"moved" * 1000, "HTTP/1.1 302 Found", "Location: /there\r\n"))

    with Server(leading) as server:
        want_body(BodyRun(["--max-redirects", "1", server.url("/here")]), body_of("/there"))
        want_body(BodyRun([server.url("/here")]), b"moved" * 1000)


# rule get-body
# rule get-body-failures
def case_body_that_fails_is_a_prefix():
    # 47 bytes
    chunks = b"HTTP/1.1 200 OK\r\nTransfer-Encoding: chunked\r\n\r\n"
    rows = [
        (b"HTTP/1.1 200 OK\r\nContent-Length: 10\r\n\r\nhello", b"hello", 18, "the response ended within its body: 5 of 10 bytes of the body came (18)"),
        (chunks + b"5\r\nhel", b"hel", 18, "the response ended within its body: 53 bytes came, and no last chunk (18)"),
        (chunks + b"5\r\nhello\r\nxyz\r\n", b"hello", 56,
         "the response is refused at byte 58: it isn't allowed in the line of a chunk's size (RFC 9112, section 7.1) (56)"),
        (chunks + b"5\r\nhelloX", b"hello", 56, "the response is refused at byte 56: no CRLF follows a chunk's data (RFC 9112, section 7.1) (56)"),
        (chunks + b"0\r\nA: b\n", b"", 56, "the response is refused at byte 55: it isn't allowed in a trailer section (RFC 9112, section 7.1.2) (56)"),
        (b"HTTP/1.1 200 OK\r\nContent-Length: x\r\n\r\nhello", b"", 8,
         "the response is refused at byte 38: Content-Length isn't one number, or HTTP/1.0 has a Transfer-Encoding (RFC 9112, sections 6.1 and 6.3) (8)"),
        (b"SSH-2.0-x\r\n", b"", 8, "the response is refused at byte 1: it isn't allowed in a status line (RFC 9112, section 4) (8)"),
        (b"HTTP/1.1 20", b"", 8, "the response ended within its head: 11 bytes came, and no whole head (8)"),
        (b"", b"", 52, None),
    ]
    for answer, body, status, words in rows:
        def cut(connection, _, answer=answer):
            read_request(connection)
            connection.sendall(answer)

        with Server(cut) as server:
            run = BodyRun([server.url()])
            want_body(run, body, status)
            want(run.err.count(b"\n") == 1 and run.err.endswith(b"(%d)\n" % status), f"standard error {run.err!r}")
            if words:
                want_told(run, server.url(), words)


def case_body_that_stalls():
    def stalling(connection, _):
        read_request(connection)
        connection.sendall(b"HTTP/1.1 200 OK\r\nContent-Length: 100\r\n\r\nhalf")
        until_closed(connection)

    with Server(stalling) as server:
        want_body(BodyRun(["--timeout-ms", "500", server.url()]), b"half", 28)


def case_body_that_cannot_be_written():
    with Server(sending) as server:
        url = server.url(f"/counted/{8 * MIB}")
        with open("/dev/full", "wb") as full:
            run = subprocess.run([PROGRAM, "get", "--body", url], stdout=full, stderr=subprocess.PIPE, timeout=300)
        want(run.returncode == 23 and run.stderr.endswith(b"(23)\n"), f"full: exit status {run.returncode}, {run.stderr!r}")
        # a reader that goes away
        child = subprocess.Popen([PROGRAM, "get", "--body", url], stdout=subprocess.PIPE, stderr=subprocess.PIPE)
        came = os.read(child.stdout.fileno(), 10)
        child.stdout.close()
        err = child.stderr.read()
        want(child.wait(timeout=60) == 23 and came == next(blocks(10)) and err.endswith(b"(23)\n"), f"closed: exit status {child.returncode}, {err!r}")


def case_body_words_that_are_refused():
    for words in (["http://a/", "http://b/"], ["--explain", "http://a/"], []):
        run = BodyRun(words)
        want(run.status == 120 and run.length == 0 and run.err != b"", f"{words}: exit status {run.status}")
    for url, status in (("ftp://a/", 1), ("http://u:p@a/", 3)):
        run = BodyRun([url])
        want(run.status == status and run.length == 0, f"{url}: exit status {run.status}")


def case_body_with_refused_growths():
    body, note = body_of("/n") * 40, os.path.join(WORK, "note")
    counts = [0, 0]
    with Server(lambda connection, _: (read_request(connection), connection.sendall(chunked(body, 4001)))) as server:
        for which in range(1, 5000):
            if os.path.exists(note):
                os.remove(note)
            run = BodyRun(["--timeout-ms", "5000", server.url("/n")],
                          asked={"REFUSE_GROWTH": str(which), "REFUSE_NOTE": note, "LD_PRELOAD": os.path.join(WORK, "refuse.so")})
            if not os.path.exists(note):
                break
            want(run.status in (0, 27), f"growth {which}: exit status {run.status}, {run.err!r}")
            want(run.sum == sum_of(body[:run.length]), f"growth {which}: no prefix of the body")
            want(run.status != 0 or run.length == len(body), f"growth {which}: {run.length} bytes and exit status 0")
            counts[run.status == 0] += 1
    want_body(run, body)
    print(f"    growths refused: {counts[0]} ended the run, {counts[1]} were done without")
