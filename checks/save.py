"""The cases of checks/save.sh: what servers, lists, folders and disks do, and what is expected of `mxfetch save`."""

import contextlib
import fcntl
import os
import pty
import random
import re
import resource
import shutil
import signal
import subprocess
import sys
import threading
import time

import hostile
import streams
from bodies import blocks, sending
from saving import (WORDS, Saved, files_in, folder, make_read_only, parse, parts_in, small_disk, start, want_files, want_lines)
from servers import (MIB, PROGRAM, WORK, Nginx, Server, Wrong, body_of, chunked, counted, deaf, keeping, read_head, read_request,
                     until_closed, want)


SET_PIPE_SIZE = 1031  # F_SETPIPE_SZ, which fcntl has from Python 3.10 on


def read_whole(connection):
    """A request with its body: its head and that, or None where the other side has ended."""
    came = b""
    while True:
        head, end, body = came.partition(b"\r\n\r\n")
        length = next((int(line[15:]) for line in head.lower().split(b"\r\n") if line.startswith(b"content-length:")), 0)
        if end and len(body) >= length:
            return head, body
        piece = connection.recv(65536)
        if not piece:
            return None
        came += piece


def saved(server, path, name, content, status=200):
    return ("saved", 0, status, len(content), name, server.url(path))


def failed(code, status, url):
    return ("failed", code, status, 0, "-", url)


# --- what is saved ------------------------------------------------------------------------------------------------------

def case_nginx_256_files():
    files = {f"f{number}": os.urandom((number * 4001) % 20001) for number in range(256)}
    with Nginx(files) as server:
        lines = [("saved", 0, 200, len(content), name, server.url(name)) for name, content in files.items()]
        for words in (["--workers", "1"], ["--workers", "4", "--at-once", "64"], ["--workers", "16", "--at-once", "256"], ["--fsync"]):
            into = folder()
            run = Saved(words + [server.url(name) for name in files], into)
            want_lines(run, lines, 0)
            want_files(into, files)
            print(f"    {' '.join(words)}: {run.seconds:.2f} s, processor {run.processor:.2f} s, peak {run.peak // MIB} MiB")


def case_nginx_large_files():
    files = {f"large{number}": os.urandom(16 * MIB) for number in range(4)}
    with Nginx(files) as server:
        into = folder()
        run = Saved([server.url(name) for name in files], into)
        want_lines(run, [("saved", 0, 200, 16 * MIB, name, server.url(name)) for name in files], 0)
        want_files(into, files)


# rule save-bodies
def case_bodies_of_any_length():
    # more than 32 bits count, in the memory of a few windows; what is on the disk is compared block by block
    rows = [("counted", 300 * MIB, 1), ("chunked", 300 * MIB + 1, 4), ("close", 300 * MIB + 3, 16), ("counted", 2 ** 32 + 5, 2)]
    with Server(sending) as server:
        for framing, length, workers in rows:
            row, into = f"{framing}, {length} bytes, {workers} workers", folder()
            if shutil.disk_usage(into).free < length + 1024 * MIB:
                print(f"    {row}: skipped: the disk has no room")
                continue
            path = f"/{framing}/{length}"
            run = Saved(["--workers", str(workers), server.url(path)], into, seconds=1200)
            want_lines(run, [("saved", 0, 200, length, str(length), server.url(path))], 0)
            want(os.listdir(into) == [str(length)], f"{row}: there is {os.listdir(into)}")
            with open(os.path.join(into, str(length)), "rb") as file:
                want(all(file.read(len(block)) == block for block in blocks(length)) and not file.read(1), f"{row}: other bytes")
            shutil.rmtree(into)
            want(run.peak <= 12 * MIB, f"{row}: a peak of {run.peak // 1024} KiB")
            print(f"    {row}: {run.seconds:.1f} s, processor {run.processor:.1f} s, peak {run.peak // 1024} KiB")


def case_many_large_bodies_at_once():
    # a transfer holds no body, however many run
    with Server(sending) as server:
        into, urls = folder(), [server.url(f"/counted/{20 * MIB + number}") for number in range(32)]
        if shutil.disk_usage(into).free < 1024 * MIB:
            return print("    skipped: the disk has no room")
        run = Saved(["--at-once", "32", "--workers", "4", *urls], into)
        want_lines(run, [("saved", 0, 200, 20 * MIB + number, str(20 * MIB + number), url) for number, url in enumerate(urls)], 0)
        want(run.peak <= 12 * MIB, f"a peak of {run.peak // 1024} KiB")
        print(f"    32 bodies of 20 MiB: peak {run.peak // 1024} KiB")
        shutil.rmtree(into)


LIMIT = 300000
BODY = os.urandom(LIMIT + 1)


def limited(connection, _):
    """Answers /FRAMING/LENGTH with so many bytes in that framing, and /moved/LENGTH with a redirect. Of a body over LIMIT it sends no more than
    shows that it is: its length, the size of a chunk, or one byte more than the limit; and then it waits for the end of the connection."""
    while (path := read_request(connection)) is not None:
        _, framing, length = path.split("/")
        length = int(length)
        is_counted = framing in ("counted", "moved")
        line = "302 Found\r\nLocation: /counted/1" if framing == "moved" else "200 OK"
        head = f"Content-Length: {length}\r\n" if is_counted else "" if framing == "close" else "Transfer-Encoding: chunked\r\n"
        connection.sendall(f"HTTP/1.1 {line}\r\n{head}\r\n".encode())
        if framing == "sized":
            connection.sendall(b"%x" % length)
        elif not is_counted or length <= LIMIT:
            for at in range(0, length, 7000):
                piece = BODY[at:min(at + 7000, length)]
                connection.sendall(b"%x\r\n" % len(piece) + piece + b"\r\n" if framing == "chunked" else piece)
        if length > LIMIT:
            return until_closed(connection)
        if framing == "close":
            return None
        if framing == "chunked":
            connection.sendall(b"0\r\n\r\n")


# rule save-limit
def case_bodies_over_a_limit():
    # a body of as many bytes as the limit says is saved; one of a byte more fails with 63 as soon as it shows, and isn't tried again
    with Server(limited) as server:
        whole = [server.url(f"/{framing}/{LIMIT}") for framing in ("counted", "chunked", "close")]
        over = [server.url(f"/{framing}/{LIMIT + 1}") for framing in ("counted", "chunked", "close", "sized", "moved")]
        names = [str(LIMIT), f"{LIMIT}#1", f"{LIMIT}#2"]
        lines = [("saved", 0, 200, LIMIT, name, url) for name, url in zip(names, whole)]
        lines += [failed(63, 302 if "moved" in url else 200, url) for url in over]
        for words in (["--workers", "1"], ["--workers", "4", "--retry", "2"]):
            into, begun = folder(), server.count
            run = Saved(words + ["--max-filesize", str(LIMIT)] + whole + over, into, seconds=60)
            want_lines(run, lines, 63)
            want_files(into, {name: BODY[:LIMIT] for name in names})
            for url in over:
                want(f"mxfetch: {url}: the response is too large (63)\n".encode() in run.err, f"{url}: {run.err!r}")
            want(server.count - begun <= len(lines), f"{server.count - begun} connections")


def case_a_disk_that_stalls():
    # the first write of a body that comes in many pieces goes on once that is allowed, and its worker does nothing else: the others go on
    body, paths = b"stalled" + os.urandom(MIB), [f"/s{number}" for number in range(8)]

    def serving(connection, _):
        while (path := read_request(connection)) is not None:
            connection.sendall(counted(body if path == "/stalled" else body_of(path)))

    with Server(serving) as server:
        for workers in ("2", "4", "16"):
            into, note = folder(), os.path.join(folder(), "note")
            child = start(["--workers", workers, "--at-once", "16", "--into", into, "--input", "-"], stdin=subprocess.PIPE,
                          stdout=subprocess.PIPE,
                          env={**os.environ, "STALL_WRITE": "stalled", "STALL_NOTE": note, "LD_PRELOAD": os.path.join(WORK, "refuse.so")})
            ends = threading.Timer(60, child.kill)
            ends.start()
            child.stdin.write(f"{server.url('/stalled')}\n".encode())
            child.stdin.flush()
            while not os.path.exists(note) and child.poll() is None:
                time.sleep(0.005)
            child.stdin.write("".join(f"{server.url(path)}\n" for path in paths).encode())
            child.stdin.close()
            told = b"".join(child.stdout.readline() for _ in paths)
            want(os.path.exists(note) and child.poll() is None, f"{workers} workers: no write stalls, or what others save isn't told meanwhile")
            want(sorted(parse(told)) == sorted(saved(server, path, path[1:], body_of(path)) for path in paths), f"{workers} workers: {told}")
            want(len(parts_in(into)) == 1, f"{workers} workers: parts {parts_in(into)}")
            os.remove(note)
            want(parse(child.stdout.read()) == [saved(server, "/stalled", "stalled", body)], f"{workers} workers: the body isn't saved")
            want(child.wait() == 0, f"{workers} workers: exit status {child.returncode}")
            ends.cancel()
            want_files(into, {"stalled": body, **{path[1:]: body_of(path) for path in paths}})


def case_python_http_server():
    root, into = folder(), folder()
    files = {f"p{number}.bin": body_of(f"/p{number}") for number in range(50)}
    for name, content in files.items():
        with open(os.path.join(root, name), "wb") as file:
            file.write(content)
    # it prints the port that the system gave it, once it listens
    server = subprocess.Popen([sys.executable, "-u", "-m", "http.server", "0", "--bind", "127.0.0.1", "--directory", root],
                              stdout=subprocess.PIPE, stderr=subprocess.DEVNULL)
    try:
        base = f"http://127.0.0.1:{int(server.stdout.readline().split(b' port ')[1].split()[0])}"
        run = Saved([f"{base}/missing"] + [f"{base}/{name}" for name in files], into)
        lines = [("saved", 0, 200, len(content), name, f"{base}/{name}") for name, content in files.items()]
        want_lines(run, lines + [failed(22, 404, f"{base}/missing")], 22)
        want_files(into, files)
    finally:
        server.kill()
        server.wait()
        server.stdout.close()


def case_framings():
    def serve(connection, _):
        path = read_request(connection)
        if path == "/chunked":
            connection.sendall(chunked(body_of(path), 97))
        elif path == "/close":
            connection.sendall(b"HTTP/1.0 200 OK\r\n\r\n" + body_of(path))
        elif path == "/empty":
            connection.sendall(counted(b""))
        else:
            connection.sendall(counted(body_of(path)))

    with Server(serve) as server:
        into, names = folder(), ["chunked", "close", "empty", "counted"]
        contents = {name: b"" if name == "empty" else body_of(f"/{name}") for name in names}
        run = Saved(["--json"] + [server.url(f"/{name}") for name in names], into)
        want(run.status == 0, f"exit status {run.status}")
        want_files(into, contents)
        found = {one["file"]: one for one in run.objects()}
        want({name: one["framing"] for name, one in found.items()}
             == {"chunked": "chunked", "close": "close", "empty": "length", "counted": "length"}, "other framings")
        # no framing where there is no body, or no head
        none = Saved(["--json", "--method", "HEAD", server.url("/head"), "ftp://a/"], folder()).objects()
        want(len(none) == 2 and all(one["framing"] is None for one in none), f"{none}")


def case_what_is_asked_for():
    asked = []

    def serve(connection, _):
        while (whole := read_whole(connection)) is not None:
            asked.append(whole)
            connection.sendall(counted(b"taken"))

    with Server(serve) as server:
        given = os.path.join(folder(), "given")
        with open(given, "wb") as file:
            file.write(bytes(range(256)))
        rows = [(["--data", "a=b"], b"POST", b"a=b"), (["--data", f"@{given}", "--method", "PUT"], b"PUT", bytes(range(256))),
                (["--data", ""], b"POST", b""), ([], b"GET", b"")]
        for words, method, body in rows:
            asked.clear()
            run = Saved(words + ["-H", "X-One: 1", "-H", "X-Two:two", "--user-agent", "me/1", server.url("/x")], folder())
            want_lines(run, [saved(server, "/x", "x", b"taken")], 0)
            want(len(asked) == 1 and asked[0][1] == body, f"{words}: another body, {asked}")
            line, *fields = asked[0][0].split(b"\r\n")
            want(line == method + b" /x HTTP/1.1", f"{words}: {line!r}")
            want({b"X-One: 1", b"X-Two: two", b"User-Agent: me/1"} <= set(fields), f"{words}: other fields, {fields}")
        # no field but those that a request needs and those that are given; an Accept of one's own takes the place of the other
        host, urls = server.url("")[7:].encode(), [server.url("/{a,b}[1-2]#x")]
        for words, more in (([], [b"Accept: */*"]), (["--data", "a"], [b"Accept: */*", b"Content-Length: 1"]),
                            (["-H", "accept: a", "-H", "X:"], [b"accept: a", b"X: "])):
            asked.clear()
            run = Saved(words + urls, folder(), asked={"http_proxy": "http://127.0.0.1:1/"})
            want(run.status == 0 and len(asked) == 1, f"{words}: {run.status}, {asked}")
            line, *fields = asked[0][0].split(b"\r\n")
            want(line.split(b" ")[1] == b"/%7Ba,b%7D[1-2]", f"{line!r}")
            want(sorted(fields) == sorted([b"Host: " + host] + more), f"{words}: other fields, {fields}")
        # the longest body
        longest = bytes(range(256)) * 4096
        with open(given, "wb") as file:
            file.write(longest)
        asked.clear()
        want_lines(Saved(["--data", f"@{given}", server.url("/x")], folder()), [saved(server, "/x", "x", b"taken")], 0)
        want(len(asked) == 1 and asked[0][1] == longest, "another body in place of the longest one")


# rule save-settings
def case_what_no_request_can_have():
    # it is refused once, by its option, and nothing is fetched or made
    with Server(keeping) as server:
        above, given = folder(), os.path.join(folder(), "given")
        into = os.path.join(above, "into")
        with open(given, "wb") as file:
            file.write(bytes(1_048_577))
        field = "a header field can't be sent: its name, its value or the number of fields isn't allowed"
        rows = [(["-H", "Bad Name: 1"], "-H", field), (["-H", "host: a"], "-H", field), (["-H", "A: \x01"], "-H", field),
                (["-H", "A: 1", "-H", ": 2"], "-H", field), ([f"-HA{number}: 1" for number in range(65)], "-H", field),
                (["-H", "A: " + "a" * 8193], "-H", field), (["--user-agent", "a "], "--user-agent", field),
                (["--user-agent", "\x7f", "-H", "A: 1"], "--user-agent", field), (["--user-agent", "\x7f", "-H", "TE: 1"], "-H", field),
                (["--data", f"@{given}"], "--data", "the body is over 1,048,576 bytes"),
                (["--data", "@/dev/zero"], "--data", "the body is over 1,048,576 bytes")]
        for words, option, why in rows:
            run = Saved(words + [server.url("/a"), server.url("/b")], into)
            want(run.status == 120 and run.out == b"" and run.err.decode() == f"mxfetch: {option}: {why}\n", f"{words}: {run.status}, {run.err!r}")
            want(run.peak < 32 * MIB, f"{words}: peak {run.peak // MIB} MiB")
        want(server.count == 0 and os.listdir(above) == [], "something was asked for, or the folder was made")


# rule save-folder-name
def case_folder_without_a_name():
    with Server(keeping) as server:
        for words in (["--into", ""], ["--into="]):
            run = Saved(words + [server.url("/x")])
            want(run.status == 120 and run.out == b"" and b"--into" in run.err, f"{words}: {run.status}, {run.err!r}")
        want(server.count == 0, "something was asked for")


def case_redirects():
    def serve(connection, _):
        while (path := read_request(connection)) is not None:
            left = int(path.split("/")[1])
            to = f"Location: /{left - 1}/a/../.bashrc\r\n"
            connection.sendall(counted(b"moved", "HTTP/1.1 302 Found", to) if left else counted(b"there"))

    with Server(serve) as server:
        # the name is that of the URL that was given, wherever it leads
        rows, into = [(0, 0, 200), (3, 0, 200), (4, 47, 302)], folder()
        run = Saved(["--max-redirects", "3"] + [server.url(f"/{left}/page{left}") for left, _, _ in rows], into)
        want_lines(run, [saved(server, f"/{left}/page{left}", f"page{left}", b"there", status) if code == 0 else
                         failed(code, status, server.url(f"/{left}/page{left}")) for left, code, status in rows], 47)
        want_files(into, {"page0": b"there", "page3": b"there"})
        run = Saved(["--max-redirects", "0", server.url("/1/page1")], into)
        want_lines(run, [failed(22, 302, server.url("/1/page1"))], 22)


# rule redirect-heads
def case_redirects_with_large_bodies():
    # a body whose redirect is followed is freed before the next one comes
    body = body_of("/large") + bytes(20 * MIB)

    def serve(connection, _):
        while (path := read_request(connection)) is not None:
            left = int(path.split("/")[1])
            to = f"Location: /{left - 1}/large\r\n" if left else ""
            connection.sendall(counted(body, "HTTP/1.1 302 Found" if left else "HTTP/1.1 200 OK", to))

    with Server(serve) as server:
        into = folder()
        run = Saved(["--max-redirects", "10", server.url("/10/large")], into)
        want_lines(run, [saved(server, "/10/large", "large", body)], 0)
        want_files(into, {"large": body})
        print(f"    11 responses of 20 MiB: {run.seconds:.2f} s, processor {run.processor:.2f} s, peak {run.peak // MIB} MiB")
        want(run.peak < 60 * MIB, f"peak {run.peak // MIB} MiB")


# --- a run that is killed, and a disk that is full ------------------------------------------------------------------------

def case_killed_and_taken_up_again():
    files = {f"k{number:04}": os.urandom((number * 4001) % 9001) for number in range(4000)}
    into, urls, chance = folder(), os.path.join(folder(), "urls"), random.Random(7)
    kills = left = 0
    with Nginx(files) as server:
        with open(urls, "w") as file:
            file.write("".join(f"{server.url(name)}\n" for name in files))
        words = ["--into", into, "--input", "-", "--skip-existing", "--at-once", "64"]
        for _ in range(20):
            with open(urls, "rb") as given:
                # a pipe of a page: what isn't read holds the run up, so that none gets far beyond the line at which it is killed
                read, write = os.pipe()
                fcntl.fcntl(write, SET_PIPE_SIZE, 4096)
                child = start(words, stdin=given, stdout=write)
                os.close(write)
                told, enough = 0, chance.randrange(20, 100)
                with open(read, "rb") as lines:
                    for line in lines:
                        told += line.startswith(b"saved ")
                        if told == enough:
                            time.sleep(chance.random() / 1000)
                            child.send_signal(signal.SIGKILL)
                            break
                kills += child.wait() == -signal.SIGKILL
            found = files_in(into)
            left = len(parts_in(into))
            for name, content in found.items():
                want(content == files[name], f"after a kill {name} has {len(content)} bytes in place of {len(files[name])}")
        want(kills == 20 and len(found) < 4000, f"{kills} kills, {len(found)} files")
        with open(urls, "rb") as given:
            run = subprocess.run([PROGRAM, "save"] + words, stdin=given, capture_output=True, timeout=300)
        want(run.returncode == 0, f"exit status {run.returncode}")
        want(run.stdout.count(b"\n") == 4000 and run.stdout.count(b"skipped 0 0 0 ") == len(found), "other lines")
        found = files_in(into)
        want(found == files, "other files")
        want(len(parts_in(into)) == left, "a part of a run that was killed is gone, or another is there")
        print(f"    20 kills: {run.stdout.count(b'skipped ')} files were there, {left} parts are left")


def case_full_disk():
    files = {f"d{number}": os.urandom(300_000) for number in range(8)}
    with small_disk("1m") as into, Nginx(files) as server:
        if into is None:
            print("    skipped: nothing can be mounted")
            return
        urls = [server.url(name) for name in files]
        run = Saved(["--at-once", "1", "--json"] + urls, into)
        want(run.status == 23, f"exit status {run.status}")
        objects = run.objects()
        there = {one["file"] for one in objects if one["verdict"] == "saved"}
        want(len(objects) == 8 and len(there) == 3, f"{len(objects)} lines, {len(there)} files")
        ends = {(one["verdict"], one["code"], one["error"]) for one in objects if one["file"] is None}
        want(ends == {("failed", 23, "the disk is full")}, f"{objects}")
        want_files(into, {name: files[name] for name in there})
        with open(os.path.join(into, "old"), "wb") as file:
            file.write(b"old")
        for name in list(there)[1:]:
            os.remove(os.path.join(into, name))
        again = Saved(["--skip-existing", "--at-once", "1"] + urls, into)
        want(again.status == 23 and [line[0] for line in again.lines].count("skipped") == 1, f"{again.lines}")
        found = files_in(into)
        want(all(content == files.get(name, b"old") for name, content in found.items()) and not parts_in(into), "other files")


# rule file-part-that-exists
def case_parts_that_are_there():
    # under the names that this process would take first: they stay as they are
    with Server(keeping) as server:
        paths, into = [f"/p{number}" for number in range(10)], folder()

        def leave():
            for number in range(300):
                with open(os.path.join(into, f".mxfetch-{os.getpid()}-{number}.part"), "x") as file:
                    file.write("mine")

        run = Saved([server.url(path) for path in paths], into, first=leave)
        want_lines(run, [saved(server, path, path[1:], body_of(path)) for path in paths], 0)
        left = parts_in(into)
        want(len(left) == 300 and all(os.path.getsize(os.path.join(into, name)) == 4 for name in left), f"{len(left)} parts")
        for name in left:
            os.remove(os.path.join(into, name))
        want_files(into, {path[1:]: body_of(path) for path in paths})


# rule file-size-limit
def case_limit_of_file_sizes():
    def serve(connection, _):
        while (path := read_request(connection)) is not None:
            connection.sendall(counted(b"x" * int(path[1:])))

    words = "the file is over the limit of file sizes: ulimit -f allows more"
    with Server(serve) as server:
        for limit in (100_000, 65_536):
            sizes, into = [0, 1, limit - 1, limit, limit + 1, 10 * limit], folder()
            run = Saved([server.url(f"/{size}") for size in sizes], into, first=lambda: resource.setrlimit(resource.RLIMIT_FSIZE, (limit, limit)))
            want_lines(run, [saved(server, f"/{size}", str(size), b"x" * size) if size <= limit else failed(23, 200, server.url(f"/{size}"))
                             for size in sizes], 23)
            want_files(into, {str(size): b"x" * size for size in sizes if size <= limit})
            want(all(f"mxfetch: {server.url(f'/{size}')}: {words} (23)\n".encode() in run.err for size in sizes if size > limit), f"{run.err!r}")


# rule file-no-part-left
def case_parts_that_cannot_be_removed():
    # of a disk that is full, and of a folder that has the name: the URL's line names the part, or there is none
    with Server(keeping) as server, small_disk("1m") as full:
        rows = [(folder(), "/a_folder", "something else has that name")]
        os.mkdir(os.path.join(rows[0][0], "a_folder"))
        if full is not None:
            with open(os.path.join(full, "large"), "wb", buffering=0) as file, contextlib.suppress(OSError):
                while True:
                    file.write(bytes(4096))
            rows.append((full, "/full", "the disk is full"))
        for into, path, why in rows:
            refused = Saved(["--json", server.url(path)], into, asked={"REFUSE_REMOVE": "1", "LD_PRELOAD": os.path.join(WORK, "refuse.so")})
            left = parts_in(into)
            want(len(left) == 1, f"{path}: parts {left}")
            error = [one["error"] for one in refused.objects()]
            want(error == [f"{why}; the part {left[0]} is left: the folder may not be written"], f"{path}: {error}")
            os.remove(os.path.join(into, left[0]))
            removed = Saved(["--json", server.url(path)], into)
            want([one["error"] for one in removed.objects()] == [why] and not parts_in(into), f"{path}: {removed.out!r}, {parts_in(into)}")


def case_flushes_that_are_refused():
    # by EIO, as a disk that fails answers: that of the folder, at the end, or that of each file
    with Server(keeping) as server:
        paths, missing = [f"/s{number}" for number in range(20)], "ftp://127.0.0.1/"
        lines, files = [saved(server, path, path[1:], body_of(path)) for path in paths], {path[1:]: body_of(path) for path in paths}
        lost = [failed(23, 200, server.url(path)) for path in paths]
        unflushed = b"mxfetch: the folder can't be flushed: the system could not do it\n"
        rows = [("folder", [], [], lines, files, 0, 0), ("folder", ["--fsync"], [], lines, files, 23, 1),
                ("folder", ["--fsync"], [missing], lines + [failed(1, 0, missing)], files, 1, 1),
                ("file", [], [], lines, files, 0, 0), ("file", ["--fsync"], [], lost, {}, 23, 0)]
        for refused, words, more, told, there, status, times in rows:
            into, asked = folder(), {"REFUSE_FLUSH": refused, "LD_PRELOAD": os.path.join(WORK, "refuse.so")}
            run = Saved(words + [server.url(path) for path in paths] + more, into, asked=asked)
            want_lines(run, told, status)
            want_files(into, there)
            want(run.err.count(unflushed) == times, f"{refused}, {words}: {run.err!r}")


def case_read_only_folder():
    with small_disk("1m") as into, Server(keeping) as server:
        if into is None:
            print("    skipped: nothing can be mounted")
            return
        make_read_only(into)
        run = Saved([server.url("/a"), server.url("/b")], into)
        # no part can be made, so that nothing is fetched
        want_lines(run, [failed(23, 0, server.url(path)) for path in ("/a", "/b")], 23)
        below = Saved([server.url("/a")], os.path.join(into, "below"))
        want(below.status == 23 and below.out == b"" and below.err.startswith(b"mxfetch: "), f"{below.status} {below.err!r}")


# --- names --------------------------------------------------------------------------------------------------------------

def case_names_that_collide():
    with Server(keeping) as server:
        paths = [f"/{number}/x" for number in range(20)] + ["/x?q=1", "/x?q=2", "/y", "/x%231"]
        names = ["x"] + [f"x#{number}" for number in range(1, 20)] + ["x#20", "x#21", "y", "x%231"]
        lines = [saved(server, path, name, body_of(path)) for path, name in zip(paths, names)]
        for words in (["--workers", "1", "--at-once", "1"], ["--workers", "8", "--at-once", "32"]):
            into = folder()
            want_lines(Saved(words + [server.url(path) for path in paths], into), lines, 0)
            want_files(into, {name: body_of(path) for path, name in zip(paths, names)})


def case_names_that_leave_the_folder():
    # what a URL is asked for as is the parser's doing: each answer here is the same
    def serve(connection, _):
        while read_request(connection) is not None:
            connection.sendall(counted(b"body", more='Content-Disposition: attachment; filename="../../evil"\r\n'))

    above = folder()
    into = os.path.join(above, "into")
    rows = [("/..", "_."), ("/a/../../x", "x"), ("/%2e%2e", "%2e%2e"), ("/%2e%2e%2fx", "%2e%2e%2fx"), ("/.", "_"), ("/.bashrc", "_bashrc"),
            ("/", "index.html"), ("", "index.html#1"), ("//etc/passwd", "passwd"), ("/a/..;/..", "_.#1"),
            ("/\\..\\..\\evil", "\\..\\..\\evil"), ("/...", "_.."), ("/nul%00", "nul%00"), ("/" + "n" * 5000, "n" * 234),
            ("/.mxfetch-1-1.part", "_mxfetch-1-1.part"),
            ("/?/../up", "index.html#2"), ("/#/../up", "index.html#3"), ("/caf\u00e9", "caf__"), ("/-rf", "-rf"), ("/~", "~"), ("/*", "*")]
    with Server(serve) as server:
        run = Saved([], into, [server.url(path) for path, _ in rows])
        want(run.status == 0, f"exit status {run.status}: {[line for line in run.lines if line[0] != 'saved']}")
        want(sorted(line[4] for line in run.lines) == sorted(name for _, name in rows),
             f"{sorted(set(line[4] for line in run.lines) ^ set(name for _, name in rows))}")
        want_files(into, {name: b"body" for _, name in rows})
        want(os.listdir(above) == ["into"], f"beside the folder there is {os.listdir(above)}")


def case_links_and_folders_in_the_way():
    outside, into = folder(), folder()
    with open(os.path.join(outside, "kept"), "wb") as file:
        file.write(b"kept")
    os.symlink(os.path.join(outside, "kept"), os.path.join(into, "to_file"))
    os.symlink(outside, os.path.join(into, "to_folder"))
    os.symlink(os.path.join(outside, "nowhere"), os.path.join(into, "to_nothing"))
    os.mkdir(os.path.join(into, "a_folder"))
    os.mkfifo(os.path.join(into, "a_pipe"))
    with open(os.path.join(into, "a_file"), "wb") as file:
        file.write(b"old and longer than what comes" * 1000)
    names = ["to_file", "to_folder", "to_nothing", "a_folder", "a_pipe", "a_file"]
    with Server(keeping) as server:
        for words in ([], ["--skip-existing"]):
            run = Saved(words + [server.url(f"/{name}") for name in names], into)
            lines = [saved(server, f"/{name}", name, body_of(f"/{name}")) for name in names]
            lines[3] = failed(23, 200, server.url("/a_folder"))
            if words:
                lines = [("skipped", 0, 0, 0, line[4], line[5]) if line[0] == "saved" else line for line in lines]
            want_lines(run, lines, 23)
            want_files(into, {name: None if name == "a_folder" else body_of(f"/{name}") for name in names})
            want(os.listdir(os.path.join(into, "a_folder")) == [], "the folder in the way isn't empty")
            want(files_in(outside) == {"kept": b"kept"}, f"outside there is {files_in(outside)}")


def case_skip_existing():
    asked, into = [], folder()

    def serve(connection, _):
        while (path := read_request(connection)) is not None:
            asked.append(path)
            connection.sendall(counted(body_of(path)))

    with open(os.path.join(into, "there"), "wb") as file:
        file.write(b"there")
    os.symlink("there", os.path.join(into, "link"))
    with Server(serve) as server:
        run = Saved(["--skip-existing"] + [server.url(path) for path in ("/there", "/link", "/new", "/2/there")], into)
        want_lines(run, [("skipped", 0, 0, 0, "there", server.url("/there"))] + [saved(server, path, name, body_of(path))
                   for path, name in (("/link", "link"), ("/new", "new"), ("/2/there", "there#1"))], 0)
        want(sorted(asked) == ["/2/there", "/link", "/new"], f"asked for: {asked}")
        want_files(into, {"there": b"there", "link": body_of("/link"), "new": body_of("/new"), "there#1": body_of("/2/there")})


def case_folder_that_is_a_link():
    above = folder()
    os.mkdir(os.path.join(above, "real"))
    os.symlink("real", os.path.join(above, "link"))
    with Server(keeping) as server:
        want_lines(Saved([server.url("/l")], os.path.join(above, "link")), [saved(server, "/l", "l", body_of("/l"))], 0)
        want_files(os.path.join(above, "real"), {"l": body_of("/l")})
        want(os.path.islink(os.path.join(above, "link")), "the link is gone")
        deep = os.path.join(above, "a", "b", "c")
        want_lines(Saved([server.url("/m")], deep), [saved(server, "/m", "m", body_of("/m"))], 0)
        want_files(deep, {"m": body_of("/m")})


# --- what is printed -------------------------------------------------------------------------------------------------------

FORGED = b"\nsaved 0 200 4 forged http://forged/\n"


def case_forged_lines():
    answers = {
        "/body": counted(FORGED * 100),
        "/reason": b"HTTP/1.1 200 OK saved 0 200 4 forged http://forged/\t\x80\r\nContent-Length: 0\r\n\r\n",
        "/reason404": b"HTTP/1.1 404 \xe2\x80\xa8saved 0 200 4 forged http://forged/\r\nContent-Length: 0\r\n\r\n",
        "/field": counted(b"", more="X: saved 0 200 4 forged http://forged/\r\nContent-Type: \"},{\r\n"),
        "/bare": b"HTTP/1.1 200 OK\nsaved 0 200 4 forged http://forged/\nContent-Length: 0\r\n\r\n",
        "/to": b"HTTP/1.1 302 Found\r\nLocation: ftp://forged/%0asaved 0 200 4 forged http://forged/\r\nContent-Length: 0\r\n\r\n",
    }

    def serve(connection, _):
        while (path := read_request(connection)) is not None:
            connection.sendall(answers.get(path, counted(b"else")))

    with Server(serve) as server:
        listed = [server.url(path) for path in answers]
        odd = [server.url("/a b"), server.url('/q"uote'), server.url("/back\\slash"), server.url("/\x7f\x1b[31m"), server.url("/\r/x"),
               server.url("/%0Asaved%200%20200%204%20forged%20http://forged/")]
        run = Saved([], folder(), listed + odd)
        want(b"forged" in run.out, "the case has no forged words")
        want(run.out.count(b"\n") == len(listed + odd) == len(run.lines), f"{len(run.lines)} lines for {len(listed + odd)} URLs")
        want(not any(line[5] == "http://forged/" for line in run.lines), "a line is forged")
        want(sorted(line[5] for line in run.lines) == sorted(shown(url) for url in listed + odd), "other URLs are told")
        for words in (["--json"], ["--json", "--content-on-error"]):
            objects = Saved(words, folder(), listed + odd).objects()
            want(sorted(one["url"] for one in objects) == sorted(shown(url) for url in listed + odd), "other URLs in JSON")


def shown(url):
    return "".join(chr(byte) if 0x21 <= byte <= 0x7e else f"%{byte:02X}" for byte in url.strip().encode())


def case_json():
    def serve(connection, _):
        while (path := read_request(connection)) is not None:
            connection.sendall(counted(b"body", f"HTTP/1.1 {path[1:4]} x"))

    with Server(serve) as server:
        into = folder()
        with open(os.path.join(into, "201"), "wb") as file:
            file.write(b"there")
        run = Saved(["--json", "--skip-existing"] + [server.url(path) for path in ("/200", "/201", "/404", "/500")] + ["ftp://a/"], into)
        found = {one["url"]: tuple(one[key] for key in ("verdict", "code", "status", "length", "file", "hops", "tries", "framing", "error"))
                 for one in run.objects()}
        want(run.status == 22, f"exit status {run.status}")
        wanted = {
            server.url("/200"): ("saved", 0, 200, 4, "200", 1, 1, "length", None),
            server.url("/201"): ("skipped", 0, 0, 0, "201", 0, 0, None, None),
            server.url("/404"): ("failed", 22, 404, 0, None, 1, 1, "length", "the status of the response isn't 2xx"),
            server.url("/500"): ("failed", 22, 500, 0, None, 1, 1, "length", "the status of the response isn't 2xx"),
            "ftp://a/": ("failed", 1, 0, 0, None, 0, 0, None, "the scheme isn't http"),
        }
        want(found == wanted, f"{ {url: one for url, one in found.items() if wanted.get(url) != one} }")


def case_lists():
    with Server(keeping) as server:
        lines = [b"\xef\xbb\xbf# a mark and a comment\n", server.url("/1").encode() + b"\r\n", b"\n", b"  \t\n",
                 b"# " + server.url("/no").encode() + b"\n", b"  " + server.url("/2").encode() + b"\t\n",
                 b"ftp://a/b\n", b"no url\n", b"http://u:p@a/\n", b"http://\xff\xfe/\n",
                 server.url("/3").encode() + b"\n", b"x" * 70_000 + b"\n", server.url("/last").encode()]
        run = Saved([], folder(), lines)
        good = [saved(server, f"/{name}", name, body_of(f"/{name}")) for name in ("1", "2", "3", "last")]
        bad = [failed(1, 0, "ftp://a/b"), failed(3, 0, "no%20url"), failed(3, 0, "http://u:p@a/"), failed(3, 0, "http://%FF%FE/"),
               failed(3, 0, "x" * 65_537)]
        want_lines(run, good + bad, 1)
        # the list comes behind the command line, and names are given in that order
        given = os.path.join(folder(), "list")
        with open(given, "w") as file:
            file.write(server.url("/b/x") + "\n" + server.url("/c/x"))
        run = Saved(["--input", given, server.url("/a/x")], folder())
        want_lines(run, [saved(server, f"/{at}/x", name, body_of(f"/{at}/x")) for at, name in (("a", "x"), ("b", "x#1"), ("c", "x#2"))], 0)
        # no list at all is refused; one that says nothing is done at once
        for nothing in ([], [b"\n#\n"]):
            run = Saved([], folder(), nothing)
            want(run.status == 0 and run.out + run.err == b"", f"a list that says nothing: {run.status}, {run.out + run.err!r}")


def case_exit_statuses():
    def serve(connection, _):
        while (path := read_request(connection)) is not None:
            if path == "/404":
                time.sleep(1)
            connection.sendall(counted(b"x", "HTTP/1.1 404 no") if path == "/404" else counted(b"x"))

    with Server(serve) as server:
        # the first in the order of the URLs, which ends last
        run = Saved([server.url("/404"), "ftp://a/", server.url("/x"), "http://u:p@a/"], folder())
        want(run.lines[-1][1] == 22 and run.status == 22, f"exit status {run.status}; {run.lines}")


def case_what_ends_a_run():
    with Server(keeping) as server:
        at = folder()
        a_file, missing = os.path.join(at, "file"), os.path.join(at, "missing")
        with open(a_file, "wb") as file:
            file.write(b"a file")
        url = server.url("/x")
        rows = [(["--into", a_file, url], 23, b"file"), (["--into", os.path.join(a_file, "below"), url], 23, b"file"),
                (["--input", missing], 26, b"missing"), (["--input", at], 26, b"list"), (["--data", f"@{missing}", url], 26, b"missing"),
                (["--input", missing, url], 26, b"missing"), ([], 120, b""), (["--into", at], 120, b""),
                (["-H", "no colon", url], 120, b"colon"), (["--at-once", "0", url], 120, b"at-once"), (["--nonsense", url], 120, b"")]
        for words, status, said in rows:
            run = Saved(["--into", at] + words if "--into" not in words else words)
            want(run.status == status and run.out == b"" and run.err != b"" and said in run.err, f"{words}: {run.status}, {run.err!r}")
            want(status == 120 or run.err.startswith(b"mxfetch: ") and run.err.count(b"\n") == 1, f"{words}: {run.err!r}")
        want(files_in(at) == {"file": b"a file"}, f"{files_in(at)}")


def case_output_that_is_closed():
    with Server(keeping) as server, open("/dev/full", "wb") as full:
        urls = [server.url(f"/o{number}") for number in range(50)]
        for out in (full, None):
            into = folder()
            if out is None:
                read, write = os.pipe()
                os.close(read)
                child = start(["--into", into] + urls, stdout=write, stderr=subprocess.PIPE)
                os.close(write)
            else:
                child = start(["--into", into] + urls, stdout=out, stderr=subprocess.PIPE)
            _, said = child.communicate(timeout=300)
            want(child.returncode == 121 and said == b"mxfetch: the output can't be written\n", f"exit status {child.returncode}, {said!r}")
            want(not parts_in(into), "a part is left")
            for name, content in files_in(into).items():
                want(content == body_of(f"/{name}"), f"{name} isn't whole")


# --- what is said on standard error -------------------------------------------------------------------------------------

# rule program-url-hint
# rule save-failures
def case_words_of_failures():
    def serve(connection, _):
        while (read := read_whole(connection)):
            path = read[0].split(b" ")[1]
            if path == b"/cut":
                return connection.sendall(b"HTTP/1.1 200 OK\r\nContent-Length: 9\r\n\r\nhalf")
            if path == b"/bad":
                return connection.sendall(b"HTTP/1.1 200 OK\r\nTransfer-Encoding: chunked\r\n\r\n5\r\nhello\r\nx")
            connection.sendall(counted(b"there") if path == b"/there" else counted(b"no", "HTTP/1.1 404 Not Found"))

    with Server(serve) as server, deaf() as nobody:
        rows = [(server.url("/missing"), 22, "the status of the response isn't 2xx"),
                (server.url("/cut"), 18, "the response ended within its body: 4 of 9 bytes of the body came"),
                (server.url("/bad"), 56, "the response is refused at byte 58: it isn't allowed in the line of a chunk's size (RFC 9112, section 7.1)"),
                (server.url("/there"), 0, None), (f"http://{nobody}/", 7, "the connection was refused, or could not be made"),
                ("127.0.0.1/x", 3, "the URL doesn't parse, or has a user name or a password"), ("https://127.0.0.1/", 1, "the scheme isn't http")]
        hints = {"127.0.0.1/x": "a URL begins with http://", "https://127.0.0.1/": "there is no TLS here, so https can't be fetched"}
        wanted = [f"mxfetch: {url}: {words} ({code})" + (f"\n  hint: {hints[url]}" if url in hints else "") for url, code, words in rows if code]
        run = Saved([url for url, _, _ in rows], folder())
        said = re.split(r"\n(?=mxfetch: )", run.err.decode().rstrip("\n"))
        want(sorted(said) == sorted(wanted), f"{run.err!r}")
        want(run.status == 22, f"exit status {run.status}")
        found = {one["url"]: one["error"] for one in Saved(["--json"] + [url for url, _, _ in rows], folder()).objects()}
        want(found == {url: words for url, _, words in rows}, f"{found}")


def case_each_failure_has_its_words():
    # a URL that is refused when it is read, and a connection that is refused meanwhile
    with deaf() as nobody:
        urls = [url for number in range(400) for url in (f"http://{nobody}/{number}", f"127.0.0.1/{number}")]
        run = Saved(["--at-once", "4"] + urls, folder())
        said = [line[len("mxfetch: "):].split(": ")[0] for line in run.err.decode().splitlines() if line.startswith("mxfetch: ")]
        want(sorted(said) == sorted(urls), f"{len(said)} lines, none for {sorted(set(urls) - set(said))[:3]}")


# rule gate-file-limit
# rule program-file-limit-hint
def case_too_many_open_files():
    # connections that are at work for longer than others are tried for
    with Server(lambda connection, number: (time.sleep(2), keeping(connection, number))) as server:
        into, urls = folder(), [server.url(f"/{number}") for number in range(150)]
        child = start(["--at-once", "150", "--into", into] + urls, stdout=subprocess.PIPE, stderr=subprocess.PIPE,
                      preexec_fn=lambda: resource.setrlimit(resource.RLIMIT_NOFILE, (24, 24)))
        out, err = child.communicate(timeout=300)
        codes = [line[1] for line in parse(out)]
        want(len(codes) == 150 and 7 in codes and set(codes) <= {0, 7, 23}, f"{codes}")
        hint = b"  hint: too many files were open for a connection: ulimit -n allows more, --at-once fewer transfers\n"
        want(err.endswith(hint) and err.count(b"  hint: ") == 1, f"{err[-300:]!r}")
    # with fewer at once all are saved, and nothing is said
    with Server(keeping) as server:
        into, urls = folder(), [server.url(f"/{number}") for number in range(150)]
        child = start(["--at-once", "4", "--workers", "1", "--into", into] + urls, stdout=subprocess.PIPE, stderr=subprocess.PIPE,
                      preexec_fn=lambda: resource.setrlimit(resource.RLIMIT_NOFILE, (24, 24)))
        out, err = child.communicate(timeout=300)
        want({line[1] for line in parse(out)} == {0} and err == b"", f"{err[-300:]!r}")


# rule turn-files
def case_idle_connections_make_room():
    # each URL has an endpoint of its own, so that the connections that are kept are of no use to the next
    with contextlib.ExitStack() as stack:
        servers = [stack.enter_context(Server(keeping)) for _ in range(40)]
        into = folder()
        words = ["--workers", "1", "--at-once", "2", "--max-connects", "64", "--retry", "0"]
        run = Saved(words + [server.url(f"/f{at}") for at, server in enumerate(servers)], into,
                    first=lambda: resource.setrlimit(resource.RLIMIT_NOFILE, (24, 24)))
        want_lines(run, [saved(server, f"/f{at}", f"f{at}", body_of(f"/f{at}")) for at, server in enumerate(servers)], 0)
        want(run.err == b"", f"{run.err[-300:]!r}")
        want_files(into, {f"f{at}": body_of(f"/f{at}") for at in range(40)})


# rule turn-files
def case_idle_connections_of_other_workers_make_room():
    # there is room for fewer connections than there are workers: where all are kept, some worker has none that it could close
    with contextlib.ExitStack() as stack:
        servers = [stack.enter_context(Server(keeping)) for _ in range(60)]
        into = folder()
        words = ["--workers", "8", "--at-once", "2", "--max-connects", "64", "--retry", "0"]
        run = Saved(words + [server.url(f"/f{at}") for at, server in enumerate(servers)], into,
                    first=lambda: resource.setrlimit(resource.RLIMIT_NOFILE, (40, 40)))
        want_lines(run, [saved(server, f"/f{at}", f"f{at}", body_of(f"/f{at}")) for at, server in enumerate(servers)], 0)
        want(run.err == b"", f"{run.err[-300:]!r}")
        want_files(into, {f"f{at}": body_of(f"/f{at}") for at in range(60)})


# rule file-descriptors
def case_files_without_descriptors():
    # connections that are slow or kept take all descriptors, so that none is free for a file
    def serve(connection, _):
        while (path := read_request(connection)) is not None:
            time.sleep(0.2)
            connection.sendall(counted(body_of(path)))

    with Server(serve) as server:
        for retries in ("0", "3"):
            into, urls = folder(), [server.url(f"/{number}") for number in range(64)]
            run = Saved(["--at-once", "64", "--retry", retries] + urls, into, first=lambda: resource.setrlimit(resource.RLIMIT_NOFILE, (20, 20)))
            codes = [line[1] for line in run.lines]
            # a worker may take the descriptor that a file was to get, so a file that isn't tried again may fail
            may_be = {0, 7} if retries != "0" else {0, 7, 23}
            want(len(codes) == 64 and 0 in codes and set(codes) <= may_be, f"{retries}: {codes}")
            want(set(codes) == {0} or b"ulimit -n allows more" in run.err, f"{run.err[-300:]!r}")
            names = {line[4] for line in run.lines if line[0] == "saved"}
            want_files(into, {name: body_of(f"/{name}") for name in names})


def screen(came):
    """The lines of a terminal that was sent these bytes, the last one as it is left."""
    lines, at = [b""], 0
    for piece in re.findall(rb"\r|\n|\x1b\[K|[^\r\n\x1b]+", came):
        if piece == b"\r":
            at = 0
        elif piece == b"\n":
            lines, at = lines + [b""], 0
        elif piece == b"\x1b[K":
            lines[-1] = lines[-1][:at]
        else:
            lines[-1] = lines[-1][:at] + piece + lines[-1][at + len(piece):]
            at += len(piece)
    return lines


def seen(words, shared, columns="", interrupted=False):
    """What a terminal is sent that is standard error, and output, too, where it is shared; what output is else; and the exit status. Where
    it is interrupted, that is as soon as something was shown."""
    master, slave = pty.openpty()
    # what a shell starts behind `&` ignores interrupts, and so would the program
    child = start(words, stdout=slave if shared else subprocess.PIPE, stderr=slave, env={**os.environ, "COLUMNS": columns},
                  preexec_fn=lambda: signal.signal(signal.SIGINT, signal.SIG_DFL))
    os.close(slave)
    came = b""
    with contextlib.suppress(OSError):  # EIO, once nobody has the other side
        while (piece := os.read(master, 65536)):
            came += piece
            if interrupted:
                child.send_signal(signal.SIGINT)
    out = b"" if shared else child.stdout.read()
    os.close(master)
    return came, out, child.wait(timeout=300)


# rule save-progress
def case_progress():
    def serve(connection, _):
        while (read := read_whole(connection)):
            time.sleep(0 if b"/q" in read[0] else 0.3)
            connection.sendall(counted(b"x" * 30000) if b"/p" in read[0] else counted(b"no", "HTTP/1.1 404 Not Found"))

    with Server(serve) as server:
        urls = [server.url(f"/p{number}") for number in range(6)] + [server.url("/missing")]
        # a line is written whole, and the cursor left at its start
        shown = re.compile(rb"(\d+ ended, \d+ of them failed, \d+ run[^\r\n\x1b]*)\x1b\[K\r")
        for words, is_shown in (([], True), (["--progress"], True), (["--no-progress"], False)):
            for shared in (False, True):
                begun = time.monotonic()
                came, out, status = seen(words + ["--into", folder(), "--at-once", "2", "--workers", "2"] + urls, shared)
                seconds = time.monotonic() - begun
                texts = shown.findall(came)
                want(bool(texts) == is_shown, f"{words}: {came!r}")
                want(len(texts) <= 4 * seconds + 2, f"{len(texts)} times in {seconds:.1f} s")
                lines = screen(came)
                want(lines[-1] == b"", f"{words}: {lines[-1]!r} is left behind")
                told = lines[:-1] if shared else lines[:-1] + out.splitlines()
                want(sum(line.startswith(b"saved 0 200 30000 p") for line in told) == 6, f"{told}")
                want(sum(bool(WORDS.fullmatch(line)) for line in told) == 1 and len(told) == 8, f"{told}")
                want(status == 22, f"exit status {status}")
        piped = Saved(["--at-once", "2"] + urls, folder())
        want(not shown.search(piped.err), f"{piped.err!r}")
        piped = Saved(["--progress", "--at-once", "2"] + urls, folder())
        want(shown.search(piped.err) is not None and screen(piped.err)[-1] == b"", f"{piped.err!r}")
        # whatever ends, it isn't drawn more often; and it fits the terminal
        many = [server.url(f"/quick{number}") for number in range(400)]
        for columns, most in (("", 79), ("40", 39), ("0", 0), ("wide", 79)):
            for words in ([], ["--history", "4"]):
                begun = time.monotonic()
                came, _, status = seen(words + ["--into", folder(), "--content-on-error", "--at-once", "4"] + many, True, columns)
                seconds = time.monotonic() - begun
                texts = re.findall(rb"([^\r\n\x1b]*)\x1b\[K\r", came)
                want(status == 0 and len(texts) <= 2 * (4 * seconds + 2), f"{len(texts)} times in {seconds:.1f} s, with what took it off")
                want(all(len(text) <= most for text in texts), f"{columns}: {max(texts, key=len)!r}")
        # an interrupt leaves the cursor at the start of a line
        for shared in (False, True):
            came, _, status = seen(["--into", folder(), "--at-once", "1"] + urls, shared, interrupted=True)
            want(status == -signal.SIGINT and shown.search(came) and came[-1:] in (b"\r", b"\n"), f"{status}, {came!r}")


# --- servers that fail --------------------------------------------------------------------------------------------------

def case_statuses():
    def serve(connection, _):
        while (head := read_head(connection)) is not None:
            method, path = head.decode().split(" ")[:2]
            status = path[1:4]
            nothing = method == "HEAD" or status in ("204", "304")
            length = b"" if status in ("204", "304") else b"Content-Length: 4\r\n"
            connection.sendall(f"HTTP/1.1 {status} x\r\n".encode() + length + b"\r\n" + (b"" if nothing else b"body"))

    with Server(serve) as server:
        paths = ["/200", "/201", "/204", "/304", "/301", "/404", "/500"]
        urls, into = [server.url(path) for path in paths], folder()
        told = [saved(server, "/200", "200", b"body"), saved(server, "/201", "201", b"body", 201), ("done", 0, 204, 0, "-", urls[2]),
                failed(22, 304, urls[3]), failed(22, 301, urls[4]), failed(22, 404, urls[5]), failed(22, 500, urls[6])]
        want_lines(Saved(urls, into), told, 22)
        want_files(into, {"200": b"body", "201": b"body"})
        into = folder()
        told[3:] = [("done", 0, 304, 0, "-", urls[3])] + [saved(server, path, path[1:], b"body", int(path[1:])) for path in paths[4:]]
        want_lines(Saved(["--content-on-error"] + urls, into), told, 0)
        want_files(into, {path[1:]: b"body" for path in paths if path not in ("/204", "/304")})
        into = folder()
        run = Saved(["--method", "HEAD", urls[0], urls[2]], into)
        want_lines(run, [("done", 0, 200, 0, "-", urls[0]), ("done", 0, 204, 0, "-", urls[2])], 0)
        want_files(into, {})


def case_tries():
    asked = {}

    def serve(connection, _):
        while (whole := read_whole(connection)) is not None:
            path = whole[0].decode().split(" ")[1]
            asked[path] = asked.get(path, 0) + 1
            if path.startswith("/cut") and asked[path] == 1:
                connection.sendall(counted(body_of(path))[:-1])
                return
            if path.startswith("/to"):
                connection.sendall(counted(b"", "HTTP/1.1 303 See Other", f"Location: /busy{path}\r\n"))
                continue
            if path.startswith("/busy") and asked[path] <= 2:
                connection.sendall(counted(b"busy", "HTTP/1.1 503 busy"))
            else:
                connection.sendall(counted(body_of(path)))

    with Server(serve) as server:
        into = folder()
        run = Saved(["--retry", "2", "--json", server.url("/busy"), server.url("/cut"), server.url("/good")], into)
        told = sorted((one["file"], one["tries"]) for one in run.objects())
        want(run.status == 0 and told == [("busy", 3), ("cut", 2), ("good", 1)], f"exit status {run.status}, {told}")
        want_files(into, {name: body_of(f"/{name}") for name in ("busy", "cut", "good")})
        want(asked == {"/busy": 3, "/cut": 2, "/good": 1}, f"asked {asked}")
        want(2.9 < run.seconds < 30, f"{run.seconds:.2f} s")
        print(f"    503 twice, then 200: {run.seconds:.2f} s")
        # what is tried again goes by the method that was given: a POST that became a GET isn't
        rows = [(["--retry", "1"], "/busy/1", 2), (["--retry", "2", "--data", "x"], "/busy/post", 1), ([], "/busy/none", 1),
                (["--retry", "1"], "/to/get", 2), (["--retry", "2", "--data", "x"], "/to/post", 1)]
        for words, path, times in rows:
            want_lines(Saved(words + [server.url(path)], folder()), [failed(22, 503, server.url(path))], 22)
            want(asked[path] == times, f"{words}: asked {asked[path]} times")
        want_lines(Saved(["--retry", "1", "ftp://a/"], folder()), [failed(1, 0, "ftp://a/")], 1)


# rule save-places
def case_more_failures_than_places():
    # more than 4,096 URLs want to be tried again at a time: reading pauses, and each is reported once
    with deaf() as nobody:
        urls = [f"http://{nobody}/x{number}" for number in range(5_000)]
        run = Saved(["--retry", "1"], folder(), urls)
        want_lines(run, [failed(7, 0, url) for url in urls], 7)
        print(f"    5,000 URLs that fail twice: {run.seconds:.2f} s")


def first_line(words, list_, stop):
    """The first line of a run that reads a list from a pipe, while `list_` writes it until the event is set."""
    child = start(words + ["--into", folder(), "--input", "-"], stdin=subprocess.PIPE, stdout=subprocess.PIPE)
    ends = threading.Timer(60, child.kill)
    ends.start()

    def write():
        with contextlib.suppress(OSError), child.stdin as pipe:
            list_(pipe)
            stop.wait()

    writer = threading.Thread(target=write)
    writer.start()
    for line in child.stdout:
        if line.startswith(b"saved "):
            break
    else:
        line = b""
    stop.set()
    child.kill()
    child.stdout.close()
    child.wait()
    writer.join()
    ends.cancel()
    return line


# rule save-stalled-lists
def case_lists_that_stall():
    # the first URL is saved and reported while the list has no more, or goes on without end and has no other URL that can be fetched
    with Server(keeping) as server:
        first = server.url("/a").encode() + b"\n"
        for more in (b"", b"http://127.0.0.1", b"https://x/\n", b"# a comment\n", b"x", b"\n"):
            for words in ([], ["--progress"], ["--retry", "1"]):
                stop = threading.Event()

                def write(pipe):
                    pipe.write(first)
                    pipe.flush()
                    while more and not stop.is_set():
                        pipe.write(more * 1000)

                line = first_line(words, write, stop)
                want(line == b"saved 0 200 %d a %s" % (len(body_of("/a")), first), f"{words}, {more!r} without end: {line!r}")


# rule save-stalled-lists
def case_retry_beside_a_list_that_stalls():
    asked = []

    def serve(connection, _):
        while (path := read_request(connection)) is not None:
            asked.append(path)
            connection.sendall(counted(b"busy", "HTTP/1.1 503 busy") if len(asked) == 1 else counted(body_of(path)))

    with Server(serve) as server:
        stop, url = threading.Event(), server.url("/a").encode() + b"\n"
        line = first_line(["--retry", "1"], lambda pipe: (pipe.write(url), pipe.flush()), stop)
        want(line == b"saved 0 200 %d a %s" % (len(body_of("/a")), url) and len(asked) == 2, f"{line!r}, asked {len(asked)} times")


def case_a_server_that_hangs():
    with Server(lambda connection, _: until_closed(connection)) as silent, Server(keeping) as good:
        paths, into = [f"/g{number}" for number in range(200)], folder()
        run = Saved(["--timeout-ms", "10000", silent.url("/hangs")] + [good.url(path) for path in paths], into)
        lines = [saved(good, path, path[1:], body_of(path)) for path in paths]
        want_lines(run, lines + [failed(28, 0, silent.url("/hangs"))], 28)
        want(run.lines[-1][1] == 28, "the others wait for the one that hangs")
        want(9.9 < run.seconds < 100, f"{run.seconds:.2f} s")
        want_files(into, {path[1:]: body_of(path) for path in paths})


def case_a_mix_of_all():
    def serve(connection, _):
        while (path := read_request(connection)) is not None:
            hostile.MIX[int(path.split("/")[1])][0](connection, path)

    places = [number % len(hostile.MIX) for number in range(256)]
    random.Random(1).shuffle(places)
    paths = {f"/{place}/n{number}": place for number, place in enumerate(places)}
    with Server(serve) as server:
        into = folder()
        words = ["--workers", "8", "--at-once", "256", "--timeout-ms", hostile.MIX_MS]
        run = Saved(words + [server.url(path) for path in paths], into)
        want(len(run.lines) == 256, f"{len(run.lines)} lines")
        files = {}
        for verdict, code, _, length, name, url in run.lines:
            path = url[len(server.url("")):]
            served, codes, sends = hostile.MIX[paths[path]]
            want(code in codes and (verdict == "saved") == (code == 0), f"{served.__name__}: {verdict} {code}")
            if code == 0:
                files[name] = sends(path)
                want(length == len(files[name]), f"{served.__name__}: {length} bytes")
        want_files(into, files)
        # a connection and a part for each transfer, four idle connections for each worker, and a few
        want(run.peak < 256 * MIB and run.descriptors <= 600, f"{run.peak // MIB} MiB, {run.descriptors} descriptors")


def case_refused_connection_and_unknown_host():
    with deaf() as nobody:
        run = Saved([f"http://{nobody}/x", "http://nowhere.invalid/y"], folder())
        want_lines(run, [failed(7, 0, f"http://{nobody}/x"), failed(6, 0, "http://nowhere.invalid/y")], 7)


# --- many ---------------------------------------------------------------------------------------------------------------

def case_at_once():
    lock, paths = threading.Lock(), [f"/o{number}" for number in range(40)]
    for width in (1, 5, 40):
        now, most = 0, 0

        def holding(connection, _):
            nonlocal now, most
            while (path := read_request(connection)) is not None:
                with lock:
                    now += 1
                    most = max(most, now)
                until = time.monotonic() + 5
                while most < width and time.monotonic() < until:
                    time.sleep(0.001)
                time.sleep(0.01)
                with lock:
                    now -= 1
                connection.sendall(counted(body_of(path)))

        with Server(holding) as server:
            for workers in ("1", "4"):
                most = 0
                run = Saved(["--workers", workers, "--at-once", str(width)] + [server.url(path) for path in paths], folder())
                want(run.status == 0 and len(run.lines) == 40, f"exit status {run.status}")
                want(most == width, f"{workers} workers: {most} open at a time in place of {width}")


def case_ten_thousand_urls():
    peaks = {}
    with Nginx({}, 'location /n { return 200 "$request_uri"; }') as server:
        for count in (1_000, 10_000):
            into, urls = folder(), [server.url(f"n{number:05}") for number in range(count)]
            run = Saved(["--history", "4096", "--at-once", "32"], into, urls, 1200)
            want(run.status == 0 and len(run.lines) == count, f"exit status {run.status}, {len(run.lines)} lines; {run.err!r}")
            want_files(into, {f"n{number:05}": f"/n{number:05}".encode() for number in range(count)})
            # of descriptors a connection and a part for each transfer, at most 8 for idle connections, and a few
            want(run.threads <= 8 and run.descriptors <= 96, f"{run.threads} threads, {run.descriptors} descriptors")
            peaks[count] = run.peak
            print(f"    {count} URLs: {run.seconds:.2f} s, processor {run.processor:.2f} s, peak {run.peak / MIB:.1f} MiB, "
                  f"{run.threads} threads, {run.descriptors} descriptors")
    # a name takes some hundred bytes
    want(peaks[10_000] - peaks[1_000] < 9_000 * 1024, f"the memory grows by {(peaks[10_000] - peaks[1_000]) / MIB:.1f} MiB")


# rule file-names-size
def case_names_in_memory():
    # a URL that is skipped leaves its name behind, and nothing else
    held, into, note = {}, folder(), os.path.join(WORK, "held")
    names = [f"n{number:023}" for number in range(60_000)]
    for name in names:
        os.close(os.open(os.path.join(into, name), os.O_WRONLY | os.O_CREAT))
    for count in (10_000, 60_000):
        run = Saved(["--skip-existing"], into, [f"http://127.0.0.1:1/{name}" for name in names[:count]],
                    asked={"COUNT_MEMORY": note, "LD_PRELOAD": os.path.join(WORK, "count.so")})
        want(run.status == 0 and len(run.lines) == count, f"exit status {run.status}, {len(run.lines)} lines")
        with open(note, "rb") as file:
            held[count] = int.from_bytes(file.read(), sys.byteorder)
    each = (held[60_000] - held[10_000]) / 50_000
    print(f"    a name of {len(names[0])} bytes takes {each:.1f}")
    # 64 beside its text in a list in order, which fills the nodes least; and what the allocator adds to the nodes
    want(each < len(names[0]) + 64 + 2, f"a name of {len(names[0])} bytes takes {each:.1f}")


def case_short_history():
    # room for one addition at a time: each URL has a multi handle of its own
    with Server(keeping) as server:
        paths, into = [f"/h{number}" for number in range(40)], folder()
        run = Saved(["--history", "4"] + [server.url(path) for path in paths], into)
        want_lines(run, [saved(server, path, path[1:], body_of(path)) for path in paths], 0)
        want_files(into, {path[1:]: body_of(path) for path in paths})


# rule save-long-runs
def case_slow_urls_at_a_full_history():
    released = threading.Event()

    def serve(connection, _):
        while (path := read_request(connection)) is not None:
            if path.startswith("/slow"):
                released.wait(100)
            connection.sendall(counted(body_of(path)))

    with Server(serve) as server:
        # while they hang so many others are reported, at as many further multi handles as these take; and then they are, and the rest
        rows = [(["--history", "16"], 1, 80), (["--history", "16", "--workers", "4", "--at-once", "4"], 3, 80),
                (["--history", "4", "--workers", "1"], 1, 80), (["--history", "16"], 1, 20)]
        for words, slow, count in rows:
            released.clear()
            into, paths = folder(), [f"/slow{number}" for number in range(slow)] + [f"/q{number}" for number in range(80)]
            child = start(words + ["--into", into] + [server.url(path) for path in paths], stdout=subprocess.PIPE)
            ends = [threading.Timer(30, released.set), threading.Timer(300, child.kill)]
            for end in ends:
                end.start()
            told = b"".join(child.stdout.readline() for _ in range(count))
            in_time = not released.is_set()
            released.set()
            lines = parse(told + child.stdout.read())
            status = child.wait()
            for end in ends:
                end.cancel()
            want(in_time, f"{words}: the others wait for those that hang")
            want(not any("/slow" in line[5] for line in lines[:count]), f"{words}: {lines[:count]}")
            want(sorted(lines) == sorted(saved(server, path, path[1:], body_of(path)) for path in paths) and status == 0,
                 f"{words}: {status}, {len(lines)} lines")
            want_files(into, {path[1:]: body_of(path) for path in paths})
        # one is never answered; a second multi handle has as many threads and gates as the first one
        released.clear()
        into, paths = folder(), [f"/q{number}" for number in range(80)]
        run = Saved(["--history", "16", "--timeout-ms", "5000", server.url("/slow")] + [server.url(path) for path in paths], into)
        released.set()
        want_lines(run, [saved(server, path, path[1:], body_of(path)) for path in paths] + [failed(28, 0, server.url("/slow"))], 28)
        want(run.lines[-1][1] == 28, "the others wait for the one that hangs")
        want(run.threads <= 8 and run.descriptors <= 64, f"{run.threads} threads, {run.descriptors} descriptors")


# rule save-long-runs
def case_slow_urls_and_few_descriptors():
    # where a second multi handle could have too few descriptors for its connections none is opened, and none of them is missed
    def serve(connection, _):
        while (path := read_request(connection)) is not None:
            if path == "/slow":
                time.sleep(2)
            connection.sendall(counted(body_of(path)))

    with Server(serve) as server:
        paths = ["/slow"] + [f"/q{number}" for number in range(80)]
        for most in range(18, 50, 3):
            into = folder()
            run = Saved(["--history", "16", "--workers", "1", "--at-once", "4"] + [server.url(path) for path in paths], into,
                        first=lambda: resource.setrlimit(resource.RLIMIT_NOFILE, (most, most)))
            want_lines(run, [saved(server, path, path[1:], body_of(path)) for path in paths], 0)
            want_files(into, {path[1:]: body_of(path) for path in paths})


def case_what_the_system_refuses():
    # the first new thread, poll or reading of a clock, and all others
    rows = [("thread", "a thread can't be started"), ("poll", "the system gives no poll of sockets"),
            ("clock", "the system's clock can't be read")]
    with Server(keeping) as server:
        for refused, why in rows:
            asked = {"REFUSE_SYSTEM": refused, "LD_PRELOAD": os.path.join(WORK, "refuse.so")}
            for words in ([], ["--json"]):
                run = Saved(words + [server.url("/a"), server.url("/b")], folder(), asked=asked)
                want(run.status == 27 and run.out == b"" and run.err.decode() == f"mxfetch: {why}\n",
                     f"no {refused}, {words}: {run.status}, {run.out!r}, {run.err!r}")
        want(server.count == 0, "something was asked for")


# rule save-unbegun
def case_refused_growths():
    note, counts = os.path.join(WORK, "note"), [0, 0, 0]
    with Server(keeping) as server:
        paths = [f"/r{number}" for number in range(4)]
        lines = [saved(server, path, path[1:], body_of(path)) for path in paths]
        for which in range(1, 5000):
            if os.path.exists(note):
                os.remove(note)
            into, asked = folder(), {"REFUSE_GROWTH": str(which), "REFUSE_NOTE": note, "LD_PRELOAD": os.path.join(WORK, "refuse.so")}
            run = Saved(["--timeout-ms", "5000"] + [server.url(path) for path in paths[:2]], into, [server.url(path) for path in paths[2:]],
                        asked=asked)
            if not os.path.exists(note):
                break
            # what was printed as saved is there, whole, and nothing is half there, nor a part; what wasn't saved is printed so, with 27, or the
            # run was ended with 27
            want(not parts_in(into), f"growth {which}: a part is left")
            found = files_in(into)
            want(all(content == body_of(f"/{name}") for name, content in found.items()), f"growth {which}: a file isn't whole")
            want({line[4] for line in run.lines if line[0] == "saved"} <= set(found), f"growth {which}: a file that was told isn't there")
            want(all(line in lines or line[:2] == ("failed", 27) for line in run.lines), f"growth {which}: {run.lines}")
            is_ended = any(not WORDS.fullmatch(line) for line in run.err.splitlines())
            codes = [27] if is_ended else [line[1] for line in run.lines if line[1] != 0] + [0]
            want(run.status == codes[0], f"growth {which}: exit status {run.status}, {run.lines}, {run.err!r}")
            want(is_ended or len(run.lines) == 4, f"growth {which}: {len(run.lines)} lines, {run.err!r}")
            counts[0 if is_ended else 1 if run.status else 2] += 1
        want_lines(run, lines, 0)
        # each growth and eight after it: no part is left, and what was printed as saved is there, whole
        for which in range(1, sum(counts) + 1):
            into = folder()
            asked = {"REFUSE_GROWTH": str(which), "REFUSE_ON": "8", "REFUSE_NOTE": note, "LD_PRELOAD": os.path.join(WORK, "refuse.so")}
            run = Saved(["--timeout-ms", "5000", "--workers", "1", server.url(paths[0])], into, asked=asked)
            found = files_in(into)
            want(not parts_in(into), f"growths {which} to {which + 8}: a part is left; {run.lines}, {run.err!r}")
            want({line[4] for line in run.lines if line[0] == "saved"} <= set(found), f"growths {which} to {which + 8}: {run.lines}")
            want(all(content == body_of(f"/{name}") for name, content in found.items()), f"growths {which} to {which + 8}: a file isn't whole")
        # out of memory before a URL is asked for
        for words, count in ((["--json"], 1), (["--data", "--json"], 0), (["--", "--json"], 0), ([], 0)):
            asked = {"REFUSE_GROWTH": "1", "REFUSE_NOTE": note, "LD_PRELOAD": os.path.join(WORK, "refuse.so")}
            run = Saved([server.url(paths[0])] + words, asked=asked)
            want(run.status == 27 and run.err == b"mxfetch: out of memory\n", f"{words}: {run.status}, {run.err!r}")
            found = run.objects()
            want(len(found) == count and all(one["url"] is None and one["code"] == 27 for one in found), f"{words}: {run.out!r}")
        print(f"    growths refused: {counts[0]} ended the run, {counts[1]} ended a transfer, {counts[2]} were done without")


def main():
    cases = [(name[5:], case) for name, case in [*globals().items(), *vars(streams).items()] if name.startswith("case_")]
    word = sys.argv[1] if len(sys.argv) > 1 else ""
    if not any(word in name for name, _ in cases):
        sys.exit(f"no case has {word!r} in its name")
    wrong = 0
    for name, case in cases:
        if word not in name:
            continue
        print(name, flush=True)
        try:
            case()
        except Wrong as error:
            wrong += 1
            print(f"    WRONG: {error}", flush=True)
    print(f"{wrong} wrong" if wrong else "all as expected")
    sys.exit(1 if wrong else 0)


main()
