"""Servers that mean no good, or fail: the cases of checks/get.sh."""

import random
import time

from servers import MIB, Run, Server, body_of, chunked, counted, keeping, read_request, reset, until_closed, want, want_ends


def case_endless_head():
    def serve(connection, _):
        read_request(connection)
        connection.sendall(b"HTTP/1.1 200 OK\r\n")
        while True:
            connection.sendall(b"X-Field: " + b"y" * 1000 + b"\r\n")

    with Server(serve) as server:
        run = Run([server.url()])
        want(run.codes() == [100], f"codes {run.codes()}")
        want(run.peak < 256 * MIB, f"{run.peak // MIB} MiB")


def case_endless_line():
    def serve(connection, _):
        read_request(connection)
        while True:
            connection.sendall(b"H" * 65536)

    with Server(serve) as server:
        run = Run([server.url()])
        want(run.codes() == [8], f"codes {run.codes()}")
        want(run.peak < 256 * MIB, f"{run.peak // MIB} MiB")


def case_a_million_interim_heads():
    def serve(connection, _):
        read_request(connection)
        for _ in range(1000):
            connection.sendall(b"HTTP/1.1 103 Early Hints\r\n\r\n" * 1000)
        connection.sendall(counted(b"late"))

    with Server(serve) as server:
        run = Run([server.url()])
        want(run.codes() == [8], f"codes {run.codes()}")
        want(run.peak < 256 * MIB, f"{run.peak // MIB} MiB")


def case_chunk_bombs():
    head = b"HTTP/1.1 200 OK\r\nTransfer-Encoding: chunked\r\n\r\n"

    def huge(connection, _):
        read_request(connection)
        connection.sendall(head + b"ffffffffffffffff\r\nx")
        until_closed(connection)

    def long_size(connection, _):
        read_request(connection)
        connection.sendall(head)
        while True:
            connection.sendall(b"0" * 65536)

    def long_extension(connection, _):
        read_request(connection)
        connection.sendall(head + b"1;")
        while True:
            connection.sendall(b"e" * 65536)

    def endless_body(connection, _):
        read_request(connection)
        connection.sendall(head)
        while True:
            connection.sendall(b"10000\r\n" + b"b" * 65536 + b"\r\n")

    for serve, codes in ((huge, {56, 63}), (long_size, {56, 63}), (long_extension, {56, 63}), (endless_body, {63})):
        with Server(serve) as server:
            run = Run(["--timeout-ms", "30000", server.url()])
            want(run.codes()[0] in codes, f"{serve.__name__}: codes {run.codes()}")
            want(run.peak < 512 * MIB, f"{serve.__name__}: {run.peak // MIB} MiB")


def case_too_long_a_body():
    def serve(connection, _):
        read_request(connection)
        connection.sendall(b"HTTP/1.1 200 OK\r\nContent-Length: 68719476736\r\n\r\n")
        while True:
            connection.sendall(b"b" * 65536)

    with Server(serve) as server:
        run = Run([server.url()])
        want(run.codes() == [63], f"codes {run.codes()}")


def case_one_byte_a_second():
    def serve(connection, _):
        read_request(connection)
        for byte in counted(b"slow"):
            connection.sendall(bytes([byte]))
            time.sleep(1)

    with Server(serve) as server:
        run = Run(["--timeout-ms", "2500", server.url()])
        want(run.codes() == [28], f"codes {run.codes()}")
        want(2.4 < run.seconds < 25, f"{run.seconds:.2f} s")


def case_resets():
    def at_once(connection, _):
        reset(connection)

    def after_request(connection, _):
        read_request(connection)
        reset(connection)

    def within_head(connection, _):
        read_request(connection)
        connection.sendall(b"HTTP/1.1 200 OK\r\nContent-Le")
        time.sleep(0.05)
        reset(connection)

    def within_body(connection, _):
        read_request(connection)
        connection.sendall(b"HTTP/1.1 200 OK\r\nContent-Length: 100\r\n\r\nhalf")
        time.sleep(0.05)
        reset(connection)

    for serve, codes in ((at_once, {55, 56, 7}), (after_request, {56}), (within_head, {56}), (within_body, {56})):
        with Server(serve) as server:
            run = Run([server.url()])
            want(run.codes()[0] in codes, f"{serve.__name__}: codes {run.codes()}")


def case_cut_short():
    cuts = ((b"", 52), (b"HTTP/1.1 20", 8), (b"HTTP/1.1 200 OK\r\nContent-Length: 9\r\n\r\nshort", 18),
            (b"HTTP/1.1 200 OK\r\nTransfer-Encoding: chunked\r\n\r\n5\r\nab", 18))
    for sent, code in cuts:
        def serve(connection, _, sent=sent):
            read_request(connection)
            connection.sendall(sent)

        with Server(serve) as server:
            run = Run([server.url()])
            want(run.codes() == [code], f"{sent!r}: codes {run.codes()}")


def case_failed_wires_are_let_go():
    # a failed transfer's bytes are freed when its message is read: kept, these 64 would take some 530 MiB
    sent = b"HTTP/1.1 200 OK\r\nContent-Length: %d\r\n\r\n" % (16 * MIB) + bytes(8 * MIB)

    def serve(connection, _):
        read_request(connection)
        connection.sendall(sent)

    with Server(serve) as server:
        run = Run(["--workers", "1"] + [server.url(f"/w{number}") for number in range(64)])
        want_ends(run, [(18, 200, b"")] * 64)
        want(run.peak <= 40 * MIB, f"{run.peak // MIB} MiB")
        print(f"    64 x 8 MiB of a body that is cut short: {run.seconds:.2f} s, peak {run.peak // MIB} MiB")


def case_bytes_behind_a_response():
    # what stands behind a response is no answer to the next request: its connection isn't used again
    def serve(connection, _):
        while (path := read_request(connection)) is not None:
            connection.sendall(counted(body_of(path)) + counted(b"forged"))

    with Server(serve) as server:
        paths = [f"/b{number}" for number in range(20)]
        run = Run(["--workers", "1"] + [server.url(path) for path in paths])
        want_ends(run, [(0, 200, body_of(path)) for path in paths])
        want(server.count == len(paths), f"{server.count} connections")


def case_an_answer_before_the_request():
    def serve(connection, _):
        connection.sendall(counted(b"early"))
        read_request(connection)
        until_closed(connection)

    with Server(serve) as server:
        run = Run([server.url()])
        want_ends(run, [(0, 200, b"early")])


def case_endless_trailers():
    def serve(connection, _):
        read_request(connection)
        connection.sendall(b"HTTP/1.1 200 OK\r\nTransfer-Encoding: chunked\r\n\r\n0\r\n")
        while True:
            connection.sendall(b"T: t\r\n" * 10000)

    with Server(serve) as server:
        run = Run([server.url()])
        want(run.codes() == [63], f"codes {run.codes()}")
        want(run.peak < 256 * MIB, f"{run.peak // MIB} MiB")


# a mix of all

def whole(connection, path):
    connection.sendall(counted(body_of(path)))


def in_chunks(connection, path):
    connection.sendall(chunked(body_of(path), 1 + len(path) * 13 % 97))


def until_the_end(connection, path):
    connection.sendall(b"HTTP/1.0 200 OK\r\n\r\n" + body_of(path))
    connection.close()


def dripped(connection, path):
    sent = counted(body_of(path)[:200])
    for at in range(0, len(sent), 10):
        connection.sendall(sent[at:at + 10])
        time.sleep(0.005)


def with_interim_heads(connection, path):
    connection.sendall(b"HTTP/1.1 103 Early Hints\r\n\r\n" * 16 + counted(body_of(path)))


def flooded(connection, path):
    connection.sendall(b"HTTP/1.1 103 Early Hints\r\n\r\n" * 2000)


def forging(connection, path):
    connection.sendall(counted(body_of(path)) + counted(b"forged"))


def cut(connection, path):
    connection.sendall(counted(b"x" * 3000)[:1000])
    connection.close()


def broken(connection, path):
    connection.sendall(b"HTTP/1.1 200 OK\r\nTransfer-Encoding: chunked\r\n\r\nzz\r\n")


def no_http(connection, path):
    connection.sendall(b"220 welcome\r\n" * 10)


def nothing(connection, path):
    connection.close()


def torn(connection, path):
    connection.sendall(counted(b"x" * 3000)[:1000])
    time.sleep(0.02)
    reset(connection)


def silent(connection, path):
    until_closed(connection)


# how long a transfer of the mix may take: beside a load of 9 all that end by themselves have ended within 1.3 seconds
MIX_MS = "15000"

# what each does with a request, the codes that it may come to, and the bytes of the body that it sends
MIX = [
    (whole, {0}, body_of), (in_chunks, {0}, body_of), (until_the_end, {0}, body_of), (dripped, {0}, lambda path: body_of(path)[:200]),
    (with_interim_heads, {0}, body_of), (flooded, {8}, None), (forging, {0}, body_of), (cut, {18}, None), (broken, {56}, None),
    (no_http, {8}, None), (nothing, {52}, None), (torn, {56}, None), (silent, {28}, None),
]


def case_a_mix_of_all():
    asked = []

    def serve(connection, _):
        while (path := read_request(connection)) is not None:
            asked.append(path)
            MIX[int(path.split("/")[1])][0](connection, path)

    places = [number % len(MIX) for number in range(256)]
    random.Random(1).shuffle(places)
    paths = [f"/{place}/{number}" for number, place in enumerate(places)]
    with Server(serve) as server, Server(keeping) as good:
        urls = [server.url(path) for path in paths[:-1]] + [good.url(paths[-1])]
        run = Run(["--workers", "16", "--timeout-ms", MIX_MS] + urls)
    want(len(run.ends) == len(urls), f"{len(run.ends)} ends")
    for (code, _, body), place, path in zip(run.ends[:-1], places, paths):
        served, codes, sends = MIX[place]
        want(code in codes, f"{served.__name__}: code {code}")
        want(body == (sends(path) if code == 0 else b""), f"{served.__name__}: another body, of {len(body)} bytes")
    want(run.ends[-1] == (0, 200, body_of(paths[-1])), "the good server's body isn't there")
    want(set(paths[:-1]) <= set(asked), "a path wasn't asked for")
    want(run.seconds < 150 and run.peak < 256 * MIB and run.descriptors <= 512,
         f"{run.seconds:.1f} s, {run.peak // MIB} MiB, {run.descriptors} descriptors")
    print(f"    256 URLs, 16 workers: {run.seconds:.2f} s, peak {run.peak // MIB} MiB, {run.descriptors} descriptors at the most")
