"""The cases of checks/names.sh: what a name server answers, and what is expected of `mxfetch get`."""

import heapq
import ipaddress
import multiprocessing
import select
import shutil
import socket
import struct
import subprocess
import sys
import threading
import time

from servers import Run, Server, Wrong, body_of, counted, read_request, want, want_ends

# The addresses of a name, and after how many seconds they are given; a name that isn't here isn't known.
ADDRESSES = {
    "fast.test": (0, ["127.0.0.1"]),
    "never.test": (None, []),
    "half.test": (0, ["127.0.0.1", "127.0.0.2"]),
    "refused.test": (0, ["127.0.0.1", "127.0.0.3"]),
    "refused3.test": (0, ["127.0.0.3", "127.0.0.4", "127.0.0.5"]),
}
ADDRESSES.update({f"s{number}.slow.test": (0.5, ["127.0.0.1"]) for number in range(60)})
ADDRESSES.update({f"n{number}.never.test": (None, []) for number in range(64)})


def answer_to(query):
    """The answer to a question (RFC 1035, section 4), and how many seconds it takes; None where none is given."""
    labels, at = [], 12
    while query[at]:
        labels.append(query[at + 1:at + 1 + query[at]].decode())
        at += 1 + query[at]
    question = query[12:at + 5]
    kind = struct.unpack(">H", query[at + 1:at + 3])[0]
    name = ".".join(labels).lower()
    if name not in ADDRESSES:
        return 0, query[:2] + struct.pack(">HHHHH", 0x8183, 1, 0, 0, 0) + question
    delay, addresses = ADDRESSES[name]
    if delay is None:
        return None, b""
    found = [ipaddress.ip_address(address).packed for address in addresses if kind == 1]
    records = b"".join(b"\xc0\x0c" + struct.pack(">HHIH", kind, 1, 0, len(packed)) + packed for packed in found)
    return delay, query[:2] + struct.pack(">HHHHH", 0x8180, 1, len(found), 0, 0) + question + records


class NameServer:
    """Answers as `ADDRESSES` has it, in a process of its own, so that no work of this one delays an answer."""

    def __init__(self):
        self.socket = socket.socket(socket.AF_INET, socket.SOCK_DGRAM)
        self.socket.bind(("127.0.0.1", 53))
        multiprocessing.get_context("fork").Process(target=self.serve, daemon=True).start()

    def serve(self):
        late = []  # answers, by when they are due
        while True:
            wait = max(0, late[0][0] - time.monotonic()) if late else None
            if select.select([self.socket], [], [], wait)[0]:
                query, peer = self.socket.recvfrom(512)
                delay, answer = answer_to(query)
                if delay is not None:
                    heapq.heappush(late, (time.monotonic() + delay, answer, peer))
            while late and late[0][0] <= time.monotonic():
                _, answer, peer = heapq.heappop(late)
                self.socket.sendto(answer, peer)


class Timed(Server):
    """Answers each request with its path's body, and keeps when."""

    def __init__(self, host="127.0.0.1"):
        self.begun, self.times = time.monotonic(), {}
        super().__init__(self.answer, host)

    def answer(self, connection, _):
        while (path := read_request(connection)) is not None:
            self.times[path] = time.monotonic() - self.begun
            connection.sendall(counted(body_of(path)))


def urls(server, names):
    return [f"http://{name}:{server.port}/{number}" for number, name in enumerate(names)]


def tries():
    """How many connections were begun in this network so far, whatever came of them."""
    with open("/proc/self/net/snmp") as file:
        names, numbers = [line.split() for line in file if line.startswith("Tcp:")]
    return int(numbers[names.index("ActiveOpens")])


def seconds_of_curl(urls):
    """How long `curl --parallel` takes for these URLs; None where there is no curl."""
    if not shutil.which("curl"):
        return None
    begun = time.monotonic()
    words = [word for url in urls for word in ("-o", "/dev/null", url)]
    subprocess.run(["curl", "-s", "--parallel", "--parallel-max", "64"] + words, stderr=subprocess.DEVNULL)
    return time.monotonic() - begun


def with_one(place, name, others):
    return others[:place] + [name] + others[place:]


def case_a_silent_name_holds_up_nobody():
    for workers in ("1", "2", "4"):
        for place in (0, 10, 20):
            with Timed() as server:
                names = with_one(place, "never.test", ["fast.test"] * 20)
                run = Run(["--workers", workers, "--timeout-ms", "6000"] + urls(server, names))
                want_ends(run, [(28, 0, b"") if name == "never.test" else (0, 200, body_of(f"/{number}")) for number, name in enumerate(names)])
                last = max(server.times.values())
                print(f"    {workers} workers, the silent one at {place}: {run.seconds:.2f} s, the last request after {last:.3f} s")
                want(run.seconds < 30, f"it took {run.seconds:.2f} s")
                want(workers == "1" or last < 5, f"the last good request came after {last:.2f} s")


def case_many_silent_names_hold_up_nobody():
    with Timed() as server:
        names = [f"n{number}.never.test" for number in range(62)] + ["fast.test"] * 20
        run = Run(["--workers", "4", "--timeout-ms", "6000"] + urls(server, names))
        want(run.codes() == [28] * 62 + [0] * 20, f"codes {run.codes()}")
        last = max(server.times.values())
        print(f"    62 silent names before 20: {run.seconds:.2f} s, the last request after {last:.3f} s")
        want(run.seconds < 30 and last < 5, f"it took {run.seconds:.2f} s, and the last good request came after {last:.2f} s")


def case_slow_names_are_looked_up_side_by_side():
    for workers in ("2", "4"):
        with Timed() as server:
            names = [f"s{number}.slow.test" for number in range(60)]
            run = Run(["--workers", workers] + urls(server, names))
            want_ends(run, [(0, 200, body_of(f"/{number}")) for number in range(60)])
            curl = seconds_of_curl(urls(server, names))
            print(f"    60 names of 500 ms, {workers} workers: {run.seconds:.2f} s" + (f", curl: {curl:.2f} s" if curl else ""))
            # one after the other they would take 30
            want(run.seconds < 15, f"it took {run.seconds:.2f} s")


def case_an_unknown_name():
    with Timed() as server:
        run = Run(["--workers", "2"] + urls(server, ["nowhere.test", "fast.test", "nowhere.test"]))
        want(run.codes() == [6, 0, 6], f"codes {run.codes()}")


def case_a_wait_for_a_name_costs_nothing():
    with Timed() as server:
        run = Run(["--timeout-ms", "5000"] + urls(server, ["never.test"]))
        want(run.codes() == [28], f"codes {run.codes()}")
        print(f"    {run.seconds:.2f} s, processor {run.processor:.3f} s")
        want(run.seconds < 50 and run.processor < 0.5, f"it took {run.seconds:.2f} s, and {run.processor:.2f} s of the processor")


def case_the_next_address():
    # the C library gives 127.0.0.1 first, where the server doesn't listen
    with Timed("127.0.0.2") as server:
        run = Run(["--workers", "2"] + urls(server, ["half.test", "refused.test", "half.test"]))
        want_ends(run, [(0, 200, body_of("/0")), (7, 0, b""), (0, 200, body_of("/2"))])


def case_each_address_is_tried_once():
    for name, codes, count in (("half.test", [0], 2), ("refused.test", [7], 2), ("refused3.test", [7], 3)):
        with Timed("127.0.0.2") as server:
            before = tries()
            run = Run(urls(server, [name]))
            want(run.codes() == codes, f"{name}: codes {run.codes()}")
            want(tries() - before == count, f"{name}: {tries() - before} tries in place of {count}")


def has_ipv6():
    try:
        with socket.socket(socket.AF_INET6) as probe:
            probe.bind(("::1", 0))
            return True
    except OSError:
        return False


def case_localhost_on_either_address():
    for host, family in (("127.0.0.1", socket.AF_INET), ("::1", socket.AF_INET6)):
        if family == socket.AF_INET6 and not has_ipv6():
            print("    skipped for ::1: this system has no IPv6")
            continue
        with socket.socket(family) as listener:
            listener.bind((host, 0))
            listener.listen(16)
            port = listener.getsockname()[1]

            def serve(listener=listener):
                for _ in range(2):
                    connection, _ = listener.accept()
                    with connection:
                        connection.sendall(counted(body_of(read_request(connection))))

            thread = threading.Thread(target=serve, daemon=True)
            thread.start()
            run = Run([f"http://localhost:{port}/a", f"http://localhost:{port}/b"])
            want_ends(run, [(0, 200, body_of("/a")), (0, 200, body_of("/b"))])
            thread.join()


def main():
    cases = [(name[5:], case) for name, case in globals().items() if name.startswith("case_")]
    word = sys.argv[1] if len(sys.argv) > 1 else ""
    if not any(word in name for name, _ in cases):
        sys.exit(f"no case has {word!r} in its name")
    NameServer()
    wrong = 0
    for name, case in cases:
        if word not in name:
            continue
        print(name, flush=True)
        try:
            case()
        except Wrong as error:
            wrong += 1
            print(f"    WRONG: {error}", flush=True)
    print(f"{wrong} wrong" if wrong else "all as expected")
    sys.exit(1 if wrong else 0)


main()
