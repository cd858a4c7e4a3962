"""The cases of checks/get.sh that are of redirects. curl fetches each chain, too: where its rules are the same, what it ends with and what
the servers see must be; where they aren't, a line says which rule differs, and what curl made of it."""

import contextlib
import os
import re
import subprocess
import threading
import time
from functools import partial
from typing import NamedTuple

from servers import (MIB, WORK, Nginx, Run, Server, Wrong, body_of, chunked, counted, deaf, first_fault, keeping, read_head, read_request,
                     refuse_growths, want, want_ends)

TOO_MANY = 47
MOST_URL = 65_536
STATUSES = (301, 302, 303, 307, 308)

# --- chains -------------------------------------------------------------------------------------------------------------

class Hop(NamedTuple):
    """A request that is awaited at the server `place`, and the answer to it, behind which the server may close."""
    place: str
    target: str
    answer: bytes
    closes: bool = False


class Chain(NamedTuple):
    """The hops of a transfer, and its code, status and body. `links` tells how many connections a server accepts, where it isn't one for
    each that is asked; `curl` is the rule of curl that differs."""
    name: str
    hops: list
    end: tuple
    curl: str = ""
    links: dict = {}


def as_bytes(text):
    return text if isinstance(text, bytes) else text.encode()


def moved(location, status=302, body=b"moved"):
    return counted(body, f"HTTP/1.1 {status} Moved\r\nLocation: LOCATION").replace(b"LOCATION", as_bytes(location), 1)


class Servers:
    """The servers of one chain: a and b, and c, which has another address and the port of a. At `deaf` nobody listens. They answer in the
    order of the hops, whatever is asked, and keep what was."""

    def __init__(self, chain):
        self.chain, self.asked, self.all, self.names = chain, [], {}, {}
        self.lock = threading.Lock()
        self.stack = contextlib.ExitStack()

    def __enter__(self):
        self.answers = [self.named(hop.answer) for hop in self.chain.hops]
        self.wanted = [(hop.place, self.head_of(hop)) for hop in self.chain.hops]
        self.url = "http://{}{}".format(self.name(self.chain.hops[0].place), self.chain.hops[0].target)
        return self

    def __exit__(self, *_):
        self.stack.close()

    def name(self, place):
        if place not in self.names:
            self.names[place] = self.stack.enter_context(deaf()) if place == "deaf" else self.listening(place)
        return self.names[place]

    def listening(self, place):
        where = ("127.0.0.2", self.port()) if place == "c" else ()
        self.all[place] = self.stack.enter_context(Server(partial(self.serve, place), *where))
        return self.all[place].name

    def port(self):
        return int(self.name("a").partition(":")[2])

    def named(self, text, is_sent=False):
        """`{a}` stands for the name of that server, `{port}` for a's port, and `{rest}` for what makes a URL of a's as long as it may be,
        which is sent in percents."""
        def value(found):
            word = found.group(1).decode()
            if word == "port":
                return b"%d" % self.port()
            if word == "rest":
                pairs, single = divmod(MOST_URL - len(f"http://{self.name('a')}/"), len("%C3%A9"))
                return (("%C3%A9" if is_sent else "\u00e9") * pairs + "x" * single).encode()
            return self.name(word).encode()

        return re.sub(rb"\{(a|b|c|deaf|port|rest)\}", value, text)

    def head_of(self, hop):
        target = self.named(hop.target.encode(), True)
        return b"GET %s HTTP/1.1\r\nHost: %s\r\nAccept: */*\r\n\r\n" % (target, self.name(hop.place).encode())

    def serve(self, place, connection, _):
        while (head := read_head(connection)) is not None:
            with self.lock:
                at = len(self.asked)
                self.asked.append((place, head))
            if at >= len(self.answers):
                connection.sendall(counted(b"", "HTTP/1.1 500 Not Awaited"))
                return
            connection.sendall(self.answers[at])
            if self.chain.hops[at].closes:
                return


def line_of(asked):
    """A request in a message: the server and the first line."""
    place, head = asked
    line = re.sub(r" HTTP/1\.1$", "", head.split(b"\r\n")[0].decode("latin-1"))
    return f"{place} {line if len(line) < 60 else line[:50] + '...'}"


def other_requests(asked, wanted):
    """What of the requests is other than it is to be."""
    at = next((at for at, pair in enumerate(zip(asked, wanted)) if pair[0] != pair[1]), min(len(asked), len(wanted)))
    found, awaited = [[*map(line_of, requests[at:at + 1]), "nothing"][0] for requests in (asked, wanted)]
    if found == awaited:
        found, awaited = repr(asked[at][1][-200:]), repr(wanted[at][1][-200:])
    return f"sends {len(asked)} requests, of {len(wanted)}; behind {at} comes {found} in place of {awaited}"


def faults_of(servers, code, status, body, counts_links=True):
    """What of a transfer is other than the chain calls for."""
    faults = []
    wanted = servers.chain.end
    if (code, status, body) != wanted:
        faults.append(f"ends with {code}, {status}, {body[:40]!r} in place of {wanted[0]}, {wanted[1]}, {wanted[2][:40]!r}")
    if servers.asked != servers.wanted:
        faults.append(other_requests(servers.asked, servers.wanted))
    asked_places = {place for place, _ in servers.wanted}
    links = {place: server.count for place, server in servers.all.items()}
    wanted_links = {**{place: int(place in asked_places) for place in servers.all}, **servers.chain.links}
    if counts_links and links != wanted_links:
        faults.append(f"makes the connections {links} in place of {wanted_links}")
    return faults


def follow(chains, most, workers="1", max_connects="4"):
    """One run of all chains. With one worker connections are counted: what it keeps is certain."""
    with contextlib.ExitStack() as stack:
        all_servers = [stack.enter_context(Servers(chain)) for chain in chains]
        run = Run(["--workers", workers, "--max-connects", max_connects, "--max-redirects", str(most)]
                  + [servers.url for servers in all_servers])
    want(len(run.ends) == len(chains), f"{len(run.ends)} ends of {len(chains)} chains")
    want(run.status == first_fault(run.codes()), f"exit status {run.status}")
    return [f"{servers.chain.name}: {fault}" for servers, end in zip(all_servers, run.ends)
            for fault in faults_of(servers, *end, workers == "1")]


# --- curl ---------------------------------------------------------------------------------------------------------------

# the curl whose rules are written here
IS_THAT_CURL = subprocess.run(["curl", "--version"], capture_output=True).stdout.startswith(b"curl 7.88.1 ")
CURL = ["curl", "-q", "-s", "-g", "--http1.1", "--noproxy", "*", "--proto", "=http", "--proto-redir", "=http", "--max-time", "120"]


def curl(url, most, more=("-A", "")):
    """curl's code, and the status and the body of its last response."""
    file = os.path.join(WORK, "body")
    with contextlib.suppress(FileNotFoundError):
        os.remove(file)
    follows = ["-L", "--max-redirs", str(most)] if most else []
    child = subprocess.run(CURL + follows + [*more, "-o", file, "-w", "%{http_code}", url], capture_output=True, timeout=300)
    with open(file, "rb") if os.path.exists(file) else contextlib.nullcontext() as body:
        return child.returncode, int(child.stdout), body.read() if body else b""


def compare(chains, most):
    """Each chain by curl: what it does otherwise is a fault, unless the chain says that its rule is another. Bodies are compared at code 0,
    statuses there and where as many were followed as may be."""
    faults, same = [], 0
    for chain in chains:
        with Servers(chain) as servers:
            code, status, body = curl(servers.url, most)
        wanted = chain.end
        found = faults_of(servers, code, status if code in (0, TOO_MANY) else wanted[1], body if code == 0 else wanted[2])
        if chain.curl:
            asked = ", ".join(map(line_of, servers.asked[1:])) or "nothing more"
            print(f"    {chain.name}: {chain.curl}" + (f" (code {code}, asks {asked})" if found else " (not this curl)"))
        elif found:
            faults += [f"{chain.name}: curl {fault}" for fault in found]
        else:
            same += 1
    print(f"    limit {most}: {len(chains)} chains, {same} the same by curl")
    if faults and not IS_THAT_CURL:
        print("\n    ".join(["    this is another curl, which is no fault here:", *faults]))
        return []
    return faults


def check(chains, most):
    faults = follow(chains, most) + compare(chains, most)
    if faults:
        raise Wrong("\n    WRONG: ".join(faults))


# --- cases --------------------------------------------------------------------------------------------------------------

HELLO = counted(b"hello")
DONE = (0, 200, b"hello")


def one(name, answer, place, target, curl="", **more):
    """A chain of one redirect."""
    return Chain(name, [Hop("a", "/dir/page?old=1", answer), Hop(place, target, HELLO)], DONE, curl, **more)


def stays(name, answer, end, curl="", closes=False):
    """What isn't followed."""
    return Chain(name, [Hop("a", "/dir/page?old=1", answer, closes)], end, curl)


LOWER_CASE = "curl writes the digits of bytes above 127 in lower case"

# what is joined with /dir/page?old=1, and which server is asked for what; and the rule of curl that differs
TARGETS = [
    ("another port", "http://{b}/x", "b", "/x"),
    ("another address", "http://{c}/x", "c", "/x"),
    ("no path", "http://{b}", "b", "/"),
    ("a query and no path", "http://{b}?q", "b", "/?q"),
    ("a fragment and no path", "http://{b}#there", "b", "/"),
    ("the scheme in capitals", "HTTP://{b}/x", "b", "/x"),
    ("//host", "//{b}/x?y#z", "b", "/x?y"),
    ("absolute", "http://{a}/x", "a", "/x"),
    ("an absolute path", "/x/y?z", "a", "/x/y?z"),
    ("a relative path", "x", "a", "/dir/x"),
    ("./x", "./x", "a", "/dir/x"),
    ("../x", "../x", "a", "/x"),
    ("../../x", "../../x", "a", "/x"),
    ("/y/../x/./z", "/y/../x/./z", "a", "/x/z"),
    ("a dot", ".", "a", "/dir/"),
    ("two dots", "..", "a", "/"),
    ("%2e%2e", "%2e%2e/x", "a", "/x", "curl takes %2e for no dot"),
    ("a query", "?new=2", "a", "/dir/page?new=2"),
    ("an empty query", "?", "a", "/dir/page?", "curl drops the ? of an empty query"),
    ("a fragment", "#there", "a", "/dir/page?old=1", "curl drops the last name of the path and the query"),
    ("a path and a fragment", "x#there", "a", "/dir/x"),
    ("a colon in the query", "/x?http://y/", "a", "/x?http://y/"),
    ("spaces in the path", "/x y  z", "a", "/x%20y%20%20z"),
    ("spaces in the query", "/x?y z", "a", "/x?y%20z", "curl writes a space of a query as +"),
    ("spaces around", "   /x \t ", "a", "/x"),
    ("a tab", "/x\ty", "a", "/xy", "curl takes a tab for a byte of the path"),
    ("bytes above 127 in the path", "/\u00e9\u20ac", "a", "/%C3%A9%E2%82%AC", LOWER_CASE),
    ("bytes above 127 in the query", "/x?\u00e9", "a", "/x?%C3%A9", LOWER_CASE),
    ("percents", "/%e9%zz?%", "a", "/%e9%zz?%"),
    ("signs in the path", "/\"<>`{}|", "a", "/%22%3C%3E%60%7B%7D|", "curl sends these as they are"),
    ("signs in the query", "/x?\"<>'", "a", "/x?%22%3C%3E%27", "curl sends these as they are"),
    ("a backslash", "\\\\{b}\\x", "b", "/x", "curl takes a backslash for no slash"),
    ("one slash", "http:/nowhere.invalid/x", "a", "/nowhere.invalid/x", "curl takes what is behind one slash for a host"),
    ("no slash", "http:x", "a", "/dir/x", "curl takes it for no URL"),
    ("three slashes", "http:///{b}/x", "b", "/x"),
    ("a short address", "http://127.1:{port}/x", "a", "/x"),
    ("a hexadecimal address", "http://0x7f000001:{port}/x", "a", "/x"),
    ("a port with a zero first", "http://127.0.0.1:0{port}/x", "a", "/x"),
    ("a host in percents", "http://%31%32%37.0.0.1:{port}/x", "a", "/x"),
    ("empty user information", "http://@{b}/x", "b", "/x"),
    ("an empty password", "http://:@{b}/x", "b", "/x"),
    ("60,000 bytes", "/" + "x" * 59_999, "a", "/" + "x" * 59_999),
    ("a URL of 65,536 bytes", "/{rest}", "a", "/{rest}", LOWER_CASE),
]


def case_redirects_to():
    check([one(f"to {place} by {name}", moved(location, STATUSES[number % 5]), place, target, *rule)
           for number, (name, location, place, target, *rule) in enumerate(TARGETS)], 5)


# rule redirect-condition
def case_redirects_of():
    any_3xx = "curl follows each status from 300 to 399 that has a Location"
    late = b"HTTP/1.1 103 Early Hints\r\nLocation: /early\r\n\r\n"
    empty = counted(b"moved", "HTTP/1.1 302 Moved\r\nLocation:  ")
    trailer = b"HTTP/1.1 302 Moved\r\nTransfer-Encoding: chunked\r\n\r\n5\r\nmoved\r\n0\r\nLocation: /x\r\n\r\n"
    twice = moved("/x").replace(b"Location: /x", b"Location: /x\r\nLocation: /y")
    left = (0, 302, b"moved")
    check(
        [one(f"of {status}", moved("/x", status), "a", "/x") for status in STATUSES]
        + [stays(f"of {status}", moved("/x", status), (0, status, b"moved"), any_3xx) for status in (300, 305, 306, 309, 399)]
        + [stays(f"of {status}", moved("/x", status), (0, status, b"moved")) for status in (200, 201, 299, 400, 404, 503)]
        + [
            stays("of 304", b"HTTP/1.1 304 Not Modified\r\nLocation: /x\r\n\r\n", (0, 304, b""), any_3xx),
            stays("without a Location", counted(b"moved", "HTTP/1.1 302 Moved"), left),
            stays("an empty Location", empty, left),
            stays("an empty Location before another", empty.replace(b":  ", b": \r\nLocation: /x", 1), left,
                  "curl goes on past an empty Location"),
            stays("a Location behind the body", trailer, left),
            stays("a Location in too long a head", moved("/" + "x" * 65_535), (100, 0, b""), "curl takes heads of more than 65,536 bytes"),
            stays("the Location of an interim head", late + HELLO, DONE),
            one("an interim head with a Location", late + moved("/x"), "a", "/x"),
            one("two Locations", twice, "a", "/x"),
            one("LOCATION", moved("/x").replace(b"Location: ", b"LOCATION:"), "a", "/x"),
            one("an empty body", moved("/x", body=b""), "a", "/x"),
            one("a body of 1 MiB", moved("/x", body=bytes(1 << 20)), "a", "/x"),
            one("a chunked body", chunked(b"moved", 2).replace(b"200 OK", b"307 Moved\r\nLocation: /x"), "a", "/x"),
        ], 5)


ANY_BYTES = "curl takes bytes that aren't UTF-8"
USER_INFORMATION = "curl sends user information"
REFUSED = [
    ("https://{b}/x", 1),
    ("HTTPS://{b}", 1),
    ("ftp://{b}/x", 1),
    ("https://u@{b}/x", 1),
    ("mailto:x", 1),
    ("http://u@{b}/x", 3, USER_INFORMATION),
    ("http://u:p@{b}/x", 3, USER_INFORMATION),
    ("http://:p@{b}/x", 3, USER_INFORMATION),
    ("//u@{b}/x", 3, USER_INFORMATION),
    ("http://[", 3),
    ("http://", 3),
    ("http://x y/", 3),
    ("http://127.0.0.1:65536/", 3),
    ("http://127.0.0.1:x/", 3),
    ("http://127.0.0.256/", 3, "curl takes it for a host's name"),
    (b"/\xff", 3, ANY_BYTES),
    (b"/\xc3", 3, ANY_BYTES),
    (b"/\xed\xa0\x80", 3, ANY_BYTES),
    (b"https://x/\xff", 3, ANY_BYTES),
    ("/{rest}x", 3, "curl takes URLs of more than 65,536 bytes"),
]


def case_redirects_refused():
    check([stays(f"to {location[:40]!r}", moved(location), (code, 302, b""), *rule) for location, code, *rule in REFUSED], 5)


def steps(places, statuses=(302,)):
    """A chain of redirects, each to the next of the places; the last answers."""
    hops = [Hop(place, f"/{at}", moved(f"http://{{{after}}}/{at + 1}", statuses[at % len(statuses)]))
            for at, (place, after) in enumerate(zip(places, places[1:]))]
    return hops + [Hop(places[-1], f"/{len(hops)}", HELLO)]


def cut(places, statuses=(302,)):
    """A chain that isn't followed to its end."""
    return steps(places + "a", statuses)[:-1]


def loop(place, location, length):
    return [Hop(place, "/loop?x", moved(location))] * length


def case_redirects_at_the_limit():
    many = (TOO_MANY, 302, b"")
    check([
        stays("one, of none", moved("/x"), (0, 302, b"moved")),
        stays("to https://, of none", moved("https://x/"), (0, 302, b"moved")),
        stays("to no URL, of none", moved(b"http://[\xff"), (0, 302, b"moved")),
    ], 0)
    check([
        Chain("one of one", steps("aa"), DONE),
        Chain("two of one", cut("aa"), many),
        Chain("to https://, after one of one", [*steps("aa")[:-1], Hop("a", "/1", moved("https://x/"))], many),
        Chain("to user information, after one of one", [*steps("aa")[:-1], Hop("a", "/1", moved("http://u@x/"))], many),
        Chain("to no URL, after one of one", [*steps("aa")[:-1], Hop("a", "/1", moved("http://["))], many),
        Chain("none of one", [Hop("a", "/0", HELLO)], DONE),
    ], 1)
    check([
        Chain("two of two", steps("aba"), DONE),
        Chain("three of two", cut("aba", (301, 302, 307)), (TOO_MANY, 307, b"")),
        Chain("a loop", loop("a", "/loop?x", 3), many),
        Chain("a loop by a query", loop("a", "?x", 3), many),
        Chain("a loop over two servers", cut("aba"), many),
    ], 2)
    check([
        Chain("255 of 255", steps("a" * 256, STATUSES), DONE),
        Chain("255 of 255 over two servers", steps("ab" * 128, STATUSES), DONE),
        Chain("255 of 255 over three servers", steps("abc" * 85 + "a", STATUSES), DONE),
        Chain("256 of 255", cut("a" * 256, STATUSES), (TOO_MANY, STATUSES[255 % 5], b"")),
        Chain("a loop", loop("a", "/loop?x", 256), many),
    ], 255)


def closing(hops, *places):
    """The hops, with these closing behind their answers."""
    return [hop._replace(closes=at in places) for at, hop in enumerate(hops)]


def telling(hops, place, line):
    """The hops, with a line more in one's head."""
    return [hop._replace(answer=hop.answer.replace(b"\r\n", b"\r\n%s\r\n" % line, 1)) if at == place else hop
            for at, hop in enumerate(hops)]


def hop_chains():
    """What connections do between hops, and how a later hop ends."""
    begun = steps("aa")[:1]
    dead = Hop("a", "/1", b"", True)
    close = b"Connection: close"
    unclosed = b"HTTP/1.1 302 Moved\r\nLocation: /1\r\n\r\nmoved"
    relative = [Hop("a", "/dir/page", moved("//{b}/one/x?y")), Hop("b", "/one/x?y", moved("y")), Hop("b", "/one/y", moved("?z")),
                Hop("b", "/one/y?z", moved("../w")), Hop("b", "/w", HELLO)]
    bad_chunks = b"HTTP/1.1 302 Moved\r\nLocation: /1\r\nTransfer-Encoding: chunked\r\n\r\nx\r\n"
    return [
        Chain("on one connection", steps("aaaa"), DONE),
        Chain("to another server and back", steps("aba"), DONE),
        Chain("over three servers and back", steps("abcab"), DONE),
        Chain("each relative to the one before", relative, DONE),
        Chain("Connection: close", closing(telling(steps("aaa"), 0, close), 0), DONE, links={"a": 2}),
        Chain("Connection: close of each", closing(telling(telling(steps("aaa"), 0, close), 1, close), 0, 1), DONE, links={"a": 3}),
        Chain("Connection: close, over two servers", closing(telling(steps("aba"), 0, close), 0), DONE, links={"a": 2}),
        Chain("a body up to the close", [Hop("a", "/0", unclosed, True), Hop("a", "/1", HELLO)], DONE, links={"a": 2}),
        Chain("HTTP/1.0", [Hop("a", "/0", moved("/1").replace(b"1.1", b"1.0"), True), Hop("a", "/1", HELLO)], DONE,
              "curl asks on by HTTP/1.0", links={"a": 2}),
        Chain("closed when it is used again", begun + [dead, Hop("a", "/1", HELLO)], DONE, links={"a": 2}),
        Chain("closed so in each hop", begun + [dead, Hop("a", "/1", moved("/2")), dead._replace(target="/2"), Hop("a", "/2", HELLO)], DONE,
              links={"a": 3}),
        Chain("closed twice in one hop", begun + [dead, dead], (52, 0, b""), links={"a": 2}),
        Chain("to nobody", [Hop("a", "/0", moved("http://{deaf}/"))], (7, 0, b"")),
        Chain("to no host", [Hop("a", "/0", moved("http://nowhere.invalid/"))], (6, 0, b"")),
        Chain("a later head is none", begun + [Hop("a", "/1", b"HTML\r\n\r\n", True)], (8, 0, b""), "curl takes it for HTTP/0.9"),
        Chain("a later head is cut short", begun + [Hop("a", "/1", b"HTTP/1.1 200 OK\r\nA: ", True)], (8, 0, b""),
              "curl takes it for a whole head"),
        Chain("a later body is cut short", begun + [Hop("a", "/1", HELLO[:-1], True)], (18, 200, b"")),
        Chain("a body is cut short", [Hop("a", "/0", moved("/1")[:-1], True)], (18, 302, b""), "curl doesn't read a redirect's body"),
        Chain("bad chunks", [Hop("a", "/0", bad_chunks, True)], (56, 302, b"")),
        Chain("a later status without a body", begun + [Hop("a", "/1", b"HTTP/1.1 204 No Content\r\n\r\n")], (0, 204, b"")),
        Chain("a later status of no success", begun + [Hop("a", "/1", counted(b"none", "HTTP/1.1 404 Not Found"))], (0, 404, b"none")),
    ]


def case_redirects_and_connections():
    check(hop_chains(), 5)


def case_redirects_by_many_workers():
    # a worker has at most 64 transfers in flight: so none of them loses the link of its last hop to the others' idle ones
    for workers in ("2", "4", "16"):
        faults = follow(hop_chains() * 4, 5, workers, max_connects="64")
        want(not faults, "\n    WRONG: ".join(faults))


def case_redirects_and_max_connects():
    def chains(alone, twice):
        return [Chain("one server", steps("aaaa"), DONE, links={"a": alone}),
                Chain("two servers in turn", steps("abab"), DONE, links={"a": 2, "b": 2}),
                Chain("two servers, each twice", steps("aabb"), DONE, links={"a": twice, "b": twice})]

    faults = follow(chains(4, 2), 3, max_connects="0") + follow(chains(1, 1), 3, max_connects="1")
    want(not faults, "\n    WRONG: ".join(faults))


def case_redirects_have_one_deadline():
    def slow(connection, _):
        while (path := read_request(connection)) is not None:
            time.sleep(0.3)
            connection.sendall(moved(path))

    with Server(slow) as server, Server(keeping) as good:
        run = Run(["--timeout-ms", "2000", "--max-redirects", "255", server.url("/s"), good.url("/g")])
        want(run.ends[0][0] == 28 and run.ends[0][2] == b"", f"ends with {run.ends[0]}")
        want(run.ends[1] == (0, 200, body_of("/g")), "another end beside it")
        want(curl(server.url("/s"), 255, ["--max-time", "1"])[0] == 28, "curl ends otherwise")


def stepping(connection, _):
    """/N/x leads to /N-1/x, and /0/x has a body."""
    while (path := read_request(connection)) is not None:
        left, rest = path[1:].split("/", 1)
        connection.sendall(counted(body_of(rest)) if left == "0" else moved(f"/{int(left) - 1}/{rest}", STATUSES[int(left) % 5]))


# rule redirect-heads
def case_redirects_with_large_bodies():
    # a body whose redirect is followed is freed before the next one comes
    large = bytes(20 * MIB)

    def serve(connection, _):
        while (path := read_request(connection)) is not None:
            left = int(path[1:])
            connection.sendall(moved(f"/{left - 1}", body=large) if left else counted(b"there"))

    with Server(serve) as server:
        run = Run(["--max-redirects", "10", server.url("/10")])
        want_ends(run, [(0, 200, b"there")])
        want(run.peak < 60 * MIB, f"peak {run.peak // MIB} MiB")


def case_redirects_with_refused_growths():
    with Server(stepping) as server:
        for workers in ("1", "2"):
            refuse_growths(["--workers", workers, "--max-redirects", "2", server.url("/2/x"), server.url("/1/y")],
                           [(0, 200, body_of("x")), (0, 200, body_of("y"))])
        refuse_growths(["--workers", "1", "--max-redirects", "1", server.url("/2/x")], [(TOO_MANY, 302, b"")])


NGINX = """
location = /start { return 302 /permanent; }
location = /permanent { rewrite ^ /see permanent; }
location = /see { return 303 http://$http_host/temporary?q=1; }
location = /temporary { return 307 next; }
location = /next { absolute_redirect off; return 308 //$http_host/folder#there; }
location = /endless { absolute_redirect off; return 302 /endless; }
location = /away { return 301 https://$http_host/; }
"""


def case_redirects_of_nginx():
    page = os.urandom(20_000)
    hops = [("/start", 302), ("/permanent", 301), ("/see", 303), ("/temporary?q=1", 307), ("/next", 308), ("/folder", 301),
                ("/folder/", 200)]
    asked = {"start": hops, "folder": hops[-2:], "endless": [("/endless", 302)] * 7, "away": [("/away", 301)],
             "folder/": hops[-1:]}
    ends = [(0, 200, page), (0, 200, page), (TOO_MANY, 302, b""), (1, 301, b""), (0, 200, page)]
    with Nginx({"folder/index.html": page}, NGINX) as server:
        run = Run(["--workers", "1", "--max-redirects", "6"] + [server.url(name) for name in asked])
        want_ends(run, ends)
        for name, (code, status, body) in zip(asked, ends):
            found = curl(server.url(name), 6, ["-A", f"curl-{name}"])
            want(found[:2] == (code, status) and (code != 0 or found[2] == body), f"curl ends {name} with {found[:2]}")
    with open(server.log, encoding="latin-1") as log:
        lines = [line.split() for line in log]
    by = {agent: [(target, int(status)) for its, _, _, target, _, status in lines if its == agent] for agent, *_ in lines}
    for name, wanted in asked.items():
        want(by[f"curl-{name}"] == wanted, f"curl asks {by[f'curl-{name}']} for {name}")
    want(by["-"] == sum(asked.values(), []), f"asks {by['-']}")
    want({(method, host) for _, _, method, _, host, _ in lines} == {("GET", f"127.0.0.1:{server.port}")}, "another method or host")
    links = {link for agent, link, *_ in lines if agent == "-"}
    want(len(links) == 1, f"{len(links)} connections")
