"""The cases of checks/leaks.sh: runs of the program under valgrind, which says what was never freed and can't be reached any more."""

import contextlib
import os
import re
import subprocess
import sys
import tempfile

from servers import PROGRAM, WORK, Server, Wrong, body_of, counted, deaf, keeping, read_request, want

# "possibly lost" is what a thread has that nobody joins: those of lookups, and the one that begins them
LOST = re.compile(r"definitely lost: ([\d,]+) bytes|indirectly lost: ([\d,]+) bytes")
RECORD = re.compile(r"(?:==\d+== .*are definitely lost.*\n)(?:==\d+==   .+\n)+")
NOTE = os.path.join(WORK, "note")  # what is made where a growth was refused
SECONDS = 300


def loader():
    """The dynamic loader that the program names."""
    with open(PROGRAM, "rb") as file:
        return re.search(rb"\0(/[^\0]*/ld-[^\0]+)\0", file.read(4096))[1].decode()


def run_watched(words, urls=(), refused=None):
    """Runs the program under valgrind, with this list of URLs on standard input, and one growth of memory refused, where that is numbered;
    returns its exit status."""
    log = os.path.join(WORK, "valgrind")
    how, asked = [], {}
    if refused is not None:
        # by the loader, and with no function of the library replaced by valgrind, so that growths of the program alone are counted
        how = ["--soname-synonyms=somalloc=nouserintercepts", loader(), "--preload", os.path.join(WORK, "refuse.so")]
        asked = {"REFUSE_GROWTH": str(refused), "REFUSE_NOTE": NOTE}
        with contextlib.suppress(FileNotFoundError):
            os.remove(NOTE)
    with tempfile.TemporaryFile(dir=WORK) as list_:
        list_.write("".join(f"{url}\n" for url in urls).encode())
        list_.seek(0)
        status = subprocess.run(["valgrind", f"--log-file={log}", "--leak-check=full", "--num-callers=30", *how, PROGRAM, *words], stdin=list_,
                                stdout=subprocess.DEVNULL, stderr=subprocess.DEVNULL, env={**os.environ, **asked}, timeout=SECONDS,
                                check=False).returncode
    with open(log, encoding="utf-8", errors="replace") as file:
        said = file.read()
    counts = [int((one or other).replace(",", "")) for one, other in LOST.findall(said)]
    want(counts or "no leaks are possible" in said, f"valgrind doesn't say what was lost:\n{said}")
    if any(counts):
        records = "".join(RECORD.findall(said)) or said
        raise Wrong(f"{counts[0]} bytes are definitely lost, and {counts[1]} with them:\n{records}")
    return status


def refuse_some(words, wanted, step):
    """Runs with one growth in so many refused, each in a run of its own, as far as one asks for so many; each ends with one of these."""
    runs = 0
    for which in range(1, 5000, step):
        status = run_watched(words, refused=which)
        if not os.path.exists(NOTE):
            break
        want(status in wanted, f"growth {which}: exit status {status}")
        runs += 1
    want(runs > 0, "no growth was refused")
    print(f"    {' '.join(words)[:60]}: {runs} growths refused", flush=True)


def want_clean(words, status, urls=()):
    found = run_watched(words, urls)
    want(found == status, f"{' '.join(words)[:80]}: exit status {found} in place of {status}")


def tangled(connection, _):
    """Redirects /from.. to /to.., ends the body of /short.. early, and refuses /missing..; all else it answers whole."""
    while (path := read_request(connection)) is not None:
        if path.startswith("/from"):
            connection.sendall(counted(b"", "HTTP/1.1 302 Found", f"Location: /to{path[5:]}\r\n"))
        elif path.startswith("/round"):
            connection.sendall(counted(b"", "HTTP/1.1 302 Found", "Location: /round\r\n"))
        elif path.startswith("/short"):
            connection.sendall(counted(body_of(path) + b"more")[:-3])
            return
        elif path.startswith("/missing"):
            connection.sendall(counted(b"", "HTTP/1.1 404 Not Found"))
        else:
            connection.sendall(counted(body_of(path)))


def tangled_urls(server, nobody, count):
    kinds = ["from", "round", "short", "missing", "whole"]
    urls = [server.url(f"/{kinds[number % 5]}{number}") for number in range(count)]
    return [*urls, f"http://{nobody}/refused", "http://user@host/", "https://127.0.0.1/"]


def case_get():
    with Server(keeping) as server:
        want_clean(["get", "--workers", "4", *(server.url(f"/g{number}") for number in range(200))], 0)


def case_get_redirects_and_failures():
    with Server(tangled) as server, deaf() as nobody:
        # the first that fails is a chain of too many redirects
        want_clean(["get", "--workers", "2", "--max-redirects", "3", *tangled_urls(server, nobody, 40)], 47)


def case_get_body():
    with Server(tangled) as server:
        for path, status in (("/from1", 0), ("/round1", 47), ("/short1", 18), ("/whole1", 0)):
            want_clean(["get", "--body", "--max-redirects", "3", server.url(path)], status)


def case_save_with_a_short_history():
    with Server(keeping) as server:
        urls = [server.url(f"/s{number}") for number in range(300)]
        want_clean(["save", "--into", tempfile.mkdtemp(dir=WORK), "--history", "16", "--workers", "2", "--input", "-"], 0, urls)


def case_save_redirects_and_failures():
    with Server(tangled) as server, deaf() as nobody:
        words = ["save", "--into", tempfile.mkdtemp(dir=WORK), "--history", "64", "--workers", "2", "--max-redirects", "3", "--retry", "1",
                 "--input", "-"]
        want_clean(words, 47, tangled_urls(server, nobody, 40))


def case_refused_growths():
    with Server(keeping) as server:
        urls = [server.url("/one"), server.url("/two")]
        refuse_some(["get", "--workers", "1", *urls], (0, 27), 23)
        refuse_some(["get", "--body", urls[0]], (0, 27), 23)
        refuse_some(["save", "--into", tempfile.mkdtemp(dir=WORK), "--history", "4", "--workers", "1", *urls], (0, 23, 27), 23)


def main():
    cases = [(name[5:], case) for name, case in globals().items() if name.startswith("case_")]
    word = sys.argv[1] if len(sys.argv) > 1 else ""
    wrong = 0
    for name, case in cases:
        if word not in name:
            continue
        print(name, flush=True)
        try:
            case()
        except (Wrong, subprocess.SubprocessError) as error:
            wrong += 1
            print(f"    WRONG: {error}", flush=True)
    print(f"{wrong} wrong" if wrong else "all as expected")
    sys.exit(1 if wrong else 0)


main()
