"""The cases of checks/save.sh on bodies that come in many pieces: runs that are killed meanwhile, and how a run ends."""

import collections
import os
import random
import resource
import shutil
import signal
import subprocess
import threading
import time

from bodies import blocks
from saving import Saved, files_in, folder, parse, parts_in, start, want_files
from servers import MIB, Server, chunked, counted, read_request, reset, until_closed, want

KILLS = int(os.environ.get("KILLS", "24"))
SIZES = [0, 1, 5_000, 65_535, 65_536, 65_537, 300_000, MIB, 3 * MIB]
BAD = b"x\r\n"  # what is no chunk
TO_END = b"HTTP/1.0 200 OK\r\n\r\n"


def redirect(to, body):
    return counted(body, "HTTP/1.1 302 Found", f"Location: {to}\r\n")


def answers_of_all_kinds():
    """What is sent for each path, some of it with one connection for each; and the body under each name, where that is to be whole."""
    answers, whole = {}, {}
    for size in SIZES:
        body = b"".join(blocks(size))
        kinds = {"counted": counted(body), "chunked": chunked(body, 4001), "close": TO_END + body,
                 "redirected": redirect(f"/there/{size}", b"moved" * 20_000),
                 "cut": counted(body + b"more")[:-1], "broken": chunked(body, 4001)[:-5] + BAD}
        answers.update({f"/{kind}/{kind}{size}": sent for kind, sent in kinds.items()})
        answers[f"/there/{size}"] = counted(body)
        whole.update({f"{kind}{size}": body for kind in ("counted", "chunked", "close", "redirected")})
    return answers, whole


class Answering:
    """Serves answers by their paths, piece by piece, and counts down what is sent until none is left of `left`."""

    def __init__(self, answers):
        self.answers, self.left, self.lock, self.is_sent = answers, 0, threading.Lock(), threading.Event()

    def __call__(self, connection, _):
        while (path := read_request(connection)) is not None:
            for at in range(0, len(self.answers[path]), 16_384):
                piece = self.answers[path][at:at + 16_384]
                connection.sendall(piece)
                with self.lock:
                    self.left -= len(piece)
                if self.left < 0:
                    self.is_sent.set()
            if path.startswith(("/close", "/cut", "/broken")):
                return


# rule save-bodies
def case_killed_at_any_moment():
    # once so many bytes were sent, and some milliseconds later: each file with a name is whole, and each that was told as saved is there
    answers, whole = answers_of_all_kinds()
    paths = [path for path in answers if not path.startswith("/there")]
    total, chance, counts = sum(map(len, answers.values())), random.Random(7), collections.Counter()
    serve = Answering(answers)
    with Server(serve) as server:
        while counts["killed"] < KILLS:
            workers, into = (1, 4, 16)[counts["killed"] % 3], folder()
            chance.shuffle(paths)
            serve.left = chance.randrange(total)
            serve.is_sent.clear()
            child = start(["--workers", str(workers), "--at-once", "16", "--into", into] + [server.url(path) for path in paths],
                          stdout=subprocess.PIPE)
            delay = chance.random() / 50
            threading.Thread(target=lambda child=child, delay=delay: (serve.is_sent.wait(60), time.sleep(delay), child.kill())).start()
            told, _ = child.communicate()
            counts["killed" if child.returncode == -signal.SIGKILL else "ended"] += 1
            row, found = f"kill {counts['killed']}, {workers} workers", files_in(into)
            for name, content in found.items():
                want(content == whole.get(name), f"{row}: {name} has {len(content)} bytes, and isn't whole")
            lines = parse(told[:told.rfind(b"\n") + 1])
            want({line[4] for line in lines if line[0] == "saved"} <= set(found), f"{row}: a file that was told isn't there")
            want(child.returncode < 0 or not parts_in(into), f"{row}: it ended by itself, and parts are left")
            want(counts["ended"] <= KILLS, f"{row}: most runs end before they are killed")
            counts.update(files=len(found), lines=len(lines), parts=len(parts_in(into)), empty=not found)
            shutil.rmtree(into)
    print(f"    {KILLS} kills: {counts['files']} files, each whole, {counts['lines']} lines, {counts['parts']} parts, "
          f"{counts['empty']} folders without a file; {counts['ended']} runs ended before")


# rule file-no-part-left
def case_ends_that_leave_no_part():
    # each alone, and all in one run, beside bodies that are saved
    large = b"".join(blocks(3 * MIB))
    half, many = counted(large)[:MIB], chunked(large, 4001)
    rows = {"/404": (22, counted(large, "HTTP/1.1 404 Not Found")), "/503": (22, counted(large, "HTTP/1.1 503 busy")),
            "/round": (47, redirect("/round", large)), "/away": (1, redirect("ftp://a/", large)), "/a_folder": (23, counted(large)),
            "/long": (23, counted(large + b"x")), "/none": (52, b""), "/head": (8, b"HTTP/1.1 2"), "/cut": (18, half), "/torn": (56, half),
            "/cut_chunk": (18, many[:MIB]), "/broken": (56, many[:-5] + BAD), "/coding": (61, many.replace(b"chunked", b"gzip", 1)),
            "/hangs": (28, half), "/204": (0, b"HTTP/1.1 204 No Content\r\n\r\n"), "/counted": (0, counted(large)),
            "/chunked": (0, many), "/close": (0, TO_END + large), "/to": (0, redirect("/counted", large))}

    def serve(connection, _):
        while (path := read_request(connection)) is not None:
            connection.sendall(rows[path][1])
            if path == "/hangs":
                until_closed(connection)
            if path == "/torn":
                time.sleep(0.05)
                reset(connection)
            if path == "/close" or rows[path][0] not in (0, 22, 23, 47):
                return

    def check(server, words, paths):
        into = folder()
        os.mkdir(os.path.join(into, "a_folder"))
        run = Saved(words + [server.url(path) for path in paths], into,
                    first=lambda: resource.setrlimit(resource.RLIMIT_FSIZE, (len(large), len(large))))
        codes = {line[5][len(server.url("")):]: line[1] for line in run.lines}
        want(codes == {path: rows[path][0] for path in paths} and len(run.lines) == len(paths), f"{words}, {paths}: {run.lines}")
        want(run.status == next((rows[path][0] for path in paths if rows[path][0]), 0), f"{words}, {paths}: exit status {run.status}")
        want_files(into, {"a_folder": None, **{path[1:]: large for path in paths if rows[path][0] == 0 and path != "/204"}})
        shutil.rmtree(into)

    with Server(serve) as server:
        for path in rows:
            check(server, ["--timeout-ms", "500"] if path == "/hangs" else [], [path])
        paths = [path for path in rows if path != "/hangs"]
        for words in (["--workers", "1"], ["--workers", "4", "--retry", "1"], ["--workers", "16", "--at-once", "32"]):
            check(server, words, paths)
