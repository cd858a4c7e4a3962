"""Runs of `mxfetch save`, and the folders that they leave."""

import contextlib
import json
import os
import re
import subprocess
import tempfile
import threading
import time

from servers import PROGRAM, WORK, Wrong, want

LINE = re.compile(rb"(saved|done|skipped|failed) (\d+) (\d+) (\d+) ([\x21-\x7e]+) ([\x21-\x7e]+)\n")
WORDS = re.compile(rb"mxfetch: ([\x21-\x7e]*): ([^\r\n]+) \((\d+)\)")
PART = re.compile(r"\.mxfetch-\d+-\d+\.part")
KEYS = ["url", "verdict", "code", "status", "length", "file", "hops", "tries", "framing", "error"]


def folder():
    """A new folder, which goes with WORK."""
    return tempfile.mkdtemp(dir=WORK)


def start(words, **how):
    """Starts a run, which has no input and whose words aren't shown, unless a case says how."""
    how = {"stdin": subprocess.DEVNULL, "stderr": subprocess.DEVNULL, **how}
    return subprocess.Popen([PROGRAM, "save"] + words, **how)


class Saved:
    """What a run told: its lines are (verdict, code, status, length, file, URL), in the order in which they came. One that hangs is ended
    after these seconds, since a busy disk was seen to take 12 milliseconds a file. `first` is called in its process before it starts."""

    def __init__(self, words, into=None, urls=None, seconds=300, asked=None, first=None):
        begun = time.monotonic()
        words = words + (["--into", into] if into else []) + (["--input", "-"] if urls is not None else [])
        with tempfile.TemporaryFile(dir=WORK) as list_, tempfile.TemporaryFile(dir=WORK) as out, tempfile.TemporaryFile(dir=WORK) as err:
            list_.write(b"".join(url.encode() + b"\n" if isinstance(url, str) else url for url in urls or []))
            list_.seek(0)
            child = start(words, stdin=list_, stdout=out, stderr=err, env={**os.environ, **(asked or {})}, preexec_fn=first)
            watch = threading.Timer(seconds, child.kill)
            watch.start()
            self.peak = self.descriptors = self.threads = 0
            counter = threading.Thread(target=self.count, args=(child.pid,), daemon=True)
            counter.start()
            _, status, usage = os.wait4(child.pid, 0)
            watch.cancel()
            counter.join()
            child.returncode = os.waitstatus_to_exitcode(status)
            out.seek(0)
            err.seek(0)
            self.out, self.err = out.read(), err.read()
        self.status = child.returncode
        self.seconds = time.monotonic() - begun
        self.processor = usage.ru_utime + usage.ru_stime
        want(self.status >= 0, f"ended by signal {-self.status} after {self.seconds:.1f} s")
        self.lines = [] if "--json" in words else parse(self.out)

    def count(self, pid):
        """The most memory, descriptors and threads that it has, as looks 20 milliseconds apart see them."""
        with contextlib.suppress(OSError):
            while True:
                self.descriptors = max(self.descriptors, len(os.listdir(f"/proc/{pid}/fd")))
                self.threads = max(self.threads, len(os.listdir(f"/proc/{pid}/task")))
                with open(f"/proc/{pid}/status") as file:
                    peak = re.search(r"VmHWM:\s+(\d+) kB", file.read())
                self.peak = int(peak.group(1)) * 1024 if peak else self.peak
                time.sleep(0.02)

    def objects(self):
        found = [json.loads(line) for line in self.out.decode("ascii").splitlines()]
        for one in found:
            want(list(one) == KEYS, f"an object has the keys {list(one)}")
        return found


def parse(out):
    lines, at = [], 0
    while at < len(out):
        line = LINE.match(out, at)
        want(line is not None, f"no line at byte {at}: {out[at:at + 100]!r}")
        verdict, code, status, length, file, url = line.groups()
        lines.append((verdict.decode(), int(code), int(status), int(length), file.decode(), url.decode()))
        at = line.end()
    return lines


def want_lines(run, lines, status):
    """The same lines, in whatever order, and that exit status."""
    missing, more = sorted(set(lines) - set(run.lines)), sorted(set(run.lines) - set(lines))
    want(not missing and not more, f"{len(missing)} lines don't come, as {missing[:3]}; {len(more)} others do, as {more[:3]}; {run.err!r}")
    want(len(run.lines) == len(lines), f"{len(run.lines)} lines in place of {len(lines)}")
    want(run.status == status, f"exit status {run.status} in place of {status}; {run.err!r}")


def files_in(at):
    """The names that a folder has, each with the bytes of a file, and with None where it is none; without parts of files."""
    found = {}
    for name in os.listdir(at):
        if PART.fullmatch(name):
            continue
        path = os.path.join(at, name)
        found[name] = None
        if os.path.isfile(path) and not os.path.islink(path):
            with open(path, "rb") as file:
                found[name] = file.read()
    return found


def parts_in(at):
    return [name for name in os.listdir(at) if PART.fullmatch(name)]


def want_files(at, files):
    found = files_in(at)
    want(sorted(found) == sorted(files), f"{sorted(set(files) - set(found))[:3]} aren't there, {sorted(set(found) - set(files))[:3]} are")
    for name, content in files.items():
        want(found[name] == content, f"{name} has other bytes, {len(found[name] or b'')} in place of {len(content or b'')}")
    want(not parts_in(at), f"parts are left: {parts_in(at)[:3]}")


@contextlib.contextmanager
def small_disk(size):
    """A folder that is a file system of so many bytes, or None where none can be mounted."""
    at = folder()
    words = ["mount", "-t", "tmpfs", "-o", f"size={size}", "none", at]
    mounted = subprocess.run(words, capture_output=True).returncode == 0
    try:
        yield at if mounted else None
    finally:
        if mounted:
            subprocess.run(["umount", at], check=True)


def make_read_only(at):
    if subprocess.run(["mount", "-o", "remount,ro", at], capture_output=True).returncode != 0:
        raise Wrong(f"{at} can't be made read-only")
