"""./run --prove: proves the crates below mxfetch, then proves and builds mxfetch, and becomes it.

    prove.py TOP [COMMAND..]    becomes COMMAND, once the program is built from what is there now
    prove.py --sum TOP          prints the sum of all that it would be built from
    prove.py --note TOP SUM     notes that what `rt ci` has built is built from that, if it is still there; ./run then starts it

It calls `rt ci` in a copy of the crates without their tests and mutants. What that passes is kept beside the toolchain, crate by crate, so
an interrupted run goes on where it was, and neither a later run nor CI proves it again.

What it has to say goes to standard error. Exit status: COMMAND's; 125 where the program couldn't be built; 128 and the signal's number
where that was interrupted. It keeps in crates/mxfetch/out what ./run and it compare: see Record. While it is at work ./run starts the program
without its proofs (first-run/unproved.py), which has a lock of its own.
"""

import collections
import errno
import fcntl
import hashlib
import os
import re
import select
import shlex
import shutil
import signal
import subprocess
import sys
import tempfile
import time

PROGRAM = "mxfetch"
FAILED = 125
SIGNALS = (signal.SIGINT, signal.SIGTERM, signal.SIGHUP)
JOB_MEMORY = 2 << 30        # what most crates take at most, in bytes; the last take twice as much, and run one at a time
ALL_FILES = 6_000_000_000   # what a proof of all crates keeps and takes while it is at work, in bytes
KILLED = (-9, 137, 247)     # how rt ends where the system kills it or its prover, as where memory runs out
UNLISTED = 120              # seconds, of a crate that seconds.txt doesn't list
UNWRITABLE = (errno.EPERM, errno.EACCES, errno.EROFS)
TAIL = 12                   # how many of the prover's last lines are shown
MEMORY_TAKEN = "a crate takes 1 to 4 GB"
NO_RT = ("there is no rt on the path. rt is the command of the Rattle toolchain (compiler, prover and proved libraries), which compiles and "
         "proves mxfetch: install the toolchain, and put its folder bin on the path")
PARTS = ("src", "specs", "proofs", "data", "args", "stdin", "stdout", "status")  # what is proved of a crate, and what a program is run on

NO_MEMORY = re.compile(r"Cannot allocate memory|memory allocation of|MemoryError|bad_alloc|^Killed|killed, most likely for memory", re.M)
NO_DISK = re.compile(r"No space left on device|os error 28\b|Errno 28\b|Disk quota exceeded")


# What prints the list, to be read by a shell in the folder crates: of the rt on the path and of each place the size, the inode and the time
# of its last change, which no copy keeps, to parts of a second. A folder's changes as a file comes or goes. It is one call, since each
# start makes it.
NOW = """\
export LC_ALL=C
IFS=:
set -f
for folder in $PATH; do
    [ ! -x "$folder/rt" ] || break
done
exec stat -L -c '%s %i %.Z' -- "$folder/rt" """


class Stop(Exception):
    """The program can't be built, and why."""


class Interrupted(Exception):
    """A signal came, of that number."""


def say(words):
    try:
        print(f"run: {words}", file=sys.stderr, flush=True)
    except BrokenPipeError:
        pass  # who listened has gone; the work goes on


def length_of(seconds):
    """A time in words."""
    minutes = int(seconds + 30) // 60
    if seconds < 100:
        return f"{int(seconds)} s"
    return f"{minutes} min" if minutes < 100 else f"{minutes // 60} h {minutes % 60} min"


# --- what the program is made from ---------------------------------------------------------------------------------------

def lines_of(top):
    """The line of each crate in crates.txt, without its comment, lowest first."""
    found = {}
    with open(f"{top}/crates.txt", encoding="utf-8") as lines:
        for line in lines:
            line = line.partition("#")[0].strip()
            if ":" in line:
                found[line.split()[0].rstrip(":")] = line
    return found


def uses_of(top):
    """The repository's crates, lowest first: a dict from each to those that it uses."""
    used = {crate: line.partition(":")[2].split() for crate, line in lines_of(top).items()}
    return {crate: [it for it in its if it in used] for crate, its in used.items()}


def crates_below(top, program=PROGRAM):
    """A crate and the crates below it, as uses_of."""
    uses = uses_of(top)
    if program not in uses:
        raise Stop(f"crates.txt doesn't list {program}")
    found = {program} | all_below(uses, program)
    return {crate: uses[crate] for crate in uses if crate in found}


def all_below(crates, crate):
    below, wanted = set(), [crate]
    while wanted:
        more = set(crates[wanted.pop()]) - below
        below |= more
        wanted += more
    return below


def places_of(top, crate, endings):
    """The crate's folders, and its files with these endings."""
    for folder, folders, files in os.walk(f"{top}/crates/{crate}"):
        folders[:] = [it for it in folders if it != "out"]
        yield folder
        yield from (f"{folder}/{it}" for it in files if it.endswith(endings))


def sources_of(top, crate, endings=(".rt", ".antt")):
    return (it for it in places_of(top, crate, endings) if it.endswith(endings))


def sum_of(path, change=lambda content: content):
    with open(path, "rb") as file:
        return hashlib.sha256(change(file.read())).hexdigest()


class Record:
    """What a folder keeps of a program that is built from sources: crates/mxfetch/out of the proved one, its folder `unproved` of one
    without proofs, NAME being the program's.

    NAME.made-from   the sum of all that it was made from, with the toolchain's words, and the sum of the program
    NAME.now         a script that prints the list: of each file and folder what tells whether anything has changed
    NAME.list        what it printed when these sums were last seen to agree
    """

    endings = (".rt", ".antt")  # of the sources that it is made from
    made_by = ()                # what else in the repository decides what comes out

    def __init__(self, top, toolchain, crate=PROGRAM, folder="out", name=PROGRAM):
        self.top, self.toolchain, self.crates = top, toolchain, crates_below(top, crate)
        self.folder = f"{top}/crates/{crate}/{folder}"
        self.program = f"{self.folder}/{name}"

    def sum_of_source(self, path):
        return sum_of(path)

    def sum_of_all(self):
        listed = lines_of(self.top)
        lines = [self.toolchain, *(f"{it} {sum_of(f'{self.top}/{it}')}" for it in self.made_by), *(listed[it] for it in self.crates)]
        for crate in self.crates:
            lines += sorted(f"{path[len(self.top):]} {self.sum_of_source(path)}" for path in sources_of(self.top, crate, self.endings))
        return hashlib.sha256("\n".join(lines).encode()).hexdigest()

    def is_built(self):
        try:
            with open(f"{self.program}.made-from", encoding="utf-8") as file:
                made_from = file.read()
            return made_from == f"{self.sum_of_all()}\n{sum_of(self.program)}\n" and os.access(self.program, os.X_OK)
        except FileNotFoundError:
            return False

    def note_places(self):
        rt = os.path.realpath(shutil.which("rt"))
        beside = os.path.dirname(rt)
        files = [f"{beside}/rattle", f"{beside}/KIT-ID", f"{os.path.dirname(beside)}/KIT-ID"]
        own = [f"{self.top}/{it}" for it in ("crates.txt", *self.made_by)] + [self.program]
        own += [it for crate in self.crates for it in places_of(self.top, crate, self.endings)]
        places = [os.path.relpath(it, f"{self.top}/crates") for it in own] + [it for it in files if os.path.isfile(it)]
        self.keep("now", f"{NOW}{' '.join(map(shlex.quote, places))}\n".encode())

    def keep(self, what, content):
        path = f"{self.program}.{what}"
        with open(f"{path}.new", "wb") as file:
            file.write(content)
        os.replace(f"{path}.new", path)

    def keep_made_from(self, before):
        """Notes that the program was made from what has this sum, if that is still there; returns whether it is."""
        if self.sum_of_all() != before:
            return False
        self.keep("made-from", f"{before}\n{sum_of(self.program)}\n".encode())
        return self.renew()

    def note_list(self):
        """The list as it is now; None where it can't be told."""
        if not os.path.isabs(shutil.which("rt")):
            return None
        told = subprocess.run(["sh", f"{self.program}.now"], cwd=f"{self.top}/crates", stdout=subprocess.PIPE, stderr=subprocess.DEVNULL,
                              check=False)
        return told.stdout if told.returncode == 0 else None

    def renew(self):
        """Notes what is there, if the program is built from it, and returns whether it is. The list is taken before the sums, so
        that a change beside this isn't missed."""
        if not os.path.isfile(f"{self.program}.made-from"):
            return False
        try:
            self.note_places()
            listed = self.note_list()
        except OSError as error:
            if error.errno not in UNWRITABLE:
                raise
            return self.is_built()  # where nothing can be written, the sums alone decide
        if not self.is_built():
            return False
        if listed:
            self.keep("list", listed)
        return True


# --- the machine ---------------------------------------------------------------------------------------------------------

def memory_available():
    """In bytes; of a limited group of processes, what the limit leaves."""
    with open("/proc/meminfo", encoding="ascii") as file:
        available = int(re.search(r"MemAvailable: *(\d+)", file.read())[1]) << 10
    try:
        with open("/sys/fs/cgroup/memory.max", encoding="ascii") as most, open("/sys/fs/cgroup/memory.current", encoding="ascii") as now:
            available = min(available, int(most.read()) - int(now.read()))
    except (OSError, ValueError):
        pass
    return available


def disk_free(path):
    disk = os.statvfs(path)
    return disk.f_bavail * disk.f_frsize


def processes_of(session):
    """The processes of a session that haven't ended."""
    for pid in filter(str.isdigit, os.listdir("/proc")):
        try:
            with open(f"/proc/{pid}/stat", encoding="utf-8", errors="replace") as file:
                state, _, _, its = file.read().rpartition(") ")[2].split()[:4]
        except (OSError, ValueError):
            continue
        if int(its) == session and state not in "ZX":
            yield int(pid)


def end(child):
    """Ends a child that leads a session of its own, and all that it started."""
    try:
        child.terminate()
        child.wait(5)
    except subprocess.TimeoutExpired:
        child.kill()
        child.wait()
    for attempt in range(200):
        left = list(processes_of(child.pid))
        if not left:
            return
        for pid in left if attempt >= 10 else ():
            try:
                os.kill(pid, signal.SIGKILL)
            except ProcessLookupError:
                pass
        time.sleep(0.02)


# --- how far it is, and about how long is left ---------------------------------------------------------------------------

class Progress:
    """The crates, which of them are done and since when others are at work."""

    def __init__(self, top, crates, jobs):
        self.crates, self.jobs = crates, jobs
        self.begun = time.monotonic()
        self.started, self.took, self.done = {}, {}, set()
        self.listed = {it: UNLISTED for it in crates}
        with open(f"{top}/first-run/seconds.txt", encoding="utf-8") as lines:
            for line in lines:
                crate, _, seconds = line.partition("#")[0].partition(":")
                if crate in crates:
                    self.listed[crate] = float(seconds)
        self.order = sorted(crates, key=lambda it: len(all_below(crates, it)))

    def seconds(self):
        return time.monotonic() - self.begun

    def note_at_work(self, found):
        for crate in found:
            self.started.setdefault(crate, time.monotonic())

    def at_work(self):
        return [it for it in self.order if it in self.started and it not in self.done]

    def note_done(self, crate):
        if crate in self.started:
            self.took[crate] = time.monotonic() - self.started[crate]
        self.done.add(crate)

    def scale(self):
        """How long this machine takes, beside the list; one minute of the list counts as if it had been seen."""
        return (60 + sum(self.took.values())) / (60 + sum(self.listed[it] for it in self.took))

    def left(self):
        """About how many seconds are left: each job takes the next crate in order, and waits for those below it."""
        scale, now, ends = self.scale(), time.monotonic(), dict.fromkeys(self.done, 0.0)
        free = [0.0] * self.jobs
        for crate in [it for it in self.order if it not in ends]:
            whole = self.listed[crate] * scale
            if crate in self.started:
                whole = max(whole - (now - self.started[crate]), whole / 10)
            free.sort()
            ends[crate] = max([free[0], *(ends[it] for it in self.crates[crate])]) + whole
            free[0] = ends[crate]
        return max(ends.values())

    def times(self):
        if len(self.done) == len(self.crates):
            return f"{length_of(self.seconds())} in all"
        return f"{length_of(self.seconds())} so far, about {length_of(self.left())} left"

    def count(self):
        return f"{len(self.done)} of {len(self.crates)}"


class Screen:
    """Standard error: lines, and on a terminal below them one line that is renewed."""

    def __init__(self):
        self.is_terminal = sys.stderr.isatty()
        self.shown = ""

    def tell(self, words):
        self.show("")
        say(words)

    def show(self, words):
        if not self.is_terminal or words == self.shown:
            return
        width = os.get_terminal_size(sys.stderr.fileno()).columns or 80
        sys.stderr.write(f"\r{words[:width - 1]}\x1b[K")
        sys.stderr.flush()
        self.shown = words


# --- the proofs ----------------------------------------------------------------------------------------------------------

def copy_of(top, crates, to):
    """Copies to a folder what is proved of these crates: a repository of its own, for rt."""
    os.makedirs(f"{to}/.git")  # the top of a repository is where this is
    shutil.copyfile(f"{top}/HANDLES", f"{to}/HANDLES")
    with open(f"{to}/crates.txt", "w", encoding="utf-8") as file:
        file.write("".join(f"{line}\n" for crate, line in lines_of(top).items() if crate in crates))
    for crate in crates:
        os.makedirs(f"{to}/crates/{crate}")
        for part in PARTS:
            from_, to_ = f"{top}/crates/{crate}/{part}", f"{to}/crates/{crate}/{part}"
            if os.path.isdir(from_):
                shutil.copytree(from_, to_)
            elif os.path.isfile(from_):
                shutil.copyfile(from_, to_)


class Proof:
    """Proves and builds all, and tells of it as it goes."""

    def __init__(self, record, log_path):
        self.record, self.log_path = record, log_path
        self.memory = memory_available()
        self.jobs = max(1, min(len(os.sched_getaffinity(0)), self.memory // JOB_MEMORY))
        self.progress = Progress(record.top, record.crates, self.jobs)
        self.screen = Screen()
        self.section = None
        self.said = {}          # of each crate, the prover's last lines
        self.tail = collections.deque(maxlen=TAIL)
        self.failed = []        # crates that the prover refused

    def prove(self):
        progress, top = self.progress, self.record.top
        say(f"proving and building {len(self.record.crates)} crates, once; meanwhile ./run COMMAND.. starts the program without its proofs")
        say(f"{self.jobs} at a time, at most about {length_of(progress.left())}; what the prover says is in {self.log_path}; Ctrl-C loses the "
            "crates at hand alone")
        with tempfile.TemporaryDirectory(prefix="mxfetch-proof-", dir=None if "TMPDIR" in os.environ else "/var/tmp") as folder:
            self.warn(folder)
            copy_of(top, self.record.crates, folder)
            with open(self.log_path, "wb") as self.log:
                status = self.follow(folder)
                Signals.heed()
            program = f"{folder}/crates/{PROGRAM}/out/{PROGRAM}"
            if status or self.failed or not os.path.isfile(program):
                self.stop(status)
            shutil.copy(program, f"{self.record.program}.new")
            os.replace(f"{self.record.program}.new", self.record.program)
        self.screen.tell(f"all is proved, and the program built: {progress.times()}")
        self.keep_times()

    def warn(self, folder):
        if self.memory < 2 * JOB_MEMORY:
            say(f"{self.memory / 1e9:.1f} GB of memory are available, and {MEMORY_TAKEN}: it may be too little")
        if disk_free(folder) < ALL_FILES:
            say(f"{disk_free(folder) / 1e9:.1f} GB are free on the disk of {os.path.dirname(folder)}, and {ALL_FILES / 1e9:.0f} GB may be "
                "needed: it may be too little")

    def follow(self, folder):
        """Runs the prover in the copy, and listens to it until it ends; returns its status."""
        how = {"stdin": subprocess.DEVNULL, "stdout": subprocess.PIPE, "stderr": subprocess.STDOUT, "start_new_session": True}
        rest = b""
        Signals.are_held = True
        child = subprocess.Popen(["rt", "ci"], cwd=folder, **how)
        Signals.paused_with = child.pid
        try:
            while True:
                Signals.heed()
                self.look(child, folder)
                if not select.select([child.stdout], [], [], 0.5)[0]:
                    continue
                given = os.read(child.stdout.fileno(), 65536)
                if not given:
                    return child.wait()
                self.log.write(given)
                self.log.flush()
                *lines, rest = (rest + given).split(b"\n")
                for line in lines:
                    self.hear(line.decode("utf-8", "replace"))
        finally:
            Signals.paused_with = None
            end(child)
            child.stdout.close()
            Signals.are_held = False

    def hear(self, line):
        """A line of rt's. It tells of a crate when that has ended: what the prover said behind a head, and then the verdict."""
        self.tail.append(line)
        head = re.fullmatch(r"== (\w+)", line)
        verdict = re.match(r"rt: (\w+)(?: (proved|NOT PROVED)$| (is kept): |: (another run on this machine)|: (note: .*))", line)
        if head:
            self.section = head[1]
            self.said[self.section] = collections.deque(maxlen=TAIL)
        elif line.startswith("rt: note: "):
            self.screen.tell(line[len("rt: "):])
        elif verdict and verdict[1] in self.record.crates:
            crate, is_proved, is_kept, waits = verdict[1], verdict[2] == "proved", verdict[3], verdict[4]
            self.section = None
            if waits:
                self.screen.tell(f"{crate}: another run on this machine proves the same: waiting until it has ended")
            elif is_proved or is_kept:
                self.note_done(crate, is_kept)
            elif verdict[2]:
                self.failed.append(crate)
                self.screen.tell(f"{crate} isn't proved; what doesn't stand on it goes on")
        elif self.section:
            self.said[self.section].append(line)

    def note_done(self, crate, is_kept):
        progress = self.progress
        progress.note_done(crate)
        if not self.screen.is_terminal and crate != PROGRAM:
            took = "was proved before" if is_kept else f"took {length_of(progress.took.get(crate, 0))}"
            beside = ", ".join(progress.at_work())
            self.screen.tell(f"{progress.count()}, {crate} {took}{beside and f'; at work: {beside}'}; {progress.times()}")

    def look(self, child, folder):
        """Sees which crates are at work, by the folders of the prover's processes."""
        found = set()
        for pid in processes_of(child.pid):
            try:
                above, crate = os.path.split(os.readlink(f"/proc/{pid}/cwd"))
            except OSError:
                continue
            if crate in self.record.crates and above == f"{folder}/crates":
                found.add(crate)
        progress = self.progress
        progress.note_at_work(found)
        words = ", ".join(progress.at_work()) or ("builds the program" if PROGRAM in progress.done else "begins")
        self.screen.show(f"run: {progress.count()}, {progress.times()}; at work: {words}")

    def stop(self, status):
        """Says why the program isn't built."""
        self.screen.show("")
        crate = next(iter(self.failed), None)
        last = list(self.said.get(crate) or self.tail)
        text, free = "\n".join([*last, *self.tail]), disk_free(self.record.folder)
        print("\n".join(last), file=sys.stderr)
        raise Stop(why_not(crate, status, text, free, self.jobs, self.memory, self.log_path))

    def keep_times(self):
        if set(self.progress.took) == set(self.record.crates):
            times = "".join(f"{it}: {seconds:.0f}\n" for it, seconds in self.progress.took.items())
            with open(f"{os.path.dirname(self.log_path)}/seconds.txt", "w", encoding="utf-8") as file:
                file.write(times)


def why_not(crate, status, text, free, jobs, memory, log):
    """Why a crate isn't proved, in words: full disk, too little memory, or what the prover says."""
    if NO_DISK.search(text) or free < 1 << 20:
        return disk_is_full(free)
    if NO_MEMORY.search(text) or status in KILLED:
        return (f"there is too little memory: {MEMORY_TAKEN}, and {jobs} at a time had {memory / 1e9:.1f} GB; what was proved is kept, and "
                f"./run --prove goes on from there, with fewer jobs where fewer cores are given to it: taskset -c 0 ./run --prove ({log})")
    name = crate or "the program"
    ended = f"the prover of {name} was ended by signal {-status}" if status < 0 else f"{name} isn't proved and built"
    return f"{ended}: the whole of what the prover said is in {log}"


def disk_is_full(free):
    return (f"the disk is full: a proof of all crates takes {ALL_FILES / 1e9:.0f} GB, and {free / 1e9:.1f} GB are free; "
            "what was proved is kept, and ./run --prove goes on from there")


# --- in order ------------------------------------------------------------------------------------------------------------

class Signals:
    """A signal interrupts at once, or where it is held, so that no child is left over, as soon as it is heeded. Ctrl-Z stops the
    prover, too, which has a session of its own."""

    came, are_held, paused_with = None, False, None

    @classmethod
    def heed(cls):
        if cls.came:
            raise Interrupted(cls.came)

    @classmethod
    def interrupt(cls, number, _):
        cls.came = number
        if not cls.are_held:
            cls.heed()

    @classmethod
    def pause(cls, *_):
        if cls.paused_with:
            os.kill(cls.paused_with, signal.SIGTSTP)
        os.kill(os.getpid(), signal.SIGSTOP)
        if cls.paused_with:
            os.kill(cls.paused_with, signal.SIGCONT)

    @classmethod
    def begin(cls):
        cls.handled = {it: cls.interrupt for it in SIGNALS if signal.getsignal(it) is not signal.SIG_IGN}
        if signal.getsignal(signal.SIGTSTP) is signal.SIG_DFL:
            cls.handled[signal.SIGTSTP] = cls.pause
        for it, handler in cls.handled.items():
            signal.signal(it, handler)

    @classmethod
    def end(cls):
        """As a program finds them that is started by a shell; Python ignores the last two."""
        for it in (*cls.handled, signal.SIGPIPE, signal.SIGXFSZ):
            signal.signal(it, signal.SIG_DFL)


def lock(path, words="another ./run --prove proves and builds here", waits=True):
    """Keeps another ./run out until this process ends or becomes another; None where nothing can be written, and False where another has
    it and this isn't to wait."""
    try:
        os.makedirs(os.path.dirname(path), exist_ok=True)
        held = open(path, "w", encoding="ascii")
    except OSError as error:
        if error.errno in UNWRITABLE:
            return None
        raise
    for attempt in range(20):
        try:
            fcntl.flock(held, fcntl.LOCK_EX | fcntl.LOCK_NB)
            return held
        except BlockingIOError:
            time.sleep(0.1)  # it may only compare what is there
    if not waits:
        return False
    say(f"{words}: waiting until it has ended")
    fcntl.flock(held, fcntl.LOCK_EX)
    return held


def version():
    """What the toolchain says that it is."""
    if shutil.which("rt"):
        told = subprocess.run(["rt", "version"], stdin=subprocess.DEVNULL, stdout=subprocess.PIPE, stderr=subprocess.DEVNULL)
        if told.returncode == 0 and told.stdout.strip():
            return told.stdout.decode("utf-8", "replace").strip()
    raise Stop(NO_RT)


def build(top):
    """Returns when the program is built from what is there."""
    record = Record(top, version())
    out = record.folder
    held = lock(f"{out}/run.lock")
    if record.renew():
        return held
    if held is None:
        raise Stop(f"the program isn't built, and {out} can't be written")
    before = record.sum_of_all()
    Proof(record, f"{out}/run.log").prove()
    record.keep_made_from(before)
    return held


def note(top, before):
    record = Record(top, version())
    return 0 if os.access(record.program, os.X_OK) and record.keep_made_from(before) else 1


def main(words):
    if words[0] in ("--sum", "--note"):
        top = os.path.realpath(words[1])
        if words[0] == "--note":
            return note(top, words[2])
        print(Record(top, version()).sum_of_all())
        return 0
    Signals.begin()
    try:
        held = build(os.path.realpath(words[0]))  # until COMMAND begins
    except Interrupted as signalled:
        print(file=sys.stderr, end="\n" if sys.stderr.isatty() else "")
        say("interrupted: what was proved is kept, the crates at hand begin anew; ./run --prove goes on from there")
        return 128 + signalled.args[0]
    except Stop as why:
        say(why)
        return FAILED
    except MemoryError:
        say(f"there is too little memory: {MEMORY_TAKEN}")
        return FAILED
    except OSError as error:
        is_full = error.errno in (errno.ENOSPC, errno.EDQUOT)
        say(disk_is_full(disk_free(words[0])) if is_full else f"the program can't be built: {error}")
        return FAILED
    if not words[1:]:
        say("the program is proved and built from what is there now")
        return 0
    Signals.end()
    os.execvp(words[1], words[1:])


if __name__ == "__main__":
    sys.exit(main(sys.argv[1:]))
