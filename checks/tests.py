"""checks/tests.sh: runs the tests of all crates without their proofs, as many crates at a time as there are cores and memory for, the longest
first. Prints a line for each crate, and of one that fails what was said.

A crate of tests has functions marked #[test], or is a program with a file `stdout` beside its src: what it has to print, for what the file
`stdin` gives it, and for the words of `args`. First it runs by `rt try`, with checks of indexes, overflows and memory. In passing its program
is compiled as first-run/unproved.py has it, optimised and without the sanitizer, and kept in crates/NAME/out/unproved. Where nothing of
what it is made from has changed since, and all passed then, the next run starts what is kept.
"""

import glob
import os
import re
import shutil
import subprocess
import sys
import tempfile
import time
from concurrent.futures import ThreadPoolExecutor

TOP = os.path.dirname(os.path.dirname(os.path.realpath(__file__)))
sys.path.insert(0, f"{TOP}/first-run")
import prove
import unproved

JOB_MEMORY = 3 << 30   # of a crate of tests, in bytes
SECONDS = 600          # of a crate's tests, once they are compiled
LONG = ("mx_bytes_tests",)   # crates whose tests take longer to run than others to compile, which a larger crate takes longer to
TEST = re.compile(r"^\s*#\[test\]", re.M)


def text_of(path):
    with open(path, encoding="utf-8") as file:
        return file.read()


class Failed(Exception):
    """What was said of tests that didn't pass."""


class Tests:
    """The tests of one crate."""

    def __init__(self, crate, toolchain):
        self.crate, self.folder = crate, f"{TOP}/crates/{crate}"
        self.is_program = os.path.isfile(f"{self.folder}/src/main.rt")
        self.record = unproved.Record(TOP, toolchain, crate, crate if self.is_program else f"{crate}_tests")
        self.size = sum(os.stat(it).st_size for below in self.record.crates for it in prove.sources_of(TOP, below, (".rt",)))

    def count(self):
        """How many tests there are; of a program, how many lines it has to print."""
        if self.is_program:
            return len(text_of(f"{self.folder}/stdout").splitlines())
        return sum(len(TEST.findall(text_of(it))) for it in prove.sources_of(TOP, self.crate, (".rt",)))

    def words(self):
        """The words of a program's command line."""
        args = f"{self.folder}/args"
        return text_of(args).splitlines() if os.path.isfile(args) else []

    def given(self):
        stdin = f"{self.folder}/stdin"
        return open(stdin if os.path.isfile(stdin) else os.devnull, "rb")

    def compile(self):
        """Runs them by `rt try`, and keeps their program; returns how many passed."""
        os.makedirs(self.record.folder, exist_ok=True)
        held = prove.lock(f"{self.record.folder}/run.lock", f"another ./check compiles {self.crate}")
        before = self.record.sum_of_all()
        with tempfile.TemporaryDirectory(prefix="work-", dir=self.record.folder) as work, open(f"{self.record.program}.log", "wb") as log:
            compiler = unproved.Compiler(os.path.realpath(work), log, unproved.NoStage())
            passed = self.run_by_try(compiler, log)
            if compiler.found is None:
                raise Failed("no module of the tests was seen: this toolchain compiles in another way than first-run/unproved.py knows")
            os.replace(compiler.compile(os.path.basename(self.record.program)), self.record.program)
        if passed == self.count():
            self.record.keep_made_from(before)
        del held
        return passed

    def run_by_try(self, compiler, log):
        words = ["--steps", "1", "--seconds", str(SECONDS)]
        if self.is_program:
            # what it prints is judged by the program that is kept, on all of the crate's data
            data = [it for file in glob.glob(f"{self.folder}/data/*") for it in ("--data", f"{os.path.basename(file)}={file}")]
            with self.given() as stdin:
                status = compiler.lower(self.folder, [*words, *data, "--", *self.words()], is_whole=True, stdin=stdin)
            said = text_of(log.name)
            if status or "\nrun=ended status=0 " not in f"\n{said}":
                raise Failed(said)
            return self.count()
        status = compiler.lower(self.folder, ["--test", *words], is_whole=True)
        said = text_of(log.name)
        if status or "\nrun=ended status=0 " not in f"\n{said}":
            raise Failed(said)
        return len(re.findall(r"^test \S+ \.\.\. ok$", said, re.M))

    def run_kept(self):
        """Runs the program that is kept; returns how many passed."""
        if self.is_program:
            return self.run_program()
        listed = subprocess.run([self.record.program, "--list"], stdin=subprocess.DEVNULL, stdout=subprocess.PIPE, check=True)
        names = re.findall(r"^(\S+): test$", listed.stdout.decode(), re.M)
        for name in names:
            ended = subprocess.run([self.record.program, name], stdin=subprocess.DEVNULL, stdout=subprocess.PIPE, stderr=subprocess.STDOUT,
                                   timeout=SECONDS, check=False)
            if ended.returncode:
                raise Failed(f"{name}: status {ended.returncode}: {ended.stdout.decode('utf-8', 'replace')}")
        return len(names)

    def run_program(self):
        with tempfile.TemporaryDirectory(prefix="mxfetch-test-") as folder, self.given() as stdin:
            if os.path.isdir(f"{self.folder}/data"):
                shutil.copytree(f"{self.folder}/data", folder, dirs_exist_ok=True)
            ended = subprocess.run([self.record.program, *self.words()], cwd=folder, stdin=stdin, stdout=subprocess.PIPE, timeout=SECONDS,
                                   check=False)
        wanted, printed = text_of(f"{self.folder}/stdout").splitlines(), ended.stdout.decode("utf-8", "replace").splitlines()
        if ended.returncode or printed != wanted:
            differs = [f"line {at}: {it[1]!r}, and not {it[0]!r}" for at, it in enumerate(zip(wanted, printed), 1) if it[0] != it[1]]
            raise Failed(f"status {ended.returncode}, {len(printed)} lines of {len(wanted)}\n" + "\n".join(differs[:10]))
        return len(wanted)

    def run(self):
        begun, kept = time.monotonic(), self.record.renew()
        try:
            passed = self.run_kept() if kept else self.compile()
            if not kept and self.is_program:
                passed = self.run_program()
            said = "" if passed == self.count() else "others than there are in the sources"
        except Failed as why:
            passed, said = 0, str(why)
        except (prove.Stop, unproved.Unknown, MemoryError, OSError) as error:
            passed, said = 0, unproved.why_not(TOP, error)
        except subprocess.SubprocessError as error:
            passed, said = 0, str(error)
        what = "lines are as they have to be" if self.is_program else "tests passed"
        how = ", by the program that was kept" if kept else ""
        print(f"{'WRONG' if said else 'ok   '} {self.crate}: {passed} of {self.count()} {what}, {time.monotonic() - begun:.0f} s{how}", flush=True)
        if said:
            print("\n".join(said.splitlines()[-30:]), flush=True)
        return not said


def crates_of_tests(word):
    """The crates that have tests, and whose names have the word."""
    toolchain = prove.version()
    for crate in prove.uses_of(TOP):
        if word in crate and crate != prove.PROGRAM:
            tests = Tests(crate, toolchain)
            if tests.is_program or tests.count():
                yield tests


def main(words):
    try:
        tests = sorted(crates_of_tests(words[0] if words else ""), key=lambda it: (it.crate not in LONG, -it.size))
    except prove.Stop as why:
        print(f"checks/tests.sh: {why}", file=sys.stderr)
        return 2
    jobs = max(1, min(len(os.sched_getaffinity(0)), prove.memory_available() // JOB_MEMORY))
    print(f"{sum(it.count() for it in tests if not it.is_program)} tests and {sum(it.is_program for it in tests)} programs of "
          f"{len(tests)} crates, {jobs} at a time, without proofs", flush=True)
    prove.Signals.begin()
    try:
        with ThreadPoolExecutor(jobs) as pool:
            return 0 if all(list(pool.map(Tests.run, tests))) else 1
    except prove.Interrupted as signalled:
        return 128 + signalled.args[0]


if __name__ == "__main__":
    sys.exit(main(sys.argv[1:]))
