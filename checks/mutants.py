"""checks/wrong-bodies.sh: has the prover try the wrong bodies (mutants) of crates, several at a time. See its -h.

A mutant is a file crates/NAME/must-fail/*.edit, which `rt ci` tries, too, or crates/NAME/more-edits/*.edit: a line 'file: ..', and pairs of
lines 'old: ..' and 'new: ..'. Mutants of different functions are put into one copy of the crate, and each is judged by what the prover says of
its own function: it is refused where that isn't proved. What such a run leaves open is tried alone, and then the verdict on the whole crate
decides. A mutant that changes what isn't in a function's body is always tried alone, and so is one that the compiler has to refuse: its
file in more-edits has a line 'compiler: ..', with words of that error.
"""

import collections
import csv
import datetime
import glob
import hashlib
import os
import re
import shutil
import subprocess
import sys
import tempfile
from concurrent.futures import ThreadPoolExecutor

TOP = os.path.dirname(os.path.dirname(os.path.realpath(__file__)))
sys.path.insert(0, f"{TOP}/first-run")
import prove

TABLE = f"{TOP}/data/mutants.csv"
COLUMNS = ["date", "crate", "mutants", "refused", "let through", "not judged", "sum"]
PARTS = ("src", "specs", "proofs")
JOB_MEMORY = 3 << 30
LARGEST_GROUP = 12
REFUSED, THROUGH, BAD, OPEN = "refused", "LET THROUGH", "NO LONGER APPLIES", "NOT JUDGED"
OWNER = re.compile(r"(?:pub )?(?:impl|trait)\b(?:<.*?>)? (?:.*? for )?&?(?:mut )?([A-Z]\w*)")
FUNCTION = re.compile(r"^( *)(?:pub(?:\([^)]*\))? )?(?:const )?(?:unsafe )?(?:extern \"C\" )?fn (\w+)")


def text_of(path):
    with open(path, encoding="utf-8") as file:
        return file.read()


class Mutant:
    """One edit of a crate."""

    def __init__(self, path):
        self.path, self.folder = path, os.path.dirname(os.path.dirname(path))
        self.name = f"{os.path.basename(self.folder)}/{os.path.basename(path)[:-len('.edit')]}"
        self.compiler = None
        self.changes, self.why_bad = self.read()
        self.function = None if self.why_bad or self.compiler else self.function_of()

    def read(self):
        """What it changes: the file, the old and the new text of each pair; and why it can't be applied, None where it can."""
        changes, texts, file, old = [], {}, None, None
        for row in text_of(self.path).splitlines():
            word, _, rest = row.partition(":")
            rest = rest[1:] if rest.startswith(" ") else rest
            if word == "file":
                file = rest.strip()
                texts.setdefault(file, text_of(f"{self.folder}/{file}") if os.path.isfile(f"{self.folder}/{file}") else "")
            elif word == "compiler":
                self.compiler = rest
            elif word == "old":
                old = rest
            elif word == "new" and file and old:
                times = texts[file].count(old)
                if times != 1:
                    return changes, f"its old text is in {file} {times} times"
                changes.append((file, old, rest))
                texts[file], old = texts[file].replace(old, rest), None
        return changes, None if changes else "it has no pair of an old and a new line"

    def function_of(self):
        """The one function whose body it changes: its module, the type that it is a method of, its name; None where it changes else."""
        found = set()
        for file, old, _ in self.changes:
            text = text_of(f"{self.folder}/{file}")
            if not file.startswith("src/") or old not in text:
                return None
            found.add((module_of(file), *function_around(text.splitlines(), text.partition(old)[0].count("\n"))))
        return found.pop() if len(found) == 1 and None not in next(iter(found)) else None

    def apply(self, folder):
        """Changes a copy of the crate; returns whether it could."""
        for file, old, new in self.changes:
            text = text_of(f"{folder}/{file}")
            if text.count(old) != 1:
                return False
            with open(f"{folder}/{file}", "w", encoding="utf-8") as it:
                it.write(text.replace(old, new))
        return True


def module_of(file):
    """The module of a source file, as a path."""
    return re.sub(r"/(lib|main|mod)$", "", f"/{file[len('src/'):-len('.rt')]}").strip("/")


def function_around(lines, at):
    """The type, or "", and the name of the function in whose body a line is; (None, None) where that is in none."""
    for first in range(at, -1, -1):
        head = FUNCTION.match(lines[first])
        if head:
            last = next((it for it in range(first, len(lines)) if lines[it] == f"{head[1]}}}"), None)
            if last is None or at > last:
                return None, None
            owner = next((found for found in map(OWNER.match, reversed(lines[:first])) if found), None) if head[1] else None
            return owner[1] if owner else "", head[2]
    return None, None


class Crate:
    """The mutants of a crate, and where the prover tries them."""

    def __init__(self, name, statements, work):
        self.name, self.statements, self.work = name, statements, work
        self.folder = f"{TOP}/crates/{name}"
        self.mutants = [Mutant(it) for it in mutants_of(name)]
        self.kept, self.verdicts = f"{work}/{name}.kept", {}

    def words(self, room):
        """A call of the prover for a copy of the crate: see `rattle check --help`."""
        kit = os.path.dirname(os.path.dirname(os.path.realpath(shutil.which("rt"))))
        used = prove.lines_of(TOP)[self.name].partition(":")[2].split()
        below = prove.all_below(prove.uses_of(TOP), self.name)
        own = [it for it in used if it in below]
        words = [f"{kit}/bin/rattle", "check", "--crate-name", self.name, "src/lib.rt" if os.path.isfile(f"{room}/src/lib.rt") else "src/main.rt"]
        for it in ("std", *(it for it in used if it not in below)):
            words += ["--extern", f"{it}={kit}/rlibs/{it}.rlib"]
        for it in own:
            words += ["--extern", f"{it}={self.statements}/{it}/out/rlib/{it}.rlib"]
        words += ["-L", f"dependency={kit}/rlibs", *(f"-Ldependency={self.statements}/{it}/out/rlib" for it in sorted(below))]
        return [*words, "--antt-project", f"{kit}/rattle/logic/antt-project.json", "--logic-built", f"{kit}/logic_built", "--jobs", "1"]

    def check(self, mutants):
        """What the prover says of a copy of the crate with these mutants; None where they can't all be applied."""
        with tempfile.TemporaryDirectory(dir=self.work) as room:
            for part in PARTS:
                if os.path.isdir(f"{self.folder}/{part}"):
                    shutil.copytree(f"{self.folder}/{part}", f"{room}/{part}")
            if not all([it.apply(room) for it in mutants]):
                return None
            kept = f"{room}/kept" if mutants else self.kept
            if mutants:
                shutil.copytree(self.kept, kept, copy_function=os.link)
            else:
                os.makedirs(kept)
            ended = subprocess.run([*self.words(room), "--incremental", kept], cwd=room, stdin=subprocess.DEVNULL, stdout=subprocess.PIPE,
                                   stderr=subprocess.STDOUT, check=False)
        return ended.returncode, ended.stdout.decode("utf-8", "replace").splitlines()

    def groups(self):
        """Mutants of different functions together."""
        groups, alone = [], []
        for it in self.mutants:
            if it.why_bad:
                self.verdicts[it] = BAD, it.why_bad
            elif it.function is None:
                alone.append([it])
            else:
                fits = (group for group in groups if len(group) < LARGEST_GROUP and it.function not in {other.function for other in group})
                group = next(fits, None)
                if group is None:
                    groups.append([it])
                else:
                    group.append(it)
        return groups, alone

    def judge_together(self, group):
        """The verdicts on mutants that were tried together, as far as the prover's words have them; returns the others."""
        found = self.check(group)
        if found is None or not found[1] or not found[1][-1].startswith("logic=not-proved"):
            return group
        left = []
        for it in group:
            if self.is_refused(it.function, found[1]):
                self.verdicts[it] = REFUSED, "its function isn't proved, beside others"
            else:
                left.append(it)
        return left

    def is_refused(self, function, lines):
        """Whether a function has an error of its own: in the file of its answers, or in the verdict on it, unless that only names callees."""
        module, owner, name = function
        path = "::".join(filter(None, (self.name, module.replace("/", "::"))))
        of = rf"(?:{owner}\w*::)?" if owner else ""
        verdict = re.compile(rf"fn {path}::(?:fn::)?{of}{name}(?:::\S+)?: (?:no proof|not proved$)")
        answers = re.compile(rf"\./proofs/{f'{module}/' if module else ''}(?:fn/)?{of.replace('::', '/')}{name}/\S+: error")
        return any(verdict.match(it) or answers.match(it) for it in lines)

    def judge_alone(self, mutant):
        found = self.check([mutant])
        status, lines = found or (2, ["it can't be applied"])
        last = lines[-1] if lines else ""
        if mutant.compiler and status in (0, 1):
            if status == 1 and any(mutant.compiler in it for it in lines):
                self.verdicts[mutant] = REFUSED, "by the compiler"
            else:
                self.verdicts[mutant] = THROUGH, f"the compiler doesn't say '{mutant.compiler}': {last[:160]}"
        elif last.startswith("logic=not-proved"):
            self.verdicts[mutant] = REFUSED, ""
        elif status == 0 and last.startswith("logic=proved"):
            self.verdicts[mutant] = THROUGH, "the crate is still proved with it"
        elif "rattle: no verdict" in last:
            self.verdicts[mutant] = REFUSED, f"by a limit of the prover's: {last[:120]}"
        elif status == 1:
            self.verdicts[mutant] = BAD, f"the edited text isn't read as code: {last[:160]}"
        else:
            self.verdicts[mutant] = OPEN, f"status {status}: {last[:160]}"

    def run(self):
        status, lines = self.check([])
        if status or not lines[-1].startswith("logic=proved"):
            print(f"{self.name}: NOT PROVED without a mutant: {lines[-1][:200]}", flush=True)
            return False
        groups, alone = self.groups()
        alone += [[it] for group in groups for it in self.judge_together(group)]
        for group in alone:
            self.judge_alone(group[0])
        shutil.rmtree(self.kept, ignore_errors=True)
        return self.tell()

    def tell(self):
        count = collections.Counter(verdict for verdict, _ in self.verdicts.values())
        for it in self.mutants:
            verdict, why = self.verdicts[it]
            print(f"{it.name}: {verdict}{why and ': '}{why}", flush=True)
        open_ = count[BAD] + count[OPEN]
        print(f"{self.name}: {len(self.mutants)} mutants, {count[REFUSED]} refused, {count[THROUGH]} let through, {open_} not judged", flush=True)
        keep_row([datetime.date.today().isoformat(), self.name, len(self.mutants), count[REFUSED], count[THROUGH], open_, sum_of(self.name)])
        return count[REFUSED] == len(self.mutants)


def mutants_of(crate):
    return sorted(glob.glob(f"{TOP}/crates/{crate}/must-fail/*.edit") + glob.glob(f"{TOP}/crates/{crate}/more-edits/*.edit"))


def sum_of(crate):
    """Of a crate's sources and mutants."""
    found = hashlib.sha256()
    for part in (*PARTS, "must-fail", "more-edits"):
        for folder, folders, files in sorted(os.walk(f"{TOP}/crates/{crate}/{part}")):
            for name in sorted(files):
                with open(f"{folder}/{name}", "rb") as file:
                    found.update(f"{os.path.relpath(folder, TOP)}/{name}\0".encode() + file.read())
    return found.hexdigest()


def rows():
    if not os.path.exists(TABLE):
        return {}
    with open(TABLE, encoding="utf-8", newline="") as file:
        return {row["crate"]: row for row in csv.DictReader(file)}


def keep_row(row):
    """Puts a crate's row in the place of its old one."""
    kept = {**{crate: [it[name] for name in COLUMNS] for crate, it in rows().items()}, row[1]: row}
    order = list(prove.lines_of(TOP))
    with open(f"{TABLE}.new", "w", encoding="utf-8", newline="") as file:
        csv.writer(file, lineterminator="\n").writerows([COLUMNS, *(kept[it] for it in order if it in kept)])
    os.replace(f"{TABLE}.new", TABLE)


def stale():
    """The crates that have mutants and have changed since all were tried."""
    known = rows()
    return [it for it in prove.lines_of(TOP) if mutants_of(it) and (it not in known or known[it]["sum"] != sum_of(it))]


def main(words):
    listed = prove.lines_of(TOP)
    if words == ["--stale"]:
        print("".join(f"{it}\n" for it in stale()), end="")
        return 1 if stale() else 0
    if words == ["--applies"]:
        bad = [it for crate in listed for it in map(Mutant, mutants_of(crate)) if it.why_bad]
        print("".join(f"{it.name}: {it.why_bad}\n" for it in bad), end="")
        return 1 if bad else 0
    unknown = [it for it in words if it not in listed or not mutants_of(it)]
    if unknown:
        print(f"wrong-bodies: crates.txt lists no crate {unknown[0]} that has mutants", file=sys.stderr)
        return 2
    wanted = words or [it for it in listed if mutants_of(it)]
    below = {it for crate in wanted for it in prove.all_below(prove.uses_of(TOP), crate)}
    with tempfile.TemporaryDirectory(prefix="mxfetch-mutants-", dir=None if "TMPDIR" in os.environ else "/var/tmp") as work:
        prove.copy_of(TOP, below, f"{work}/below")
        if below and subprocess.run(["rt", "ci"], cwd=f"{work}/below", stdin=subprocess.DEVNULL, check=False).returncode:
            print("wrong-bodies: a crate below isn't proved", file=sys.stderr)
            return 2
        jobs = max(1, min(len(os.sched_getaffinity(0)), prove.memory_available() // JOB_MEMORY))
        with ThreadPoolExecutor(jobs) as pool:
            found = list(pool.map(lambda it: Crate(it, f"{work}/below/crates", work).run(), wanted))
    return 0 if all(found) else 1


if __name__ == "__main__":
    sys.exit(main(sys.argv[1:]))
