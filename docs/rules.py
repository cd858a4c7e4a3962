#!/usr/bin/env python3
"""Prints docs/generated/RULES.md from marks in the sources: each rule of the engine, with its definition, code, tests and mutants.

    docs/rules.py              compares the page with the sources; ends with 1 where they differ, or where a mark is wrong
    docs/rules.py --write      writes the page anew

A rule has a name, whose first word says its section (SECTIONS, below). A mark is a comment on a line of its own, right over what it marks,
and the first of the comments there:

    -- rule NAME: TEXT             over a definition of specs/: TEXT is the rule
    -- rule NAME                   over one more definition of it
    // rule NAME: TEXT             over an item of src/ that is the definition, by its contract or its fields; it is code of the rule, too
    // rule NAME, unproved: TEXT   over code of a rule that no definition and no contract has
    // rule NAME                   over code; in a crate of tests over a test, a table, or a row of one
    # rule NAME                    over a case of checks/ or bench/, or a row of a crate's data/: a test
    rule: NAME                     a line of a mutant, must-fail/*.edit or more-edits/*.edit

TEXT goes on over the following lines of the comment, up to another mark, a line with no text (`--`, `//`), a doc comment, or what is
marked. What follows a line with no text is about the definition itself.

A mark is wrong where nothing has the text of its rule, where two have it, where its name has no section, and where the rule has no code.
"""

import difflib
import glob
import os
import re
import sys

TOP = os.path.dirname(os.path.dirname(os.path.realpath(__file__)))
PAGE = f"{TOP}/docs/generated/RULES.md"
MARK = re.compile(r"(\s*)(--|//|#) rule ([a-z][a-z0-9]*(?:[-_][a-z0-9]+)+)(, unproved)?(?:: (.+))?$")
ITEM = re.compile(r"\s*(?:pub(?:\([^)]*\))? )?(?:const |unsafe )*(fn|const|static|struct|enum|trait|type) (?:mut )?(\w+)")
OWNER = re.compile(r"(?:pub )?(?:impl|trait)\b(?:<.*?>)? (?:.*? for )?&?(?:mut )?([A-Z]\w*)")
DEFINITION = re.compile(r"\s*(?:(?:pub|abbrev|unfoldable|data|record|rec) )*([^\s:({]+)")
LITERAL = re.compile(r'"((?:\\.|[^"\\])*)"')

# The sections in the order of the page: the first words of their rules, and what is said below the heading.
SECTIONS = (
    ("Response heads (RFC 9112, sections 2 to 6 and 9)", "head", ""),
    ("Bodies (RFC 9112, sections 6 to 8)", "body reason", ""),
    ("Requests (RFC 9112, section 3; the URL Standard)", "request", ""),
    ("Links, deadlines, idle links", "link deadline idle", ""),
    ("Names of hosts", "name", ""),
    ("Files", "file", ""),
    ("The exchange", "exchange", ""),
    ("Redirects (RFC 9110, sections 10.2.2 and 15.4)", "redirect", ""),
    ("The control core (curl_multi_add_handle(3) and its neighbours)", "core", ""),
    ("Boards", "board", ""),
    ("The shared multi handle", "multi", ""),
    ("Gates", "gate", ""),
    ("Workers", "worker", ""),
    ("A worker's turn", "turn", "By mx_turn's definition, as `mx_worker_turns` takes it, and `run_worker` after it."),
    ("The program", "program play get", ""),
    ("Saving URLs", "list save", ""),
)
HEAD = """# Rules

Each rule of the engine: printed by `docs/rules.py` from marks in the sources, and compared with them by `./check`. A *definition* is what
is proved: a word of a crate's specs/, or the contract of a function or the type that is named. Where it is "none" no clause says the rule,
and tests alone show it. *Code* carries the rule out. A *test* is a function, a table, or a row of one, behind its module. A *mutant* is an
edit that breaks the rule, and that the prover refuses. "None" is where no test or mutant is of this rule alone. To change a rule, change
all that it names: [CONTRIBUTING](../CONTRIBUTING.md) says how.
"""


def read(path):
    with open(f"{TOP}/{path}", encoding="utf-8") as file:
        return file.read()


def crates():
    names = (line.partition("#")[0].split(" ")[0].rstrip(":").strip() for line in read("crates.txt").splitlines())
    return [it for it in names if it]


def files(pattern):
    return sorted(os.path.relpath(it, TOP) for it in glob.glob(f"{TOP}/{pattern}", recursive=True) if os.path.isfile(it))


def section_of(name):
    return next((number for number, it in enumerate(SECTIONS) if re.split("[-_]", name)[0] in it[1].split()), None)


class Rule:
    """A rule's text, where that stands, and what carries its marks: names and paths."""

    def __init__(self, name):
        self.name, self.text, self.place, self.is_unproved = name, None, None, False
        self.definitions, self.code, self.tests, self.mutants = [], [], [], []

    def printed(self):
        lines = [f"### {self.name}\n", f"{self.text}\n"]
        for title, marked in (("Definition", self.definitions), ("Code", self.code), ("Mutants", self.mutants)):
            lines.append(f"- {title}: {', '.join(link(*it) for it in dict.fromkeys(marked)) or 'none'}")
        by_file = {}
        for name, path in dict.fromkeys(self.tests):
            by_file.setdefault(path, []).append(f"`{name}`")
        tests = "; ".join(f"{link(module_of(path), path)} {', '.join(names)}" for path, names in by_file.items())
        lines.insert(-1, f"- Tests: {tests or 'none'}")
        return "\n".join(lines) + "\n"


class Rules:
    """All rules, by their names, and what is wrong with the marks."""

    def __init__(self):
        self.by_name, self.wrong, self.uses = {}, [], []
        for order, crate in enumerate(crates()):
            is_tests = "_tests" in crate
            for path in files(f"crates/{crate}/specs/**/*.antt"):
                self.read_marks(path, order, "--", definition_at, "definitions")
            for path in files(f"crates/{crate}/src/**/*.rt"):
                self.read_marks(path, order, "//", test_at if is_tests else item_at, "tests" if is_tests else "code")
            for path in files(f"crates/{crate}/data/**"):
                self.read_marks(path, order, "#", row_at, "tests")
            for folder in ("must-fail", "more-edits"):
                for path in files(f"crates/{crate}/{folder}/*.edit"):
                    for name in re.findall(r"(?m)^rule: *(.*?) *$", read(path)):
                        self.rule(name, path).mutants.append((f"{crate}/{os.path.basename(path)[:-len('.edit')]}", path))
        for path in files("checks/*") + files("bench/*"):
            self.read_marks(path, 0, "#", case_at, "tests")
        self.judge()

    def rule(self, name, where):
        self.uses.append((name, where))
        return self.by_name.setdefault(name, Rule(name))

    def read_marks(self, path, order, sigil, item_of, kind):
        lines = read(path).splitlines()
        for at, line in enumerate(lines):
            if not line.lstrip().startswith(f"{sigil} rule "):
                continue
            mark, where = MARK.match(line), f"{path}:{at + 1}"
            below = past_comments(lines, at, sigil)
            item = item_of(lines, below, path) if mark else None
            if not mark or mark[4] and (sigil != "//" or not mark[5]) or mark[5] and kind == "tests" or item is None:
                self.wrong.append(f"{where}: a mark that isn't read")
                continue
            rule = self.rule(mark[3], where)
            getattr(rule, kind).append((item, path))
            if mark[5]:
                self.define(rule, " ".join([mark[5], *text_behind(lines, at, mark[1] + sigil)]), (order, path, at), where)
                rule.is_unproved = bool(mark[4])
                if kind == "code" and not mark[4]:
                    rule.definitions.append((item, path))

    def define(self, rule, text, place, where):
        if rule.text is not None:
            self.wrong.append(f"{where}: a second text of {rule.name}, beside {rule.place[1]}:{rule.place[2] + 1}")
        rule.text, rule.place = text, place

    def judge(self):
        for name, where in self.uses:
            if self.by_name[name].text is None:
                self.wrong.append(f"{where}: no rule is named {name}")
        for name, rule in self.by_name.items():
            where = rule.place and f"{rule.place[1]}:{rule.place[2] + 1}"
            if where and section_of(name) is None:
                self.wrong.append(f"{where}: no section has the rule {name}: its first word is in none")
            if where and not rule.code:
                self.wrong.append(f"{where}: the rule {name} has no code")
            if where and not rule.definitions and not rule.is_unproved:
                self.wrong.append(f"{where}: the rule {name} has no definition")

    def page(self):
        lines = [HEAD]
        found = sorted((it for it in self.by_name.values() if it.text is not None), key=lambda it: it.place)
        for number, (title, _, note) in enumerate(SECTIONS):
            lines.append(f"## {title}\n")
            lines += [f"{note}\n"] if note else []
            lines += [it.printed() for it in found if section_of(it.name) == number]
        return "\n".join(lines)


def link(name, path):
    return f"[`{name}`](../../{path})"


def module_of(path):
    """The module of a source file; of another file its path, without crates/."""
    found = re.match(r"crates/(\w+)/src/(.*?)(?:/?\b(?:lib|main|mod))?\.rt$", path)
    return "::".join(filter(None, [found[1], *found[2].split("/")])) if found else path.removeprefix("crates/")


def text_behind(lines, at, prefix):
    """The lines of a comment with which the text of a mark goes on."""
    for line in lines[at + 1:]:
        if not line.startswith(f"{prefix} ") or line.startswith(f"{prefix} rule "):
            return
        yield line[len(prefix) + 1:].strip()


def past_comments(lines, at, sigil):
    """The first line from there that belongs to no comment and to no attribute."""
    depth = 0
    while at < len(lines) - 1 and (depth or lines[at].lstrip().startswith((sigil, "#["))):
        depth += lines[at].count("[") - lines[at].count("]") if depth or lines[at].lstrip().startswith("#[") else 0
        at += 1
    return at


def definition_at(lines, at, _):
    found = DEFINITION.match(lines[at])
    return found and found[1]


def item_at(lines, at, path):
    """The path of an item of a crate: its module, the type that it is a method of, its name."""
    found = ITEM.match(lines[at])
    if not found:
        return None
    owner = next((it for it in map(OWNER.match, reversed(lines[:at])) if it), None) if lines[at].startswith(" ") else None
    return "::".join([module_of(path), *([owner[1]] if owner else []), found[2]])


def test_at(lines, at, _):
    """The name of a test or a table, or of a row: its first text. Of a row with none it is that of the function that it is in."""
    found = ITEM.match(lines[at])
    if found:
        return found[2]
    row = lines[at:at + (4 if lines[at].rstrip().endswith(("{", "(", "[")) else 1)]
    literal = next((it for it in map(LITERAL.search, row) if it), None)
    if literal:
        return literal[1]
    around = next((it for it in map(ITEM.match, reversed(lines[:at])) if it and it[1] == "fn"), None)
    return around and around[2]


def row_at(lines, at, _):
    """The name of a row of text: what stands behind its kind."""
    return lines[at].partition(" ")[2].partition(": ")[0] or None


def case_at(lines, at, _):
    """The name of a function of a script."""
    found = re.match(r"\s*(?:def (\w+)\(|(\w+)\(\) \{)", lines[at])
    return found and (found[1] or found[2])


def main(words):
    rules = Rules()
    printed = rules.page()
    for it in rules.wrong:
        print(it)
    if words == ["--write"]:
        os.makedirs(os.path.dirname(PAGE), exist_ok=True)
        with open(PAGE, "w", encoding="utf-8") as file:
            file.write(printed)
        return 1 if rules.wrong else 0
    there = read(os.path.relpath(PAGE, TOP)) if os.path.isfile(PAGE) else ""
    names = "docs/generated/RULES.md", "the sources"
    for it in list(difflib.unified_diff(there.splitlines(), printed.splitlines(), *names, lineterm="", n=0))[:40]:
        print(it)
    return 1 if rules.wrong or there != printed else 0


if __name__ == "__main__":
    if sys.argv[1:] not in ([], ["--write"]):
        print(__doc__)
        sys.exit(0 if sys.argv[1:] in (["-h"], ["--help"]) else 2)
    sys.exit(main(sys.argv[1:]))
