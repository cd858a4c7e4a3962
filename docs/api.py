#!/usr/bin/env python3
"""Prints two pages from the sources: docs/generated/API.md, each library crate's public items with their contracts, and
docs/generated/CRATES.md, what each crate does and stands on.

    docs/api.py              compares the pages with the sources; ends with 1 where they differ, or where an item has no doc comment
    docs/api.py --write      writes the pages anew

API has of each crate the header of its src/lib.rt, what it re-exports, then each item that another crate can name or call, whatever module
it is in, with its signature, its clauses and the comments between them, its doc comment and its traits, then each definition of specs/ that
these clauses name, with its file, the comment over it, and links to its rules. Columns in front of a function: `waits` where a bound lets
it wait; `refused` what it answers in place of a value (the type of its error, or `None`); `left` the clauses named `refused`, `kept` or
`back`, which say what a refusal leaves. Left out are methods of a trait's impl that have neither clause nor doc comment of their own, since
the trait has theirs, derived traits, private fields, and crates of tests. CRATES has all crates, in the order of crates.txt, by the
floors that its headings name, as `# 1 bytes`.
"""

import difflib
import os
import re
import sys

TOP = os.path.dirname(os.path.dirname(os.path.realpath(__file__)))
GENERATED = "docs/generated"
LEFT = ("refused", "kept", "back")
ITEM = re.compile(r"(?:pub )?(?:unsafe )?(?:const )?(fn|struct|enum|trait|const|static|type|impl|macro_rules!)\b")
MODULE = re.compile(r"(pub(?:\([\w ]+\))? )?mod (\w+);")
IMPL = re.compile(r"impl(?:<.*?>)? (?:(.*?) for )?&?(?:'\w+ )?(?:mut )?([\w:]+)")
HEAD = """# API

What each library crate has for those above it: printed by `docs/api.py` from the sources, and compared with them by `./check`. An item is
written with its contract. A clause is what is proved of each call that meets the `requires`; the words in it are the definitions below
each crate, and where they are of another crate, below that. A function that *waits* need not return. What is *refused* comes in place of a
value, and the clauses under *left* say what it leaves. A law is a function whose body does nothing and whose contract is what it shows. A
method that a type has from a trait is written at the type only where it has a clause or a comment of its own.
"""

CRATES_HEAD = """# Crates

Each crate with the first sentence of its root file, by floor, lowest first: printed by `docs/api.py` from the sources, and compared with
them by `./check`. [ARCHITECTURE](../ARCHITECTURE.md) says what the floors are for. Of the crates that its line in crates.txt names, those
are left out that another one of them is built on. A name leads to the crate's public items; that of a program or of a crate of tests leads
to its folder."""

FLOOR = re.compile(r"# (\d+ [a-z ]+)$")
FLOOR_HEAD = """
## {}

| Crate | What it is | Built on | Of the toolchain |
|---|---|---|---|"""


def read(path):
    with open(f"{TOP}/{path}", encoding="utf-8") as file:
        return file.read()


def library_crates():
    for line in read("crates.txt").splitlines():
        name = line.partition("#")[0].split(" ")[0].rstrip(":").strip()
        if name and "_tests" not in name and os.path.isfile(f"{TOP}/crates/{name}/src/lib.rt"):
            yield name


def without_literals(line):
    """A line with the insides of its strings and comments blanked, so that brackets can be counted."""
    line = re.sub(r'"(?:\\.|[^"\\])*"', lambda it: '"' + " " * (len(it[0]) - 2) + '"', line)
    line = re.sub(r"'(?:\\.|[^'\\])'", lambda it: "' '", line)
    return line.partition("//")[0]


class Item:
    """A public item: how it is named, its kind, signature, doc comment and clauses; and of a method its type or trait, the trait whose impl
    it is in, and the first line of that impl."""

    def __init__(self, kind, name, signature, doc, clauses, module, owner=None, of_trait=None, block=""):
        self.kind, self.name, self.signature, self.doc, self.clauses, self.module = kind, name, signature, doc, clauses, module
        self.owner, self.of_trait, self.block = owner, of_trait, block

    def waits(self):
        return bool(re.search(r"\b(Wait|Runtime)\b", f"{self.block} {self.signature}"))

    def refuses(self):
        result = self.signature.rpartition("-> ")[2] if "-> " in self.signature else ""
        result = re.split(r"\s+where\b", result)[0].strip()
        if result.startswith("Option<"):
            return "`None`"
        if result.startswith(("Result<", "io::Result<")):
            inner = result[result.index("<") + 1:result.rindex(">")].rstrip(", ")
            depth, at = 0, None
            for i, it in enumerate(inner):
                depth += it in "<([" and 1 or it in ">)]" and -1 or 0
                if it == "," and depth == 0:
                    at = i
            return f"`{inner[at + 1:].strip()}`" if at is not None else "`Err`"
        return ""


class File:
    """The items of one source file."""

    def __init__(self, crate, path, module):
        self.crate, self.path, self.module = crate, path, module
        self.lines = read(path).splitlines()
        self.items, self.modules, self.exports, self.traits = [], [], [], []
        self.uses, self.specs = {}, {}
        self.parse(0, len(self.lines), "", None)

    def parse(self, first, last, indent, owner):
        """Reads the items of a block, which begin at this indent; owner is the type or trait that an impl is of."""
        doc, at = [], first
        while at < last:
            line = self.lines[at]
            text = line[len(indent):] if line.startswith(indent) else None
            if text is None or text.startswith((" ", "}", ")")) or not text:
                doc, at = ([], at + 1) if text is None or text.startswith(("}", ")")) or not text else (doc, at + 1)
                continue
            if text.startswith("///"):
                doc.append(text[3:].strip())
            elif text.startswith("//") or text.startswith("#"):
                while text.startswith("#") and without_literals(self.lines[at]).count("[") > without_literals(self.lines[at]).count("]"):
                    at += 1
                    if self.lines[at].strip().startswith(("]", ")]")) or at >= last:
                        break
            elif text.startswith("ghost use "):
                self.note_use(at)
                doc = []
            else:
                at = self.item(at, last, indent, owner, doc)
                doc = []
                continue
            at += 1

    def note_use(self, at):
        text = self.lines[at].strip()
        while not text.endswith(";"):
            at += 1
            text += " " + self.lines[at].strip()
        found = re.match(r"ghost use Rattle\.(\w+)\.specs\.(?!declared\.)([\w.]+?)(?:\.\{(.*)\}| as (\w+));", text)
        if found and found[4]:
            self.specs[found[4]] = (found[1], found[2])
        elif found:
            for name in re.split(r",\s*", found[3]):
                self.uses[name.rpartition(" as ")[2].strip()] = (found[1], found[2], name.partition(" as ")[0].strip())

    def end_of(self, at, last):
        """The line behind an item: where its brackets are closed and it ends with ; or }."""
        depth = 0
        while at < last:
            line = without_literals(self.lines[at])
            depth += sum(line.count(it) for it in "{([") - sum(line.count(it) for it in "})]")
            if depth <= 0 and line.rstrip().endswith((";", "}")) and not self.is_clause(at):
                return at + 1
            at += 1
        return last

    def is_clause(self, at):
        """Whether the line is a clause, or goes on with one, so that a body comes later."""
        line = self.lines[at].strip()
        following = next((it.strip() for it in self.lines[at + 1:] if not it.strip().startswith("//")), "")
        return bool(re.match(r"(ensures|requires|ghost \w+:)", line) and re.match(r"(ensures|requires|\{$)", following)) or \
            following == "{" or bool(re.match(r"(ensures|requires)\b", following))

    def item(self, at, last, indent, owner, doc):
        line = self.lines[at][len(indent):]
        found, end = ITEM.match(line), self.end_of(at, last)
        is_public = line.startswith("pub ")
        if MODULE.match(line):
            self.modules.append((MODULE.match(line)[2], MODULE.match(line)[1] == "pub "))
        elif re.match(r"pub use ", line):
            self.exports.append("".join(it.strip() for it in self.lines[at:end]))
        elif found and found[1] == "impl":
            head = " ".join(it.strip() for it in self.lines[at:min(self.opens(at), end)])
            of = IMPL.match(self.without_generics(head))
            owner = (of[2].rpartition("::")[2], of[1], head) if of else None
            if owner and owner[1]:
                self.traits.append((owner[0], owner[1]))
            if self.opens(at) < end:
                self.parse(self.opens(at), end - 1, f"{indent}    ", owner)
        elif found and (is_public or owner and (owner[1] or owner[0] == "trait") and found[1] == "fn"):
            self.add(found[1], at, end, owner, doc)
            if found[1] == "trait" and self.opens(at) < end:
                name = re.search(r"trait (\w+)", line)[1]
                self.parse(self.opens(at), end - 1, f"{indent}    ", (name, "trait", ""))
        return end

    @staticmethod
    def without_generics(text):
        found = re.match(r"impl<", text)
        if not found:
            return text
        depth, at = 0, 4
        for at in range(4, len(text)):
            depth += text[at] == "<" and 1 or text[at] == ">" and text[at - 1] != "-" and -1 or 0
            if depth == 0:
                break
        return "impl" + text[at + 1:]

    def opens(self, at):
        """The line behind the one that opens the block of an item."""
        while at < len(self.lines) and not without_literals(self.lines[at]).rstrip().endswith("{"):
            at += 1
        return at + 1

    def add(self, kind, at, end, owner, doc):
        head, clauses = [], []
        for line in self.lines[at:end]:
            text = line.strip()
            if re.match(r"(ensures|requires)\b", text) or kind == "fn" and text.startswith("//"):
                clauses.append(text)
            elif clauses:
                is_open = clauses[-1].rstrip().endswith(("(", "{")) or not self.is_closed(clauses[-1])
                if text in ("{", "{}", ";") or text.startswith("{ ") and not is_open:
                    break
                clauses[-1] += f" {text}"
            elif kind == "fn":
                head.append(text)
                if re.search(r"[{;]$", text) or re.search(r"\{ .* \}$|\{\}$", text):
                    break
            else:
                head.append(line.rstrip())
                if kind in ("const", "static", "type", "trait") and (text.endswith((";", "{"))):
                    break
        while clauses and clauses[-1].startswith("//"):
            clauses.pop()  # a comment before the body
        clauses = [it[:-1].rstrip() if it.endswith(";") and not it.startswith("//") else it for it in clauses]
        text = " ".join(it.strip() for it in head)
        signature = re.sub(r"\s*\{(?:\s*\}| .* \})?$|;$", "", text) if kind == "fn" else self.shape(kind, head, self.lines[at:end])
        signature = re.sub(r"\( ", "(", re.sub(r",? \)", ")", signature))
        name = re.search(rf"{kind} (?:mut )?(\w+)", text)
        name = name[1] if name else text
        of_type, of_trait, block = owner or (None, None, "")
        full = f"{of_type}::{name}" if owner else name
        self.items.append(Item(kind, full, signature, doc, clauses, self, of_type, of_trait if of_trait != "trait" else None, block))

    @staticmethod
    def is_closed(text):
        blank = without_literals(text)
        return blank.count("{") == blank.count("}")

    @staticmethod
    def shape(kind, head, lines):
        """The public part of a type: its fields and variants, without private ones; and of a trait what its clauses and types name."""
        if kind == "trait":
            members = [it for it in lines if re.match(r"    (ghost \w+:|type |const )", it)]
            head = re.sub(r"\s*(\{\}|[{;])$", "", " ".join(it.strip() for it in head))
            return "\n".join([f"{head} {{", *members, "}"]) if members else head
        if kind in ("const", "static", "type"):
            return re.sub(r"\s*[{;]$", "", " ".join(it.strip() for it in head))
        kept, doc, has_private = [], [], False
        for it in head:
            is_private = kind == "struct" and bool(re.match(r"\s+((pub\(\w+\) )?\w+:|ghost )", it))
            has_private = has_private or is_private
            if it.strip().startswith("///"):
                doc.append(it)
            elif not re.match(r"\s*(//|#)", it):
                kept += [] if is_private else [*doc, it]
                doc = []
        if has_private:
            kept.insert(-1, "    /* private fields */")
        return "\n".join(kept)


def own_module(crate, module):
    """The crate that has this module of specs, where it is one that the crate hands on."""
    names = f"crates/{crate}/specs/Lib.antt"
    if crate.startswith("mx_") and not os.path.isfile(f"{TOP}/crates/{crate}/specs/{module.replace('.', '/')}.antt"):
        found = re.search(rf"^pub use Rattle\.(\w+)\.specs\.{re.escape(module)}$", read(names), re.MULTILINE)
        return (found[1] if found else crate, module)
    return (crate, module)


class Crate:
    def __init__(self, name):
        self.name, self.files = name, {}
        self.root = self.load(f"crates/{name}/src/lib.rt", "")
        self.header = " ".join(it[3:].strip() for it in read(f"crates/{name}/src/lib.rt").splitlines() if it.startswith("//!"))
        self.public = self.exported()

    def load(self, path, module):
        file = self.files[module] = File(self.name, path, module)
        base = os.path.dirname(path) if path.endswith(("lib.rt", "mod.rt")) else path[:-len(".rt")]
        for name, _ in file.modules:
            for it in (f"{base}/{name}.rt", f"{base}/{name}/mod.rt"):
                if os.path.isfile(f"{TOP}/{it}"):
                    self.load(it, f"{module}::{name}" if module else name)
        return file

    def exported(self):
        """The items that another crate can name or call, in the order of the files. Notes their traits, and what is re-exported."""
        wanted, modules, public, self.reexports = set(), {""}, set(), {}
        for module, file in self.files.items():
            modules |= {f"{module}::{name}".lstrip(":") for name, is_public in file.modules if is_public and module in modules}
            for it in file.exports:
                path, names = re.match(r"pub use ([\w:]+?)::(\w+|\{.*\});", it).groups()
                names = [name.strip() for name in names.strip("{}").split(",") if name.strip()]
                if path.split("::")[0] == "crate":
                    wanted |= {(path.partition("::")[2], name) for name in names}
                else:
                    self.reexports.setdefault(path, []).extend(names)
        for module, file in self.files.items():
            public |= {it.name for it in file.items if not it.owner and (module in modules or (module, it.name) in wanted)}
        traits = {it.name for file in self.files.values() for it in file.items if it.kind == "trait"}
        self.traits = {}
        for file in self.files.values():
            for name, of in file.traits:
                if name in public and of.partition("<")[0].rpartition("::")[2] not in ("Model", *(traits - public)):
                    self.traits.setdefault(name, []).append(of)
        found = []
        for module, file in self.files.items():
            for it in file.items:
                is_named = module in modules or (module, it.name) in wanted
                if it.owner in public and (not it.of_trait or it.of_trait in self.traits.get(it.owner, ())) if it.owner else is_named:
                    found.append(it)
        return found

    def cited(self):
        """The definitions that the clauses of its public items name, each by its crate, module and name, in that order."""
        cited = {}
        for item in self.public:
            for word in re.findall(r"[\w◌.-]+", " ".join(it for it in item.clauses if not it.startswith("//"))):
                first, _, second = word.partition(".")
                if first in item.module.specs and second:
                    cited[own_module(*item.module.specs[first]) + (second.partition(".")[0],)] = None
                elif first in item.module.uses:
                    crate, module, name = item.module.uses[first]
                    cited[own_module(crate, module) + (name,)] = None
        return cited

    def definitions(self, cited):
        """Those of its own specs among the definitions that some crate's clauses name: words, comment, file. The values of a data type are
        together."""
        found = {}
        for crate, module, name in cited:
            path = f"crates/{crate}/specs/{module.replace('.', '/')}.antt"
            if crate == self.name and os.path.isfile(f"{TOP}/{path}"):
                lines = read(path).splitlines()
                at = self.place_of(lines, name)
                words, _ = found.setdefault((path, at if at is not None else name), ([], self.comment_over(lines, at)))
                words.append(name)
        return [(words, comment, path) for (path, _), (words, comment) in found.items()]

    @staticmethod
    def place_of(lines, name):
        """The line of a definition; of a value of a data type, that of the type."""
        mark = rf"(abbrev |data |record |rec )?(pub )?(abbrev |record |data )?(pub )?{re.escape(name)}\b"
        at = next((i for indent in ("", " +") for i, it in enumerate(lines) if re.match(indent + mark, it)), None)
        if at and re.match(rf" +{re.escape(name)} :", lines[at]):
            at = next(i for i in range(at, -1, -1) if re.match(r"(pub )?data ", lines[i]))
        return at

    @staticmethod
    def comment_over(lines, at):
        """The comment over a definition, or where it is of rules alone (docs/rules.py) their texts; and links to these."""
        first = at
        while first and lines[first - 1].lstrip().startswith("--"):
            first -= 1
        own, texts, names, is_text = [], [], [], False
        for line in map(str.lstrip, lines[first:at] if at else []):
            mark = re.match(r"-- rule ([^\s:]+)(?:: (.*))?$", line)
            is_text = bool(mark[2]) if mark else is_text and line != "--"
            names += [mark[1]] if mark else []
            (texts if is_text else own).append((mark[2] or "") if mark else line[2:].strip())
        named = ", ".join(f"[{it}](RULES.md#{it})" for it in dict.fromkeys(names))
        return " ".join(filter(None, own or texts)) + (f" (rule {named})" if named else "")


def listed(words):
    return ", ".join(f"`{it}`" for it in words)


def page():
    lines, lacking = [HEAD], []
    crates = [Crate(it) for it in library_crates()]
    cited = {it.name: it.cited() for it in crates}
    for crate in crates:
        name = crate.name
        lines.append(f"## {name}\n\n{crate.header}\n")
        if crate.reexports:
            lines.append("Re-exported: " + "; ".join(f"{listed(names)} of [{it}](#{it})" for it, names in crate.reexports.items()) + ".\n")
        for item in crate.public:
            if item.of_trait and not item.clauses and not item.doc:
                continue
            if not item.doc and not item.of_trait:
                lacking.append(f"crates/{name}: {item.name} in {item.module.path}")
            facts = ["waits"] if item.kind == "fn" and item.waits() else []
            refused = item.refuses() if item.kind == "fn" else ""
            facts += [f"refused: {refused}"] if refused else []
            left = [it for it in LEFT if any(re.match(rf"ensures\*? {it}\b", clause) for clause in item.clauses)]
            facts += [f"left: {', '.join(left)}"] if refused and left else []
            of = f" (of `{item.of_trait}`)" if item.of_trait else ""
            lines.append(f"### {item.name}{of}\n")
            if facts:
                lines.append(f"*{'; '.join(facts)}*\n")
            lines.append("\n".join(["```rust", item.signature, *(f"    {it}" for it in item.clauses), "```", ""]))
            if item.doc:
                lines.append("\n".join(item.doc) + "\n")
            if item.kind != "fn" and item.name in crate.traits:
                lines.append(f"Traits: {listed(crate.traits[item.name])}.\n")
        own = crate.definitions({**cited[name], **{it: None for words in cited.values() for it in words}})
        if own:
            lines.append(f"### Definitions of {name}\n")
            for words, comment, path in own:
                lines.append(f"- {listed(words)} ([{os.path.basename(path)}](../../{path})){': ' if comment else ''}{comment}")
            lines.append("")
        by = {}
        for other, _, word in cited[name]:
            if other != name and other in cited:
                by.setdefault(other, []).append(word)
        if by:
            lines.append("Of other crates: " + "; ".join(f"{listed(words)} of [{other}](#{other})" for other, words in by.items()) + ".\n")
    return "\n".join(lines), lacking


def crates_page():
    lines, names, floors, below = [CRATES_HEAD], {}, {}, {}
    for line in read("crates.txt").splitlines():
        front, _, rest = line.partition("#")[0].partition(":")
        if front.strip():
            names[front.split()[0]] = rest.split()
        elif FLOOR.match(line):
            floors[len(names)] = FLOOR.match(line)[1]
    libraries = set(library_crates())
    for at, (name, used) in enumerate(names.items()):
        if at in floors:
            lines.append(FLOOR_HEAD.format(floors[at]))
        own = [it for it in used if it in names]
        below[name] = set(own).union(*(below[it] for it in own))
        nearest = [it for it in own if not any(it in below[other] for other in own)]
        root = next(it for it in ("lib", "main") if os.path.isfile(f"{TOP}/crates/{name}/src/{it}.rt"))
        header = " ".join(it[3:].strip() for it in read(f"crates/{name}/src/{root}.rt").splitlines() if it.startswith("//!"))
        link = f"API.md#{name}" if name in libraries else f"../../crates/{name}"
        kit = ", ".join(it for it in used if it not in names)
        lines.append(f"| [{name}]({link}) | {header.partition('. ')[0].rstrip('.')} | {', '.join(nearest)} | {kit} |")
    return "\n".join(lines) + "\n"


def main(words):
    api, lacking = page()
    pages, differs = {"API.md": api, "CRATES.md": crates_page()}, False
    for name, printed in pages.items():
        path = f"{GENERATED}/{name}"
        if words == ["--write"]:
            os.makedirs(f"{TOP}/{GENERATED}", exist_ok=True)
            with open(f"{TOP}/{path}", "w", encoding="utf-8") as file:
                file.write(printed)
            continue
        there = read(path) if os.path.isfile(f"{TOP}/{path}") else ""
        differs = differs or there != printed
        for it in list(difflib.unified_diff(there.splitlines(), printed.splitlines(), path, "the sources", lineterm="", n=0))[:40]:
            print(it)
    if words == ["--write"]:
        return 0
    for it in lacking:
        print(f"{it}: no doc comment")
    return 1 if lacking or differs else 0


if __name__ == "__main__":
    if sys.argv[1:] not in ([], ["--write"]):
        print(__doc__)
        sys.exit(0 if sys.argv[1:] in (["-h"], ["--help"]) else 2)
    sys.exit(main(sys.argv[1:]))
