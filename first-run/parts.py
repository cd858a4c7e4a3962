"""Compiles a program's module in parts, side by side.

    parts.py COUNT LEVEL CLANG WORDS..    WORDS compile module.bc into module.o, in the folder where this is called; LEVEL is that of the
                                          optimisation. Leaves the files that `objects(COUNT)` names

Has clang print the module as text, and cuts that; the parts go to clang by pipes, since they would take more of the disk than all else. A
part has a run of the module's functions in its order, in which callers stand near to what they call, so that few calls lead from one part
into another. A small function that a part calls and another part has is in both, so that it may be inlined there; so are constants whose
address means nothing. All else that several parts need one of them defines, and the others declare. What nothing reaches is left out.

Exit status: 0; NOT_UNDERSTOOD where the text is another than this knows; else that of the first clang that failed.
"""

import re
import subprocess
import sys
from concurrent.futures import ThreadPoolExecutor

NOT_UNDERSTOOD = 99
SMALL = 4000    # bytes of the text of a function that stands in each part that calls it. With none of these a body costs ten times as much

DEFINED = re.compile(rb"^define [^\n]*\{\n.*?^\}\n", re.M | re.S)
NAME = re.compile(rb'@("[^"]+"|[\w.$-]+)')
SHARED = re.compile(rb'(@(?:"[^"]+"|[\w.$-]+) = )(?:private|internal) ((?:local_)?(?:unnamed_addr )?(?:constant|global) )(.*)')
COPIED = re.compile(rb'@(?:"[^"]+"|[\w.$-]+) = private unnamed_addr constant ')
OPENED, CLOSED = b"<{[(", b">}])"


class NotUnderstood(Exception):
    """The module's text has another form."""


class Function:
    """A function that the module defines."""

    def __init__(self, text):
        self.text = text
        self.names = NAME.findall(text)
        self.name, self.calls, self.part = self.names[0], set(), 0

    def is_small(self):
        return len(self.text) <= SMALL

    def shared(self):
        """Its definition, for other parts to see."""
        return self.text.replace(b"define internal ", b"define hidden ", 1)

    def declared(self):
        first = re.sub(rb"^define (internal )?", b"declare hidden ", self.text.split(b"\n", 1)[0])
        return first[:first.rindex(b"{")].rstrip() + b"\n"


def reached(functions, begin, goes_on=lambda function: True):
    """The functions that are reached from some, over those that it may go on at."""
    found, left = set(begin), list(begin)
    while left:
        for it in functions[left.pop()].calls:
            if it not in found and goes_on(functions[it]):
                found.add(it)
                left.append(it)
    return found


def declared_global(line):
    """The declaration of a constant or a variable that another part defines."""
    begins, kind, rest = SHARED.fullmatch(line).groups()
    depth = 0
    for at, byte in enumerate(rest):
        depth += (byte in OPENED) - (byte in CLOSED)
        if byte == 0x20 and depth == 0:
            break
    align = re.search(rb", align \d+$", rest)
    return begins + b"external hidden " + kind.replace(b"unnamed_addr ", b"") + rest[:at] + (align[0] if align else b"")


def parts_of(text, count):
    """The texts of so many parts."""
    functions = {it.name: it for it in map(Function, DEFINED.findall(text))}
    others = [it for it in DEFINED.sub(b"", text).split(b"\n") if it and not it.startswith(b";")]
    globals_, rest = [it for it in others if it.startswith(b"@")], [it for it in others if not it.startswith(b"@")]
    if b"main" not in functions or not all(COPIED.match(it) or SHARED.fullmatch(it) for it in globals_):
        raise NotUnderstood("the program's module has another form")
    for it in functions.values():
        it.calls = {name for name in it.names if name in functions}
    named = {name for line in globals_ for name in NAME.findall(line) if name in functions}
    kept = reached(functions, named | {b"main"})
    whole, past = sum(len(functions[it].text) for it in kept), 0
    for it in functions.values():
        if it.name in kept:
            it.part = min(count - 1, past * count // whole)
            past += len(it.text)
    held = [reached(functions, [it for it in kept if functions[it].part == part], Function.is_small) for part in range(count)]
    shared = named.union(*(functions[name].calls - names for names in held for name in names))
    return [part_of(part, functions, names, shared, globals_, rest) for part, names in enumerate(held)]


def part_of(part, functions, names, shared, globals_, rest):
    """The text of one part, which has these functions."""
    of_target = [it for it in rest if it.startswith((b"source_filename", b"target "))]
    lines = list(of_target)
    for it in globals_:
        if not COPIED.match(it):
            it = re.sub(rb" = (private|internal) ", b" = hidden ", it, count=1) if part == 0 else declared_global(it)
        lines.append(it)
    text = [b"\n".join(lines), b"\n"]
    for name, function in functions.items():
        if name in names:
            text.append(function.shared() if name in shared and function.part == part else function.text)
        elif name in shared:
            text.append(function.declared())
    text.append(b"\n".join(it for it in rest if it not in of_target))
    return b"".join([*text, b"\n"])


def objects(count):
    """The object files of so many parts."""
    return [f"part-{part}.o" for part in range(count)]


def status_of(clang):
    """A process's exit status, as a shell has it."""
    return 128 - clang.returncode if clang.returncode < 0 else clang.returncode


def main(words):
    count, level, *clang = words
    as_text = [*clang, "-O0", "-Xclang", "-disable-llvm-passes"]
    as_text[as_text.index("-c"):as_text.index("-c") + 1] = ["-S", "-emit-llvm"]
    as_text[as_text.index("module.o")] = "-"
    ended = subprocess.run(as_text, stdin=subprocess.DEVNULL, stdout=subprocess.PIPE, check=False)
    if ended.returncode:
        return status_of(ended)
    try:
        parts = parts_of(ended.stdout, int(count))
    except NotUnderstood:
        return NOT_UNDERSTOOD

    def compiled(part, name):
        other = {"module.bc": "-", "module.o": name}
        return status_of(subprocess.run([*(other.get(it, it) for it in clang), level], input=part, check=False))

    with ThreadPoolExecutor(int(count)) as pool:
        return next(filter(None, list(pool.map(compiled, parts, objects(int(count))))), 0)


if __name__ == "__main__":
    sys.exit(main(sys.argv[1:]))
