#!/usr/bin/env python3
"""Builds crates/mx_c/out/libmx_c.a, the archive of the exports: archive.py

Where `rt ci` has built the crates below it in this checkout, over these, with `rattle build` as its help says, which proves mx_c alone:
some ten processor minutes. Else by `rt lib`, which proves all of them, an hour and more. Ends with the status of what it called.
"""

import os
import re
import shutil
import subprocess
import sys

TOP = os.path.dirname(os.path.dirname(os.path.realpath(__file__)))
CRATE = "mx_c"
FOLDER = f"{TOP}/crates/{CRATE}"
ARCHIVE = f"{FOLDER}/out/lib{CRATE}.a"


def crates():
    """What each crate stands on, by crates.txt."""
    with open(f"{TOP}/crates.txt", encoding="utf-8") as file:
        found = re.findall(r"^(\w+)(?: [^:\n]*)?:(.*)$", file.read(), re.M)
    return {name: below.split() for name, below in found}


def below(name, all_of, found):
    for it in all_of[name]:
        if it in all_of and it not in found:
            below(it, all_of, found)
            found.append(it)
    return found


def rlib(name):
    return f"{TOP}/crates/{name}/out/rlib/{name}.rlib"


def main():
    program = shutil.which("rt")
    if program is None:
        sys.exit("archive: there is no rt, which comes with the Rattle toolchain")
    kit = os.path.dirname(os.path.dirname(os.path.realpath(program)))
    all_of = crates()
    reached = below(CRATE, all_of, [])
    if not all(os.path.isdir(rlib(it)) for it in reached):
        return subprocess.call(["rt", "lib"], cwd=FOLDER)
    os.makedirs(os.path.dirname(ARCHIVE), exist_ok=True)
    words = [f"{kit}/bin/rattle", "build", "--crate-name", CRATE, "src/lib.rt", "--crate-type", "staticlib", "--extern", f"std={kit}/rlibs/std.rlib"]
    for it in all_of[CRATE]:
        words += ["--extern", f"{it}={rlib(it) if it in all_of else f'{kit}/rlibs/{it}.rlib'}"]
    words += ["-L", f"dependency={kit}/rlibs"]
    for it in reached:
        words += ["-L", f"dependency={os.path.dirname(rlib(it))}"]
    words += ["--antt-project", f"{kit}/rattle/logic/antt-project.json", "--logic-built", f"{kit}/logic_built", "--links", f"{CRATE}="]
    words += ["--jobs", str(min(os.cpu_count() or 1, 4)), "--toolchain", f"{kit}/toolchain", "-o", ARCHIVE]
    return subprocess.call(words, cwd=FOLDER)


sys.exit(main())
