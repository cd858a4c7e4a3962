#!/usr/bin/env bash
# Compares README.md and docs/ with the tree: each path and name in back quotes, each link, and the length of each line. A block of code
# whose first line has a path behind ``` and the language, as ```rust crates/NAME/src/FILE.rt, has to be in that file, letter for letter.
# Prints what isn't there, one a line, and ends with 1 where there is any, else with 0. Takes a second. It needs python3.
#
# In back quotes,
#   a path             is at the top, under crates/ or in a crate; NAME, FILE, EDIT, `*` and `…` are any text
#   CRATE/EDIT         is an edit of that crate, in must-fail/ or more-edits/
#   CRATE::PART::..    is a module of that crate, or a word in the module's file, or in the crate where no module is named
#   a name             is a word of some file other than these pages, or the name of a file
# What has a space or another sign in it is a command or a text: its words that are paths are compared with the tree.
#
# Use: checks/paths.sh [TOP]             TOP is the tree's top, where it isn't this script's
set -eu
[ "${1-}" != -h ] && [ "${1-}" != --help ] || { sed -n '2,/^set/s/^# \{0,1\}//p' "$0"; exit 0; }
TOP=${1:-$(dirname "$(readlink -f "$0")")/..} exec python3 - <<'PYTHON'
import fnmatch, os, re, sys

top = os.path.realpath(os.environ["TOP"])
os.chdir(top)
MOST = 140

# What the pages name that isn't of this tree: libcurl's, the system's and the toolchain's words, and what a build leaves.
OUTSIDE = set("""
    rt rt-plant Abort cat curl awk valgrind callgrind python3 cc gcc curl_multi_add_handle curl_multi_remove_handle out/ out
    libcurl4 git proofs src specs must-fail more-edits --jobs N
    crates/*/out crates/mxfetch/out/mxfetch crates/mxfetch/out/seconds.txt
""".split())

texts, paths = {}, set()
for at, folders, files in os.walk("."):
    folders[:] = [it for it in folders if it not in (".git", "out")]
    for name in folders + files:
        paths.add(os.path.normpath(f"{at}/{name}"))
    for name in files:
        with open(f"{at}/{name}", encoding="utf-8", errors="replace") as it:
            texts[os.path.normpath(f"{at}/{name}")] = it.read()
pages = sorted(it for it in texts if it == "README.md" or re.fullmatch(r"docs/[^/]+\.md", it))
if not pages or "README.md" not in pages:
    sys.exit("paths: no README.md here")

words_of = {}
for path, text in texts.items():
    if path not in pages:
        words_of[path] = set(re.findall(r"\w+", text)) | set(re.findall(r"[\w-]+", text))
words = set().union(*words_of.values())
for path in paths:
    name = os.path.basename(path)
    words |= {name, name.partition(".")[0], os.path.splitext(name)[0]}
crates = {it.split("/")[1] for it in paths if it.startswith("crates/")}

def is_path(text):
    shape = re.sub(r"NAME|FILE|EDIT|CRATE|…", "*", text.rstrip("/"))
    shape = shape[2:] if shape.startswith("./") else shape
    for place in (shape, f"crates/{shape}", f"crates/*/{shape}"):
        if place in paths or any(it in place for it in "*?") and fnmatch.filter(paths, place):
            return True
    return False

def is_edit(text):
    crate, _, name = text.partition("/")
    return any(is_path(f"crates/{crate}/{folder}/{name}.edit") for folder in ("must-fail", "more-edits"))

def is_item(text):
    crate, *parts = text.split("::")
    if crate not in crates:
        return all(it in words for it in [crate, *parts])
    folder = file = f"crates/{crate}/src"
    while parts and (f"{folder}/{parts[0]}.rt" in texts or f"{folder}/{parts[0]}" in paths):
        folder = f"{folder}/{parts.pop(0)}"
    if f"{folder}.rt" in texts:
        here = words_of[f"{folder}.rt"] | {word for it, found in words_of.items() if it.startswith(f"{folder}/") for word in found}
    else:
        here = {word for it, found in words_of.items() if it.startswith(f"crates/{crate}/") for word in found}
    return all(it in here for it in parts)

def is_name(text):
    shape = text.replace("…", "*")
    return shape in words or "*" in shape and bool(fnmatch.filter(words, shape))

def is_there(text):
    if text in OUTSIDE:
        return True
    if re.fullmatch(r"(\w+::)+\w+(\(\))?", text):
        return is_item(re.sub(r"\(\)$", "", text))
    if re.fullmatch(r"[\w…*-]+(\(\))?", text):
        return is_name(re.sub(r"\(\)$", "", text))
    if re.fullmatch(r"[\w.…*-]+/", text) or re.fullmatch(r"[\w./…*-]+\.(rt|antt|edit|md|sh|txt)", text):
        return is_path(text) or is_name(text)
    if re.fullmatch(r"\w+/[\w…*-]+", text):
        return is_path(text) or is_edit(text)
    if re.fullmatch(r"\.?/?[\w.…*-]+(/[\w.…*-]+)+/?", text):
        return is_path(text)
    if re.search(r"\s", text):
        return all(is_path(it) for it in text.split() if re.fullmatch(r"(\./)?(crates|checks|bench|docs|src|specs|proofs)/[\w./*-]+", it))
    return True

wrong = []
for page in pages:
    headings = lambda path: {re.sub(r"[^\w -]", "", it.lower()).strip().replace(" ", "-") for it in re.findall(r"(?m)^#+ (.*)$", texts[path])}
    for path, block in re.findall(r"(?ms)^```\w+ (\S+)\n(.*?)^```$", texts[page]):
        if block not in texts.get(path, ""):
            wrong.append(f"{page}: the block of {path} isn't in that file")
    fenced = False
    for number, line in enumerate(texts[page].split("\n"), 1):
        if len(line) > MOST:
            wrong.append(f"{page}:{number}: {len(line)} characters, and not at most {MOST}")
        if line.startswith("```"):
            fenced = not fenced
            continue
        if fenced or line.startswith("    "):
            continue
        for text in re.findall(r"`([^`]+)`", line):
            if not is_there(text):
                wrong.append(f"{page}:{number}: `{text}` isn't in the tree")
        for target in re.findall(r"\]\(([^)\s]+)\)", line):
            if re.match(r"\w+:", target):
                continue
            path, _, place = target.partition("#")
            path = os.path.normpath(os.path.join(os.path.dirname(page), path)) if path else page
            if path not in paths or place and (path not in texts or place not in headings(path)):
                wrong.append(f"{page}:{number}: the link to {target} leads nowhere")
        if line.count("`") % 2:
            wrong.append(f"{page}:{number}: a back quote is open at the line's end")
for it in wrong:
    print(it)
sys.exit(1 if wrong else 0)
PYTHON
