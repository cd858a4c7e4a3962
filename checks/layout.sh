#!/usr/bin/env bash
# Whether each source and proof is in the layout of `rt fmt`, which `rt ci` asks for, each statement that is for the prover alone has a
# comment `// proof: ..` over it (docs/CONTRIBUTING.md), and the callers that show that contracts suffice have no proof files. It changes
# nothing, names each file and line that isn't so, and ends with 1 where there is one, else with 0. Takes some seconds. It needs the Rattle
# toolchain and python3.
#
# Use: checks/layout.sh
set -eu
[ "${1-}" != -h ] && [ "${1-}" != --help ] || { sed -n '2,/^set/s/^# \{0,1\}//p' "$0"; exit 0; }
cd "$(dirname "$(readlink -f "$0")")/.."
rt=$(command -v rt) || { echo 'layout: there is no rt, which comes with the Rattle toolchain' >&2; exit 1; }
find crates -name out -prune -o \( -name '*.rt' -o -name '*.antt' \) -print0 |
  xargs -0 "$(dirname "$(readlink -f "$rt")")/rattle" fmt --check ||
  { echo 'layout: run rt fmt in the folders of these crates'; exit 1; }
! ls -d crates/{mx_caller,mx_solo_caller,mx_save_caller}/proofs 2> /dev/null | grep . ||
  { echo 'layout: these callers are to be proved without proof files'; exit 1; }
python3 -B - <<'PYTHON'
import glob, re, sys

# What does nothing when the program runs: a value that is read for nothing, and a call of a law or of a function that has a caller's proof
# know a fact. A law is a function whose body is nothing. What is named last has a body of such statements, or copies a mark.
UNUSED = re.compile(r"\s*let _\w* = (&?[\w.]+|[\w.]+\.(code|len|request|ticket|wire)\(\));")
CALL = re.compile(r"\s*(?:let \w+ = )?[\w.:()]*\b(\w+)\(.*\);")
FUNCTION = re.compile(r"\s*(?:pub(?:\([^)]*\))? )?fn (\w+)")
named = {"know", "know_end", "sound", "are_of_one_list", "ok_has_content", "hops_keep_private"}

texts = {}
for path in sorted(glob.glob("crates/*/src/**/*.rt", recursive=True)):
    if "_tests" not in path.split("/")[1]:
        with open(path, encoding="utf-8") as file:
            texts[path] = file.read().splitlines()
for lines in texts.values():
    last = None
    for line in lines:
        head = FUNCTION.match(line)
        last = head[1] if head else last
        if last and line.strip() == "{}":
            named.add(last)

def does_nothing(line):
    call = CALL.fullmatch(line)
    return bool(UNUSED.fullmatch(line) or call and call[1] in named)

def is_marked(lines, at):
    while does_nothing(lines[at]):
        at -= 1
    while lines[at].lstrip().startswith("//") and not lines[at].lstrip().startswith("// proof: "):
        at -= 1
    return lines[at].lstrip().startswith("// proof: ")

wrong = [f"{path}:{at + 1}: {line.strip()}" for path, lines in texts.items() for at, line in enumerate(lines)
         if does_nothing(line) and not is_marked(lines, at)]
for it in wrong:
    print(it)
if wrong:
    print("layout: such a statement does nothing when the program runs, and a comment `// proof: WHAT IT SHOWS` over it says so")
sys.exit(1 if wrong else 0)
PYTHON
