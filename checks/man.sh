#!/usr/bin/env bash
# Compares the manual page man/mxfetch.1 with the sources: it is made of the texts and the options of the help, and of man/sections.1, which
# is written by hand, and has to be that, byte for byte. Of man/sections.1 the keys of an object of `save --json` are compared with those
# that are printed, the exit statuses with those of the help, and the limits with the constants; of the help of `get` the exit statuses with
# the numbers of codes; and of CHANGES.md the latest version with the program's. Prints what differs, and ends with 1 where something does,
# else with 0. Takes no second. It needs python3.
#
# Use: checks/man.sh                     compares
#      checks/man.sh --write             writes the page anew
set -eu
[ "${1-}" != -h ] && [ "${1-}" != --help ] || { sed -n '2,/^set/s/^# \{0,1\}//p' "$0"; exit 0; }
TOP=$(dirname "$(readlink -f "$0")")/.. WRITE=${1-} exec python3 - <<'PYTHON'
import difflib, os, re, sys, textwrap

top = os.path.realpath(os.environ["TOP"])
page = f"{top}/man/mxfetch.1"


def source(path):
    with open(f"{top}/crates/{path}", encoding="utf-8") as it:
        return it.read()


def unquoted(text):
    return re.sub(r"\\(.)", lambda it: {"n": "\n"}.get(it.group(1), it.group(1)), text)


TEXT = r'"((?:[^"\\]|\\.)*)"'


def texts(path):
    return {name: unquoted(text) for name, text in re.findall(r"pub const (\w+): &str =\s*" + TEXT, source(path))}


# The rows of a table of options: name, what it takes, default, help.
def options(path, table):
    rows = re.search(rf"static {table}: \[OptionRow; \d+\] = \[(.*?)\n?\];", source(path), re.S).group(1)
    front = r'name: "([^"]*)",\s*takes: Takes::(\w+)(?:\(([^)]*)\))?,\s*'
    return re.findall(front + r'default: (None|Some\("[^"]*"\)),\s*help: ' + TEXT, rows)


# The arguments that are in no table: id, what is called on it.
def others(path, command):
    body = re.search(rf"fn {command}<.*?\n}}\n", source(path), re.S).group(0)
    found = []
    for part in body.replace("url_arg(alloc)", 'Arg::new(alloc, "URL")').split("Arg::new(alloc, ")[1:]:
        name, text = re.match(TEXT, part), re.search(r"\.help\(" + TEXT, part)
        short, value = re.search(r"\.short\('(.)'\)", part), re.search(r"\.value_name\(" + TEXT, part)
        found.append((name.group(1), short and short.group(1), value and value.group(1), text.group(1)))
    return found


# Ends where two lists that have to be the same aren't.
def compare(what, there, sources):
    if there != sources:
        sys.exit(f"man: {what}: {there}, and in the sources {sources}")


def escaped(line):
    line = line.replace("\\", r"\e").replace("-", r"\-")
    return r"\&" + line if line[:1] in (".", "'") else line


lines = []


# A text: of a list of exit statuses each is a paragraph with its number in front; what else is indented is printed as it is.
def add(text):
    for block in text.split("\n\n"):
        rows = block.split("\n")
        lead = [row for row in rows if not row.startswith(" ")]
        lines.append(".PP")
        lines.extend(escaped(row) for row in lead)
        rows = rows[len(lead):]
        if rows and re.match(r" *\d+  ", rows[0]):
            for row in rows:
                status = re.match(r" *(\d+)  (.*)", row)
                lines.extend([".TP 6", rf"\fB{status.group(1)}\fR", escaped(status.group(2))] if status else [escaped(row.strip())])
        elif rows:
            rows = textwrap.dedent("\n".join(rows)).split("\n")
            shift = "+2n" if max(map(len, rows)) <= 70 else "+0n"
            lines.extend([f".in {shift}", ".nf"] + [escaped(row) for row in rows] + [".fi", ".in"])


def add_option(name, takes, argument, default, text):
    value = {"Nothing": "", "NothingBeside": "", "Number": "N", "Bytes": "N", "Method": "M"}.get(takes, (argument or "").strip('"'))
    shown = rf"\fB\-\-{escaped(name)}\fR" + (rf" \fI{escaped(value)}\fR" if value else "")
    text = unquoted(text) + (f" [default: {default[6:-2]}]" if default != "None" else "")
    lines.extend([".TP", shown, escaped(text)])


def add_other(name, short, value, text):
    shown = rf"\fB\-{short}\fR \fI{escaped(value)}\fR" if short else rf"\fI{escaped(name)}\fR"
    lines.extend([".TP", shown, escaped(unquoted(text))])


main, command = texts("mx_command/src/help.rt"), "mx_command/src/command.rt"
saving, save = texts("mx_command/src/save/help.rt"), "mx_command/src/save/options.rt"
arguments = [it for part in ("header", "urls") for it in others(save, part)]
version = re.search(r'\.version\("([^"]*)"\)', source(command)).group(1)
commands = [
    ("get", main, "GET", options(command, "GET"), others(command, "get_command"), r"[\fIOPTIONS\fR] \fIURL\fR..."),
    ("save", saving, "SAVE", options(save, "OPTIONS"), arguments, r"[\fIOPTIONS\fR] [\fIURL\fR...]"),
    ("body", main, "BODY", options(command, "BODY"), others(command, "body_command"), r"[\fIOPTIONS\fR] \fIMETHOD\fR"),
    ("play", main, "PLAY", options(command, "PLAY"), others(command, "play_command"), r"[\fIOPTIONS\fR]"),
]

lines.append(r'.\" Made by checks/man.sh --write of the texts of the help, and of man/sections.1.')
lines.append(f'.TH MXFETCH 1 "" "mxfetch {version}" "User Commands"')
lines.extend([".SH NAME", r"mxfetch \- fetch and save URLs over plain HTTP/1.1, decode responses, play scripts of calls", ".SH SYNOPSIS"])
for name, _, _, _, _, rest in commands:
    lines.extend([rf"\fBmxfetch {name}\fR {rest}", ".br"])
lines.extend([r"\fBmxfetch help\fR [\fICOMMAND\fR]", ".br", r"\fBmxfetch \-\-version\fR"])
lines.append(".SH DESCRIPTION")
add(main["MXFETCH"] + ".")
lines.extend([
    ".PP",
    r"The value of an option is the next word, or stands behind an =. Options may come behind URLs, each but \fB\-H\fR once; \fB\-\-\fR ends",
    r"them. \fBmxfetch\fR \fICOMMAND\fR \fB\-\-help\fR prints what a command does, its options and its exit statuses, \fB\-h\fR less of it.",
])
for name, words, key, rows, arguments, _ in commands:
    lines.append(f".SH {name.upper()}")
    add(words[f"LONG_{key}"])
    for row in arguments:
        add_other(*row)
    for row in rows:
        add_option(*row)
    add(words[f"MORE_{key}"])
with open(f"{top}/man/sections.1", encoding="utf-8") as it:
    sections = it.read()
keys = re.findall(r'\\"(\w+)\\":', source("mx_save_rules/src/object.rt"))
compare("the keys of an object of JSON", re.findall(r"(?m)^\.TP\n\\fB(\w+)\\fR$", sections), keys)


# The exit statuses in a text of the help.
def numbers(text):
    return set(map(int, re.findall(r"(?m)^ *(\d+)  \S", text)))


# A section of man/sections.1, as words with one space between.
def section(name):
    return sections.partition(f".SH {name}\n")[2].partition("\n.SH ")[0]


# The value of a constant.
def constant(path, name):
    return int(re.search(rf"const {name}: \w+ = ([\d_]+);", source(path)).group(1).replace("_", ""))


codes = set(map(int, re.findall(r"(?m)^code_number \S+ = (\d+)$", source("mx_types/specs/Code.antt"))))
# 23 comes where content is handed on as it comes, which `get` doesn't do.
compare("the exit statuses in the help of get", sorted(numbers(main["MORE_GET"])), sorted(codes | {120, 121}))
told = numbers("\n".join(words[f"MORE_{key}"] for _, words, key, *_ in commands))
told |= set(map(int, re.findall(r"(?m)^save_number \S+ = (\d+)$", source("mx_save_rules/specs/Codes.antt")))) | {132}
compare("the exit statuses in man/sections.1", list(map(int, re.findall(r"(?m)^\.TP 6\n\\fB(\d+)\\fR$", section("EXIT STATUS")))), sorted(told))
for name, limits in {
    "LIMITS": (
        ("A response has at most {} bytes", "mx_body/src/limits.rt", "MOST_BYTES"),
        ("a head has at most {} bytes", "mx_head/src/limits.rt", "MOST_HEAD_BYTES"),
        ("bytes and {} field lines", "mx_head/src/limits.rt", "MOST_FIELDS"),
        ("at most {} interim responses", "mx_body/src/limits.rt", "MOST_INTERIM"),
        ("A URL has at most {} bytes", "mx_request/src/request.rt", "MOST_TEXT"),
        ("the body of a request {}.", "mx_request/src/request.rt", "MOST_BODY"),
        ("takes {} URLs", "mx_run_get/src/fetch.rt", "MOST_URLS"),
        ("A worker has {} transfers at most", "mx_types/src/limits.rt", "MOST_TRANSFERS"),
        ("of its own, {} at a time", "mx_names/src/names.rt", "MOST_LOOKUPS"),
    ),
    "REQUESTS OF SAVE": (
        ("more than {} fields", "mx_request/src/fields.rt", "MOST_FIELDS"),
        ("more than {} bytes", "mx_request/src/fields.rt", "MOST_VALUE"),
        ("more than {}.", "mx_request/src/request.rt", "MOST_BODY"),
    ),
    "LISTS OF URLS": (("more than {} bytes", "mx_save_rules/src/entry.rt", "MOST_LINE"),),
    "NAMES OF FILES": (("at most {} bytes", "mx_folder/src/names.rt", "MOST_LEN"),),
    "RETRIES": (("At most {} URLs", "mx_save_urls/src/plan.rt", "MOST_PENDING"),),
}.items():
    there = " ".join(section(name).split())
    for words, path, limit in limits:
        if words.format(constant(path, limit)) not in there:
            sys.exit(f"man: {name} of man/sections.1 doesn't say {words.format(constant(path, limit))!r}, as {limit} of {path} is")
with open(f"{top}/CHANGES.md", encoding="utf-8") as it:
    compare("the latest version in CHANGES.md", re.findall(r"(?m)^## (\d\S*)$", it.read())[:1], [version])
lines.extend(sections.splitlines())
lines.extend([".SH SEE ALSO", r"\fBcurl\fR(1), \fBlibcurl\-errors\fR(3); RFC 9110, RFC 9112"])
text = "\n".join(lines) + "\n"

if os.environ["WRITE"] == "--write":
    with open(page, "w", encoding="utf-8") as it:
        it.write(text)
    sys.exit(0)
try:
    with open(page, encoding="utf-8") as it:
        there = it.read()
except FileNotFoundError:
    sys.exit("man: no man/mxfetch.1 here; checks/man.sh --write makes it")
if there != text:
    sys.stdout.writelines(difflib.unified_diff(there.splitlines(True), text.splitlines(True), "man/mxfetch.1", "the sources", n=0))
    sys.exit(1)
PYTHON
