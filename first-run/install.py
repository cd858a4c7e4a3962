"""./run --install PREFIX: puts the program that ./run starts below a prefix, with its manual page and completions for bash and zsh.

    install.py TOP PREFIX

    PREFIX/bin/mxfetch                                  the program
    PREFIX/share/man/man1/mxfetch.1                     its manual page
    PREFIX/share/bash-completion/completions/mxfetch    completions for bash
    PREFIX/share/zsh/site-functions/_mxfetch            completions for zsh
    PREFIX/share/doc/mxfetch/BUILD                      its version, the toolchain, and whether it is proved

Each file takes the place of an older one at once, by a rename. The completions are made from what the program's help prints. Exit status:
0; 125 where the program couldn't be compiled or a file couldn't be written; 128 and a signal's number where that was interrupted.
"""

import os
import re
import subprocess
import sys
import tempfile

sys.dont_write_bytecode = True
import prove
import unproved

NAME = prove.PROGRAM
COMMAND = re.compile(r"  (\w[\w-]*)  +(\S.*)")
OPTION = re.compile(r"  (-\w)?(?:, |    )?(--[\w-]+)?(?: <([^>]+)>)?  +(\S.*)")
CHOICES = re.compile(r"[A-Z]+(?:, [A-Z]+)+ or [A-Z]+")


def rows_of(program, command, section, row):
    """What a pattern finds in the lines of a section of a help text."""
    words = [program, *command, "-h"]
    text = subprocess.run(words, stdin=subprocess.DEVNULL, stdout=subprocess.PIPE, check=True).stdout.decode()
    lines = text.partition(f"\n{section}:\n")[2].partition("\n\n")[0].splitlines()
    return [it.groups() for it in map(row.fullmatch, lines) if it]


class Options:
    """The options of a command: for each its short and long name, the name of its value, choices of values, and what it does."""

    def __init__(self, program, *command):
        self.rows = [(list(filter(None, (short, long))), value, self.choices_of(does), does)
                     for short, long, value, does in rows_of(program, command, "Options", OPTION)]
        self.names = [name for names, *_ in self.rows for name in names]

    @staticmethod
    def choices_of(does):
        found = CHOICES.search(does)
        return re.findall("[A-Z]+", found[0]) if found else []


def completions_of(program):
    """For bash and for zsh, from the program's help."""
    commands = dict(rows_of(program, (), "Commands", COMMAND))
    options = {it: Options(program, it) for it in commands if it != "help"}
    return bash_of(commands, options, Options(program).names), zsh_of(commands, options)


def bash_of(commands, options, own_names):
    values, names = [], [f"    help) words='{' '.join(options)}' ;;"]
    for command in options:
        names.append(f"    {command}) words='{' '.join(options[command].names)}' ;;")
        for own, value, choices, _ in options[command].rows:
            kind = {"DIR": "-d", "FILE": "-f"}.get(value, f"-W '{' '.join(choices)}'")
            if value:
                values.append(f"    {'|'.join(f'{command}:{it}' for it in own)}) COMPREPLY=($(compgen {kind} -- \"$now\")); return ;;")
    first = " ".join([*commands, *own_names])
    return "\n".join([
        "# Completions of mxfetch for bash, made from its help.",
        "_mxfetch() {",
        "    local now=${COMP_WORDS[COMP_CWORD]} before=${COMP_WORDS[COMP_CWORD-1]} command=${COMP_WORDS[1]} words=",
        f"    [ \"$COMP_CWORD\" != 1 ] || {{ COMPREPLY=($(compgen -W '{first}' -- \"$now\")); return; }}",
        "    case $command:$before in", *values, "    esac",
        "    case $command in", *names, "    esac",
        '    COMPREPLY=($(compgen -W "$words" -- "$now"))',
        "}",
        "complete -o default -F _mxfetch mxfetch", ""])


def quoted(text):
    return text.replace("'", "'\\''").replace("[", "\\[").replace("]", "\\]").replace(":", "\\:")


def zsh_of(commands, options):
    cases = []
    for command in options:
        cases += [f"    {command})", "        _arguments \\"]
        for own, value, choices, does in options[command].rows:
            kind = {"DIR": "_files -/", "FILE": "_files"}.get(value, f"({' '.join(choices)})")
            cases += [f"            '*{it}[{quoted(does)}]{f':{quoted(value)}:{kind}' if value else ''}' \\" for it in own]
        cases += ["            '*:argument:_default'", "        ;;"]
    return "\n".join([
        "#compdef mxfetch",
        "# Completions of mxfetch for zsh, made from its help.",
        "_mxfetch() {",
        "    local -a commands=(", *(f"        '{name}:{quoted(does)}'" for name, does in commands.items()), "    )",
        "    if (( CURRENT == 2 )); then",
        "        _describe command commands",
        "        return",
        "    fi",
        "    shift words",
        "    (( CURRENT-- ))",
        "    case $words[1] in", *cases, "    esac",
        "}",
        '_mxfetch "$@"', ""])


def put(path, content, mode):
    """Writes a file, which takes the place of an older one once it is whole."""
    os.makedirs(os.path.dirname(path), exist_ok=True)
    with tempfile.NamedTemporaryFile(dir=os.path.dirname(path), prefix=f".{NAME}-", delete=False) as file:
        try:
            file.write(content)
            os.fchmod(file.fileno(), mode)
            os.replace(file.name, path)
        except BaseException:
            os.unlink(file.name)
            raise


def install(top, prefix):
    program, _ = unproved.built(top)
    is_proved = os.path.dirname(program) == f"{top}/crates/{NAME}/out"
    says = "proved" if is_proved else "NOT PROVED: compiled from the sources without their proofs; ./run --prove proves it"
    version = subprocess.run([program, "--version"], stdin=subprocess.DEVNULL, stdout=subprocess.PIPE, check=True).stdout.decode()
    with open(program, "rb") as file, open(f"{top}/man/{NAME}.1", "rb") as page:
        put(f"{prefix}/bin/{NAME}", file.read(), 0o755)
        put(f"{prefix}/share/man/man1/{NAME}.1", page.read(), 0o644)
    bash, zsh = completions_of(program)
    put(f"{prefix}/share/bash-completion/completions/{NAME}", bash.encode(), 0o644)
    put(f"{prefix}/share/zsh/site-functions/_{NAME}", zsh.encode(), 0o644)
    put(f"{prefix}/share/doc/{NAME}/BUILD", f"{version}{prove.version()}\n{says}\n".encode(), 0o644)
    prove.say(f"installed {prefix}/bin/{NAME}, its manual page and completions: {says}")


def main(words):
    top, prefix = os.path.realpath(words[0]), os.path.realpath(words[1])
    prove.Signals.begin()
    try:
        install(top, prefix)
    except prove.Interrupted as signalled:
        prove.say("interrupted: what was installed stays, whole file by whole file")
        return 128 + signalled.args[0]
    except (prove.Stop, unproved.Unknown, MemoryError) as error:
        prove.say(unproved.why_not(top, error))
        return prove.FAILED
    except OSError as error:
        prove.say(f"{prefix} can't be installed to: {error}")
        return prove.FAILED
    return 0


if __name__ == "__main__":
    sys.exit(main(sys.argv[1:]))
