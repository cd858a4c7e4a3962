#!/bin/sh
# Has the prover try the mutants of crates, those that `rt ci` tries, too: crates/NAME/must-fail/*.edit and more-edits/*.edit.
#
#     checks/wrong-bodies.sh [NAME..]      tries all of these crates, or of all crates; crates side by side, as memory allows
#     checks/wrong-bodies.sh --applies     names those whose old text isn't in its file once; tries nothing
#     checks/wrong-bodies.sh --stale       names the crates that changed since theirs were tried; tries nothing
#
# Prints a line for each, and a line for each crate, which becomes the crate's row of data/mutants.csv:
#
#     refused              the prover doesn't prove the crate with it, or the compiler refuses it by the words of its line 'compiler: ..': that
#                          is what has to be
#     LET THROUGH          the crate is still proved with it: a contract to strengthen, unless that body is right
#     NO LONGER APPLIES    its old text isn't there once, or the edited text isn't read as code
#     NOT JUDGED           the prover gave no verdict
#
# The crates below are proved first, where no earlier run on this machine has. Several mutants of a crate share a run of the prover, as
# docs/GATE.md says. Ends with 0 where all are refused (--applies: all apply; --stale: none changed), with 1 where one isn't, with 2 where it
# couldn't begin. It needs the Rattle toolchain and python3.
set -eu
[ "${1-}" != -h ] && [ "${1-}" != --help ] || { sed -n '2,/^set/s/^# \{0,1\}//p' "$0"; exit 0; }
command -v python3 > /dev/null || { echo "wrong-bodies: there is no python3 on the path" >&2; exit 2; }
exec python3 -B "$(dirname "$(readlink -f "$0")")/mutants.py" "$@"
