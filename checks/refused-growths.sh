#!/usr/bin/env bash
# Runs the program and tests with each growth of memory refused in turn, the first, the second, and so on until a run asks for no
# more, by a library of its own (checks/refuse.c). A program has to print what memory allows and end with 27, or to do without
# that growth and print all. Of a test that asks for more than 400 growths the first 400 are refused. A test has to
#   - make a call that was refused memory once more, compare what that answers with what is expected, and only then fail, by
#     words of its own, which it says for no other cause: at one growth at least, or there is no such call; or
#   - fail as out of memory, where the growth was one of what the test needs for itself; or
#   - pass, where the engine does without that growth.
# A few tests more, of a run that saves and of a sink, make no call again; they have to fail as out of memory, or to pass.
# Anything else is wrong: an assertion that fails, other words, a signal, a run that doesn't end. Prints one line for each program
# and test, and ends with 0 where all did as they have to, with 1 where one didn't, and with 2 where something that it needs isn't
# there: a program, a test, a C compiler.
#
# Use: checks/refused-growths.sh [WORD]    after `rt ci`, on Linux; a C compiler is in Debian's package gcc
#
# With a word it takes only the programs and the crates of tests whose names have it. It takes what `rt ci` built, or, with
# BUILT=out/unproved, what ./run and checks/tests.sh compiled without proofs.
set -u
[ "${1-}" != -h ] && [ "${1-}" != --help ] || { sed -n '2,/^set/s/^# \{0,1\}//p' "$0"; exit 0; }

# The crates whose tests are run, crates/NAME/out/NAME_tests, each with a word in the names of those that are.
tests='
mx_bytes_tests      ^refused
mx_exchange_tests   ^refused
mx_journal_tests    ^refused
mx_gate_tests       ^refused
mx_multi_tests      ^refused
mx_worker_tests     ^refused
mx_save_tests       put_again$
'
# Those that make no call again.
others='
mx_save_tests       ^refused
mx_save_tests       done_without$
'

# What such a test says where a call that was refused memory answered when it was made again.
AGAIN='error: "memory was refused, and the call answered when it was made again"'
# What it says where it is out of memory itself: of a vector, of a call of the engine, of the system, of a thread.
WANTING='error: AllocError\|error: AllocFailed { .. }\|error: OutOfMemory\|error: Kind(OutOfMemory)\|error: SpawnError { .. }'

# Of the crates those whose names have the word; whether a name has it.
word=${1-}
tests=$(grep -F -- "$word" <<< "$tests") others=$(grep -F -- "$word" <<< "$others")
is_wanted() { [ -z "${1##*"$word"*}" ]; }

top=$(cd "$(dirname "$(readlink -f "$0")")/.." && pwd)
work=$(mktemp -d)
trap 'rm -rf "$work"' EXIT

missing() {
  echo "refused-growths: $1" >&2
  exit 2
}

# all that is needed, before anything is run
built=${BUILT:-out}
program=${PROGRAM:-$top/crates/mxfetch/$built/mxfetch}
[ -x "$program" ] || missing "there is no $program: ./run compiles one, ./run --prove proves it"
for crate in $(printf '%s\n' "$tests" "$others" | awk '{ print $1 }'); do
  [ -x "$top/crates/$crate/$built/${crate}_tests" ] ||
    missing "there is no crates/$crate/$built/${crate}_tests: rt ci builds it; with BUILT=out/unproved, checks/tests.sh"
done
for tool in cc:gcc timeout:coreutils cmp:diffutils; do
  command -v "${tool%:*}" > /dev/null || missing "there is no ${tool%:*} on the path: it is in Debian's package ${tool#*:}"
done

cc -O2 -shared -fPIC -o "$work/refuse.so" "$top/checks/refuse.c" || missing "the library that refuses growths doesn't compile"

# one run with this growth refused; $status is its exit status, and it fails where the run asked for fewer growths
refused() {
  local which=$1
  shift
  rm -f "$work/note"
  # in a shell of its own, whose word on an abort nobody needs
  (
    timeout 60 env REFUSE_GROWTH="$which" REFUSE_NOTE="$work/note" LD_PRELOAD="$work/refuse.so" "$@" \
      > "$work/printed" 2> "$work/said"
    exit $?
  ) 2> /dev/null
  status=$?
  [ -e "$work/note" ]
}

failed=0
wrong() {
  echo "WRONG: $1: exit status $status"
  head -c 400 "$work/printed" "$work/said"
  failed=1
}

# a program, whose whole output is $work/whole and whose status without a refusal is $ends, and what it prints where a growth is
# refused: NAME INPUT ARGUMENT... (of `play` the replies to the lines before the fault; else nothing but the fault)
ends=0
# rule program-out-of-memory
try_program() {
  local name=$1 input=$2 which=1 ended=0 without=0 lines
  shift 2
  is_wanted "$name" || return 0
  printf 'FAULT 27\n' > "$work/fault"
  while refused "$which" "$program" "$@" < "$input"; do
    lines=0
    [ "${1-}" != play ] || lines=$(($(wc -l < "$work/printed") - 1))
    if [ "$status" -eq 27 ] && head -n "$lines" "$work/whole" | cat - "$work/fault" | cmp -s - "$work/printed"; then
      ended=$((ended + 1))
    elif [ "$status" -eq "$ends" ] && cmp -s "$work/printed" "$work/whole"; then
      without=$((without + 1))
    else
      wrong "$name, growth $which"
    fi
    which=$((which + 1))
    [ "$which" -le 10000 ] || { wrong "$name: it asks for more than 10000 growths"; break; }
  done
  [ "$status" -eq "$ends" ] && cmp -s "$work/printed" "$work/whole" || wrong "$name, no growth refused"
  [ "$ended" -gt 0 ] || wrong "$name: no growth could be refused"
  echo "$name: $((which - 1)) growths refused, $ended ended with 27, $without done without"
}

# `body`: a counted body, one in chunks, and one up to the end of the input (RFC 9112, section 6.3)
status_line='HTTP/1.1 200 OK\r\n'
try_body() {
  printf "$2" > "$work/response"
  printf "$3" > "$work/whole"
  try_program "mxfetch body, $1" "$work/response" body GET
}
try_body 'a length' "${status_line}Content-Length: 5\r\n\r\nhello" 'OK status=200 body=5 keep=yes left=0\nhello'
try_body 'one chunk' "${status_line}Transfer-Encoding: chunked\r\n\r\n5;x=y\r\nhello\r\n0\r\nA: b\r\n\r\n" 'OK status=200 body=5 keep=yes left=0\nhello'
try_body 'two chunks' "${status_line}Transfer-Encoding: chunked\r\n\r\n5\r\nhello\r\n6\r\n world\r\n0\r\n\r\n" \
  'OK status=200 body=11 keep=yes left=0\nhello world'
try_body 'to the end' 'HTTP/1.0 200 OK\r\n\r\nabc' 'OK status=200 body=3 keep=no left=0\nabc'

# `play`: what a one-thread multi handle answers. The script has a line, and what is printed of it, in one line of each pair.
try_play() {
  local name=$1
  shift
  awk -F ' = ' '{ print $1 }' "$work/pairs" > "$work/script"
  awk -F ' = ' '{ print $2 }' "$work/pairs" > "$work/whole"
  try_program "mxfetch play, $name" "$work/script" play "$@"
}
cat > "$work/pairs" << 'END'
add 7 = added 0
add 7 = added-already
done 0 0 5 = recorded
read = message 7 0 0 5 left 0
add 7 = added-already
remove 7 = removed
add 7 = added 1
END
try_play 'an addition'
cat > "$work/pairs" << 'END'
add 1 = added 0
add 2 = added 1
done 1 0 3 = recorded
done 0 0 4 = recorded
remove 2 = removed
read = message 1 0 0 4 left 0
read = empty
END
try_play 'two ends'
cat > "$work/pairs" << 'END'
add 1 = added 0
pause 1 = history-full
done 0 18 0 = recorded
read = message 1 0 18 0 left 0
remove 1 = removed
wakeup = failure
add 1 = history-full
END
try_play 'a full history' --history 4
cat > "$work/pairs" << 'END'
wakeup = ok
wakeup = ok
poll = woken
poll = would-wait
wakeup = ok
poll = woken
END
try_play 'polls'
cat > "$work/pairs" << 'END'
add 5 = added 0
remove 5 = removed
add 5 = added 1
done 0 0 9 = stale
state 5 = running 1
done 1 0 2 = recorded
done 1 0 2 = no-claim
read = message 5 1 0 2 left 0
remove 6 = not-added
END
try_play 'a stale end'
cat > "$work/pairs" << 'END'
add 3 = added 0
pause 3 = changed
pause 3 = no-change
state 3 = paused 0
unpause 3 = changed
unpause 3 = no-change
done 0 28 0 = recorded
pause 3 = not-running
pause 4 = not-added
state 3 = done 0 28
running = running 0
handles = handles 3
remove 3 = removed
ad 3 = bad-line 14
END
ends=122
try_play 'a pause'
ends=0
cat > "$work/pairs" << 'END'
add 1 = added 0
done 0 0 5 = recorded
read = message 1 0 0 5 left 0
remove 1 = removed
wakeup = ok
add 2 = history-full
retire = retired 0
add 2 = added 1
retire = claim-out
done 1 0 3 = recorded
retire = retired 2
handles = handles 2
END
try_play 'retiring' --history 8

# words that are refused, and help: out of memory is printed as ever
try_words() {
  local name=$1
  ends=$2
  shift 2
  "$program" "$@" > "$work/whole" 2> /dev/null < /dev/null
  try_program "mxfetch $name" /dev/null "$@"
}
try_words 'with no such option' 120 body GET --no-such-option
try_words 'with a history of three' 120 play --history 3
try_words 'with no command' 120
try_words '--help' 0 --help
try_words 'get --help' 0 get --help
ends=0

# the tests of a crate, each up to its 400th growth: CRATE WORD LEAST, the least number of growths whose call is made again
try_tests() {
  local crate=$1 word=$2 least=$3 test names which again wanting without tests=$top/crates/$1/$built/$1_tests
  names=$("$tests" --list | sed -n 's/: test$//p' | grep "$word")
  [ -n "$names" ] || { status=0; : > "$work/printed"; : > "$work/said"; wrong "$crate: its tests name no test"; }
  for test in $names; do
    which=1 again=0 wanting=0 without=0
    while [ "$which" -le 400 ] && refused "$which" "$tests" "$test"; do
      if [ "$status" -eq 0 ]; then
        without=$((without + 1))
      elif [ "$status" -eq 101 ] && grep -qxF "$AGAIN" "$work/said"; then
        again=$((again + 1))
      elif [ "$status" -eq 101 ] && grep -qx "$WANTING" "$work/said"; then
        wanting=$((wanting + 1))
      else
        wrong "$crate, $test, growth $which"
      fi
      which=$((which + 1))
    done
    [ "$which" -gt 400 ] || [ "$status" -eq 0 ] || wrong "$crate, $test, no growth refused"
    [ "$again" -ge "$least" ] || wrong "$crate, $test: no call was made again"
    [ "$which" -le 400 ] || test="$test (of more)"
    echo "$crate, $test: $((which - 1)) growths refused, $again at a call that then answered, $wanting of the test's own, $without done without"
  done
}
while read -r crate word; do
  [ -z "$crate" ] || try_tests "$crate" "$word" 1
done <<< "$tests"
while read -r crate word; do
  [ -z "$crate" ] || try_tests "$crate" "$word" 0
done <<< "$others"

exit "$failed"
