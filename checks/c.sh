#!/usr/bin/env bash
# The library for C programs: builds c/libmx.a and libmx.so.0 from the archive of crates/mx_c, compares the names that they have with those
# of mx_multi.h, compiles that header as C99 and as C++, and runs programs over it against servers on 127.0.0.1: each call, under valgrind
# too, with SIGPIPE watched and beside a child; transfers with each growth of memory refused in turn; ten thousand through one handle that
# is never idle; the examples in C and Python, and in Rust where there is rustc. Prints a line for each, and ends with 1 where one isn't as
# expected, with 2 where something that it needs isn't there.
#
#     checks/c.sh [ARCHIVE]    after `rt ci`, or with the archive of crates/mx_c
#
# It needs make, a C and a C++ compiler, binutils, valgrind and python3.
set -eu
[ "${1-}" != -h ] && [ "${1-}" != --help ] || { sed -n '2,/^set/s/^# \{0,1\}//p' "$0"; exit 0; }
top=$(cd "$(dirname "$(readlink -f "$0")")/.." && pwd)
for tool in make:make cc:gcc c++:g++ nm:binutils valgrind:valgrind python3:python3; do
    command -v "${tool%%:*}" > /dev/null || { echo "c: there is no ${tool%%:*} on the path: it is in Debian's package ${tool#*:}" >&2; exit 2; }
done
work=$(mktemp -d)
trap 'rm -rf "$work"' EXIT
archive=${1-$top/crates/mx_c/out/libmx_c.a}
[ $# = 1 ] || make -s -C "$top/c" ../crates/mx_c/out/libmx_c.a > "$work/log" 2>&1 || { tail -20 "$work/log"; exit 1; }
cp -r "$top/c" "$work/c"
rm -rf "$work/c/out"
make -s -C "$work/c" install ARCHIVE="$(readlink -f "$archive")" PREFIX="$work/usr" > "$work/log" 2>&1 || { tail -20 "$work/log"; exit 1; }
export C_INCLUDE_PATH=$work/usr/include LIBRARY_PATH=$work/usr/lib LD_LIBRARY_PATH=$work/usr/lib
flags='-O1 -g -Wall -Wextra -Werror'
cc -std=c99 -pedantic $flags -c -o "$work/get.o" "$top/c/examples/get.c"
c++ -std=c++98 -pedantic $flags -x c++ -fsyntax-only "$top/c/mx_multi.h"
cc -std=gnu99 $flags -o "$work/get" "$top/c/examples/get.c" "$work/usr/lib/libmx.a"
for program in calls many; do
    cc -std=gnu99 $flags -o "$work/$program" "$top/checks/c/$program.c" "$work/usr/lib/libmx.a"
done
if command -v rustc > /dev/null; then
    rustc --edition 2021 -D warnings -L "$work/usr/lib" -o "$work/get-rust" "$top/c/examples/get.rs"
fi
cc -O2 -shared -fPIC -o "$work/refuse.so" "$top/checks/refuse.c" -ldl
exec python3 -B "$top/checks/c.py" "$work" "$top"
