#!/bin/sh
# Runs the stack plain, under the address and the thread sanitizers, under valgrind where it is there, by the machine's clock, and
# with each allocation refused in turn.
#   embed/stack_c/run.sh [FOLDER]
# FOLDER has what embed/build.sh made: embed/out if none is named. CC is the compiler.
set -eu
here=$(cd "$(dirname "$0")" && pwd)
from=${1:-$here/../out}
cc=${CC:-cc}
work=$(mktemp -d)
trap 'rm -rf "$work"' EXIT
build() {
    to=$1
    shift
    $cc -std=gnu11 -g -Wall -Wextra -Werror -pthread -I"$from/include" "$here/stack.c" "$here/timers.c" "$here/tcp.c" "$@" \
        -L"$from/lib" -lcallout -o "$work/$to"
}
build plain -O2
build address -O1 -fsanitize=address,undefined
build thread -O1 -fsanitize=thread
build refuse -O1 "$here/refuse.c" -Wl,--wrap=malloc,--wrap=calloc,--wrap=realloc,--wrap=free
echo "plain" && "$work/plain"
echo "address sanitizer" && "$work/address" -n 5000 >"$work/said" && tail -1 "$work/said"
echo "thread sanitizer" && "$work/thread" -n 5000 >"$work/said" && tail -1 "$work/said"
if command -v valgrind >"$work/which"; then
    echo "valgrind" && valgrind -q --leak-check=full --error-exitcode=9 "$work/plain" -c 200 -n 2000 >"$work/said" && tail -1 "$work/said"
fi
echo "the machine's clock" && "$work/plain" -c 300 -r 2 >"$work/said" && tail -1 "$work/said"
refused=0
while :; do
    status=0
    REFUSE=$refused "$work/refuse" -c 20 -n 100 >"$work/said" || status=$?
    [ $status -eq 3 ] || break
    refused=$((refused + 1))
done
[ $status -eq 0 ] || exit $status
echo "$refused allocations refused in turn, and nothing kept"
