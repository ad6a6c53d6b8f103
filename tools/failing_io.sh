#!/usr/bin/env bash
# failing_io.sh PROGRAM    has each call of PROGRAM on a file, an input or an output fail in turn, with strace, for ask, index and serve.
#
# Each run ends with a status of the pages, or with 127, where the loader of the program failed before it. Where it is 0, the output is
# the right one; else it is a prefix of it, or the line of that status. OUT holds what it held before or the index whole, and the index
# where the status is 0. Prints how many runs there were; the status is 0 where none differed.
set -u
program=$(realpath "$1") || exit 2
top=$(cd "$(dirname "$0")/.." && pwd) || exit 2
command -v strace >/dev/null || { echo "failing io: strace isn't here, so no call can be made to fail"; exit 2; }
room=$(mktemp -d) || exit 2
trap 'rm -rf "$room"' EXIT
cd "$room" || exit 2
cp "$top/crates/index_tool/data/A" FILE
printf 'main\nname main\naddr 401000\n' >queries
printf 'old' >old
calls=(read write open openat statx lseek rename unlink fchmod)
runs=0
differed=0

# traced WORD ..: runs the program with the words, with what strace is told in the array `how`.
traced() {
    cp old OUT
    rm -f OUT.*.new
    strace -f -qq -o log -e trace="$(IFS=,; echo "${calls[*]}")" "${how[@]}" "$program" "$@" <queries >said 2>complaint
}

# is_right STATUS: whether a run that ended so wrote and left what it has to.
is_right() {
    local text
    text=$(cat said; echo .)
    case $1 in
    0) cmp -s said right && cmp -s OUT made ;;
    3) [ "$text" = $'read fault\n.' ] && cmp -s OUT old ;;
    4) [ "$text" = $'store fault\n.' ] && cmp -s OUT old ;;
    5 | 6) cmp -s -n "$(stat -c %s said)" said right && { cmp -s OUT old || cmp -s OUT made; } ;;
    7) [ "$text" = $'no memory\n.' ] && cmp -s OUT old ;;
    127) [ "$text" = . ] && cmp -s OUT old ;;
    *) false ;;
    esac
}

# each_time CALL WORD ..: the command with the words, once for each time that it makes this call, which fails then.
each_time() {
    local call=$1 number count status
    shift
    count=$(grep -c " $call(" plain)
    for ((number = 1; number <= count; number++)); do
        how=(-e inject="$call:error=EIO:when=$number")
        traced "$@"
        status=$?
        runs=$((runs + 1))
        is_right "$status" && continue
        differed=$((differed + 1))
        echo "failing io: $*, $call $number of $count: status $status, $(head -c 80 said)"
    done
}

# each_call WORD ..: the command with the words, as it is, and with each of its calls failing.
each_call() {
    local call
    how=()
    traced "$@" || { echo "failing io: $* ends with $?"; differed=$((differed + 1)); return; }
    cp said right
    cp OUT made
    cp log plain
    for call in "${calls[@]}"; do
        each_time "$call" "$@"
    done
}

each_call ask --workers 1 FILE name main
each_call index --as gdb8 --workers 1 FILE OUT
each_call serve --workers 1 --wait 3 FILE
echo "failing io: $runs runs, $differed differed"
[ "$runs" -gt 0 ] && [ "$differed" = 0 ]
