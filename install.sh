#!/bin/sh
# install.sh [PREFIX]
#
# Puts gdbix, its man page and its completions for bash and zsh under PREFIX, ~/.local where none is given. The program is the one that
# the gate or tools/build.py proved from these sources; where there is none, it is built first, which proves it and takes a while.
# GDBIX names a program that is to be installed as it is.
set -eu

case "${1-}" in
-h | --help)
    sed -n '2,6s/^# \{0,1\}//p' "$0"
    exit 0
    ;;
-*)
    echo "install.sh: unknown option '$1'; try 'install.sh --help'" >&2
    exit 2
    ;;
esac
if [ $# -gt 1 ]; then
    echo "install.sh: '$2' is a word too many; try 'install.sh --help'" >&2
    exit 2
fi
prefix=${1-${HOME:?"HOME is not set: name a folder"}/.local}
top=$(CDPATH='' cd -- "$(dirname -- "$0")" && pwd)

# Whether FILE is there, can be run, and is newer than every source of the program.
is_current() {
    [ -x "$1" ] && [ -z "$(find "$top/crates" "$top/crates.txt" -name out -prune -o \
        \( -name '*.rt' -o -name '*.antt' -o -name crates.txt \) -newer "$1" -print)" ]
}

program=${GDBIX-}
if [ -z "$program" ]; then
    for found in "$top/crates/index_tool/out/index_tool" "$top/out/gdbix"; do
        if [ -z "$program" ] && is_current "$found"; then
            program=$found
        fi
    done
fi
if [ -z "$program" ]; then
    echo "building and proving gdbix first (tools/build.py)"
    python3 "$top/tools/build.py" "$top/out/gdbix"
    program=$top/out/gdbix
fi

# put MODE FILE NAME: copies FILE to NAME under PREFIX by a new file, so that a gdbix that runs goes on.
put() {
    mkdir -p "$(dirname -- "$prefix/$3")"
    cp -- "$2" "$prefix/$3.new"
    chmod "$1" "$prefix/$3.new"
    mv -f -- "$prefix/$3.new" "$prefix/$3"
    echo "$prefix/$3"
}

put 755 "$program" bin/gdbix
put 644 "$top/man/gdbix.1" share/man/man1/gdbix.1
put 644 "$top/completions/gdbix.bash" share/bash-completion/completions/gdbix
put 644 "$top/completions/_gdbix" share/zsh/site-functions/_gdbix
case ":${PATH-}:" in
*":$prefix/bin:"*) ;;
*) echo "$prefix/bin isn't in PATH" ;;
esac
