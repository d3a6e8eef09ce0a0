#!/usr/bin/env bash
# What the scripts in this folder and in measure/ share. It goes to the top of the repository, and has the programs:
#
#     . "$(dirname "$0")/common.sh"
#     tool=$(program hfs_tool)
#
# tests/common.sh PROGRAM prints that path for scripts in other languages.
set -euo pipefail
cd "$(dirname "${BASH_SOURCE[0]}")/.."

# The crates that a program is made of: itself, and the libraries of this repository below it.
crates_of() {
    local -A found=()
    local left=("$1") crate
    while [ ${#left[@]} -gt 0 ]; do
        crate=${left[0]}
        left=("${left[@]:1}")
        if [ -n "${found[$crate]:-}" ] || [ ! -d "crates/$crate" ]; then continue; fi
        found[$crate]=yes
        left+=($(sed -n "s/^$crate\( [^:]*\)\{0,1\}://p" crates.txt))
    done
    printf '%s\n' "${!found[@]}"
}

# Whether a program is there, and none of the sources that it is made of is newer.
is_fresh() {
    local built=crates/$1/out/$1 crate part folders=()
    [ -x "$built" ] || return 1
    for crate in $(crates_of "$1"); do
        for part in src specs proofs; do [ ! -d "crates/$crate/$part" ] || folders+=("crates/$crate/$part"); done
    done
    [ -z "$(find "${folders[@]}" -type f -newer "$built" -print -quit)" ]
}

# The path of a program: that which HFS_TOOL, HFS_COLLECT or HFS_PLAIN names, or the one of this repository, which is proved and built first
# where it isn't there or a source of it is newer. Where several scripts ask, one builds and the others wait.
program() {
    local named
    case $1 in
        hfs_tool) named=${HFS_TOOL:-} ;;
        hfs_collect) named=${HFS_COLLECT:-} ;;
        hfs_plain) named=${HFS_PLAIN:-} ;;
        *) named= ;;
    esac
    if [ -n "$named" ]; then
        realpath "$named"
        return
    fi
    if ! is_fresh "$1"; then
        mkdir -p "crates/$1/out"
        (flock 9 && { is_fresh "$1" || scripts/build.sh "$1" >&2; }) 9> "crates/$1/out/building.lock"
    fi
    echo "$PWD/crates/$1/out/$1"
}

[ "${BASH_SOURCE[0]}" != "$0" ] || program "$1"
