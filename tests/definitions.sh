#!/usr/bin/env bash
# Prints, from the files themselves, where each definition is and which wrong bodies the prover refuses: for each crate
# (or those that are named) the files of its specs/ with what each is about, and the edits of its wrong-bodies/, which
# tests/wrong_bodies.py tries, with the text that each changes.
set -euo pipefail
cd "$(dirname "$0")/.."

crates=("$@")
[ ${#crates[@]} -gt 0 ] || mapfile -t crates < <(sed -n 's/^\([a-z0-9_]*\)[: ].*/\1/p' crates.txt)

for crate in "${crates[@]}"; do
    echo "$crate"
    for file in "crates/$crate"/specs/*.antt; do
        case $file in
            */Lib.antt | */\*.antt) ;;
            *) printf '    %-24s %s\n' "specs/$(basename "$file")" "$(sed -n '1s/^-- *//p' "$file")" ;;
        esac
    done
    for file in "crates/$crate"/wrong-bodies/*.edit; do
        [ -e "$file" ] || continue
        edit=${file#"crates/$crate/"}
        printf '    %s, in %s:\n' "${edit%.edit}" "$(sed -n '1s/^file: *//p' "$file")"
        sed -n -e 's/^old: */        - /p' -e 's/^new: */        + /p' "$file"
    done
done
