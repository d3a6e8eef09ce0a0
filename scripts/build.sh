#!/usr/bin/env bash
# Builds proved programs with all libraries below them, as many side by side as there is room for: each library is proved and built
# once those below it are, then the programs. What is built already, here or in another checkout of the same text on this machine,
# is taken as it is, as `rt run` takes it. At the end crates/CRATE/out/CRATE is there, and with --both what Rattle's own compiler
# makes of the same proof, crates/CRATE/out/CRATE.by-rattle; the last line says how long it took.
#
# scripts/build.sh [--both] [CRATE..]; the programs are hfs_tool and hfs_collect if none is named. RT_JOBS says how many are proved side by side.
set -euo pipefail
cd "$(dirname "$0")/.."
both=()
if [ "${1:-}" = --both ]; then
    both=(--both)
    shift
fi
[ $# -gt 0 ] || set -- hfs_tool hfs_collect
log=$(mktemp)
trap 'rm -f "$log"' EXIT
lanes=$(scripts/lanes.sh)

python3 scripts/build_libraries.py --below "$lanes" 1 "$@"
for crate in "$@"; do
    echo "$crate: proving and building it"
    scripts/build_program.sh "${both[@]}" "$crate" > "$log" 2>&1 || { tail -n 20 "$log" && exit 1; }
    ls -l "crates/$crate/out/$crate"* | awk '!/\.o$/ { print $NF ", " $5 " bytes" }'
done
echo "built in $((SECONDS / 60)) min $((SECONDS % 60)) s on the clock, $lanes side by side"
