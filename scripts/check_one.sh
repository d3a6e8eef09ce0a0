#!/usr/bin/env bash
# Checks one crate over its libraries as `rt` keeps them, and nothing else: `rt check` first sums all sources below the crate, once for each way
# that crates.txt leads to them, which takes minutes near the top. It trusts the libraries' kept work, so it is for the time while a proof is written,
# and no verdict. The libraries must have been built (scripts/build_libraries.py, or `rt check` in a crate above), and must not have changed since.
#
# scripts/check_one.sh CRATE [WORDS OF rattle check], as in: scripts/check_one.sh hfs_shared --only hfs_shared::desk::Desk::apply --allow-holes
set -euo pipefail
root=$(cd "$(dirname "$0")/.." && pwd)
kit=/opt/rattle
crate=$1
shift

words=(-L "dependency=$kit/rlibs")
for rlib in "$root"/crates/*/out/rlib; do words+=(-L "dependency=$rlib"); done
for library in std $(awk -v crate="$crate" -F: '$1 ~ "^" crate "( |$)" { print $2 }' "$root/crates.txt"); do
    own=$root/crates/$library/out/rlib/$library.rlib
    if [ -e "$root/crates/$library" ]; then words+=(--extern "$library=$own"); else words+=(--extern "$library=$kit/rlibs/$library.rlib"); fi
done
cd "$root/crates/$crate"
top=src/lib.rt
[ -e "$top" ] || top=src/main.rt
# A library of statements alone is built without kept work.
if [[ " $* " != *' --statements '* ]]; then
    mkdir -p out/incremental
    words+=(--incremental out/incremental)
fi
exec "$kit/bin/rattle" "${RATTLE_VERB:-check}" --crate-name "$crate" "$top" "${words[@]}" --antt-project "$kit/rattle/logic/antt-project.json" \
    --logic-built "$kit/logic_built" --jobs "${RT_JOBS:-1}" --links "$crate=" "$@"
