#!/usr/bin/env bash
# Proves a program over its libraries as `rt` keeps them, and builds it as `rt ci` does: by LLVM as out/CRATE and, with --both, by
# Rattle's own compiler as out/CRATE.by-rattle. It trusts what was kept, as `rt run` does, so only `rt ci` is a verdict.
# The libraries must have been built: scripts/build.sh builds them first, and is what to run if in doubt.
#
# scripts/build_program.sh [--both] CRATE, as in: scripts/build_program.sh hfs_tool, or hfs_collect
set -euo pipefail
root=$(cd "$(dirname "$0")/.." && pwd)
kit=/opt/rattle
compilers=(llvm)
if [ "$1" = --both ]; then
    compilers+=(rattle)
    shift
fi
crate=$1
out=$root/crates/$crate/out

for compiler in "${compilers[@]}"; do
    name=$crate
    [ "$compiler" = llvm ] || name=$crate.by-$compiler
    RATTLE_VERB=build "$root/scripts/check_one.sh" "$crate" --toolchain "$kit/toolchain" --backend "$compiler" -o "out/$name.o"
    "$kit/bin/rattle-link" --target x86_64-unknown-linux-gnu --toolchain "$kit/toolchain" -o "$out/$name" "$out/$name.o" "$kit/c/libos_c.a" "$kit/c/liblibc_c.a"
    chmod +x "$out/$name"
done
