#!/usr/bin/env bash
# Measures the calls of viewers and of a worker that read, and libhfs where its folder is given, in a volume of 60,000 items, in one run; and
# workers and viewers side by side. The folder is the one in the source of hfsutils 3.2.6, where `./configure && make libhfs.a` was run.
#
# measure/row_times.sh [FOLDER-OF-LIBHFS]
set -euo pipefail
cd "$(dirname "$0")/.."
folder=$(mktemp -d)
trap 'rm -rf "$folder"' EXIT

if [ $# -gt 0 ]; then
    cc -O2 -I"$1" measure/libhfs_times.c "$1/libhfs.a" -o "$folder/libhfs_times"
    truncate -s 30M "$folder/many.img"
    "$folder/libhfs_times" make "$folder/many.img"
    cp "$folder/many.img" "$folder/changed.img"
    "$folder/libhfs_times" "$folder/changed.img"
else
    echo 'libhfs is not measured: its folder is not given'
    python3 tests/slow_volumes.py plain 60000 30 "$folder/many.img"
fi
python3 measure/run_times.py rows "$folder/many.img"
python3 measure/run_times.py shared
