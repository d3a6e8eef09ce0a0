#!/usr/bin/env bash
# How long calls take, and how long libhfs takes for the same where its folder is given, on volumes of 6,000 items and of three sizes. The
# folder is that of libhfs in the source of hfsutils 3.2.6, built by its `configure` and `make`.
#
# measure/call_times.sh [FOLDER-OF-LIBHFS]
set -euo pipefail
cd "$(dirname "$0")/.."
if [ $# = 0 ]; then
    echo 'libhfs is not measured: its folder is not given'
    exec python3 measure/run_times.py calls
fi
libhfs=$1
work=$(mktemp -d)
trap 'rm -rf "$work"' EXIT

cc -O2 -I "$libhfs" measure/call_times.c "$libhfs/libhfs.a" -o "$work/libhfs"
# it leaves a catalog with room for our calls, which never make its file longer
cc -O2 -DFILES=8 -I "$libhfs" measure/call_times.c "$libhfs/libhfs.a" -o "$work/room"
for size in 6M 20M 64M; do
    sh measure/make_volume.sh "$work/many.img" "$size"
    echo "$size"
    "$work/room" "$work/many.img" > "$work/printed"
    python3 measure/run_times.py calls "$work/many.img"
    "$work/libhfs" "$work/many.img"
done
