#!/usr/bin/env bash
# Measures `check` on the inputs of 64 MB that are known to give it most to do, sound ones and damaged ones, compared with a sound volume of as many
# bytes with 60,000 items, and fails if it takes more than 20 times as long. It is run by hand, takes some minutes, and is no part of the gate.
#
# What is compared is the least processor time of five runs.
set -euo pipefail
cd "$(dirname "$0")/.."
tool=${HFS_TOOL:-$PWD/crates/hfs_tool/out/hfs_tool}
[ -x "$tool" ] || (cd crates/hfs_tool && rt run < stdin > /dev/null)

folder=$(mktemp -d)
trap 'rm -rf "$folder"' EXIT
failed=0

# What `check` costs: the least processor time of five runs in milliseconds. Its first line goes to the file `told`.
cost() {
    local least=999999999 spent n
    for n in 1 2 3 4 5; do
        spent=$( { TIMEFORMAT='%U %S'; time timeout 600 "$tool" check "$1" > "$folder/told" || true; } 2>&1 | awk '{ printf "%d", ($1 + $2) * 1000 }')
        if [ "$spent" -lt "$least" ]; then least=$spent; fi
    done
    echo "$least"
}

# Makes a volume.
make() {
    python3 measure/worst_volumes.py "$1" "$2" 64 "$folder/volume.img"
}

make plain 60000
plain=$(cost "$folder/volume.img")
echo "plain: $plain ms, $(head -n 1 "$folder/told")"

# One row: the kind and its count.
row() {
    local count=$2 ours
    make "$1" "$count"
    ours=$(cost "$folder/volume.img")
    awk -v kind="$1" -v count="$count" -v ours="$ours" -v plain="$plain" -v told="$(head -n 1 "$folder/told")" \
        'BEGIN { ratio = ours / plain; printf "%s (%d): %d ms, ratio %.2f, %s%s\n", kind, count, ours, ratio, told, (ratio > 20 ? ", TOO SLOW" : ""); exit (ratio > 20) }' \
        || failed=1
}

# Sound ones: as many items and nodes as there is room for, folders in one another, trees with as many levels as may be.
row plain 180000
row far_numbers 180000
row shuffled_numbers 180000
row deep 120000
row deep_falling 120000
row taller 28000
row cut_catalog_empty 100000
row cut_file 42000
row cut_files 9000
row map_chain 120000
# Damaged ones, in which the fault is met late: extents over one another, rings of folders, one ID twice, a ring of map nodes.
row overlapped_files 180000
row overlapped_records 120000
row overlapped_blocks 21000
row overlapped_bad_blocks 60000
row orphan_records 9000
row ring 120000
row ring_behind 120000
row one_number 180000
row map_ring 120000
row falling_records 180000
exit $failed
