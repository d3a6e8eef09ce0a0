#!/usr/bin/env bash
# Measures the program on sound volumes that are old or hostile, compared with plain ones of as many items and bytes, and fails if
# it takes more than three times as long. It is run by hand, and no part of the gate.
#
# measure/slow.sh [time]
#
# What is counted are instructions, by callgrind of valgrind, where that is installed, and else, or where `time` is asked for,
# processor time. `cat` is always measured in time, since bytes that are copied cost time and hardly an instruction. Counting
# takes about seven minutes, and a command that takes more than five by itself fails its row. Both volumes of a row have as many records (those of the catalog and of the extents tree) and as many bytes, or
# as many bytes in their one file. Where fsck.hfs is installed it is asked whether each volume is sound.
set -euo pipefail
cd "$(dirname "$0")/.."
tool=${HFS_TOOL:-$PWD/crates/hfs_tool/out/hfs_tool}
[ -x "$tool" ] || (cd crates/hfs_tool && rt run < stdin > /dev/null)

folder=$(mktemp -d)
trap 'rm -rf "$folder"' EXIT
failed=0
if [ "${1:-}" != time ] && command -v valgrind > /dev/null; then unit='million instructions'; else unit='ms'; fi

# What a command costs: millions of instructions, or else the least processor time of five runs in milliseconds.
cost() {
    local least=999999999 spent n
    if [ "$unit" = ms ]; then
        for n in 1 2 3 4 5; do
            spent=$( { TIMEFORMAT='%U %S'; time "$@" > /dev/null; } 2>&1 | awk '{ printf "%d", ($1 + $2) * 1000 }')
            if [ "$spent" -lt "$least" ]; then least=$spent; fi
        done
        echo "$least"
    else
        { timeout 300 valgrind --tool=callgrind --callgrind-out-file=/dev/null "$@" 2>&1 > /dev/null || true; } \
            | awk '/Collected/ { printf "%.1f\n", $4 / 1e6 }'
    fi
}

# Makes a volume, and sees that it is sound.
make() {
    local told status
    python3 tests/slow_volumes.py "$1" "$2" "$3" "$folder/$1.img"
    if ! told=$("$tool" check "$folder/$1.img"); then
        echo "$1: $(echo "$told" | head -n 1)"
        failed=1
    fi
    if command -v fsck.hfs > /dev/null; then
        # a shell of its own, which says nothing of a program that ends by a fault
        status=$( { fsck.hfs -fn "$folder/$1.img" > "$folder/told" 2>&1; echo $?; } 2> /dev/null)
        case $status in
            0) ;;
            139) echo "$1: fsck.hfs ends by a segmentation fault" ;;
            *) echo "$1: fsck.hfs says '$(grep -v '^\*\*\|Executing\|volume name' "$folder/told" | head -n 1)'" ;;
        esac
    fi
}

# One row: the kind and its count, the plain kind and its count, the size in megabytes, and the words behind the image.
row() {
    local kind=$1 count=$2 plain=$3 beside=$4 size=$5 word=$6 unit=$unit ours theirs
    shift 6
    if [ "$word" = cat ]; then unit=ms; fi
    make "$kind" "$count" "$size"
    make "$plain" "$beside" "$size"
    ours=$(cost "$tool" "$word" "$folder/$kind.img" "$@")
    theirs=$(cost "$tool" "$word" "$folder/$plain.img" "$@")
    if [ -z "$ours" ] || [ -z "$theirs" ]; then
        echo "$word of $kind ($count): not counted within five minutes"
        failed=1
        return
    fi
    awk -v what="$word of $kind ($count) to $plain ($beside), $size MB" -v ours="$ours" -v theirs="$theirs" -v unit="$unit" \
        'BEGIN { ratio = ours / theirs; printf "%s: %s to %s %s, ratio %.2f%s\n", what, ours, theirs, unit, ratio, (ratio > 3 ? ", TOO SLOW" : ""); exit (ratio > 3) }' \
        || failed=1
}

# IDs in any order, and IDs that are the same in their low bits: 60,000 items, and 400,000.
row shuffled_numbers 60000 plain 60000 30 check
row falling_numbers 60000 plain 60000 30 check
row far_numbers 60000 plain 60000 30 check
row far_numbers 120000 plain 120000 30 check
row shuffled_numbers 400000 plain 400000 160 check
# Many in one folder, names that differ at their end alone, folders in one another.
row one_folder 60000 plain 60000 30 check
row one_folder 60000 plain 60000 30 ls
row long_names 60000 plain 60000 30 check
row long_names 60000 plain 60000 30 ls
row deep 60000 plain_folders 60000 30 check
row deep_falling 60000 plain_folders 60000 30 check
# Index nodes with one child each, up to 8 and 16 levels.
row tall 60000 plain 60000 80 check
row taller 60000 plain 60000 150 check
# Leaves with one file each.
row sparse 60000 plain 60000 60 check
row sparse 60000 plain 60000 60 ls
# A catalog file in extents of one block, its nodes in any order, and empty extents between them.
row cut_catalog 112000 plain 112000 20 check
row cut_catalog_shuffled 112000 plain 112000 20 check
row cut_catalog_empty 112000 plain 112000 20 check
row cut_catalog_shuffled 112000 plain 112000 20 ls
# A file in extents of one block, 20,000 records of the extents tree; and with empty extents, 62,000 and 64,000 records, about as
# many as there can be, since each has a block.
row cut_file 60000 plain 20000 30 check
row cut_file_empty 62000 plain 62000 63 check
row cut_file_empty 64000 plain 64000 158 check
row cut_file 60000 plain_file 60000 30 cat 2 BIG
row cut_file_empty 62000 plain_file 62000 63 cat 2 BIG
# Files in four extents each, and a record of the extents tree for each.
row cut_files 12000 plain_files 12000 30 check
exit $failed
