#!/usr/bin/env bash
# What our program and others make of damaged volumes: a floppy with a few bytes of its catalog changed. Prints for each
# damage what `check` prints, how `hls -laR` of hfsutils ends ('ends with N', by which signal, or 'runs on' after five
# seconds), and what fsck.hfs says, if it is installed.
. "$(dirname "$0")/beside.sh"
catalog=$((16 * 512)) # where the floppy's catalog begins

# How a command ends.
ending() {
    local status=0
    timeout 5 "$@" > "$folder/printed" 2>&1 || status=$?
    case $status in
        124) echo 'runs on' ;;
        139) echo 'ends by a segmentation fault' ;;
        *) echo "ends with $status" ;;
    esac
}

# Tells of the floppy with other bytes in its catalog, from a place on.
tell() {
    change "$volumes/hfsutils-800k.img" $((catalog + $2)) "$3"
    echo "$1:"
    echo "    check: $("$tool" check "$folder/changed.img" | head -n 1)"
    hmount "$folder/changed.img" > /dev/null
    echo "    hls -laR: $(ending hls -laR 2>&1), with $(grep -c '^ *[dfF]' "$folder/printed" || true) items"
    humount
    if command -v fsck.hfs > /dev/null; then
        echo "    fsck.hfs -n: $(ending fsck.hfs -fn "$folder/changed.img")"
    fi
}

tell 'sound' 0 '\000'
tell 'the root node is its own child' $((3 * 512 + 52)) '\000\000\000\003'
tell 'a record begins outside its node' $((1 * 512 + 510)) '\352\140'
tell 'a leaf is linked to itself' $((2 * 512)) '\000\000\000\002'
tell 'a leaf has no record' $((1 * 512 + 10)) '\000\000'
