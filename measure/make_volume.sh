#!/bin/sh
# Makes a volume with 6,000 items, 200 folders of 29 files each, by the programs of hfsutils; of 20 MB where no size is
# given, at least 6 MB. With other numbers of files there are as many items more or fewer.
#
# sh make_volume.sh VOLUME [SIZE [FILES]]
set -eu
volume=$1
size=${2:-20M}
files=${3:-29}
work=$(mktemp -d)
trap 'rm -rf "$work"' EXIT
# hfsutils keeps the current volume in the home folder
export HOME="$work"

truncate -s "$size" "$volume"
hformat -l Many "$volume" > "$work/log"
mkdir "$work/files"
for file in $(seq -w 1 "$files"); do
    echo "$file" > "$work/files/Letter-of-day-$file"
done
for folder in $(seq -w 1 200); do
    hmkdir ":Folder-$folder"
    hcopy -r "$work"/files/* ":Folder-$folder:"
done
humount > "$work/log"
