#!/usr/bin/env bash
# What the program does, before anything is proved: builds crates/hfs_tool/out/hfs_tool.unproved, in some two minutes of one
# processor, and shows a stored disk with it. The program stays, says '(not proved)' of itself by --version, and is built anew
# where a source is newer. What the proved program prints is the same; scripts/build.sh builds that.
set -euo pipefail
cd "$(dirname "$0")/.."
tool=crates/hfs_tool/out/hfs_tool.unproved
disk=tests/volumes/hfsutils-800k.img

if [ ! -x "$tool" ] || [ -n "$(find crates -name '*.rt' -newer "$tool" -print -quit)" ]; then
    mkdir -p crates/hfs_tool/out
    python3 scripts/unproved_program.py hfs_tool "$tool" -O0
fi

# Prints a command line and runs it.
show() {
    printf '\n$ %s\n' "$1"
    eval "${1/#hfs_tool/\"\$tool\"}"
}
show 'hfs_tool --version'
show "hfs_tool check $disk"
show "hfs_tool items $disk | cut -f 1,2,14,15"
show "hfs_tool ls $disk --path 'My Floppy:Games'"
show "hfs_tool < $disk"
