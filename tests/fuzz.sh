#!/usr/bin/env bash
# Changes real volumes in ways that know their format, and runs every word of the program on each, for the given time. It stops at a signal, at a
# status outside 0 to 5, if a word takes too long for the image's size, at an image that a word changed, and if the words do not agree
# with one another, or not on an image by its path and on the same image from a pipe. The same seed gives the same images in the same order.
#
# tests/fuzz.sh SECONDS [SEED [FOLDER]]        tries images for so many seconds, made of those of the repository, or of the *.img of FOLDER
# tests/fuzz.sh image N SEED [FOLDER]          tries the image N of that seed alone, and leaves it as fuzzed.img in the folder where it was called
#
# At the end it prints how many images it tried and how many words it ran, or what stopped it and the words that repeat that.
kept=$PWD/fuzzed.img
. "$(dirname "$0")/common.sh"
command -v python3 > /dev/null || { echo skipped; exit 0; }
tool=$(program hfs_tool)

folder=$(mktemp -d)
trap 'rm -rf "$folder"' EXIT

# Old and hostile volumes of a megabyte, which the words take as sound.
lay() {
    python3 tests/slow_volumes.py "$1" "$2" 1 "$folder/$1.img"
}

if [ "${1:-}" = image ]; then given=${4:-}; else given=${3:-}; fi
if [ -z "$given" ]; then
    given=$folder
    cp tests/volumes/*.img "$folder"
    lay deep 60
    lay tall 100
    lay cut_catalog_shuffled 300
    lay cut_catalog_empty 100
    lay cut_file_empty 60
    lay cut_files 100
fi
python3 tests/fuzz.py "$tool" "$given" "$folder" "$kept" "$@"
