#!/usr/bin/env bash
# Tests that `check`, `ls`, `cat` and `repair` print and write the same of an image by its path, of which they read what they need, and from a
# pipe, which they load whole; tests/both_ways.py says of which images. At the end it prints how many there were, or the first that differs.
. "$(dirname "$0")/common.sh"
command -v python3 > /dev/null || { echo skipped; exit 0; }
tool=$(program hfs_tool)
python3 tests/both_ways.py "$tool" "$PWD/tests/volumes"
