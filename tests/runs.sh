#!/usr/bin/env bash
# Tests that `run` answers and writes the same of an image by its path, of which it reads what it needs, and from a pipe, which it loads whole;
# tests/runs.py says of which images and scripts. At the end it prints how many there were, or the first that differs.
. "$(dirname "$0")/common.sh"
command -v python3 > /dev/null || { echo skipped; exit 0; }
tool=$(program hfs_tool)
python3 tests/runs.py "$tool" "$PWD/tests/volumes"
