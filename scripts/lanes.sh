#!/usr/bin/env bash
# Prints how many checks fit on this machine at once: one for each processor, and one for each 4 GB of free memory
# (a check takes one processor and at most 3 GB; where there are 3 GB or less, it is one). RT_JOBS, if it is set, is printed as it is.
set -euo pipefail
if [ -n "${RT_JOBS:-}" ]; then
    echo "$RT_JOBS"
    exit
fi
processors=$(nproc)
gigabytes=$(awk '/^MemAvailable/ { print int($2 / 1048576) }' /proc/meminfo)
echo $((gigabytes / 4 < processors ? gigabytes / 4 + (gigabytes < 4) : processors))
