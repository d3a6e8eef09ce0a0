#!/usr/bin/env bash
# Measures the unit in which docs/TIMES.md counts: the processor time, user and system, of one check of `hfs_btree` as commit
# b9e810a has it, from nothing, with one job, its libraries built, and nothing else on the machine. It prints each run in
# seconds and last the least of them. The check is the one that `rt check` asks for, without rt's own work around it.
#
# measure/unit.sh [RUNS [FOLDER]]: RUNS is 1 where it isn't said. FOLDER, if it is there, is a clone that an earlier run left; if
# not, it is made and stays. With no FOLDER the clone is removed at the end. Its libraries are built in it from nothing, in a few
# minutes, and are as those of any other clone. It reads and writes nothing of what `rt` keeps on the machine.
set -euo pipefail
root=$(cd "$(dirname "$0")/.." && pwd)
runs=${1:-1}
folder=${2:-}
commit=b9e810a

if [ -z "$folder" ]; then
    folder=$(mktemp -d)
    trap 'rm -rf "$folder"' EXIT
fi
if [ ! -d "$folder/.git" ]; then
    git clone --quiet --no-checkout "$root" "$folder"
    git -C "$folder" checkout --quiet --detach "$commit"
fi
cd "$folder"
python3 scripts/build_libraries.py "$("$root/scripts/lanes.sh")" 1 hfs_fields hfs_node hfs_blocks hfs_scans

sums=()
for ((run = 1; run <= runs; run++)); do
    rm -rf crates/hfs_btree/out
    TIMEFORMAT='%U %S %R'
    took=$({ time RT_JOBS=1 scripts/check_one.sh hfs_btree > "$folder/said" 2>&1 || true; } 2>&1)
    [[ $(tail -n 1 "$folder/said") == logic=proved* ]] || { tail -n 5 "$folder/said" && echo "the check failed" && exit 1; }
    read -r user system clock <<< "$took"
    sum=$(awk "BEGIN { printf \"%.1f\", $user + $system }")
    echo "run $run: $sum s of processor time (user $user, system $system), $clock s on the clock"
    sums+=("$sum")
done
echo "the unit: $(printf '%s\n' "${sums[@]}" | sort -n | head -n 1) s"
