#!/usr/bin/env bash
# Measures what each part of the gate takes: it clones a repository as its last commit has it, and does in the clone what .ci/run
# does, from nothing: `rt ci --anew`, so that every proof is done; the wrong bodies of tests/wrong_bodies.py --gate, with no result
# kept; and the scripts, side by side. It prints the processor time of each part, in minutes and, where measure/unit.sh's seconds
# are given, in that unit; then that of each crate. Nothing else should run on the machine.
#
# measure/gate.sh [UNIT [REPOSITORY]], as in: measure/gate.sh 95.2. The repository is this one if none is named.
# What `rt` says goes to gate.log in the folder that it is called in, and what wrong bodies and scripts say to gate-scripts.log.
set -euo pipefail
root=$(cd "$(dirname "$0")/.." && pwd)
unit=${1:-0}
repository=$(cd "${2:-$root}" && pwd)
here=$PWD
folder=$(mktemp -d)
trap 'rm -rf "$folder"' EXIT

# Runs a part and prints its minutes of processor time, and their units.
measured() {
    local name=$1 user system clock
    shift
    TIMEFORMAT='%U %S %R'
    read -r user system clock < <({ time "$@" >> "$here/gate-scripts.log" 2>&1; } 2>&1 | tail -n 1)
    awk -v u="$user" -v s="$system" -v c="$clock" -v unit="$unit" -v name="$name" 'BEGIN {
        printf "%8.1f%s  %s, %.1f minutes on the clock\n", (u + s) / 60, unit > 0 ? sprintf("%8.2f", (u + s) / unit) : "", name, c / 60 }'
}

git clone --quiet "$repository" "$folder/clone"
RT_JOBS=$("$root/scripts/lanes.sh") python3 "$root/measure/parts.py" "$folder/clone" "$here/gate.log" "$unit"
: > "$here/gate-scripts.log"
cd "$folder/clone"
XDG_CACHE_HOME=$folder/cache measured 'wrong bodies that each gate tries' tests/wrong_bodies.py --gate
measured 'scripts' .ci/run --scripts
tail -n 1 "$here/gate-scripts.log"
