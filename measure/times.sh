#!/usr/bin/env bash
# Compares the program with hfsutils, and with fsck.hfs if it is installed, on volumes of 6,000 items and of 400: the time of one
# run in milliseconds, the best of some runs, the ratio of ours to theirs, and the most memory. The program reads and checks both trees before
# it prints anything, so its times grow with the trees, and hfsutils gives each a 128th of a volume.
#
# measure/times.sh [lists]        with `lists` also every folder of the smaller volumes, by one run and by a run for each
. "$(dirname "$0")/../tests/beside.sh"
with_lists=${1:-}

# The best of so many runs of a command, in microseconds.
best() {
    local runs=$1 least=999999999 begin end n
    shift
    for n in $(seq "$runs"); do
        begin=$(date +%s%N)
        "$@" > /dev/null
        end=$(date +%s%N)
        if [ $(((end - begin) / 1000)) -lt $least ]; then least=$(((end - begin) / 1000)); fi
    done
    echo "$least"
}

# Lists the root and every folder in it, a run of our program for each.
list_each() {
    local kind id rest
    "$tool" ls "$1" | while read -r kind id rest; do
        if [ "$kind" = d ]; then "$tool" ls "$1" "$id"; fi
    done
}

# The same by hfsutils.
peer_list_each() {
    local name
    hls -a1 | while read -r name; do
        if [ "$name" != megabyte ]; then hls -la ":$name"; fi
    done
}

report() {
    awk -v what="$1" -v ours="$2" -v theirs="$3" \
        'BEGIN { printf "    %s: %.1f ms to %.1f ms, ratio %.2f\n", what, ours / 1000, theirs / 1000, ours / theirs }'
}

# Millions of instructions of a command.
instructions() {
    valgrind --tool=callgrind --callgrind-out-file=/dev/null "$@" 2>&1 > /dev/null | awk '/Collected/ { printf "%.1f", $4 / 1e6 }'
}

# What `check` and fsck.hfs take of a volume, in instructions.
count_beside() {
    if command -v valgrind > /dev/null && command -v fsck.hfs > /dev/null; then
        awk -v ours="$(instructions "$tool" check "$1")" -v theirs="$(instructions fsck.hfs -fn "$1")" \
            'BEGIN { printf "    check to fsck.hfs -n: %.1f to %.1f million instructions, ratio %.2f\n", ours, theirs, ours / theirs }'
    else
        echo '    instructions are not counted: fsck.hfs or valgrind is not installed'
    fi
}

# What `items` and `hls -laR` take of the volume that is mounted, in instructions, and what `check` and `ls` of the root take.
count_items() {
    if command -v valgrind > /dev/null; then
        awk -v ours="$(instructions "$tool" items "$1")" -v theirs="$(instructions hls -laR)" -v check="$(instructions "$tool" check "$1")" \
            -v list="$(instructions "$tool" ls "$1")" \
            'BEGIN { printf "    items to hls -laR: %.1f to %.1f million instructions, ratio %.2f; to check: %.2f; ls to check: %.2f\n", ours, theirs,
                ours / theirs, ours / check, list / check }'
    fi
}

# The most memory that a command takes, in MB.
memory() {
    python3 -c 'import resource, subprocess, sys
subprocess.run(sys.argv[1:], stdout=subprocess.DEVNULL)
print(f"{resource.getrusage(resource.RUSAGE_CHILDREN).ru_maxrss / 1024:.1f}")' "$@"
}

# Measures on a volume of this size with so many files in each of 200 folders.
measure() {
    local volume=$folder/many.img ours
    rm -f "$volume"
    sh measure/make_volume.sh "$volume" "$1" "$2" > /dev/null
    hmount "$volume" > /dev/null
    echo "$((200 + 200 * $2)) items in $1:"
    ours=$(best 31 "$tool" check "$volume")
    if command -v fsck.hfs > /dev/null; then
        report 'check to fsck.hfs -n' "$ours" "$(best 31 fsck.hfs -fn "$volume")"
    else
        awk -v ours="$ours" 'BEGIN { printf "    check: %.1f ms; fsck.hfs is not installed\n", ours / 1000 }'
    fi
    count_beside "$volume"
    report 'ls of the root to hls -la' "$(best 31 "$tool" ls "$volume")" "$(best 31 hls -la)"
    report 'items to hls -laR' "$(best 31 "$tool" items "$volume")" "$(best 31 hls -laR)"
    count_items "$volume"
    echo "    memory of check and of ls: $(memory "$tool" check "$volume") and $(memory "$tool" ls "$volume") MB"
    if [ "$2" -gt 1 ]; then measure_fork "$volume"; fi
    if [ -n "$with_lists" ] && [ "$1" != 200M ] && [ "$1" != 2000M ]; then measure_lists "$volume"; fi
    humount
}

# Measures on a file of 1 MB in the volume that is mounted.
measure_fork() {
    hcopy -r "$folder/megabyte" :megabyte
    report 'cat of 1 MB to hcopy -r' "$(best 31 "$tool" cat "$1" 2 megabyte)" "$(best 31 hcopy -r :megabyte "$folder/copy")"
}

# Measures lists of every folder: by one run of a script, and by a run for each.
measure_lists() {
    { echo 2 && "$tool" ls "$1" | awk -F'\t' '$1 == "d" { print $2 }'; } | sed 's/^/1\tlist\t/' > "$folder/lists"
    report 'every folder to hls -laR' "$(best 31 "$tool" run "$1" "$folder/lists")" "$(best 31 hls -laR)"
    report 'a run for each folder to a run for each' "$(best 2 list_each "$1")" "$(best 2 peer_list_each)"
}

head -c 1048576 /dev/urandom > "$folder/megabyte"
measure 800K 1
measure 6M 29
measure 20M 29
measure 200M 29
measure 2000M 29
python3 tests/slow_volumes.py plain 60000 30 "$folder/more.img"
echo '60,000 items in 30M:'
count_beside "$folder/more.img"
