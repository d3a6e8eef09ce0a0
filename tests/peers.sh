#!/usr/bin/env bash
# Compares the program with hfsutils, another program that reads and writes HFS volumes, both ways: what hfsutils wrote
# is listed and read by ours, and what ours wrote is mounted, listed and filled by hfsutils. Prints 'peers agree', or
# 'skipped' if hfsutils is not installed, or what differs and ends with status 1.
. "$(dirname "$0")/beside.sh"
command -v python3 > /dev/null || { echo 'skipped: python3 is not installed'; exit 0; }

# Writes the image that calls leave of another, each of them compared with the definitions meanwhile (tests/real_changes.py).
leave() {
    python3 tests/real_changes.py leave "$@"
}

folders=0

fail() {
    echo "peers differ: $1"
    exit 1
}

# The items of a folder as hfsutils lists them, in the form of our `ls`: kind, ID, valence or data length, 0 or resource
# length, name.
peer_list() {
    hls -ila "$1" | sed -E -n \
        -e 's/^ *([0-9]+) d +([0-9]+) items? +[A-Z].{11} (.*)$/d\t\1\t\2\t0\t\3/p' \
        -e 's/^ *([0-9]+) [fF]i? +.{9} +([0-9]+) +([0-9]+) +[A-Z].{11} (.*)$/f\t\1\t\3\t\2\t\4/p'
}

# Compares the lists of a folder, given by its path and its ID, and of the folders in it, and the data forks of its files.
compare_folder() {
    local image=$1 path=$2 id=$3 kind item length rest name
    folders=$((folders + 1))
    peer_list "$path" > "$folder/theirs"
    "$tool" ls "$image" "$id" > "$folder/ours" || fail "ls $id of $image ends with $?"
    diff "$folder/theirs" "$folder/ours" || fail "the lists of $path in $image"
    cp "$folder/ours" "$folder/items.$id"
    while IFS=$'\t' read -r kind item length rest name; do
        if [ "$kind" = d ]; then
            compare_folder "$image" "$path$name:" "$item"
        else
            hcopy -r "$path$name" "$folder/theirs" || fail "hcopy of $path$name"
            "$tool" cat "$image" "$id" "$name" > "$folder/ours" || fail "cat of $path$name ends with $?"
            cmp "$folder/theirs" "$folder/ours" || fail "the data fork of $path$name in $image"
        fi
    done < "$folder/items.$id"
}

# Fills the mounted volume with folders and files.
fill() {
    local n
    head -c 5000 /dev/urandom > "$folder/some bytes"
    hmkdir :One :One:Two :Empty
    for n in 1 2 3 4 5 6 7 8 9 10 11 12; do
        hcopy -r "$folder/some bytes" ":One:file $n"
        hcopy -r "$folder/some bytes" ":One:Two:File $n"
    done
    hdel ':One:file 3'
    hrename ':One:file 4' ':Empty:moved'
}

# Fills the mounted volume, and has hfsutils put one file into the gaps between others.
fill_gaps() {
    local n count=0
    hmkdir :One
    for n in 5 6 8; do hcopy -r "$folder/some bytes" ":One:file $n"; done
    while hcopy -r "$folder/some bytes" ":gap $((count + 1))" 2> /dev/null; do count=$((count + 1)); done
    hdel ":gap $((count + 1))" 2> /dev/null || true
    for ((n = 1; n <= count; n += 2)); do hdel ":gap $n"; done
    head -c 60000 /dev/urandom > "$folder/many bytes"
    hcopy -r "$folder/many bytes" ':One:file 7'
}

# The number that lies at a place in a file, of two bytes or of four.
number_at() {
    od -An -t u1 -j "$2" -N "$3" "$1" | awk '{ for (i = 1; i <= NF; i++) n = n * 256 + $i } END { print n }'
}

# How many records the extents tree has, by its header node.
overflow_records() {
    local start size first
    start=$(number_at "$1" $((1024 + 28)) 2)
    size=$(number_at "$1" $((1024 + 20)) 4)
    first=$(number_at "$1" $((1024 + 134)) 2)
    number_at "$1" $((start * 512 + first * size + 20)) 4
}

check_sound() {
    [ "$("$tool" check "$1" | head -n 1)" = sound ] || fail "check of $1"
}

# The lines of all items as hfsutils shows them, folder by folder.
peer_lines() {
    hls "$@" | grep -E '^ *([0-9]+ )?[dfF]'
}

# The same without what calls set: ID, kind, valence or lengths, and name.
peer_items() {
    peer_lines -ilaR | sed -E \
        -e 's/^( *[0-9]+ )[fF][ i] .{9}( +[0-9]+ +[0-9]+ )[A-Z][a-z]{2} [ 0-9]{2} .{5} /\1f\2/' \
        -e 's/^( *[0-9]+ d +[0-9]+ items? +)[A-Z][a-z]{2} [ 0-9]{2} .{5} /\1/'
}

# Wants that each line is a folder's with this date, or a file's of this kind with this date and the type and creator that are set.
wants_lines() {
    local kind=$1 date=$2 what=$3
    [ -s "$folder/lines" ] || fail "there are no lines of $what"
    ! grep -v -E "^(d +[0-9]+ items? +$date |$kind  Type/Made +[0-9]+ +[0-9]+ $date )" "$folder/lines" || fail "$what"
}

# Wants of a volume that hfsutils tells what our calls have set, with files of this kind, and otherwise the items in 'before'.
compare_set() {
    local image=$1 kind=$2
    hmount "$image" > /dev/null
    peer_lines -laR > "$folder/lines"
    wants_lines "$kind" 'Dec 31  1999' 'the dates of change'
    peer_lines -lacR > "$folder/lines"
    wants_lines "$kind" 'Feb  3  2001' 'the dates of creation'
    peer_items > "$folder/after"
    humount
    diff "$folder/before" "$folder/after" || fail "the items of $image"
}

# Sets all items of a volume by calls, locks its files and unlocks them, and has hfsutils tell of it.
compare_settings() {
    local image=$1
    hmount "$image" > /dev/null
    peer_items > "$folder/before"
    humount
    leave set "$image" "$folder/locked.img" || fail "the items of $image are not set"
    check_sound "$folder/locked.img"
    compare_set "$folder/locked.img" F
    leave unlock "$folder/locked.img" "$folder/unlocked.img" || fail "the files of $image are not unlocked"
    check_sound "$folder/unlocked.img"
    compare_set "$folder/unlocked.img" f
}

# Copies what hfsutils reads of each file below a folder to a file named by its ID: the lengths of both forks, and the forks.
copy_forks() {
    local path=$1 to=$2 kind item name
    while IFS=$'\t' read -r kind item _ _ name; do
        if [ "$kind" = d ]; then
            copy_forks "$path$name:" "$to"
        else
            hcopy -m "$path$name" "$folder/macbinary" || fail "hcopy of $path$name"
            dd if="$folder/macbinary" of="$to/$item" bs=1 skip=83 count=8 2> /dev/null
            tail -c +129 "$folder/macbinary" >> "$to/$item"
        fi
    done < <(peer_list "$path")
}

# The same of a whole volume, into a new folder.
copy_volume() {
    mkdir "$2"
    hmount "$1" > /dev/null
    copy_forks : "$2"
    humount
}

# The four bytes of an image's next ID, as a number.
next_id() {
    echo $((16#$(od -An -tx1 -j 1054 -N 4 "$1" | tr -d ' ')))
}

# What fsck.hfs finds wrong with an image. It wants zeros where hfsutils writes none, and of the nodes that hfsutils gave back as they were it names the first alone.
faults_of() {
    fsck.hfs -fn "$1" | grep '^ ' | grep -v -e Executing -e 'The volume name' | sed 's/^\( *Unused node is not erased\).*/\1/' | sort
}

# Wants that fsck.hfs, where that is installed, finds nothing wrong with an image that it didn't before.
check_by_fsck() {
    command -v fsck.hfs > /dev/null || return 0
    [ -z "$(comm -13 <(faults_of "$1") <(faults_of "$2"))" ] || fail "fsck.hfs of the story on $1"
}

# Wants that hfsutils shows the story's items in the mounted volume: the names in their order, the IDs and the date of what is new.
compare_items() {
    local home=$1 line
    peer_list : | grep -x "d.$home.7.0.Made by calls" > /dev/null || fail "the folder of the story"
    peer_list ':Made by calls:' > "$folder/story"
    printf '%s\n' 'made 1' 'MADE 2' 'made 4' 'made 5' 'Moved 1' 'Moved 2' 'Moved 3' > "$folder/names"
    cut -f 5 "$folder/story" | diff "$folder/names" - || fail "the names of the story"
    cut -f 2 "$folder/story" | head -n 4 > "$folder/numbers"
    printf '%s\n' $((home + 2)) $((home + 3)) $((home + 5)) $((home + 6)) | diff "$folder/numbers" - || fail "the IDs of the story"
    for line in "d  *7 items  *Jan  1  2002 Made by calls" "f  .* 0  *0 Jan  1  2002 made 5"; do
        peer_lines -laR | grep -x "$line" > /dev/null || fail "the dates of the story: $line"
    done
}

# Has hfsutils make, fill, rename and delete items in the mounted volume, those of the story too.
change_by_peer() {
    head -c 5000 /dev/urandom > "$folder/some bytes"
    hmkdir ':Made by calls:By hfsutils'
    hcopy -r "$folder/some bytes" ':Made by calls:By hfsutils:copied'
    hcopy -r "$folder/some bytes" ':Made by calls:copied'
    hdel ':Made by calls:Moved 2'
    hdel ':Made by calls:made 1'
    hrename ':Made by calls:MADE 2' ':Made by calls:By hfsutils:renamed'
}

# Has items of a volume made, renamed and moved by calls, and hfsutils tell of them, read all forks, and go on with changes of its own.
compare_story() {
    local image=$1 number=$2
    copy_volume "$image" "$folder/before.$number"
    leave story "$image" "$folder/story.img" || fail "the story on $image"
    check_sound "$folder/story.img"
    check_by_fsck "$image" "$folder/story.img"
    copy_volume "$folder/story.img" "$folder/after.$number"
    for file in "$folder/before.$number"/*; do
        cmp "$file" "$folder/after.$number/$(basename "$file")" || fail "a fork behind the story on $image"
    done
    hmount "$folder/story.img" > /dev/null
    compare_items "$(next_id "$image")"
    change_by_peer
    humount
    check_sound "$folder/story.img"
}

# The ID of the item of that name in a folder.
id_of() {
    "$tool" ls "$1" "$2" | awk -F'\t' -v name="$3" '$5 == name { print $2 }'
}

# A script for a volume that hfsutils filled: one worker makes a folder, of that ID, with items new and moved; another deletes and
# renames beside it, and a viewer reads.
write_script() {
    local home=$1 one=$2
    printf '1\tmkdir\t2\tRun by script\n1\tcreate\t%s\tnew 1\n1\tcreate\t%s\tnew 2\n' "$home" "$home"
    printf '2\tdelete\t%s\tfile 7\n2\trename\t%s\tfile 8\tFile Eight\nv1\tlist\t2\n' "$one" "$one"
    printf '1\trename\t%s\tnew 1\tNEW ONE\n1\tmove\t%s\tfile 5\t%s\n1\tmove\t%s\tfile 6\t%s\n' "$home" "$one" "$home" "$one" "$home"
    printf '1\tdelete\t%s\tnew 2\n1\tlock\t%s\tfile 5\n' "$home" "$home"
    printf '1\tsetinfo\t%s\tfile 6\t3029529600\t3029529600\t0\t547970654d616465%048d\n' "$home" 0
}

# Wants that hfsutils shows what the script made in the mounted volume, with its IDs, its dates and the lock.
compare_made() {
    local home=$1 line
    peer_list : | grep -x "d.$home.3.0.Run by script" > /dev/null || fail "the folder of the script"
    peer_list ':Run by script:' | cut -f 5 | diff <(printf '%s\n' 'file 5' 'file 6' 'NEW ONE') - || fail "the names of the script"
    [ "$(peer_list ':Run by script:' | tail -n 1 | cut -f 2)" = $((home + 1)) ] || fail "the ID of the script's file"
    peer_list ':One:' | cut -f 5 | grep -x 'File Eight' > /dev/null || fail "the name that the script gave"
    ! peer_list ':One:' | cut -f 5 | grep -x 'file 7' > /dev/null || fail "the file that the script deleted"
    for line in 'F  .*file 5' 'f  Type/Made .*Jan  1  2000 file 6' 'f  .* 0  *0 Jan  1  2002 NEW ONE'; do
        peer_lines -l ':Run by script:' | grep -x "$line" > /dev/null || fail "the script: $line"
    done
}

# Runs a script on a volume that hfsutils filled, and has hfsutils tell of it, read all forks, and go on with changes of its own.
compare_run() {
    local image=$1 number=$2 home one gone file
    home=$(next_id "$image")
    one=$(id_of "$image" 2 One)
    gone=$(id_of "$image" "$one" 'file 7')
    copy_volume "$image" "$folder/before.run.$number"
    write_script "$home" "$one" > "$folder/script"
    "$tool" run "$image" "$folder/script" --now 3092688000 --out "$folder/run.img" > "$folder/answers" || fail "the script on $image"
    [ "$(cut -f 3 "$folder/answers" | grep -c -x 0)" = "$(wc -l < "$folder/script")" ] || fail "the answers on $image"
    check_sound "$folder/run.img"
    check_by_fsck "$image" "$folder/run.img"
    copy_volume "$folder/run.img" "$folder/after.run.$number"
    [ ! -e "$folder/after.run.$number/$gone" ] || fail "a deleted file behind the script on $image"
    rm "$folder/before.run.$number/$gone"
    for file in "$folder/before.run.$number"/*; do
        cmp "$file" "$folder/after.run.$number/$(basename "$file")" || fail "a fork behind the script on $image"
    done
    hmount "$folder/run.img" > /dev/null
    compare_made "$home"
    hmkdir ':Run by script:By hfsutils'
    hcopy -r "$folder/some bytes" ':Run by script:By hfsutils:copied'
    hdel ':Run by script:file 6'
    hrename ':Run by script:NEW ONE' ':Run by script:By hfsutils:renamed'
    humount
    check_sound "$folder/run.img"
}

# A volume that hfsutils made.
dd if=/dev/zero of="$folder/theirs.img" bs=1024 count=1440 2> /dev/null
hformat -l Theirs "$folder/theirs.img" > /dev/null
hmount "$folder/theirs.img" > /dev/null
fill
compare_folder "$folder/theirs.img" : 2
humount
check_sound "$folder/theirs.img"

# A volume that our program made, filled by hfsutils.
"$tool" new "$folder/ours.img" Ours 2880 60 10 || fail "new ends with $?"
check_sound "$folder/ours.img"
hmount "$folder/ours.img" > /dev/null
fill
compare_folder "$folder/ours.img" : 2
humount
check_sound "$folder/ours.img"

# The same where both trees have map nodes: one the extents file, two the catalog.
"$tool" new "$folder/mapped.img" Mapped 20000 5985 2049 || fail "new ends with $?"
check_sound "$folder/mapped.img"
hmount "$folder/mapped.img" > /dev/null || fail 'hfsutils mounts no volume with map nodes'
fill
compare_folder "$folder/mapped.img" : 2
humount
check_sound "$folder/mapped.img"

# Dates, types and locks that our calls set, on volumes of others and on our own.
for name in hfsutils-800k hfsutils-1440k-names; do
    cp "$volumes/$name.img" "$folder/given.img"
    compare_settings "$folder/given.img"
done
compare_settings "$folder/ours.img"

# Items that our calls make, rename and move, on volumes that hfsutils filled.
compare_story "$folder/theirs.img" 1
compare_story "$folder/ours.img" 2

# Items that scripts make, rename, move, delete and lock, on the same volumes.
compare_run "$folder/theirs.img" 1
compare_run "$folder/ours.img" 2

# The same where the deleted file lies in many extents.
"$tool" new "$folder/gaps.img" Gaps 1600 100 6 || fail "new ends with $?"
hmount "$folder/gaps.img" > /dev/null
fill_gaps
humount
[ "$(overflow_records "$folder/gaps.img")" -ge 3 ] || fail 'the file lies in few extents'
compare_run "$folder/gaps.img" 3
[ "$(overflow_records "$folder/run.img")" = 0 ] || fail "a deleted file's extents"

echo "peers agree: $folders folders listed and read by both"
