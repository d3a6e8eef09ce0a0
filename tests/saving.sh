#!/usr/bin/env bash
# Tries what the words that write a file leave of it: write protection, owner, group and mode,
# second links, links, disks that are full, files that can't grow and runs that are killed in the
# middle of the write; what is printed of files that such runs left; and how paths are printed. Each is
# tried by who runs this; if that is root, by a plain user as well. Prints 'files are left as
# their owner left them', or what differs and ends with status 1.
. "$(dirname "$0")/common.sh"
built=$(program hfs_tool)

folder=$(mktemp -d)
disk=''
answers=0
leave() {
    [ -z "$disk" ] || umount "$disk" 2> /dev/null || true
    rm -rf "$folder"
}
trap leave EXIT
chmod 755 "$folder"
tool=$folder/hfs_tool
cp "$built" "$tool"
umask 022

fail() {
    echo "files differ, by $who: $1"
    exit 1
}

# Wants this status, these bytes on standard output and these on standard error of the program with
# the words behind them.
wants() {
    local status=$1 text=$2 errors=$3 got=0
    shift 3
    answers=$((answers + 1))
    "${as[@]}" "$tool" "$@" > "$folder/printed" 2> "$folder/errors" || got=$?
    [ "$got" = "$status" ] || fail "'$*' ends with $got and prints $(cat "$folder/printed")"
    printf "$text" | cmp -s - "$folder/printed" || fail "'$*' prints $(cat "$folder/printed")"
    printf "$errors" | cmp -s - "$folder/errors" || fail "'$*' writes to standard error: $(cat "$folder/errors")"
}

# All that is to stay of a file: mode, owner, group, times, place on the disk, links and bytes.
state() {
    stat -c '%a %u %g %y %i %h %s' "$1"
    sha256sum < "$1"
}

# Makes the old file: some bytes, with this mode, of the one who runs the program.
lay() {
    rm -f "$here/file.img"
    echo 'what was there' > "$here/file.img"
    if [ -n "$plain" ]; then chown 65534:65534 "$here/file.img"; fi
    chmod "$1" "$here/file.img"
    touch -d '2001-02-03 04:05:06' "$here/file.img"
    state "$here/file.img" > "$folder/old"
}

# Wants the old file as it was, and none beside it but those that a test laid.
is_kept() {
    state "$here/file.img" | cmp -s - "$folder/old" || fail "$1: the old file is not as it was"
    is_alone "$1"
}

is_alone() {
    [ -z "$(find "$here" -name '*.new')" ] || fail "$1: a file is left"
}

# The words that write a file: their words for this one, and what they print.
word() {
    case $1 in
        new) words=(new "$2" D 64 6 2) printed='' ;;
        repair) words=(repair "$folder/wrong.img" "$2") printed='fixed drFilCnt 1 0\nsound\n' ;;
        run) words=(run "$folder/small.img" "$folder/script" --out "$2") printed='1\t1\t0\tid 16\n1\t2\t0\t-\n1\t3\t0\t-\n' ;;
        put) words=(put "$folder/small.img" "$folder/source" --now 5 --out "$2") printed='put\nfiles 1\nfolders 0\nbytes 2\nfree 49\n' ;;
        make) words=(make "$2" "$folder/source" --name D --size 64K --now 5) printed='made\nfiles 1\nfolders 0\nbytes 2\nfree 108\n' ;;
    esac
}

# Wants that a word is refused, with the old file as it was.
refused() {
    word "$1" "$2"
    wants 4 "cannot write $2\n" '' "${words[@]}"
    is_kept "$1 $3"
}

# Wants that a word writes the file at this path, and that a path holds its bytes then.
written() {
    word "$1" "$2"
    wants 0 "$printed" '' "${words[@]}"
    cmp -s "$folder/$1.img" "$3" || fail "$1 does not write $3"
}

who=nobody as=()
"$tool" new "$folder/small.img" D 64 6 2
cp "$folder/small.img" "$folder/new.img"
cp "$folder/small.img" "$folder/repair.img"
cp "$folder/small.img" "$folder/wrong.img"
printf '\000\000\000\001' | dd of="$folder/wrong.img" bs=1 seek=$((2 * 512 + 84)) conv=notrunc 2> "$folder/words"
printf '1\tcreate\t2\ta\n1\twrite\t2\ta\tdata\t0\t6162\n1\tseteof\t2\ta\tres\t900\n' > "$folder/script"
"$tool" run "$folder/small.img" "$folder/script" --out "$folder/run.img" > "$folder/printed"
[ "$("$tool" ls "$folder/run.img" | cut -f 5)" = a ] || fail 'what run writes'
printf ab > "$folder/source"
"$tool" put "$folder/small.img" "$folder/source" --now 5 --out "$folder/put.img" > "$folder/printed"
[ "$("$tool" cat "$folder/put.img" 2 source)" = ab ] || fail 'what put writes'
"$tool" make "$folder/make.img" "$folder/source" --name D --size 64K --now 5 > "$folder/printed"
[ "$("$tool" cat "$folder/make.img" 2 source)" = ab ] || fail 'what make writes'

# Whether a file may be written and by whom: without a permission for anybody no one writes it, root
# neither.
protection() {
    local name
    for name in new repair run put make; do
        for mode in 444 400 555 000; do
            lay "$mode"
            refused "$name" "$here/file.img" "over a file of mode $mode"
        done
        for mode in 600 640 664 666; do
            lay "$mode"
            written "$name" "$here/file.img" "$here/file.img"
            [ "$(stat -c %a "$here/file.img")" = "$mode" ] || fail "$name does not keep the mode $mode"
            is_alone "$name"
        done
        # a group may write it, and its owner may not: root may
        lay 060
        if [ "$who" = root ]; then
            written "$name" "$here/file.img" "$here/file.img"
            [ "$(stat -c %a "$here/file.img")" = 60 ] || fail "$name does not keep the mode 060"
        else
            refused "$name" "$here/file.img" 'over a file that its owner may not write'
        fi
        rm -f "$here/file.img"
        written "$name" "$here/file.img" "$here/file.img"
        [ "$(stat -c %a "$here/file.img")" = 644 ] || fail "the mode of a file that $name makes"
    done
}

# Wants the mode, the owner and the group of the file behind a word that writes it.
owned() {
    chown "$2" "$here/file.img"
    chmod "$3" "$here/file.img"
    written "$1" "$here/file.img" "$here/file.img"
    [ "$(stat -c '%a %u %g' "$here/file.img")" = "$4" ] || fail "$1 leaves $(stat -c '%a %u %g' "$here/file.img") of $2 $3"
}

# Owner and group: root keeps both, a plain user the group, where it is one of theirs.
owners() {
    local name
    for name in new repair run put make; do
        lay 644
        if [ -z "$plain" ]; then
            owned "$name" 1234:3456 640 '640 1234 3456'
            continue
        fi
        owned "$name" 65534:2345 660 '660 65534 2345'
        owned "$name" 65534:3456 660 '660 65534 65534'
        owned "$name" 0:0 666 '666 65534 65534'
        # another's file that may only be read, in a folder where a new one could take its place
        lay 644
        chown 0:0 "$here/file.img"
        state "$here/file.img" > "$folder/old"
        refused "$name" "$here/file.img" "over another's file"
        # a folder that may only be read
        lay 644
        chown 0:0 "$here"
        refused "$name" "$here/file.img" 'into a folder that may only be read'
        refused "$name" "$here/none.img" 'into a folder that may only be read'
        chown 65534:65534 "$here"
    done
}

# The second name of a file keeps the old bytes.
second_links() {
    local name
    for name in new repair run put make; do
        lay 644
        rm -f "$here/second.img"
        ln "$here/file.img" "$here/second.img"
        written "$name" "$here/file.img" "$here/file.img"
        [ "$(cat "$here/second.img")" = 'what was there' ] || fail "$name writes a second name of the file"
    done
    rm "$here/second.img"
}

# Links: to a file, by a folder, to nothing, round in a ring.
links() {
    local name
    mkdir -p "$here/inner"
    if [ -n "$plain" ]; then chown 65534:65534 "$here/inner"; fi
    ln -s file.img "$here/link.img"
    ln -s ../link.img "$here/inner/link.img"
    ln -s none.img "$here/nothing.img"
    ln -s round.img "$here/ring.img"
    ln -s ring.img "$here/round.img"
    mkfifo -m 666 "$here/pipe"
    for name in new repair run put make; do
        for link in link.img inner/link.img; do
            lay 640
            written "$name" "$here/$link" "$here/file.img"
            [ -L "$here/link.img" ] && [ -L "$here/inner/link.img" ] && [ ! -L "$here/file.img" ] || fail "$name: a link is gone"
            [ "$(stat -c %a "$here/file.img")" = 640 ] || fail "$name does not keep the mode behind a link"
        done
        lay 444
        refused "$name" "$here/link.img" 'over a file without permissions behind a link'
        lay 644
        refused "$name" "$here/nothing.img" 'over a link to nothing'
        refused "$name" "$here/ring.img" 'over a ring of links'
        refused "$name" "$here/none/file.img" 'into a folder that is not there'
        refused "$name" "$here/inner" 'over a folder'
        [ -L "$here/nothing.img" ] && [ -L "$here/ring.img" ] && [ ! -e "$here/none.img" ] || fail "$name writes over a link to nothing"
        # what is no regular file is written straight
        cat "$here/pipe" > "$folder/piped" &
        word "$name" "$here/pipe"
        wants 0 "$printed" '' "${words[@]}"
        wait
        cmp -s "$folder/$name.img" "$folder/piped" || fail "$name into a pipe"
        refused "$name" /dev/full 'to a full device'
    done
    rm -r "$here"/*.img "$here/inner" "$here/pipe"
}

# What runs that were stopped left.
leftovers() {
    local name n told
    for name in new repair run put make; do
        lay 644
        echo left > "$here/file.img.0.new"
        word "$name" "$here/file.img"
        told="$here/file.img.0.new is there, left by a run that was stopped\n"
        wants 0 "$printed" "$told" "${words[@]}"
        cmp -s "$folder/$name.img" "$here/file.img" || fail "$name beside a file that was left"
        # the answers come first
        "${as[@]}" "$tool" "${words[@]}" 2>&1 | cmp -s - <(printf "$printed$told") || fail "$name tells a file that was left before its answers"
        echo left > "$here/file.img.1.new"
        wants 0 "$printed" "$told" "${words[@]}"
        rm "$here/file.img.0.new"
        wants 0 "$printed" '' "${words[@]}"
        ln -s file.img "$here/link.img"
        echo left > "$here/file.img.0.new"
        word "$name" "$here/link.img"
        wants 0 "$printed" "$told" "${words[@]}"
        rm "$here/link.img"
        # a name that is taken by a folder or by a link to nothing is taken
        rm "$here/file.img.0.new"
        ln -s nothing "$here/file.img.0.new"
        word "$name" "$here/file.img"
        wants 0 "$printed" "$told" "${words[@]}"
        rm "$here/file.img.0.new"
        [ "$(cat "$here/file.img.1.new")" = left ] && [ "$(find "$here" -name '*.new' | wc -l)" = 1 ] || fail "$name removes a file that was left"
        lay 644
        for n in {0..99}; do echo left > "$here/file.img.$n.new"; done
        wants 4 "cannot write $here/file.img\n" "$told" "${words[@]}"
        state "$here/file.img" | cmp -s - "$folder/old" || fail "$name writes where all names are taken"
        [ "$(cat "$here"/file.img.*.new | grep -c left)" = 100 ] || fail "$name removes a file that was left"
        rm "$here/file.img.99.new"
        wants 0 "$printed" "$told" "${words[@]}"
        [ "$(find "$here" -name '*.new' | wc -l)" = 99 ] || fail "$name where one name is free"
        rm "$here"/*.new
        # a write that fails tells it before the fault
        lay 644
        echo left > "$here/file.img.0.new"
        "${as[@]}" bash -c 'trap "" XFSZ; ulimit -f 16; "$@" 2>&1' sh "$tool" "${words[@]}" > "$folder/printed" && fail "$name past the largest file" || [ $? = 4 ]
        printf "${told}cannot write $here/file.img\n" | cmp -s - "$folder/printed" || fail "$name past the largest file prints $(cat "$folder/printed")"
        state "$here/file.img" | cmp -s - "$folder/old" || fail "$name past the largest file: the old file is not as it was"
        rm "$here/file.img.0.new"
        is_kept "$name past the largest file"
    done
}

# How paths are printed: a byte below $20, $7F and the backslash as a backslash and two digits, all
# others as they are.
paths() {
    local raw=$here/$'a\tb\x1b[31m\n\x01\x1f \x7e\x7f\\c\xc3\xa9.img' shown
    shown=$here/'a\\09b\\1b[31m\\0a\\01\\1f ~\\7f\\5cc'$'\xc3\xa9''.img'
    for name in info check ls; do wants 4 "cannot read $shown\n" '' "$name" "$raw"; done
    wants 4 "cannot read $shown\n" '' cat "$raw" 2 a
    wants 4 "cannot read $shown\n" '' repair "$raw" "$here/out.img"
    wants 4 "cannot read $shown\n" '' run "$raw" "$folder/script"
    wants 4 "cannot read $shown\n" '' run "$folder/small.img" "$raw"
    wants 4 "cannot read $shown\n" '' put "$raw" "$folder/source" --out "$here/out.img"
    wants 4 "cannot read $shown\n" '' put "$folder/small.img" "$raw" --out "$here/out.img"
    wants 4 "cannot read $shown\n" '' make "$here/out.img" "$raw" --name D
    for name in new repair run put make; do
        word "$name" "$raw/none"
        wants 4 "cannot write $shown/none\n" '' "${words[@]}"
        echo left > "$raw.0.new"
        word "$name" "$raw"
        wants 0 "$printed" "$shown.0.new is there, left by a run that was stopped\n" "${words[@]}"
        rm "$raw" "$raw.0.new"
    done
}

# Three of the words with a volume of 4 MB, for writes that take a while. The script writes both forks of a file, some 2 MB of them.
large_word() {
    case $1 in
        new) words=(new "$here/file.img" D 8192 40 4) printed='' ;;
        repair) words=(repair "$folder/large.wrong.img" "$here/file.img") printed='fixed drFilCnt 1 0\nsound\n' ;;
        run) words=(run "$folder/large.small.img" "$folder/large.script" --out "$here/file.img") printed=$(cat "$folder/large.answers") ;;
    esac
}

# Writes that meet a full disk, which has room for a part of the new file.
full_disks() {
    local name
    for name in new repair run; do
        lay 640
        large_word "$name"
        wants 4 "cannot write $here/file.img\n" '' "${words[@]}"
        is_kept "$name on a full disk"
    done
}

# Writes that meet the largest size that a file may have, ninth by ninth of what they write.
cut_off() {
    local name part got
    for name in new repair run; do
        lay 640
        large_word "$name"
        for part in {1..8}; do
            got=0
            "${as[@]}" bash -c 'trap "" XFSZ; ulimit -f "$1"; shift; "$@" 2>&1' sh $((4096 * part / 9)) "$tool" "${words[@]}" > "$folder/printed" || got=$?
            [ "$got" = 4 ] || fail "$name, cut off behind $part ninths, ends with $got"
            printf "cannot write $here/file.img\n" | cmp -s - "$folder/printed" || fail "$name, cut off behind $part ninths, prints $(cat "$folder/printed")"
            is_kept "$name, cut off behind $part ninths"
            answers=$((answers + 1))
        done
    done
}

# Runs that are killed at twenty moments: while the new file grows, twentieth by twentieth.
killed() {
    local name
    for name in new repair run; do
        lay 640
        large_word "$name"
        python3 - "$here/file.img" "$folder/large.$name.img" "${as[@]}" "$tool" "${words[@]}" << 'END' || fail "$name, killed"
import hashlib, os, signal, subprocess, sys, time
path, wanted, words = sys.argv[1], sys.argv[2], sys.argv[3:]
def state():
    found = os.stat(path)
    return (found.st_mode, found.st_uid, found.st_gid, found.st_mtime_ns, found.st_ino, hashlib.sha256(open(path, "rb").read()).hexdigest())
whole = hashlib.sha256(open(wanted, "rb").read()).hexdigest()
size = os.path.getsize(wanted)
old = state()
parts = 0
for moment in range(20):
    beside = f"{path}.{parts}.new"
    run = subprocess.Popen(words, stdout=subprocess.DEVNULL, stderr=subprocess.DEVNULL)
    while run.poll() is None:
        try:
            if os.stat(beside).st_size >= size * moment // 20:
                break
        except OSError:
            pass
    run.send_signal(signal.SIGKILL)
    run.wait()
    now = state()
    if now != old:
        # the new volume had taken its place already: it is whole, with the old one's mode and owner
        if now[:3] != old[:3] or now[5] != whole:
            sys.exit(f"at moment {moment} the file is neither the old nor the new one")
        old = now
    if os.path.exists(beside):
        if os.path.getsize(beside) > size:
            sys.exit(f"at moment {moment} too much is left")
        parts += 1
if parts < 5:
    sys.exit(f"only {parts} of twenty runs were killed in time")
for number in range(parts):
    os.remove(f"{path}.{number}.new")
END
        is_alone "$name, killed"
        lay 640
        wants 0 "$printed" '' "${words[@]}"
        cmp -s "$folder/large.$name.img" "$here/file.img" || fail "$name behind runs that were killed"
    done
}

# Runs over an image of 2,000,000,000 bytes, most of them holes, that another program changes, cuts, makes longer or replaces while it is read.
# The new file stands beside FILE from before the pass over the image on.
changed_while_read() {
    local name words=()
    for name in repair run; do
        lay 640
        case $name in
            repair) words=(repair "$here/image.img" "$here/file.img") ;;
            run) words=(run "$here/image.img" "$folder/script" --out "$here/file.img") ;;
        esac
        changed_by "$name" "${as[@]}" "$tool" "${words[@]}"
    done
}

changed_by() {
    local name=$1
    shift
    python3 - "$folder/$([ "$name" = run ] && echo small || echo wrong).img" "$here/image.img" "$here/file.img" "$@" << 'END' || fail "$name of an image that changes while it is read"
import os, shutil, subprocess, sys
small, path, file, words = sys.argv[1], sys.argv[2], sys.argv[3], sys.argv[4:]
old = open(file, "rb").read()
def touch_byte():
    with open(path, "r+b") as image:
        image.seek(1_000_000_000)
        image.write(b"x")
def replace():
    shutil.copy(small, path + ".other")
    os.rename(path + ".other", path)
for name, change in [("changed", touch_byte), ("cut", lambda: os.truncate(path, 5_000)), ("made longer", lambda: os.truncate(path, 2_100_000_000)),
                     ("replaced", replace)]:
    for _ in range(20):
        shutil.copy(small, path)
        os.truncate(path, 2_000_000_000)
        os.chmod(path, 0o644)
        run = subprocess.Popen(words, stdout=subprocess.PIPE, stderr=subprocess.PIPE)
        while run.poll() is None and not os.path.exists(file + ".0.new"):
            pass
        change()
        printed, errors = run.communicate()
        if run.returncode == 0:
            # it was done before: once more
            with open(file, "wb") as again:
                again.write(old)
            continue
        if (run.returncode, printed, errors) != (4, f"cannot read {path}\n".encode(), b""):
            sys.exit(f"{name}: ends with {run.returncode} and prints {printed} and {errors}")
        if open(file, "rb").read() != old or os.path.exists(file + ".0.new"):
            sys.exit(f"{name}: the file is not as it was, or one is left beside it")
        break
    else:
        sys.exit(f"{name}: never in time")
os.remove(path)
END
    rm -f "$here/file.img"
}

"$tool" new "$folder/large.new.img" D 8192 40 4
cp "$folder/large.new.img" "$folder/large.repair.img"
# Zeros are left out of what repair and run write, so that this image has none in its free blocks.
head -c 3900000 /dev/zero | tr '\000' '\245' | dd of="$folder/large.repair.img" bs=65536 seek=200000 oflag=seek_bytes conv=notrunc 2> "$folder/words"
cp "$folder/large.repair.img" "$folder/large.small.img"
cp "$folder/large.repair.img" "$folder/large.wrong.img"
printf '\000\000\000\001' | dd of="$folder/large.wrong.img" bs=1 seek=$((2 * 512 + 84)) conv=notrunc 2> "$folder/words"
# Zeros, of which some come to the middle of the data fork, and bytes to both forks in turn.
python3 - "$folder" << 'END'
import sys
lines, forks = ['create\t2\ta', 'seteof\t2\ta\tdata\t300000'], {'data': bytes(300_000), 'res': b''}
for number in range(24):
    fork, part = ('data', 'res')[number % 2], bytes([number + 1]) * 65_536
    lines.append(f'write\t2\ta\t{fork}\t{len(forks[fork])}\t{part.hex()}')
    forks[fork] += part
    if number == 8:
        lines.append(f'seteof\t2\ta\tdata\t{len(forks["data"]) + 200_001}')
        forks['data'] += bytes(200_001)
with open(sys.argv[1] + '/large.script', 'w') as file:
    file.writelines(f'1\t{line}\n' for line in lines)
with open(sys.argv[1] + '/large.answers', 'w') as file:
    file.write(''.join(f'1\\t{number}\\t0\\t{"-" if number > 1 else "id 16"}\\n' for number in range(1, len(lines) + 1)))
for fork in forks:
    with open(f'{sys.argv[1]}/large.{fork}', 'wb') as file:
        file.write(forks[fork])
END
"$tool" run "$folder/large.small.img" "$folder/large.script" --out "$folder/large.run.img" > "$folder/printed"
printf "$(cat "$folder/large.answers")" | cmp - "$folder/printed" || fail 'the answers to a script that writes forks'
"$tool" cat "$folder/large.run.img" 2 a | cmp - "$folder/large.data" || fail 'the data fork that run writes'
"$tool" cat "$folder/large.run.img" 2 a --resource | cmp - "$folder/large.res" || fail 'the resource fork that run writes'
[ "$("$tool" check "$folder/large.run.img" | head -n 1)" = sound ] || fail 'the volume that run writes'

# All of these by one user, in a folder of theirs.
by() {
    who=$1 plain=''
    shift
    as=("$@")
    here=$folder/$who
    [ "$who" != plain ] || plain=yes
    mkdir "$here"
    if [ -n "$plain" ]; then chown 65534:65534 "$here"; fi
    protection
    [ "$(id -u)" != 0 ] || owners
    second_links
    links
    leftovers
    paths
    changed_while_read
    cut_off
    killed
    rm -rf "$here"
    disk=$folder/disk
    mkdir "$disk"
    if mount -t tmpfs -o size=1000k tmpfs "$disk" 2> "$folder/words"; then
        here=$disk
        if [ -n "$plain" ]; then chown 65534:65534 "$here"; fi
        full_disks
        umount "$disk"
    else
        echo "no tmpfs can be mounted here: full disks are not tried by $who"
    fi
    rmdir "$disk"
    disk=''
}

if [ "$(id -u)" = 0 ]; then
    by root
    by plain setpriv --reuid=65534 --regid=65534 --groups=2345
else
    echo 'this is not root: owners and groups are not tried'
    by user
fi
echo "files are left as their owner left them: $answers answers as they are wanted"
