#!/usr/bin/env bash
# Takes files off whole: what `cat --macbinary` writes of a small volume, by its path and from a pipe, byte for byte; what it refuses; and then,
# each where it is installed, the same files by other programs: hfsutils writes the same and reads ours, macunpack and unar take ours apart, and
# unar and lsar know the AppleDouble file of such a file. Prints 'encodings agree', with the number of commands and the
# programs that were skipped, or what differs, status 1.
. "$(dirname "$0")/common.sh"
command -v python3 > /dev/null || { echo 'skipped: python3 is not installed'; exit 0; }
tool=$(program hfs_tool)
make=$PWD/tests/encodings.py
folder=$(mktemp -d)
export HOME=$folder # hfsutils notes there what is mounted
trap 'rm -rf "$folder"' EXIT
cd "$folder"
skipped=
commands=0

fail() {
    echo "encodings differ: $1"
    exit 1
}

# Wants an exit status and these lines of a command.
wants() {
    local status=$1 lines=$2 ended=0
    shift 2
    commands=$((commands + 1))
    "$@" > told 2>&1 || ended=$?
    [ "$ended" = "$status" ] || fail "$* ends with $ended"
    [ -z "$lines" ] || [ "$(cat told)" = "$lines" ] || fail "$* tells $(head -c 200 told)"
}

python3 "$make" volume whole.img
python3 "$make" bare bare.img
python3 "$make" macbinary theirs.bin
python3 "$make" double theirs.double

# ---- byte for byte

"$tool" cat whole.img 2 f --macbinary > ours.bin || fail "cat of whole.img ends with $?"
cmp theirs.bin ours.bin || fail 'the file'
cat whole.img | "$tool" cat /dev/stdin 2 F --macbinary > piped.bin || fail "cat of a pipe ends with $?"
cmp theirs.bin piped.bin || fail 'the file out of a pipe'
"$tool" cat bare.img 2 f --macbinary > bare.bin || fail "cat of bare.img ends with $?"
[ "$(tail -c +125 bare.bin | head -c 2 | od -An -tx1 | tr -d ' ')" = f866 ] || fail 'the check of a bare file'
[ "$(wc -c < bare.bin)" = 2176 ] || fail 'the length of a bare file'

# ---- what is refused

wants 1 '' "$tool" cat whole.img 2 f --macbinary --resource
wants 1 '' "$tool" ls whole.img --macbinary
wants 3 "$(echo 'code -43')" "$tool" cat whole.img 2 g --macbinary
wants 3 "$(echo 'code -120')" "$tool" cat whole.img 16 f --macbinary
wants 3 "$(echo 'code -37')" "$tool" cat whole.img 2 'f:' --macbinary
wants 3 "$(echo 'code -120')" "$tool" cat whole.img 1 Slow --macbinary
head -c 5000 whole.img > short.img
wants 2 '' "$tool" cat short.img 2 f --macbinary
"$tool" cat short.img 2 f > fork.told || true
cmp told fork.told || fail 'a refused image'
wants 4 'cannot read none.img' "$tool" cat none.img 2 f --macbinary
"$tool" cat whole.img 2 f --macbinary > /dev/full && fail 'a full device' || [ $? = 4 ] || fail 'the status at a full device'

# ---- other programs

if command -v hmount > /dev/null; then
    truncate -s 800K peer.img
    hformat -l Peer peer.img > log
    hcopy -m ours.bin : 2>&1 || fail "hcopy -m ends with $?"
    hls -la > log # the file is invisible
    grep -q 'TEXT/ttxt  *3  *2000 ' log || fail "hls tells $(cat log)"
    hcopy -r :f data || fail "hcopy -r ends with $?"
    hcopy -m :f back.bin || fail "hcopy -m ends with $?"
    humount > log
    "$tool" cat peer.img 2 f > data.ours
    cmp data data.ours || fail 'the data fork behind hcopy'
    "$tool" cat peer.img 2 f --resource > resource.ours
    [ "$(cat resource.ours)" = RES ] || fail 'the resource fork behind hcopy'
    "$tool" cat peer.img 2 f --macbinary > peer.bin || fail "cat of peer.img ends with $?"
    python3 "$make" same back.bin peer.bin || fail "what hcopy -m writes"
else
    skipped="$skipped hfsutils"
fi

if command -v macunpack > /dev/null; then
    mkdir unpacked
    (cd unpacked && macunpack -3 ../ours.bin) || fail "macunpack ends with $?"
    [ "$(cat unpacked/f.rsrc)" = RES ] || fail 'the resource fork of macunpack'
    tail -c +129 ours.bin | head -c 2000 | cmp - unpacked/f.data || fail 'the data fork of macunpack'
    [[ $(macunpack -l ours.bin 2>&1) == *'name="f", type=TEXT, author=ttxt, data=2000, rsrc=3'* ]] || fail 'what macunpack tells'
else
    skipped="$skipped macutils"
fi

if command -v unar > /dev/null && command -v lsar > /dev/null; then
    unar -q -k hidden -o taken ours.bin > log || fail "unar ends with $?"
    # unar drops location and folder, and MacBinary has no FXInfo
    cmp -n 60 theirs.double taken/._f || fail 'the AppleDouble file of unar'
    [ "$(tail -c +83 taken/._f)" = RES ] || fail 'the resource fork of unar'
    tail -c +129 ours.bin | head -c 2000 | cmp - taken/f || fail 'the data fork of unar'
    cp theirs.double ._f
    tail -c +129 ours.bin | head -c 2000 > f
    tar cf both.tar f ._f
    lsar -L both.tar > log || fail "lsar ends with $?"
    grep -q 'Finder info: *32 bytes (54455854 74747874 41010102 03040506 10111213 14151617 18191a1b 1c1d1e1f)' log || fail 'the Finder bytes of lsar'
    grep -q 'Length of embedded data: *3$' log || fail 'the resource fork of lsar'
    unar -q -k hidden -o joined both.tar > log || fail "unar of both ends with $?"
    cmp theirs.double "$(find joined -name '._f')" || fail 'an AppleDouble file through unar'
else
    skipped="$skipped unar"
fi

echo "encodings agree: $commands commands, beside files compared byte for byte${skipped:+; skipped:$skipped}"
