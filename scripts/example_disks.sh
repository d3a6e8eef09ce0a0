#!/usr/bin/env bash
# Makes a folder in which the lines after a '$' in README and docs/ run as they are: it has the files that they name, made from the volumes stored in
# tests/volumes, and links to crates, scripts and tests, where the programs and these volumes are. It needs only programs that every Linux has.
#
# images/m0.img           a floppy of 800 KB that hfsutils made, which the lines call $disk
# images/old disk.img     another one, of genisoimage, with a space in its file's name
# images/icon.img         a volume that is refused for the name of its file Icon
# images/cut.img          the first one, cut off after 50,000 bytes
# hard_disk.img           the first one, in a partition of a hard disk
# floppy.dc42, floppy.bin the first one, as a disk copy and in a MacBinary file
# disc.bin                the first one, in the raw sectors of a CD, followed by two sectors of music
#
# scripts/example_disks.sh FOLDER makes FOLDER if it doesn't exist; the lines run in it:
#     scripts/example_disks.sh examples && cd examples
set -euo pipefail
[ $# = 1 ] || { sed -n '2,/^set/s/^# \{0,1\}//p' "$0" && exit 1; }
root=$(cd "$(dirname "$0")/.." && pwd)
volumes=$root/tests/volumes
floppy=$volumes/hfsutils-800k.img
mkdir -p "$1/images"
cd "$1"
ln -sfn "$root/crates" "$root/scripts" "$root/tests" .

# As many bytes of one value, which is 0 if none is given.
bytes() {
    head -c "$1" /dev/zero | tr '\0' "${2:-\\0}"
}

# A number in four bytes, the most significant first.
number() {
    printf "$(printf '\\%03o\\%03o\\%03o\\%03o' $(($1 >> 24)) $(($1 >> 16 & 255)) $(($1 >> 8 & 255)) $(($1 & 255)))"
}

# Standard input followed by zeros, in exactly this many bytes.
filled() {
    { cat && bytes "$1"; } | head -c "$1"
}

# An entry of a partition map: where the partition begins, how many blocks it has, its type.
partition() {
    { printf 'PM\0\0' && number 2 && number "$1" && number "$2" && bytes 32 && printf %s "$3"; } | filled 512
}

# The sum of Disk Copy: each 16-bit word is added, and then the sum is rotated right by one bit.
data_sum() {
    od -An -v -w2 --endian=big -t u2 "$1" | awk '{ sum = (sum + $1) % 4294967296; sum = int(sum / 2) + sum % 2 * 2147483648 } END { printf "%.0f", sum }'
}

# A file in raw sectors of mode 1: 2,048 bytes each, after 12 bytes that mark it, its minute, second and frame, and its mode, and before 288 others.
raw_sectors() {
    local sector count=$(($(stat -c %s "$1") / 2048))
    for ((sector = 0; sector < count; sector++)); do
        printf '\0\377\377\377\377\377\377\377\377\377\377\0\0\2\0\1'
        dd if="$1" bs=2048 skip="$sector" count=1 status=none
        head -c 288 /dev/zero
    done
}

cp "$floppy" images/m0.img
cp "$volumes/genisoimage-locked.img" 'images/old disk.img'
cp "$volumes/refused-icon.img" images/icon.img
head -c 50000 "$floppy" > images/cut.img
{
    printf ER | filled 512
    partition 1 63 Apple_partition_map
    partition 64 1600 Apple_HFS
    bytes $((61 * 512))
    cat "$floppy"
} > hard_disk.img
{
    printf '\006Floppy' | filled 64
    number 819200 && number 0 && number "$(data_sum "$floppy")" && bytes 6 && printf '\001\0'
    cat "$floppy"
} > floppy.dc42
{
    printf '\0\006Floppy' | filled 83
    number 819200 && bytes 41
    cat "$floppy"
} > floppy.bin
{ raw_sectors "$floppy" && bytes 4704 '\7'; } > disc.bin
