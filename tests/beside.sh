# How scripts that compare with hfsutils begin: the program, hfsutils, and a folder that is removed at the end. Nothing is
# installed here: hfsutils is Debian's package of that name.
. "$(dirname "$0")/common.sh"
volumes=$PWD/tests/volumes

if ! command -v hmount > /dev/null; then
    echo 'skipped: hfsutils is not installed'
    exit 0
fi
tool=$(program hfs_tool)

folder=$(mktemp -d)
export HOME=$folder # hfsutils notes there what is mounted
trap 'rm -rf "$folder"' EXIT

# Makes changed.img of an image, with other bytes from a place on.
change() {
    cp "$1" "$folder/changed.img"
    printf "$3" | dd of="$folder/changed.img" bs=1 seek="$2" conv=notrunc 2> /dev/null
}
