#!/usr/bin/env bash
# Runs the program as its users do: what the README shows; each exit status with its text; and that nothing which reads
# changes an image. Prints 'the program agrees', or what differs and ends with status 1. What it prints of volumes of other
# programs is compared by tests/real_volumes.py.
. "$(dirname "$0")/common.sh"
tool=$(program hfs_tool)
volumes=$PWD/tests/volumes

folder=$(mktemp -d)
trap 'rm -rf "$folder"' EXIT
compared=0

fail() {
    echo "the program differs: $1"
    exit 1
}

# Wants this exit status and these bytes on standard output, and nothing on standard error, of the program with the words
# behind them.
wants() {
    local status=$1 text=$2 got=0
    shift 2
    compared=$((compared + 1))
    case $1 in
        repair) repair_piped "$status" "$@" ;;
        run) run_piped "$status" "$@" ;;
    esac
    "$tool" "$@" > "$folder/printed" 2> "$folder/errors" || got=$?
    [ "$got" = "$status" ] || fail "'$*' ends with $got"
    printf "$text" | cmp -s - "$folder/printed" || fail "'$*' prints $(cat "$folder/printed")"
    [ ! -s "$folder/errors" ] || fail "'$*' writes to standard error"
    case $1 in
        check | ls | cat) wants_piped "$status" "$@" ;;
        repair) wants_repaired "$status" "$@" ;;
        run) wants_run "$status" "$@" ;;
    esac
}

# Repairs an image out of a pipe, before it is repaired by its path: FILE may be the image itself.
repair_piped() {
    local status=$1 image=$3 got=0
    rm -f "$folder/piped.img"
    if [ -f "$image" ] && [ "$status" != 4 ]; then
        "$tool" repair /dev/stdin "$folder/piped.img" < <(cat "$image") > "$folder/piped" 2> "$folder/errors" || got=$?
        [ "$got" = "$status" ] || fail "'${*:2}' ends with $got out of a pipe"
        [ ! -s "$folder/errors" ] || fail "'${*:2}' writes to standard error out of a pipe"
    fi
}

# Wants that by its path the same is told and written of an image as out of a pipe, which is loaded whole.
wants_repaired() {
    local status=$1 image=$3 file=$4
    if [ -f "$image" ] && [ "$status" != 4 ]; then
        cmp -s "$folder/printed" "$folder/piped" || fail "'${*:2}' prints another thing out of a pipe"
        if [ "$status" = 0 ]; then cmp -s "$file" "$folder/piped.img" || fail "'${*:2}' writes another thing out of a pipe"; fi
        [ "$status" = 0 ] || [ ! -e "$folder/piped.img" ] || fail "'${*:2}' writes a refused image out of a pipe"
        rm -f "$folder/piped.img"
    fi
}

# Runs a script on an image out of a pipe, before it is run on the image by its path: FILE may be the image itself.
run_piped() {
    local status=$1 image=$3 got=0 words=(run /dev/stdin "${@:4}") at
    rm -f "$folder/piped.img"
    [ -f "$image" ] && [ "$status" != 4 ] || return 0
    for at in "${!words[@]}"; do
        if [ "${words[at]}" = --out ]; then words[at + 1]=$folder/piped.img; fi
    done
    "$tool" "${words[@]}" < <(cat "$image") > "$folder/piped" 2> "$folder/errors" || got=$?
    [ "$got" = "$status" ] || fail "'${*:2}' ends with $got out of a pipe"
    [ ! -s "$folder/errors" ] || fail "'${*:2}' writes to standard error out of a pipe"
}

# Wants that by its path the same is told and written of an image as out of a pipe, which is loaded whole.
wants_run() {
    local status=$1 image=$3 file=$folder/piped.img
    [ -f "$image" ] && [ "$status" != 4 ] || return 0
    cmp -s "$folder/printed" "$folder/piped" || fail "'${*:2}' prints another thing out of a pipe"
    while [ $# -gt 1 ]; do
        if [ "$1" = --out ]; then file=$2; fi
        shift
    done
    if [ "$status" = 0 ] && [ "$file" != "$folder/piped.img" ]; then
        cmp -s "$file" "$folder/piped.img" || fail "run writes another thing to $file out of a pipe"
    fi
    [ "$status" = 0 ] || [ ! -e "$folder/piped.img" ] || fail "run writes a refused image out of a pipe"
    rm -f "$folder/piped.img"
}

# Wants the same status and bytes of these words, with the first of them that is a file out of a pipe.
wants_piped() {
    local status=$1 got=0 image='' word words=()
    shift
    for word; do
        if [ -z "$image" ] && [ -f "$word" ]; then
            image=$word
            word=/dev/stdin
        fi
        words+=("$word")
    done
    [ -n "$image" ] || return 0
    "$tool" "${words[@]}" < <(cat "$image") > "$folder/piped" 2> "$folder/errors" || got=$?
    [ "$got" = "$status" ] || fail "'$*' ends with $got out of a pipe"
    cmp -s "$folder/printed" "$folder/piped" || fail "'$*' prints another thing out of a pipe"
}

# Makes changed.img of an image, with other bytes from a place on.
change() {
    cp "$1" "$folder/changed.img"
    printf "$3" | dd of="$folder/changed.img" bs=1 seek="$2" conv=notrunc 2> /dev/null
}

# What the README and the pages for users are shown with.
readme=$folder/readme
scripts/example_disks.sh "$readme"

# What the manual asks of a database is asked of Python's SQLite where the program sqlite3 isn't installed.
if ! command -v sqlite3 > /dev/null; then
    sqlite3() {
        python3 -c 'import sqlite3, sys
for row in sqlite3.connect(sys.argv[1]).execute(sys.argv[2]): print(*("" if it is None else it for it in row), sep="|")' "$@"
    }
fi

# Runs a command of the page, and wants of it what stands below.
shown() {
    [ -n "$command" ] || return 0
    eval "$command" > "$folder/printed" 2> "$folder/errors" || true
    cmp -s "$folder/wanted" "$folder/printed" || fail "the line '$command' of $page prints $(cat "$folder/printed")"
    [ ! -s "$folder/errors" ] || fail "the line '$command' of $page writes to standard error: $(cat "$folder/errors")"
    command=''
}

# Runs each line of a page behind a '$', with those behind a '>' that go on with it, in one shell. There are so many at least.
runs_page() (
    page=$1
    lines=$PWD/$page
    cd "$readme"
    unset tool collect
    command='' inside='' count=0
    while IFS= read -r line <&3; do
        case $inside$line in
            '```console') inside=yes ;;
            'yes```') shown && inside='' ;;
            'yes$ '*) shown && command=${line#??} && : > "$folder/wanted" && count=$((count + 1)) ;;
            'yes> '*) command+=$'\n'${line#??} ;;
            yes*) printf '%s\n' "$line" >> "$folder/wanted" ;;
        esac
    done 3< "$lines"
    [ "$count" -ge "$2" ] || fail "$page has no command lines"
)

runs_page README.md 8
runs_page docs/MANUAL.md 40
runs_page docs/HFSUTILS.md 30
runs_page docs/EMULATORS.md 20

# The man page is what the help says.
for name in hfs_tool hfs_collect; do
    tests/man_page.sh "$name" | cmp -s - "docs/$name.1" || fail "docs/$name.1 is not made of the help"
    version=$("$(program "$name")" --version)
    [ "$version" = "$name 1.0.0 (proved with Rattle's $(rt version | sed 's/^[^ ]* //'))" ] || [ "$version" = "$name 1.0.0 (not proved)" ] ||
        fail "the version: $version"
done

# What the README says that they print.
disk=$volumes/hfsutils-800k.img
wants 0 'sound\nfiles 7\nfolders 4\nfree 1499\nalternate same\nunowned 0\n' check "$disk"
wants 0 'd\t17\t4\t0\tDocuments\nd\t19\t3\t0\tGames\nd\t16\t0\t0\tSystem Folder\n' ls "$disk"
[ "$("$tool" cat "$disk" 19 m0 | wc -c)" = 700 ] || fail 'the data fork of m0'
[ "$("$tool" cat "$disk" 19 m0 --resource | wc -c)" = 300 ] || fail 'the resource fork of m0'
"$tool" info "$disk" | cmp -s - <("$tool" < "$disk") || fail 'info by path and by standard input'
wants 0 '' new "$folder/new.img" Archive 1600 40 4 --now 3786912000
wants 0 'sound\nfiles 0\nfolders 0\nfree 1550\nalternate same\nunowned 0\n' check "$folder/new.img"

# Sizes of floppies, and nodes that are chosen: one for each 128 allocation blocks, of which 1,600 blocks have 1,594, 2,880 have 2,874, 200,000 have
# 49,995 of 4 blocks each, in which a file has whole ones; and at least 2 and 1.
while read -r words bytes catalog extents; do
    wants 0 '' new "$folder/new.img" D ${words//,/ }
    [ "$(stat -c %s "$folder/new.img")" = "$bytes" ] || fail "the size of a new volume of $words"
    [ "$("$tool" info "$folder/new.img" | grep -E '^dr(CT|XT)FlSize' | sort | awk '{ print $2 }' | tr '\n' ' ')" = "$((512 * catalog)) $((512 * extents)) " ] ||
        fail "the nodes of a new volume of $words"
    [ "$("$tool" check "$folder/new.img" | head -n 1)" = sound ] || fail "a new volume of $words"
done << 'END'
800K 819200 12 12
1440K 1474560 22 22
1600 819200 12 12
64 32768 2 1
64,6 32768 6 1
1600,40 819200 40 12
200000 102400000 392 392
END
[[ $("$tool" new "$folder/none.img" D 720K) == *'no value for <BLOCKS>: a number of blocks, or 800K, or 1440K'* ]] || fail 'what is said of another size'
[ ! -e "$folder/none.img" ] || fail 'a size that is refused made a file'

# Small volumes, and the statuses 0, 2 and 3 on them.
small=$folder/small.img
wants 0 '' new "$small" D 64 6 2
[ "$(stat -c %s "$small")" = 32768 ] || fail 'the length of a new volume'
wants 0 'sound\nfiles 0\nfolders 0\nfree 50\nalternate same\nunowned 0\n' check "$small"
wants 0 '' ls "$small"
wants 3 'code -120\n' ls "$small" 99
wants 3 'code -43\n' cat "$small" 2 q
wants 3 'code -120\n' cat "$small" 3 q
wants 3 'code -37\n' cat "$small" 2 a:b
wants 3 'code -43\n' cat "$disk" 2 Games
wants 3 'code -43\n' cat "$small" 2 -q
wants 3 'code -43\n' cat "$small" 2 -- --help
wants 3 'code -43\n' cat "$small" 2 --resource -- --resource
change "$small" $((6 * 512)) '\000\000\000\001'
wants 2 'refused check C4 at 0\n' check "$folder/changed.img"
wants 2 'check C4 at 0\n' ls "$folder/changed.img"
wants 2 'check C4 at 0\n' cat "$folder/changed.img" 2 q
change "$small" $((2 * 512 + 84)) '\000\000\000\001'
wants 2 'refused check C10 at 3\n' check "$folder/changed.img"
change "$small" $((2 * 512 + 18)) '\000\000'
wants 2 'refused bad master directory block M1 (-60)\n' check "$folder/changed.img"
wants 2 'bad master directory block M1 (-60)\n' ls "$folder/changed.img"
head -c 31743 "$small" > "$folder/cut.img"
wants 2 'refused bad master directory block M4 (-60)\n' check "$folder/cut.img"
head -c 31744 "$small" > "$folder/cut.img"
wants 0 'sound\nfiles 0\nfolders 0\nfree 50\nalternate missing\nunowned 0\n' check "$folder/cut.img"
wants 2 'refused check C7 at 2\n' check "$volumes/refused-macroman.img"
wants 2 'refused check C7 at 4\n' check "$volumes/refused-icon.img"
head -c 1535 /dev/zero > "$folder/zeros.img"
wants 2 'refused image too short\n' check "$folder/zeros.img"
wants 2 'image too short\n' info "$folder/zeros.img"
wants 2 'image too short\n' ls "$folder/zeros.img"
head -c 1536 /dev/zero > "$folder/zeros.img"
wants 2 'refused not an HFS volume (-57)\n' check "$folder/zeros.img"
wants 2 'not an HFS volume (-57)\n' info "$folder/zeros.img"
truncate -s 2147483649 "$folder/large.img"
wants 2 'refused image too large\n' check "$folder/large.img"
wants 2 'image too large\n' ls "$folder/large.img"
rm "$folder/large.img"
wants 2 'bad name\n' new "$folder/none.img" 1234567890123456789012345678 64 6 2
wants 2 'bad size\n' new "$folder/none.img" D 7 6 2
wants 2 'bad node count\n' new "$folder/none.img" D 64 1 2
wants 2 'no room\n' new "$folder/none.img" D 8 2 1
[ ! -e "$folder/none.img" ] || fail 'a refused plan made a file'

# Repair: what is printed, what is written, and that a refused image writes nothing. A new volume of 64 blocks with 6 catalog nodes has
# 50 free blocks, 2 catalog records and an empty root.
wants 0 'sound\n' repair "$small" "$folder/mended.img"
cmp "$small" "$folder/mended.img" || fail 'the repair of a sound volume'
change "$small" $((2 * 512 + 34)) '\000\007'
for edit in "$((2 * 512 + 84)) \000\000\000\001" "$((6 * 512 + 20)) \000\000\000\011" "$((7 * 512 + 26)) \000\003"; do
    printf "${edit#* }" | dd of="$folder/changed.img" bs=1 seek="${edit%% *}" conv=notrunc 2> /dev/null
done
wants 2 'refused check C4 at 0\n' check "$folder/changed.img"
four='fixed drFreeBks 7 50\nfixed drFilCnt 1 0\nfixed catalog bthNRecs 9 2\nfixed valence 2 3 0\nsound\n'
rm "$folder/mended.img"
wants 0 "$four" repair "$folder/changed.img" "$folder/mended.img"
cmp "$small" "$folder/mended.img" || fail 'the repair of four numbers'
chmod 640 "$folder/changed.img"
ln -s changed.img "$folder/link.img"
wants 0 "$four" repair "$folder/changed.img" "$folder/link.img"
cmp "$small" "$folder/changed.img" || fail 'the repair of an image in its own file'
[ -L "$folder/link.img" ] && [ "$(stat -c %a "$folder/changed.img")" = 640 ] || fail 'a link or its permissions'
[ -z "$(ls "$folder" | grep new$ | grep -v '^new' || true)" ] || fail 'a repair leaves a file'
change "$small" $((7 * 512 + 115)) 'E'
printf '\000\000\000\001' | dd of="$folder/changed.img" bs=1 seek=$((2 * 512 + 84)) conv=notrunc 2> /dev/null
cp "$folder/changed.img" "$folder/kept.img"
wants 2 'refused check C8 at 1\n' repair "$folder/changed.img" "$folder/changed.img"
cmp "$folder/kept.img" "$folder/changed.img" || fail 'a refused image was written'
wants 2 'refused check C8 at 1\n' repair "$folder/changed.img" "$folder/none.img"
[ ! -e "$folder/none.img" ] || fail 'a refused image made a file'
wants 4 "cannot write $folder/none/file\n" repair "$small" "$folder/none/file"
wants 4 "cannot write /dev/full\n" repair "$small" /dev/full
wants 4 "cannot read $folder/none.img\n" repair "$folder/none.img" "$folder/mended.img"

# Scripts: what is answered, what is written, and that nothing is where a script, an image or a write is refused. A new volume of 64
# blocks with 20 catalog nodes has 36 free blocks.
wide=$folder/wide.img script=$folder/script zeros=$(printf '0%.0s' {1..64})
wants 0 '' new "$wide" D 64 20 2
cp "$wide" "$folder/kept.img"

# Writes the script, in which a line's fields are parted by tabs.
writes() {
    printf "$1" > "$script"
}

writes '1\tmkdir\t2\tDocs\n1\tcreate\t16\tRead Me\n1\tcreate\t16\tREAD ME\n1\tlist\t2\n'
answers="1\t1\t0\tid 16\n1\t2\t0\tid 17\n1\t3\t-48\t-\n1\t4\t0\tlist 1\n\td 16 2 100 100 0 0 0 1 0 $zeros Docs\n"
wants 0 "$answers" run "$wide" "$script" --now 100
wants 0 "$answers" run "$wide" "$script" --now 100 --out "$folder/ran.img"
cmp "$wide" "$folder/kept.img" || fail 'run wrote its image'
wants 0 'd\t16\t1\t0\tDocs\n' ls "$folder/ran.img"
wants 0 'f\t17\t0\t0\tRead Me\n' ls "$folder/ran.img" 16
wants 0 'sound\nfiles 1\nfolders 1\nfree 36\nalternate same\nunowned 0\n' check "$folder/ran.img"
cp "$wide" "$folder/same.img"
wants 0 "$answers" run "$folder/same.img" "$script" --now 100 --out "$folder/same.img"
cmp "$folder/same.img" "$folder/ran.img" || fail 'run over its own image'

writes '1\tcreate\t2\ta\n2\tdelete\t2\tq\n'
wants 0 '1\t1\t0\tid 16\n2\t1\t-43\t-\n' run "$wide" "$script"
writes 'v2\tlist\t2'
wants 0 'v2\t1\t0\tlist 0\n' run "$wide" "$script"
writes '1\tcreate\t2\tf\n1\tnewid\t2\tf\n1\tresolve\t16\n1\tdropid\t16\n1\tresolve\t16\n'
wants 0 '1\t1\t0\tid 16\n1\t2\t0\tid 16\n1\t3\t0\tplace 2 f\n1\t4\t0\t-\n1\t5\t-1300\t-\n' run "$wide" "$script"
writes ''
wants 0 '' run "$wide" "$script"
wants 0 '' new "$folder/narrow.img" D 64 4 2
writes '1\tcreate\t2\ta\n1\tcreate\t2\tb\n1\tcreate\t2\tc\n1\tcreate\t2\td\n1\trename\t2\ta\tA\n1\trename\t2\tA\tz\n1\tcreate\t2\te\n'
wants 0 '1\t1\t0\tid 16\n1\t2\t0\tid 17\n1\t3\t0\tid 18\n1\t4\t0\tid 19\n1\t5\t0\t-\n1\t6\t-34\tfull 0 2\n1\t7\t-34\tfull 0 2\n' run "$folder/narrow.img" "$script"
writes "1\tinfo\t19\tm0\n1\tread\t19\tm0\tdata\t700\t0\n1\tread\t19\tm0\tdata\t701\t0\n1\tindexed\t2\t4\n"
"$tool" run "$disk" "$script" > "$folder/printed" || fail 'run on the disk of another program'
[ "$(sed -n 1p "$folder/printed" | cut -d' ' -f2-4,10-11)" = 'f 20 19 700 300' ] || fail 'what is told of m0'
sed -n '2,$p' "$folder/printed" | cmp -s - <(printf '1\t2\t0\tbytes\n1\t3\t-39\tbytes\n1\t4\t-43\t-\n') || fail 'the answers on the disk'

# Lines that are not valid. The first of them is named.
wants_line() {
    writes "1\tlist\t2\n$1\n9\tlist\t2\n"
    wants 2 'script line 2\n' run "$wide" "$script" --out "$folder/none.img"
}

for line in '' '1' '1\tlist\t2\t' '1\tlist\t2\r' ' 1\tlist\t2' '1 list 2' '\tlist\t2' '0\tlist\t2' '9\tlist\t2' '12\tlist\t2' 'v\tlist\t2' 'v0\tlist\t2' \
    'v9\tlist\t2' 'V1\tlist\t2' '1v\tlist\t2' '01x\tlist\t2' '1\t\t2' '1\tList\t2' '1\tlists\t2' '1\tnone\t2'; do
    wants_line "$line"
done

# Each word with all its fields, and with each of them wrong, one too few and one too many. A name may be any bytes.
while read -r word kinds; do
    good=() bad=()
    for kind in $kinds; do
        case $kind in
            number) good+=(2) bad+=('- x +2 4294967296 00000000002') ;;
            name) good+=(n) bad+=('') ;;
            fork) good+=(res) bad+=('- Data rsrc 0') ;;
            digits*) good+=("$(head -c "${kind#digits}" /dev/zero | tr '\0' a)") && bad+=("- ${good[-1]}a ${good[-1]#aa} ${good[-1]#a}g") ;;
        esac
    done
    line=$(printf '\\t%s' "${good[@]}")
    writes "1\t$word$line\n"
    "$tool" run "$wide" "$script" > "$folder/printed" || fail "the word $word"
    grep -q -E $'^1\t1\t-?[0-9]+\t' "$folder/printed" || fail "what $word is answered"
    answer=$(cat "$folder/printed")
    wants_line "1\t$word$line\t2"
    wants_line "1\t$word$(printf '\\t%s' "${good[@]:1}")"
    case $word in
        dirinfo | info | indexed | list | read) writes "v1\t$word$line\n" && wants 0 "v$answer\n" run "$wide" "$script" ;;
        *) wants_line "v1\t$word$line" ;;
    esac
    for place in "${!good[@]}"; do
        for field in ${bad[place]}; do
            wrong=("${good[@]}")
            wrong[place]=${field#-}
            wants_line "1\t$word$(printf '\\t%s' "${wrong[@]}")"
        done
    done
done << 'END'
dirinfo number
info number name
indexed number number
list number
read number name fork number number
create number name
mkdir number name
delete number name
rename number name name
move number name number
setfinfo number name digits32
setinfo number name number number number digits64
lock number name
unlock number name
newid number name
dropid number
resolve number
END

# Faults, in the order in which they are looked for, each beside the next one: the words, IMAGE, SCRIPT, its lines, the volume, FILE. A FILE that
# was there is as it was, and none is made.
cp "$disk" "$folder/file.img"
run_refused() {
    wants "$1" "$2" run "$3" "$4" --out "$folder/file.img"
    wants "$1" "$2" run "$3" "$4" --out "$folder/none.img"
    cmp "$disk" "$folder/file.img" || fail "FILE behind '$2'"
    [ ! -e "$folder/none.img" ] || fail "a FILE behind '$2'"
}

run_words_refused() {
    "$tool" run "$@" > "$folder/printed" && fail 'words that should be refused' || [ $? = 1 ] || fail "the status of the words '$*'"
    [ -s "$folder/printed" ] || fail "what the words '$*' are told"
    cmp "$disk" "$folder/file.img" || fail "FILE behind the words '$*'"
}

head -c 16777217 /dev/zero > "$folder/large.txt"
head -c 16777216 /dev/zero > "$folder/zeros.txt"
printf '1\tlist\t2\nlist\t2\n' > "$folder/bad.txt"
printf '1\tcreate\t2\ta\n' > "$script"
head -c 1535 /dev/zero > "$folder/short.img"
truncate -s 2147483649 "$folder/large.img"
run_words_refused
run_words_refused "$folder/none.img"
run_words_refused "$folder/none.img" "$folder/none.txt" more --out "$folder/file.img"
run_words_refused "$folder/none.img" "$folder/none.txt" --now 4294967296 --out "$folder/file.img"
run_words_refused "$folder/none.img" "$folder/none.txt" --now x --out "$folder/file.img"
run_words_refused "$folder/none.img" "$folder/none.txt" --out
run_refused 4 "cannot read $folder/none.img\n" "$folder/none.img" "$folder/none.txt"
run_refused 4 "cannot read $folder/none.img\n" "$folder/none.img" "$folder/large.txt"
run_refused 4 "cannot read $folder\n" "$folder" "$folder/bad.txt"
run_refused 2 'image too large\n' "$folder/large.img" "$folder/large.txt"
rm "$folder/large.img"
run_refused 4 "cannot read $folder/none.txt\n" "$folder/short.img" "$folder/none.txt"
run_refused 4 "cannot read $folder\n" "$folder/short.img" "$folder"
run_refused 2 'script too large\n' "$folder/short.img" "$folder/large.txt"
run_refused 2 'script line 1\n' "$folder/short.img" "$folder/zeros.txt"
run_refused 2 'script line 2\n' "$folder/changed.img" "$folder/bad.txt"
run_refused 2 'image too short\n' "$folder/short.img" "$script"
run_refused 2 'check C8 at 1\n' "$folder/changed.img" "$script"
wants 2 'check C8 at 1\n' run "$folder/changed.img" "$script" --out "$folder/none/file"
wants 4 "cannot write $folder/none/file\n" run "$wide" "$script" --out "$folder/none/file"
wants 4 "cannot write /dev/full\n" run "$wide" "$script" --out /dev/full
cmp "$wide" "$folder/kept.img" || fail 'a refused run wrote its image'
[ -z "$(ls "$folder" | grep new$ | grep -v '^new' || true)" ] || fail 'a run leaves a file'

# A FILE in a folder that can't be written to stays, also where it is the image; root may write anywhere.
if [ "$(id -u)" != 0 ]; then
    mkdir "$folder/shut"
    cp "$wide" "$folder/shut/file.img"
    chmod 555 "$folder/shut"
    wants 4 "cannot write $folder/shut/file.img\n" run "$folder/shut/file.img" "$script" --out "$folder/shut/file.img"
    cmp "$wide" "$folder/shut/file.img" || fail 'FILE behind a failed write'
    chmod 755 "$folder/shut"
fi

# Eight workers, each in a folder of its own, and four viewers, in 2,000 lines. What is answered but an ID doesn't rest on who comes first.
wants 0 '' new "$folder/many.img" D 64 40 2
for worker in 1 2 3 4 5 6 7 8; do printf '1\tmkdir\t2\tof %s\n' $worker; done > "$script"
"$tool" run "$folder/many.img" "$script" --out "$folder/many.img" > "$folder/printed" || fail 'eight folders'
awk 'BEGIN { OFS = "\t"; for (line = 0; line < 2000; line++) {
    who = line % 12 + 1; turn = int(line / 12); dir = 15 + who; name = "n" int(turn / 4); other = "m" int(turn / 4)
    if (who > 8) print "v" (who - 8), "dirinfo", 99
    else if (turn % 4 == 0) print who, "create", dir, name
    else if (turn % 4 == 1) print who, "create", dir, name
    else if (turn % 4 == 2) print who, "rename", dir, name, other
    else print who, "delete", dir, other } }' > "$script"
awk 'BEGIN { OFS = "\t"; for (line = 0; line < 2000; line++) {
    who = line % 12 + 1; turn = int(line / 12)
    if (who > 8) print "v" (who - 8), turn + 1, -120, "-"
    else if (turn % 4 == 0) print who, turn + 1, 0, "id"
    else if (turn % 4 == 1) print who, turn + 1, -48, "-"
    else print who, turn + 1, 0, "-" } }' > "$folder/wanted"
"$tool" run "$folder/many.img" "$script" --out "$folder/ran.img" > "$folder/printed" || fail 'eight workers and four viewers'
sed 's/id [0-9]*$/id/' "$folder/printed" | cmp -s - "$folder/wanted" || fail 'the answers to eight workers and four viewers'
[ "$("$tool" check "$folder/ran.img" | sed -n '1p;3p')" = "$(printf 'sound\nfolders 8')" ] || fail 'the volume of eight workers'

# Two folders of another program's disk, whose records stand in another order than their IDs: Documents (17) and System Folder (16).
cp "$disk" "$folder/changed.img"
for name in Documents 'System Folder'; do
    at=$(LC_ALL=C grep -obUaP "\x00\x00\x00\x02.$name\x00?\x01\x00" "$disk" | head -n 1 | cut -d: -f1)
    [ -n "$at" ] || fail "no record of $name"
    body=$((at + 5 + ${#name} + (${#name} + 1) % 2))
    printf '\000\143' | dd of="$folder/changed.img" bs=1 seek=$((body + 4)) conv=notrunc 2> /dev/null
done
wants 0 'fixed valence 16 99 0\nfixed valence 17 99 4\nsound\n' repair "$folder/changed.img" "$folder/mended.img"
cmp "$disk" "$folder/mended.img" || fail 'the repair of two folders'

# The number in so many bytes of an image, the greatest first.
number_at() {
    od -An -v --endian=big -j "$2" -N "$3" -t "u$3" "$1" | tr -d ' '
}

# Makes one number of a volume wrong, and wants that it is mended: what another program wrote there is what is counted.
repair_alone() {
    local image=$1 place=$2 at=$3 bytes=$4 wrong='\001\002\003\004' was=16909060
    if [ "$bytes" = 2 ]; then wrong='\001\002' was=258; fi
    change "$image" "$at" "$wrong"
    wants 0 "fixed $place $was $(number_at "$image" "$at" "$bytes")\nsound\n" repair "$folder/changed.img" "$folder/mended.img"
    cmp "$image" "$folder/mended.img" || fail "the repair of $place in $image"
}

# Each of the ten kinds of number, alone, on volumes of other programs. The root's record is the first of the first leaf.
for name in hfsutils-800k hfsutils-1440k-names genisoimage-locked; do
    image=$volumes/$name.img
    start=$(($(number_at "$image" 1052 2) * 512)) size=$(number_at "$image" 1044 4)
    extents=$((start + $(number_at "$image" 1158 2) * size)) catalog=$((start + $(number_at "$image" 1174 2) * size))
    leaf=$((catalog + 512 * $(number_at "$image" $((catalog + 24)) 4)))
    key=$(number_at "$image" $((leaf + 14)) 1)
    repair_alone "$image" drNmFls 1036 2
    repair_alone "$image" drFreeBks 1058 2
    repair_alone "$image" drNmRtDirs 1106 2
    repair_alone "$image" drFilCnt 1108 4
    repair_alone "$image" drDirCnt 1112 4
    repair_alone "$image" 'extents bthNRecs' $((extents + 20)) 4
    repair_alone "$image" 'extents bthFree' $((extents + 40)) 4
    repair_alone "$image" 'catalog bthNRecs' $((catalog + 20)) 4
    repair_alone "$image" 'catalog bthFree' $((catalog + 40)) 4
    repair_alone "$image" 'valence 2' $((leaf + 14 + (key + 2) / 2 * 2 + 4)) 2
done

# A root of 65,537 files: neither its valence nor drNmFls can tell so many, so they stay, and the root's record is at fault. A count
# beside them that could be mended stays, too.
python3 tests/slow_volumes.py one_folder 65537 20 "$folder/changed.img"
printf '\000\000\000\007' | dd of="$folder/changed.img" bs=1 seek=$((2 * 512 + 84)) conv=notrunc 2> /dev/null
cp "$folder/changed.img" "$folder/kept.img"
wants 2 'refused check C9 at 0\n' repair "$folder/changed.img" "$folder/changed.img"
cmp "$folder/kept.img" "$folder/changed.img" || fail 'an image with a count too large for its field was written'
rm "$folder/kept.img"

# The other statuses of a repair. It makes no call, so that it never ends with 3.
for words in repair "repair $disk" "repair $disk $folder/none.img x" "repair $disk $folder/none.img --now 1"; do
    got=0
    "$tool" $words > "$folder/printed" 2> "$folder/errors" || got=$?
    [ "$got" = 1 ] && [ -s "$folder/printed" ] && [ ! -s "$folder/errors" ] || fail "'$words' ends with $got"
done
truncate -s 200M "$folder/sparse.img"
got=0
(ulimit -v 100000 && "$tool" repair /dev/stdin "$folder/none.img" < <(cat "$folder/sparse.img")) > "$folder/printed" || got=$?
[ "$got" = 5 ] && [ "$(cat "$folder/printed")" = 'out of memory' ] || fail "a repair with too little memory ends with $got"
[ ! -e "$folder/none.img" ] || fail 'a repair that failed made a file'

# A sparse image, which is longer than its volume, in as little memory: it is never whole there, and stays sparse, but for what is written of it.
change "$small" $((2 * 512 + 84)) '\000\000\000\001'
truncate -s 2000000000 "$folder/changed.img"
printf 'behind all' | dd of="$folder/changed.img" bs=1 seek=1999999990 conv=notrunc 2> /dev/null
printf 'between' | dd of="$folder/changed.img" bs=1 seek=1000000000 conv=notrunc 2> /dev/null
(ulimit -v 100000 && "$tool" repair "$folder/changed.img" "$folder/mended.img") > "$folder/printed" || fail 'the repair of a sparse image'
[ "$(cat "$folder/printed")" = "$(printf 'fixed drFilCnt 1 0\nsound')" ] || fail 'what the repair of a sparse image prints'
[ "$(du -k "$folder/mended.img" | cut -f 1)" -lt 1000 ] || fail 'the repair of a sparse image fills its holes'
printf '\000\000\000\000' | dd of="$folder/changed.img" bs=1 seek=$((2 * 512 + 84)) conv=notrunc 2> /dev/null
cmp "$folder/changed.img" "$folder/mended.img" || fail 'the repaired sparse image'

# Zeros at the end of an image stay: its length is what it was.
change "$small" $((2 * 512 + 84)) '\000\000\000\001'
truncate -s 300000 "$folder/changed.img"
wants 0 'fixed drFilCnt 1 0\nsound\n' repair "$folder/changed.img" "$folder/mended.img"
[ "$(stat -c %s "$folder/mended.img")" = 300000 ] || fail 'a repaired image with zeros at its end has another length'
rm "$folder/mended.img"

# The words, and files that are not there: the statuses 1 and 4.
for words in sing ls cat "cat $small" "ls $small two" "ls $small 4294967296" "new $folder/none.img D" "new $folder/none.img D 800k" "new $folder/none.img D 4294967296" \
    "new $folder/none.img D 64 4294967296"; do
    got=0
    "$tool" $words > "$folder/printed" 2> "$folder/errors" || got=$?
    [ "$got" = 1 ] || fail "'$words' ends with $got"
    [ -s "$folder/printed" ] && [ ! -s "$folder/errors" ] || fail "'$words' does not say what is wrong"
done
[[ $("$tool" --help) == *hfs_tool* ]] || fail 'help'
wants 1 'the words are not text\n' ls $'\xff'
cp "$small" "$folder"/$'\xff.img'
[ "$(cat "$folder"/$'\xff.img' | "$tool" check /dev/stdin | head -n 1)" = sound ] || fail 'an image through a pipe'
wants 4 "cannot read $folder/none.img\n" check "$folder/none.img"
wants 4 "cannot read $folder/none.img\n" info "$folder/none.img"
wants 4 "cannot read $folder\n" ls "$folder"
wants 4 "cannot write $folder/none/file\n" new "$folder/none/file" D 64 6 2
got=0
"$tool" < "$folder" > "$folder/printed" || got=$?
[ "$got" = 4 ] && [ "$(cat "$folder/printed")" = 'cannot read stdin' ] || fail 'standard input that is no file'

# A device that is full, and a pipe that nobody reads: status 4, and no further text.
for words in "info $disk" "check $disk" "ls $disk" "cat $disk 19 m2" "repair $disk $folder/mended.img"; do
    got=0
    "$tool" $words > /dev/full 2> "$folder/errors" || got=$?
    [ "$got" = 4 ] && [ ! -s "$folder/errors" ] || fail "'$words' on a full device ends with $got"
    (
        got=0
        sleep 0.2
        "$tool" $words 2> "$folder/errors" || got=$?
        echo "$got" > "$folder/status"
    ) | true
    [ "$(cat "$folder/status")" = 4 ] && [ ! -s "$folder/errors" ] || fail "'$words' on a closed pipe ends with $(cat "$folder/status")"
done

# Less memory than an image that is loaded needs: status 5. By its path no more of it is read than is needed.
truncate -s 200M "$folder/sparse.img"
got=0
(ulimit -v 100000 && "$tool" check /dev/stdin < <(cat "$folder/sparse.img")) > "$folder/printed" || got=$?
[ "$got" = 5 ] && [ "$(cat "$folder/printed")" = 'out of memory' ] || fail "too little memory ends with $got"
got=0
(ulimit -v 100000 && "$tool" check "$folder/sparse.img") > "$folder/printed" || got=$?
[ "$got" = 2 ] && [ "$(cat "$folder/printed")" = 'refused not an HFS volume (-57)' ] || fail "an image larger than the memory ends with $got"

# The words: others are refused with their text on standard output, and help is given.
for words in info 'info a.img b.img' "info $small --now" --now "mount $small" "$small" "new $folder/none.img D 64 6 x" check \
    "ls $small x" "ls $small -1" "cat $small 2" "cat $small 4294967296 f"; do
    got=0
    "$tool" $words > "$folder/printed" 2> "$folder/errors" || got=$?
    [ "$got" = 1 ] && [ -s "$folder/printed" ] && [ ! -s "$folder/errors" ] || fail "'$words' ends with $got"
done
for words in --help 'info --help' 'new --help' 'repair --help'; do
    "$tool" $words > "$folder/printed" || fail "'$words' ends with $?"
    [ -s "$folder/printed" ] || fail "'$words' prints nothing"
done

# The usage of words in which one thing stands in the place of another, and the words that take a volume by its number.
[[ $("$tool" cat --help) == *'Usage: hfs_tool cat [OPTIONS] <IMAGE> [<DIR> <NAME> | --path <PATH>]'* ]] || fail 'the usage of cat'
[[ $("$tool" ls --help) == *'Usage: hfs_tool ls [OPTIONS] <IMAGE> [DIR | --path <PATH>]'* ]] || fail 'the usage of ls'
[[ $("$tool" rescue --help) == *'Usage: hfs_tool rescue [OPTIONS] <IMAGE> [FOLDER | --list]'* ]] || fail 'the usage of rescue'
for word in info check ls items page cat extract take rescue repair run put; do
    "$tool" "$word" --help | grep -q '^ *--volume <N> ' || fail "$word does not take a volume by its number"
done

# Each word is read in its place: a name and a number with a hyphen and zeros in front, the moment, the folder, the fork.
"$tool" new "$folder/words.img" -D 1600 007 2 --now 100
"$tool" info "$folder/words.img" > "$folder/printed"
for line in 'drVN -D' 'drCrDate 100' 'drLsMod 100' 'drCTFlSize 3584' 'drXTFlSize 1024'; do
    grep -qx "$line" "$folder/printed" || fail "a new volume has no line '$line'"
done
[ "$(stat -c %s "$folder/words.img")" = 819200 ] || fail 'a new volume of 1600 blocks'
"$tool" new "$folder/words.img" D 64 6 2
"$tool" info "$folder/words.img" > "$folder/printed"
grep -qx 'drCrDate 0' "$folder/printed" || fail 'a new volume without a moment'
wants 3 'code -120\n' ls "$folder/words.img" 17
wants 3 'code -43\n' cat "$folder/words.img" 2 -f
wants 3 'code -43\n' cat "$folder/words.img" 2 f --resource
wants 3 'code -120\n' cat "$folder/words.img" 17 f

echo "the program agrees: $compared answers as they are wanted, beside what the documents show"
