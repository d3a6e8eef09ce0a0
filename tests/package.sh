#!/usr/bin/env bash
# Makes a release of stand-ins, twice, and looks into it. Then makes the package, twice, unpacks it into a folder, and runs what was installed: the
# programs, their man pages at 80 columns, and the completion of their words; lintian finds no error except the mail host, since the project has no
# address. Prints 'the package agrees', or what differs and ends with status 1. Where dpkg-deb is missing it says that it was skipped.
. "$(dirname "$0")/common.sh"
command -v dpkg-deb > /dev/null || { echo 'the package: skipped, since dpkg-deb is missing'; exit 0; }
folder=$(mktemp -d)
trap 'rm -rf "$folder"' EXIT

fail() {
    echo "the package differs: $1"
    exit 1
}

# A program that isn't proved makes no package.
mkdir -p "$folder/unproved/scripts" "$folder/unproved/crates/hfs_tool/out"
cp scripts/package.sh "$folder/unproved/scripts"
printf '#!/bin/sh\necho "hfs_tool 1.0.0 (not proved)"\n' > "$folder/unproved/crates/hfs_tool/out/hfs_tool"
chmod +x "$folder/unproved/crates/hfs_tool/out/hfs_tool"
[ "$(env -u HFS_TOOL -u HFS_COLLECT "$folder/unproved/scripts/package.sh" "$folder" 2>&1 || true)" = 'package: this program is not a proved one: hfs_tool 1.0.0 (not proved)' ] &&
    ! compgen -G "$folder/*.deb" > /dev/null || fail 'it is made of a program that is not proved'

# A release of two programs that do nothing but print their version, made by a copy that git knows nothing of.
copy=$folder/copy
release=$folder/release
mkdir -p "$copy/tests" "$release" "$folder/released again" "$folder/dated release" "$folder/no release"
cp -r scripts packaging docs README.md CHANGELOG.md LICENSE "$copy"
cp tests/common.sh "$copy/tests"

releases() {
    (umask 077 && HFS_TOOL=$folder/hfs_tool HFS_COLLECT=$folder/hfs_collect "$copy/scripts/release.sh" "$1" 2> "$folder/errors")
}

# How many lines of an archive's list are not of this day, or of a file that not everybody may read.
other_lines() {
    TZ=UTC tar -tvzf "$1" | grep -vc "^[-d]r[-w][-x]r-[-x]r-[-x] 0/0 .* $2 " || true
}

try_release() {
    local name=hfs-tool-1.2.3-linux-amd64 day part
    [ "$(releases "$release" | sed 's|.*/||')" = $'hfs-tool_1.2.3_amd64.deb\n'$name$'.tar.gz\nhfs-tool-1.2.3.sha256' ] || fail "what release.sh prints: $(cat "$folder/errors")"
    [ "$(cat "$folder/errors")" = 'release: CHANGELOG.md has no day of 1.2.3 yet' ] || fail "what release.sh says of the day: $(cat "$folder/errors")"
    (cd "$release" && [ "$(wc -l < hfs-tool-1.2.3.sha256)" = 2 ] && sha256sum --check --quiet hfs-tool-1.2.3.sha256) || fail 'the sums of a release'
    day=$(sed -n 's/^## [0-9.]*, \(.*\)$/\1/p' CHANGELOG.md | sed -n 1p)
    [ "$(other_lines "$release/$name.tar.gz" "$(date -u -d "$day" +%F)")" = 0 ] || fail 'the dates of the archive, or who may read its files'

    # The archive has what the package has.
    tar -xzf "$release/$name.tar.gz" -C "$folder" && dpkg-deb -x "$release/hfs-tool_1.2.3_amd64.deb" "$folder/laid"
    [ "$(ls "$folder/$name" | tr '\n' ' ')" = 'CHANGELOG.md LICENSE README.md bin docs share ' ] || fail 'what the archive has'
    for part in bin share/man share/bash-completion; do diff -r "$folder/$name/$part" "$folder/laid/usr/$part" || fail "the archive's $part"; done
    for part in docs README.md CHANGELOG.md; do diff -r "$folder/$name/$part" "$folder/laid/usr/share/doc/hfs-tool/$part" || fail "the archive's $part"; done
    cmp -s LICENSE "$folder/$name/LICENSE" || fail "the archive's licence"
    [ "$("$folder/$name/bin/hfs_collect")" = 'hfs_collect 1.2.3 (proved with a stand-in)' ] || fail 'a program of the archive'

    # It has the same bytes where it is made again later; its dates are those that are asked for.
    touch "$copy"/* "$copy"/*/* "$folder/hfs_tool" && releases "$folder/released again" > /dev/null
    diff -r "$release" "$folder/released again" > /dev/null || fail 'a release has other bytes where it is made again'
    sed -i 's/^## 0\.1\.0, /## 1.2.3, /' "$copy/CHANGELOG.md" && SOURCE_DATE_EPOCH=1000000000 releases "$folder/dated release" > /dev/null
    [ "$(other_lines "$folder/dated release/$name.tar.gz" 2001-09-09)" = 0 ] || fail 'the dates of the archive are not SOURCE_DATE_EPOCH'
    [ ! -s "$folder/errors" ] || fail "what release.sh says of a day that is there: $(cat "$folder/errors")"
    cp CHANGELOG.md "$copy"

    # A program that isn't proved makes no release.
    cp "$folder/unproved/crates/hfs_tool/out/hfs_tool" "$folder/hfs_tool"
    ! releases "$folder/no release" > /dev/null && [ -z "$(ls "$folder/no release")" ] || fail 'a release is made of a program that is not proved'
}

if command -v cc > /dev/null; then
    printf '#include <stdio.h>\nint main(void) { return puts(NAME " 1.2.3 (proved with a stand-in)") < 0; }\n' > "$folder/stand_in.c"
    for name in hfs_tool hfs_collect; do cc -DNAME="\"$name\"" -o "$folder/$name" "$folder/stand_in.c"; done
    try_release
else
    echo 'the package: no release was made, since cc is missing'
fi

package=$(scripts/package.sh "$folder")
version=$($(program hfs_tool) --version | awk '{ print $2 }')
[ "$($(program hfs_collect) --version | awk '{ print $2 }')" = "$version" ] || fail 'the version of hfs_collect'
[ "$(dpkg-deb -f "$package" Version)" = "$version" ] || fail 'its version'
[[ $(dpkg-deb -f "$package" Depends) =~ ^'libc6 (>= '2\.[0-9]+')'$ ]] || fail "what it stands on: $(dpkg-deb -f "$package" Depends)"

# It has the same bytes where it is made again, also by a copy that git knows nothing of; its dates are those that are asked for.
mkdir -p "$folder/again" "$folder/dated"
for name in hfs_tool hfs_collect; do install -D "$(program "$name")" "$copy/crates/$name/out/$name"; done
cmp -s "$package" "$(env -u HFS_TOOL -u HFS_COLLECT "$copy/scripts/package.sh" "$folder/again")" || fail 'it has other bytes where it is made again'
dated=$(SOURCE_DATE_EPOCH=1000000000 env -u HFS_TOOL -u HFS_COLLECT "$copy/scripts/package.sh" "$folder/dated")
[ "$(dpkg-deb -c "$dated" | grep -vc ' 2001-09-09 ')" = 0 ] || fail 'its dates are not SOURCE_DATE_EPOCH'
if command -v lintian > /dev/null; then
    errors=$(lintian --allow-root --tag-display-limit 0 "$package" 2> /dev/null | grep '^E:' | grep -v ' bogus-mail-host' || true)
    [ -z "$errors" ] || fail "lintian finds: $errors"
else
    echo 'the package: lintian is missing, and was left out'
fi
dpkg-deb -x "$package" "$folder/root"
tool=$folder/root/usr/bin/hfs_tool
collect=$folder/root/usr/bin/hfs_collect
share=$folder/root/usr/share

[ "$("$tool" check tests/volumes/hfsutils-800k.img | head -n 1)" = sound ] || fail 'what the installed program says of a disk'
[ "$("$collect" "$folder/disks.db" tests/volumes/hfsutils-800k.img)" = $'tests/volumes/hfsutils-800k.img\tvolumes 1\trefused 0\tfiles 7\tdamaged 0' ] ||
    fail 'what the installed hfs_collect says of a disk'
if command -v ldd > /dev/null; then
    others=$(ldd "$tool" "$collect" | awk '/=>|^\t/ { print $1 }' | grep -v -E '^(linux-vdso|libc|libm|libpthread|libdl|librt|libgcc_s|/lib.*ld-linux)' || true)
    [ -z "$others" ] || fail "it needs $others"
fi
if command -v readelf > /dev/null; then
    for name in "$tool" "$collect"; do
        [ "$(readelf -S -W "$name" | grep -c ' \.symtab ')" = 0 ] || fail "$name is not stripped"
    done
fi

# Man pages: their parts, no line of more than 80 columns, and the same words as on a page of any width.
man_page() {
    MANWIDTH=$2 man -l "$share/man/man1/$1.1.gz" 2> /dev/null | sed 's/.\x08//g'
}

if command -v man > /dev/null; then
    for name in hfs_tool hfs_collect; do
        page=$(man_page "$name" 80)
        for part in NAME SYNOPSIS DESCRIPTION OPTIONS 'EXIT STATUS' EXAMPLES 'SEE ALSO'; do grep -qx "$part" <<< "$page" || fail "$name.1 has no $part"; done
        for word in HFS Macintosh; do [[ $(grep -A 2 -x NAME <<< "$page") == *$word* ]] || fail "the NAME of $name.1 has no $word"; done
        [ "$(awk 'length($0) > 80' <<< "$page" | wc -l)" = 0 ] || fail "$name.1 has lines of more than 80 columns"
        cmp -s <(tail -n +2 <<< "$page" | sed '$d' | tr -s ' \n' '\n') <(man_page "$name" 400 | tail -n +2 | sed '$d' | tr -s ' \n' '\n') ||
            fail "$name.1 at 80 columns breaks a word"
    done
    page=$(man_page hfs_tool 80)
    grep -qx COMMANDS <<< "$page" || fail 'hfs_tool.1 has no COMMANDS'
    grep -q '^ *hfs_tool repair$' <<< "$page" || fail 'hfs_tool.1 says nothing of repair'
    page=$(man_page hfs_collect 80)
    grep -q 'With --compare a line is printed for each image' <<< "$page" || fail 'the man page of hfs_collect'
else
    echo 'the package: its man page was not read, since man is missing'
fi
for name in README.md CHANGELOG.md docs/MANUAL.md docs/HFSUTILS.md docs/EMULATORS.md copyright changelog.gz; do
    [ -s "$share/doc/hfs-tool/$name" ] || fail "$name is not there"
done

# Each document that a help names is there.
for word in '' $("$tool" --help | awk '/^Commands:/ { inside = 1; next } /^$/ { inside = 0 } inside { print $1 }' | grep -vx help); do
    for name in $({ "$tool" $word --help && "$collect" --help; } | grep -o 'docs/[A-Z]*\.md'); do
        [ -s "$share/doc/hfs-tool/$name" ] || fail "$name is not there, which a help names"
    done
done

# What bash offers after this program and these words: hfs_tool's own help says it.
offered() {
    PATH=$(dirname "$tool"):$PATH bash -c '. "$1"; shift; COMP_WORDS=("$@"); COMP_CWORD=$(($# - 1)); _"$1"; printf "%s\n" "${COMPREPLY[@]}" | sort | tr "\n" " "' _ \
        "$share/bash-completion/completions/$1" "$@"
}
[ "$(offered hfs_tool re)" = 'repair rescue ' ] || fail 'the completion of a word'
[ "$(offered hfs_tool ex)" = 'extract ' ] && [ "$(offered hfs_tool extract --)" = '--help --volume ' ] || fail 'the completion of extract'
[ "$(offered hfs_tool run --)" = '--help --now --out --volume ' ] || fail "the completion of an option: $(offered hfs_tool run --)"
[ "$(offered hfs_tool page --)" = '--base --digest --help --volume ' ] || fail 'the completion of page'
[ "$(offered hfs_tool put --)" = '--help --macbinary --now --out --rename --replace --to --volume ' ] || fail 'the completion of put'
[ "$(offered hfs_tool ma)" = 'make ' ] && [ "$(offered hfs_tool make --)" = '--help --macbinary --name --now --rename --size ' ] || fail 'the completion of make'
[ "$(offered hfs_collect --)" = '--compare --help --no-digest --version ' ] || fail 'the completion of an option of hfs_collect'
[ "$(offered hfs_tool items disk.img --format '')" = 'csv json tab ' ] || fail 'the completion of a format'
[ "$(offered hfs_tool items disk.img --format j)" = 'json ' ] || fail 'the completion of a format that was begun'
[ "$(offered hfs_tool help re)" = 'repair rescue ' ] || fail 'the completion after help'
[ "$(offered hfs_tool ls --path :A tests/volumes/hfsutils-800k.img --volume '')" = '1 ' ] || fail "the completion of a volume after an option's value"
[ "$(offered hfs_tool ls tests/volumes/hfsutils-800k.img --volume '')" = '1 ' ] || fail 'the completion of a volume'
[ -z "$(offered hfs_tool ls tests/package.sh --volume '' | tr -d ' ')" ] || fail 'the completion of a volume where there is none'
[ "$(offered hfs_collect page --)" = '--base --help ' ] || fail 'the completion of an option of hfs_collect page'
[ "$(offered hfs_collect rows --)" = '--format --help --no-digest --table ' ] || fail 'the completion of an option of hfs_collect rows'
for program in 'hfs_tool check' hfs_collect; do
    [ -n "$(offered $program tests/vol)" ] || fail "the completion of a path after $program"
done
echo "the package agrees: $(dpkg-deb -c "$package" | grep -vc '/$') files"
