#!/usr/bin/env bash
# Makes a Debian package of both proved programs, which scripts/build.sh leaves or HFS_TOOL and HFS_COLLECT name: the binaries, stripped, their man
# pages, the licence, what is new, the README and the documents for users, and completion files for bash. It needs the C library and nothing else. Made
# twice of the same programs it has the same bytes: its dates are SOURCE_DATE_EPOCH, or else the day of the newest release that CHANGELOG.md has a day of.
#
# scripts/package.sh [FOLDER], which is this one if none is named; prints the package's path.
set -euo pipefail
root=$(cd "$(dirname "$0")/.." && pwd)
into=$(cd "${1:-.}" && pwd)
programs=(hfs_tool hfs_collect)
declare -A built=(
    [hfs_tool]=${HFS_TOOL:-$root/crates/hfs_tool/out/hfs_tool}
    [hfs_collect]=${HFS_COLLECT:-$root/crates/hfs_collect/out/hfs_collect}
)
documents=(MANUAL HFSUTILS EMULATORS CALLS CHECKS FORMATS SCRIPTS)
maintainer='The Foyersage developers <foyersage@localhost>'

stop() {
    echo "package: $1" >&2
    exit 1
}

for program in "${programs[@]}"; do
    [ -x "${built[$program]}" ] || stop 'build the programs first: scripts/build.sh'
    said=$("${built[$program]}" --version)
    [[ $said == *'(proved with '* ]] || stop "this program is not a proved one: $said"
done
for needed in dpkg-deb strip readelf; do
    command -v "$needed" > /dev/null || stop "$needed is missing"
done
version=$(awk '{ print $2 }' <<< "$said")
package=hfs-tool_${version}_amd64

# The day of the newest release that has one, in seconds since 1970.
released() {
    local day
    day=$(sed -n 's/^## [0-9.]*, \(.*\)$/\1/p' "$root/CHANGELOG.md" | sed -n 1p)
    date -u -d "$day" +%s
}

export SOURCE_DATE_EPOCH=${SOURCE_DATE_EPOCH:-$(released)}

folder=$(mktemp -d)
trap 'rm -rf "$folder"' EXIT
tree=$folder/$package
share=$tree/usr/share
shelf=$share/doc/hfs-tool
umask 022

install -d "$share/man/man1" "$shelf/docs" "$tree/DEBIAN"
for program in "${programs[@]}"; do
    install -D -m 755 "${built[$program]}" "$tree/usr/bin/$program"
    strip --remove-section=.comment --remove-section=.note "$tree/usr/bin/$program"
    install -D -m 644 "$root/packaging/$program.bash" "$share/bash-completion/completions/$program"
    gzip -9 -n < "$root/docs/$program.1" > "$share/man/man1/$program.1.gz"
done
for document in "${documents[@]}"; do install -m 644 "$root/docs/$document.md" "$shelf/docs"; done
install -m 644 "$root/docs/page.png" "$shelf/docs"
install -m 644 "$root/README.md" "$root/CHANGELOG.md" "$shelf"
{
    printf 'Files: *\nLicense:\n\n'
    cat "$root/LICENSE"
} > "$shelf/copyright"
gzip -9 -n > "$shelf/changelog.gz" << END
hfs-tool ($version) unstable; urgency=medium

  * What is new is told by CHANGELOG.md beside this file.

 -- $maintainer  $(LC_ALL=C date -u -R -d "@$SOURCE_DATE_EPOCH")
END

# The newest version of the C library that the programs' symbols ask for.
least=$(readelf -W --version-info "$tree"/usr/bin/* | grep -o 'GLIBC_[0-9.]*' | sed 's/GLIBC_//' | sort -V | tail -n 1)
cat > "$tree/DEBIAN/control" << END
Package: hfs-tool
Version: $version
Architecture: amd64
Maintainer: $maintainer
Installed-Size: $(du -sk --apparent-size "$tree/usr" | cut -f1)
Depends: libc6 (>= ${least:-2.34})
Section: otherosfs
Priority: optional
Description: reads and checks HFS volumes, the disks of old Macintoshes
 Says what is on the image of an old Macintosh disk and whether the disk is
 sound, takes files off it, mends counts that are wrong, makes new volumes,
 and runs File Manager calls of several people on an image; hfs_collect puts
 many images into one database. Every function of both programs is proved to
 meet its contract and to return, whatever bytes it is given.
END
(cd "$tree" && find usr -type f -print0 | LC_ALL=C sort -z | xargs -0 md5sum) > "$tree/DEBIAN/md5sums"
find "$tree" -exec touch -h -d "@$SOURCE_DATE_EPOCH" {} +
dpkg-deb --root-owner-group -Zxz --build "$tree" "$into/$package.deb" > /dev/null
echo "$into/$package.deb"
