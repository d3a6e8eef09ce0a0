#!/usr/bin/env bash
# Makes what is given to users of a release: the Debian package (scripts/package.sh); an archive with what the package installs, for systems that
# don't take packages; and the SHA-256 sums of both. The programs are those that HFS_TOOL and HFS_COLLECT name, or those of this checkout, which are
# proved and built first (scripts/build.sh) if they are missing or a source is newer. No release is made of a program that isn't proved.
#
# Made twice of the same programs the files have the same bytes: their dates are SOURCE_DATE_EPOCH, or else the day of the newest release that
# CHANGELOG.md has a day of.
#
# scripts/release.sh [FOLDER], which is this one if none is named; prints the paths of the three files.
set -euo pipefail
into=$(cd "${1:-.}" && pwd)
. "$(dirname "$0")/../tests/common.sh"

HFS_TOOL=$(program hfs_tool)
HFS_COLLECT=$(program hfs_collect)
export HFS_TOOL HFS_COLLECT
package=$(scripts/package.sh "$into")
version=$(dpkg-deb -f "$package" Version)
grep -q "^## ${version//./\\.}, " CHANGELOG.md || echo "release: CHANGELOG.md has no day of $version yet" >&2

folder=$(mktemp -d)
trap 'rm -rf "$folder"' EXIT
name=hfs-tool-$version-linux-amd64
top=$folder/$name

# What the package installs, with the documents where somebody looks first: bin and share are copied into /usr/local as they are. What only Debian
# wants stays out.
dpkg-deb -x "$package" "$folder/package"
mv "$folder/package/usr" "$top"
rm "$top/share/doc/hfs-tool/changelog.gz" "$top/share/doc/hfs-tool/copyright"
mv "$top/share/doc/hfs-tool/"* "$top"
rmdir -p --ignore-fail-on-non-empty "$top/share/doc/hfs-tool"
install -m 644 LICENSE "$top"

# The dates are those of the package's files.
tar --create --sort=name --format=ustar --owner=0 --group=0 --numeric-owner --mtime="@$(stat -c %Y "$top/bin/hfs_tool")" \
    --directory="$folder" "$name" | gzip -9 -n > "$into/$name.tar.gz"
(cd "$into" && sha256sum "$(basename "$package")" "$name.tar.gz" > "hfs-tool-$version.sha256")
printf '%s\n' "$package" "$into/$name.tar.gz" "$into/hfs-tool-$version.sha256"
