#!/bin/sh
# make_deb.sh: makes a Debian package of the programs that are built, in out/deb, and runs lintian on it if that is installed.
#
# It works on a copy of what git has, with the built programs added, so nothing is left in the tree. The package's version is that of VERSION.
set -eu
top=$(cd "$(dirname "$0")/.." && pwd)
version=$(cat "$top/VERSION")
room=$top/out/deb
copy=$room/dirukofe-$version
rm -rf "$room"
mkdir -p "$copy"
(cd "$top" && git ls-files -z | grep -zv '^crates/' | tar -c --null -T - -f -) | tar -x -C "$copy" -f -
cp -R "$top/packaging/debian" "$copy/debian"
for program in swsusp swsusp_machine swsusp_image; do
    install -D -m 755 "$top/crates/$program/out/$program" "$copy/crates/$program/out/$program"
done
maintainer=$(sed -n 's/^Maintainer: //p' "$copy/debian/control")
printf 'dirukofe (%s) unstable; urgency=medium\n\n  * CHANGELOG.md tells what is new.\n\n -- %s  %s\n' \
    "$version" "$maintainer" "$(cd "$top" && git log -1 --format=%cD)" > "$copy/debian/changelog"
(cd "$copy" && dpkg-buildpackage -b -us -uc)
if command -v lintian > /dev/null; then
    lintian --fail-on error "$room"/*.changes
fi
ls "$room"/*.deb
