#!/bin/sh
# release.sh [LOG]: makes out/dirukofe-VERSION.tar.gz, an auditor's folder of the programs, their proof and what is to be read.
#
# LOG is what `rt ci --anew` printed on this commit; without it `rt ci --anew` is run, which takes an hour on four idle processors. Nothing is
# made unless everything in the tree is committed, each crate of crates.txt is proved in the log, each edit is refused, and nothing failed.
set -eu
top=$(cd "$(dirname "$0")/.." && pwd)
cd "$top"
version=$(cat VERSION)
name=dirukofe-$version
room=$top/out/release
stop() {
    echo "release.sh: $1" >&2
    exit 1
}

[ -z "$(git status --porcelain)" ] || stop "the tree has something that isn't committed"
grep -q "^## $version\$" CHANGELOG.md || stop "CHANGELOG.md has no section $version"
python3 tools/defended.py --check > /dev/null || stop "docs/EDITS.md is old: run python3 tools/defended.py"
rm -rf "$room"
mkdir -p "$room/$name/proof" "$room/$name/programs"
if [ $# -eq 1 ]; then
    cp "$1" "$room/$name/proof/log"
else
    rt ci --anew 2>&1 | tee "$room/$name/proof/log"
fi
log=$room/$name/proof/log

# Each function that the log calls proved, each crate and each edit. The log is believed only if none is missing and the last line says so.
sed -n 's/^fn \(.*\): proved$/\1/p' "$log" | sort -u > "$room/$name/proof/functions"
sed -n 's/^rt: \([a-z_]*\) proved.*/\1/p' "$log" | sort -u > "$room/proved"
sed -n 's/^\([a-z_]*\):.*/\1/p' crates.txt | sort -u > "$room/crates"
unproved=$(comm -13 "$room/proved" "$room/crates" | tr '\n' ' ')
[ -z "$unproved" ] || stop "the log calls these crates not proved: $unproved"
grep -q '^[0-9]* passed, 0 failed$' "$log" || stop "the log doesn't end with 'N passed, 0 failed'"
edits=$(find crates -path '*/must-fail/*.edit' | wc -l)
refused=$(grep -c 'refused, as it must be' "$log") || :
[ "$refused" -eq "$edits" ] || stop "the log has $refused edits refused, and the tree has $edits"
grep 'refused, as it must be' "$log" | sort > "$room/$name/proof/edits-refused"

for program in swsusp swsusp_machine swsusp_image; do
    built=crates/$program/out/$program
    [ -x "$built" ] || stop "no program at $built"
    readelf -p .comment "$built" | grep -q 'rattle logic=' || stop "$built names no logic in which it was proved"
    cp "$built" "$room/$name/programs/"
done
cp README.md CHANGELOG.md VERSION "$room/$name/"
cp -R docs man examples "$room/$name/"
{
    echo "commit $(git rev-parse HEAD)"
    echo "toolchain $(rt version)"
    for program in swsusp swsusp_machine swsusp_image; do
        echo "$program$(readelf -p .comment "$room/$name/programs/$program" | sed -n 's/.*\(rattle logic=\)/ \1/p')"
    done
    echo "functions $(wc -l < "$room/$name/proof/functions"), edits $edits, crates $(wc -l < "$room/crates")"
} > "$room/$name/proof/WHAT"
cp docs/EDITS.md "$room/$name/proof/"
git archive --format=tar --prefix="$name-source/" HEAD | gzip -n > "$room/$name/source.tar.gz"
(cd "$room/$name" && find . -type f ! -name SHA256SUMS -print0 | sort -z | xargs -0 sha256sum > SHA256SUMS)
tar -c --sort=name --owner=0 --group=0 --mtime="$(git log -1 --format=%cI)" -C "$room" "$name" | gzip -n > "out/$name.tar.gz"
sha256sum "out/$name.tar.gz" | sed 's|out/||' | tee "out/$name.tar.gz.sha256"
cat "$room/$name/proof/WHAT"
