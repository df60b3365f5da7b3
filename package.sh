#!/bin/sh
# Makes packages of an installed dpl and dplview, for machines without the Rattle kit:
# dpl-VERSION-x86_64.tar.gz and, where dpkg-deb is there, dpl_VERSION_amd64.deb.
#
# usage: sh package.sh [PROGRAM [FOLDER]]
#
# PROGRAM is the installed dpl; without it, the one in the folder bin of your home folder, where
# install.sh puts it. dplview is taken from the same folder. The packages are put into FOLDER, or
# where you are. The licences of what is linked into the programs are taken from the kit that its
# command rt belongs to.
#
# Both packages hold, below /usr or the folder of the archive:
#   bin                 both programs
#   share/man/man1      their manual pages
#   share/dpl/examples  the examples
#   share/dpl/klayout   the files for KLayout and their README.md, without its part about tests
#   share/doc/dpl       README.md and CONTRIBUTING.md, docs, and of bench the README.md; the licences
# The Debian package also puts the menu entry where KLayout finds it. All links from one document to
# another lead to files that are packed; the scripts that they name besides are in the sources alone.
set -eu
umask 022
top=$(CDPATH='' cd -- "$(dirname -- "$0")" && pwd)

fail() {
    echo "package.sh: $1" >&2
    exit 1
}

program=${1:-$HOME/bin/dpl}
case "$# $program" in
"0 "* | [12]" "[!-]*) ;;
*) fail "usage: sh package.sh [PROGRAM [FOLDER]]" ;;
esac
view=$(dirname "$program")/dplview
folder=$(CDPATH='' cd -- "${2:-.}" && pwd)
version=$(cat "$top/VERSION")
machine=$(uname -m)

[ -x "$program" ] || fail "no program $program: sh install.sh, or name the one that was installed"
[ -x "$view" ] || fail "no program $view beside $program: sh install.sh"
[ -w "$folder" ] || fail "the folder $folder can't be written to"
rt=$(command -v rt) || fail "the Rattle kit's command rt is not on the PATH, and licences are taken from the kit"
kit=$(dirname "$(dirname "$(readlink -f "$rt")")")/rattle
[ -d "$kit/std" ] || fail "the kit of $rt isn't in $kit, and licences are taken from the kit"
ldd "$program" "$view" | grep '=>' | grep -v '=> /\(usr/\)\?lib' && fail "$program or $view needs libraries of its own"

# The crates of the kit that are linked in: those that crates.txt names, and those below them.
linked="clap crossbeam_deque crossbeam_queue crossbeam_utils fast_float indexmap itoa memchr ryu serde serde_json strsim thiserror unicode"
named=$(sed 's/#.*//; s/.*://' "$top/crates.txt")
for crate in $named; do
    ls "$kit/$crate/LICENSE"* >/dev/null 2>&1 || continue
    case " $linked " in *" $crate "*) ;; *) fail "the licence of $crate is not among those that are packed" ;; esac
done

work=$(mktemp -d)
trap 'rm -rf "$work"' EXIT
trap 'exit 1' HUP INT TERM
SOURCE_DATE_EPOCH=$(git -C "$top" log -1 --format=%ct 2>/dev/null || date +%s)
export SOURCE_DATE_EPOCH

# What both packages hold, below a prefix.
tree=$work/tree
doc=$tree/share/doc/dpl
mkdir -p "$tree/bin" "$tree/share/man/man1" "$tree/share/dpl/klayout" "$doc/docs" "$doc/bench"
cp "$program" "$tree/bin/dpl"
cp "$view" "$tree/bin/dplview"
strip "$tree/bin/dpl" "$tree/bin/dplview" 2>/dev/null || true
for page in dpl dplview; do
    sed "s/^\.Os\$/.Os \"dpl $version\"/" "$top/docs/$page.1" >"$tree/share/man/man1/$page.1"
done
cp -R "$top/examples" "$tree/share/dpl/examples"
rm -rf "$tree/share/dpl/examples/cluster/out"
for file in dpl.lym dpl.lyp menu.py markers.py; do
    cp "$top/klayout/$file" "$tree/share/dpl/klayout/$file"
done
sed '/^## Tests$/,$d; s#\.\./docs/#../../doc/dpl/docs/#' "$top/klayout/README.md" >"$tree/share/dpl/klayout/README.md"
sed 's#(klayout/README\.md)#(../../dpl/klayout/README.md)#' "$top/README.md" >"$doc/README.md"
cp "$top/CONTRIBUTING.md" "$doc/CONTRIBUTING.md"
cp "$top/bench/README.md" "$doc/bench/README.md"
cp "$top"/docs/*.md "$top"/docs/*.1 "$top"/docs/*.svg "$top"/docs/*.png "$doc/docs/"
{
    echo "dpl $version. Its sources state no licence of their own."
    echo "Linked into the programs are crates of the Rattle kit that are ports of Rust crates, or hold"
    echo "tables of Unicode, under these licences:"
    for crate in $linked; do
        text=
        for name in LICENSE-MIT LICENSE LICENSE-UNICODE; do
            [ -n "$text" ] || [ ! -f "$kit/$crate/$name" ] || text=$kit/$crate/$name
        done
        [ -n "$text" ] || fail "the kit has no licence of $crate"
        printf '\n==== %s ====\n\n' "$crate"
        cat "$text"
    done
} >"$doc/copyright"
find "$tree" -type d -exec chmod 755 {} +
find "$tree" -type f -exec chmod 644 {} +
chmod 755 "$tree/bin/dpl" "$tree/bin/dplview" "$tree/share/dpl/klayout/markers.py" "$tree/share/dpl/examples/cluster/"*.s*

# Each link of a document, and each picture in it, is a file that is packed.
find "$tree" -name '*.md' | while read -r page; do
    grep -oE '\]\([^)#]+|src="[^"]+' "$page" | sed 's/^](//; s/^src="//' | while read -r link; do
        case $link in *:*) continue ;; esac
        [ -f "$(dirname "$page")/$link" ] || fail "${page#"$tree/"} has a link to $link, which is not packed"
    done
done

# The programs must answer an example before they are packed.
said=$("$tree/bin/dpl" split --layer 1 --rule 30 --overlap 10 "$top/examples/two-bars.gds" "$work/out" "$work/cert") ||
    fail "$program ended with $? on an example"
[ "$said" = "done features 2 pieces 2 zones 0 stitches 0 a 1 b 1" ] || fail "$program said of an example: $said"
said=$("$tree/bin/dplview" conflicts --layer 1 --rule 30 --overlap 10 "$top/examples/two-bars.gds") ||
    fail "$view ended with $? on an example"
[ "$said" = "conflicts cycles 0 pieces 0 edges 0" ] || fail "$view said of an example: $said"
[ "$("$tree/bin/dplview" --version)" = "dplview $version" ] || fail "$view has another version than the file VERSION"

# Each package is made whole, and then put into the folder.
name=dpl-$version-$machine
mv "$tree" "$work/$name"
tar -C "$work" --sort=name --owner=0 --group=0 --numeric-owner --mtime="@$SOURCE_DATE_EPOCH" -cf "$work/$name.tar" "$name"
gzip -9n "$work/$name.tar"
mv "$work/$name.tar.gz" "$folder/$name.tar.gz"
echo "$folder/$name.tar.gz"

command -v dpkg-deb >/dev/null 2>&1 || {
    echo "package.sh: dpkg-deb isn't there, so no Debian package was made"
    exit 0
}
root=$work/root
mkdir -p "$root/DEBIAN" "$root/usr/lib/klayout/pymacros"
cp -a "$work/$name/." "$root/usr"
gzip -9n "$root/usr/share/man/man1/dpl.1" "$root/usr/share/man/man1/dplview.1"
maintainer=$(git -C "$top" log -1 --format='%an <%ae>' 2>/dev/null || echo "dpl <root@localhost>")
printf 'dpl (%s) unstable; urgency=low\n\n  * Packaged from its sources.\n\n -- %s  %s\n' \
    "$version" "$maintainer" "$(date -uR -d "@$SOURCE_DATE_EPOCH")" | gzip -9n >"$root/usr/share/doc/dpl/changelog.gz"
ln -s ../../../share/dpl/klayout/dpl.lym "$root/usr/lib/klayout/pymacros/dpl.lym"
# The C library of the version that the programs ask for, and the packages of their other libraries.
libc=$(grep -aoh 'GLIBC_[0-9.]*[0-9]' "$program" "$view" | sed 's/GLIBC_//' | sort -uV | tail -1)
depends="libc6 (>= ${libc:-2.34})"
for library in $(ldd "$program" "$view" | sed -n 's/.*=> \([^ ]*\) .*/\1/p' | sort -u); do
    package=$(dpkg -S "$library" 2>/dev/null || dpkg -S "/usr$library") || fail "no package has $library"
    package=${package%%:*}
    case $depends in *"$package"*) ;; *) depends="$depends, $package" ;; esac
done
architecture=$(dpkg --print-architecture)
cat >"$root/DEBIAN/control" <<CONTROL
Package: dpl
Version: $version
Architecture: $architecture
Maintainer: $maintainer
Installed-Size: $(du -sk "$root/usr" | cut -f1)
Depends: $depends
Recommends: python3
Suggests: klayout
Section: electronics
Priority: optional
Description: double-patterning mask decomposer
 dpl splits one layer of a GDSII layout into two masks for double patterning,
 with stitches, and writes a text certificate; or it writes an odd cycle of
 conflicts, or the first fault of the file. What it answers is proved.
 .
 In KLayout the entry "Split into two masks (dpl)" of the menu Tools splits the
 current layer and shows masks, stitches, conflicts and faults.
CONTROL
deb=dpl_${version}_$architecture.deb
dpkg-deb --root-owner-group -Zxz --build "$root" "$work/$deb" >/dev/null
mv "$work/$deb" "$folder/$deb"
echo "$folder/$deb"
