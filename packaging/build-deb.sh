#!/bin/sh
# Makes a Debian package of the proved program: packaging/build-deb.sh DIRECTORY puts coefhird_VERSION_amd64.deb there.
# BINARY, BINARIES, UNPROVED, and --cpu NAME after DIRECTORY, are as for install.sh. VERSION is the version of the package,
# where it is to be another one than that of the program. It needs dpkg-deb and no other tool of
# packages. Two builds of one commit are equal to the byte: where SOURCE_DATE_EPOCH is not set, files have the time of the
# first entry of debian/changelog.
set -eu
here=$(cd "$(dirname "$0")/.." && pwd)
into=${1:?a directory for the package}
shift
version=${VERSION:-$(cat "$here/VERSION")}
export VERSION="$version"
[ -n "${SOURCE_DATE_EPOCH:-}" ] || SOURCE_DATE_EPOCH=$(date -d "$(sed -n '/^ -- /{s/^ -- [^>]*>  //p;q}' "$here/packaging/debian/changelog")" +%s)
export SOURCE_DATE_EPOCH
work=$(mktemp -d)
trap 'rm -rf "$work"' EXIT
root=$work/root
mkdir -p "$root/DEBIAN"
chmod 755 "$root" "$root/DEBIAN"

DESTDIR=$root PREFIX=/usr "$here/packaging/install.sh" "$@"

# Debian's zsh looks for a package's completions elsewhere.
mkdir -p "$root/usr/share/zsh/vendor-completions"
mv "$root/usr/share/zsh/site-functions/_at" "$root/usr/share/zsh/vendor-completions/_at"
rmdir "$root/usr/share/zsh/site-functions"

# What a package of Debian's has besides.
doc=$root/usr/share/doc/coefhird
for program in $(awk '$1 == "command" && $4 != "script" && !seen[$4]++ { print $4 }' "$here/packaging/programs"); do
    program=$root/usr/libexec/coefhird/$program
    strip --remove-section=.comment --remove-section=.note "$program" 2>/dev/null || true
    # (what is stripped has another checksum)
    [ ! -e "$program.built" ] || sed -i "s/^sha256 .*/sha256 $(sha256sum <"$program" | cut -c 1-64)/" "$program.built"
done
mkdir -p "$doc" "$root/etc/default"
cp "$here/packaging/debian/copyright" "$doc/copyright"
gzip -9nc "$here/packaging/debian/changelog" >"$doc/changelog.gz"
cp "$here/packaging/debian/default" "$root/etc/default/coefhird"
find "$root/usr/share/man" -type f -exec gzip -9n {} +
find "$root/usr/share/man" -type l | while IFS= read -r link; do
    ln -sf "$(readlink "$link").gz" "$link.gz"
    rm "$link"
done
echo /etc/default/coefhird >"$root/DEBIAN/conffiles"
# Where no systemd runs.
install -D -m 755 "$here/packaging/debian/init" "$root/etc/init.d/coefhird-users"
echo /etc/init.d/coefhird-users >>"$root/DEBIAN/conffiles"
# What postinst puts into its place where it is absent.
install -D -m 644 "$root/usr/lib/systemd/system/atd.service" "$root/usr/share/coefhird/atd.service"
install -D -m 644 "$here/packaging/debian/at.deny" "$root/usr/share/coefhird/at.deny"
for script in preinst postinst prerm postrm; do
    install -m 755 "$here/packaging/debian/$script" "$root/DEBIAN/$script"
done
# The files of a spool that are no jobs, as tests of find.
kept=$(awk '$1 == "kept" { for (i = 2; i <= NF; i++) printf " ! -name \047%s\047", $i }' "$here/packaging/programs")
# The units that can be enabled.
units() { grep -l '^\[Install\]' "$here/packaging/systemd/$1"* | sed "s|.*/$1||" | paste -sd ' '; }
sed -i "s|@NO_JOBS@|${kept# }|; s|@OF_SYSTEM@|$(units system-)|; s|@OF_USERS@|$(units user-)|" "$root/DEBIAN/postrm"
size=$(du -sk "$root" | cut -f 1)
sed -e "s/@VERSION@/$version/" -e "s/@SIZE@/$size/" "$here/packaging/debian/control" >"$root/DEBIAN/control"
(cd "$root" && find . -type f ! -path './DEBIAN/*' -printf '%P\0' | sort -z | xargs -0 md5sum) >"$root/DEBIAN/md5sums"
find "$root" -type d -exec chmod 755 {} +
chmod 644 "$doc"/* "$root/etc/default/coefhird" "$root/DEBIAN/control" "$root/DEBIAN/conffiles" "$root/DEBIAN/md5sums"
find "$root" -exec touch -h -d "@$SOURCE_DATE_EPOCH" {} +

mkdir -p "$into"
dpkg-deb --root-owner-group --build "$root" "$into/coefhird_${version}_amd64.deb" >/dev/null
echo "$into/coefhird_${version}_amd64.deb"
