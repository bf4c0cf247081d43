#!/bin/sh
# SPDX-License-Identifier: Apache-2.0 OR MIT
# Makes confd_VERSION_ARCH.deb, a package of Debian's, of the program that is built: VERSION is what the file VERSION at
# the top says, and ARCH what dpkg says of this machine.
#
#     deploy/package.sh [--program FILE] [FOLDER]      into FOLDER, else the current one
#
# FILE is crates/confd/out/confd if not told. Needs dpkg-dev and binutils, and proves and builds nothing. The same files
# and commit give the same package, byte by byte. Prints its path; ends with status 1 if something is missing.
set -eu
umask 022
top=$(cd "$(dirname "$0")/.." && pwd)
program=$top/crates/confd/out/confd
if [ "${1-}" = --program ]; then
    program=$2
    shift 2
fi
folder=${1-.}
[ -x "$program" ] || { echo "$program: build it first, with \`rt run\` in crates/confd" >&2; exit 1; }
[ -d "$folder" ] || { echo "$folder: there is no such folder" >&2; exit 1; }

version=$(cat "$top/VERSION")
arch=$(dpkg --print-architecture)
maintainer='Yozgrimp maintainers <maintainers@users.noreply.yozgrimp.example>'
moment=$(git -C "$top" log -1 --format=%ct)
export SOURCE_DATE_EPOCH="$moment"
room=$(mktemp -d)
trap 'rm -rf "$room"' EXIT
root=$room/root

# ---- its files

install -D -m 755 "$program" "$root/usr/bin/confd"
install -D -m 644 "$top/deploy/confd@.service" "$root/usr/lib/systemd/system/confd@.service"
install -D -m 755 "$top/deploy/move_store.py" "$root/usr/share/confd/move_store.py"
install -D -m 644 "$top/deploy/store_formats.py" "$root/usr/share/confd/store_formats.py"
install -d -m 755 "$root/etc/confd"
documents=$root/usr/share/doc/confd
install -D -m 644 "$top/deploy/nginx.conf" "$documents/examples/nginx.conf"
for page in API CHAIR RUNNING STORE VIEWS; do
    install -m 644 "$top/docs/$page.md" "$documents/$page.md"
done
install -m 644 "$top/CHANGELOG.md" "$documents/CHANGELOG.md"
install -m 644 "$top/docs/openapi.json" "$documents/openapi.json"
install -d -m 755 "$documents/pictures"
install -m 644 "$top/docs/pictures/phases.svg" "$documents/pictures/phases.svg"
install -d "$root/usr/share/man/man1"
python3 "$top/deploy/man_page.py" "$(date -u -d "@$moment" +%F)" "$version" |
    gzip -9n > "$root/usr/share/man/man1/confd.1.gz"
{
    printf 'confd (%s) unstable; urgency=medium\n\n  * Made of the program as it was built.\n\n' "$version"
    printf ' -- %s  %s\n' "$maintainer" "$(date -u -R -d "@$moment")"
} | gzip -9n > "$documents/changelog.gz"
{
    printf 'Format: https://www.debian.org/doc/packaging-manuals/copyright-format/1.0/\n\n'
    printf 'Files: *\nCopyright: 2026 the maintainers of confd\nLicense: Apache-2.0 or Expat\n\n'
    printf 'License: Apache-2.0\n Its text is in /usr/share/common-licenses/Apache-2.0.\n\nLicense: Expat\n'
    sed -n '5,$p' "$top/LICENSE-MIT" | sed 's/^$/./; s/^/ /'
} > "$documents/copyright"

# ---- what dpkg is told

mkdir -p "$root/DEBIAN" "$room/debian"
touch "$room/debian/control"
depends=$(cd "$room" && dpkg-shlibdeps -O "$root/usr/bin/confd" 2> /dev/null | sed -n 's/^shlibs:Depends=//p')
cat > "$root/DEBIAN/control" <<CONTROL
Package: confd
Version: $version
Architecture: $arch
Maintainer: $maintainer
Installed-Size: $(du -sk --apparent-size "$root/usr" | cut -f 1)
Depends: $depends
Recommends: nginx, systemd
Suggests: python3
Section: web
Priority: optional
Description: conference review server
 What a programme committee uses from the call for papers to notification,
 over HTTP on loopback. Nobody learns a name, a review or a decision before
 the rules allow it. One program, and one file for each conference.
CONTROL
cat > "$root/DEBIAN/postinst" <<'SCRIPT'
#!/bin/sh
# Conferences that run go on with the program that they began with, until they are restarted.
set -e
[ "$1" != configure ] || [ ! -d /run/systemd/system ] || systemctl daemon-reload
SCRIPT
cat > "$root/DEBIAN/prerm" <<'SCRIPT'
#!/bin/sh
set -e
[ "$1" != remove ] || [ ! -d /run/systemd/system ] || systemctl stop 'confd@*.service'
SCRIPT
chmod 755 "$root/DEBIAN/postinst" "$root/DEBIAN/prerm"
(cd "$root" && find usr -type f -print0 | LC_ALL=C sort -z | xargs -0 md5sum) > "$root/DEBIAN/md5sums"

package=$folder/confd_${version}_$arch.deb
dpkg-deb --root-owner-group --build "$root" "$room/made.deb" > /dev/null
mv "$room/made.deb" "$package"
echo "$package"
