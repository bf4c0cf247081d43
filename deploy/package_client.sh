#!/bin/sh
# SPDX-License-Identifier: Apache-2.0 OR MIT
# Packs the client as confd-client_VERSION_all.deb, beside the server's package.
#
#     deploy/package_client.sh [FOLDER]        into FOLDER, the current one if none is named
#
# Needs dpkg-deb and the Debian packages python3-pip, python3-setuptools and python3-wheel; asks no network. Prints the
# file's name. The same commit gives the same bytes: times are those of the commit, or SOURCE_DATE_EPOCH's.
set -eu
top=$(cd "$(dirname "$0")/.." && pwd)
folder=$(cd "${1:-.}" && pwd)
python=/usr/bin/python3
version=$(sed -n 's/^version = "\(.*\)"$/\1/p' "$top/client/pyproject.toml")
SOURCE_DATE_EPOCH=${SOURCE_DATE_EPOCH:-$(git -C "$top" log -1 --format=%ct)}
export SOURCE_DATE_EPOCH
umask 022

room=$(mktemp -d)
trap 'rm -rf "$room"' EXIT
chmod 755 "$room"
mkdir "$room/client" "$room/package"

# A copy, since setuptools writes beside what it builds.
cp -R "$top/client/confd_client" "$top/client/pyproject.toml" "$room/client"
find "$room/client" -name __pycache__ -prune -exec rm -rf {} +
modules=$room/package/usr/lib/python3/dist-packages
$python -m pip --quiet --disable-pip-version-check --no-input install --no-index --no-build-isolation --no-deps \
    --no-compile --root-user-action=ignore --target "$modules" "$room/client"
# What pip notes of where it was run, and its start script, which names this machine's Python.
rm -rf "${modules:?}/bin" "$modules"/confd_client-*/direct_url.json "$modules"/confd_client-*/RECORD

mkdir -p "$room/package/usr/bin" "$room/package/usr/share/doc/confd-client" "$room/package/DEBIAN"
cat > "$room/package/usr/bin/confd-client" <<'START'
#!/usr/bin/python3
from confd_client.cli import main

main()
START
chmod 755 "$room/package/usr/bin/confd-client"
cp "$top/docs/CLIENT.md" "$room/package/usr/share/doc/confd-client/"

cat > "$room/package/DEBIAN/control" <<CONTROL
Package: confd-client
Version: $version
Architecture: all
Section: net
Priority: optional
Maintainer: the confd committee <confd@localhost>
Depends: python3 (>= 3.11), python3-click (>= 8.1), python3-jinja2 (>= 3.1), python3-requests (>= 2.28), python3-rich (>= 13), python3-scipy (>= 1.10)
Installed-Size: $(du -sk "$room/package/usr" | cut -f1)
Description: command line of confd, the conference review server
 For chairs, members and authors: committees, plans of who reviews what, review
 forms as text files, letters to authors, exports; and a Python library over
 the server's HTTP interface.
CONTROL
cat > "$room/package/DEBIAN/postinst" <<'AFTER'
#!/bin/sh
set -e
[ "$1" != configure ] || py3compile -p confd-client
AFTER
cat > "$room/package/DEBIAN/prerm" <<'BEFORE'
#!/bin/sh
set -e
py3clean -p confd-client
BEFORE
chmod 755 "$room/package/DEBIAN/postinst" "$room/package/DEBIAN/prerm"
find "$room/package" -newermt "@$SOURCE_DATE_EPOCH" -exec touch --no-dereference --date="@$SOURCE_DATE_EPOCH" {} +

file=$folder/confd-client_${version}_all.deb
dpkg-deb --root-owner-group -Zxz --build "$room/package" "$file" > /dev/null
echo "$file"
