#!/bin/sh
# SPDX-License-Identifier: Apache-2.0 OR MIT
# Installs the Debian packages that the checks need beside the toolchain, Python and git: as root, from Debian alone.
#
#     checks/packages.sh [--missing] [GROUP..]      the packages of these groups, of all where none is named
#
# With --missing it installs nothing: it prints those that aren't there, and ends with status 1 where one isn't.
# A group is what one part of the checks needs:
#
#     gate      what checks of the gate leave out, each with a line, where it isn't there
#     client    the client and its tests: client/tests, mypy, flake8; the overview in a browser; deploy/package_client.sh
#     package   what makes and reads a package: deploy/package.sh, checks/package.py
#     peers     clients and servers that confd is tried with: checks/clients.py, behind_nginx.py and soak.py, bench/
#     unit      what runs the service file: checks/unit.py
#     pictures  what lays out the graph of the crates: checks/pictures.py --write
#     disks     file systems, and what lends one a disk that refuses a write: checks/real_disks.py
set -eu

packages() {
    case $1 in
        gate) echo curl gcc libc6-dev python3-jsonschema python3-scipy strace ;;
        client)
            echo python3-click python3-jinja2 python3-requests python3-rich python3-scipy
            echo python3-pytest python3-typeshed mypy flake8
            echo chromium chromium-driver python3-selenium
            echo python3-pip python3-setuptools python3-venv python3-wheel
            ;;
        package) echo binutils dpkg-dev groff-base man-db mandoc ;;
        peers) echo apache2-utils curl gunicorn nginx-light openssl python3-flask python3-requests valgrind wrk ;;
        pictures) echo graphviz ;;
        unit) echo libseccomp2 systemd util-linux ;;
        disks) echo btrfs-progs e2fsprogs fuse mount python3-fusepy util-linux xfsprogs ;;
        *)
            echo "$1: no such group" >&2
            exit 2
            ;;
    esac
}

only_missing=
if [ "${1:-}" = --missing ]; then
    only_missing=yes
    shift
fi
[ $# -gt 0 ] || set -- gate client package peers pictures unit disks
wanted=
for group in "$@"; do
    wanted="$wanted $(packages "$group")" || exit
done

missing=
# shellcheck disable=SC2086  # each word is a package
for package in $(printf '%s\n' $wanted | sort -u); do
    case $(dpkg-query --show --showformat '${db:Status-Status}' "$package" 2> /dev/null) in
        installed) ;;
        *) missing="$missing $package" ;;
    esac
done
[ -n "$missing" ] || exit 0
if [ -n "$only_missing" ]; then
    # shellcheck disable=SC2086
    printf '%s\n' $missing
    exit 1
fi
apt-get update
# shellcheck disable=SC2086
apt-get install --yes --no-install-recommends $missing
