#!/bin/sh
# SPDX-License-Identifier: Apache-2.0 OR MIT
# Tries the client (client/): its style by flake8, its types by mypy, and its tests by pytest, against `confd serve`.
#
#     checks/client.sh [PROGRAM]
#
# PROGRAM is `confd` as `rt run` builds it (crates/confd/out/confd where none is named). Needs the Debian packages that
# checks/packages.sh installs, and Debian's Python; where they aren't there one line says so, and the status is 0. The
# overview page is seen in a browser where chromium, chromium-driver and python3-selenium are there. Takes two minutes.
top=$(cd "$(dirname "$0")/.." && pwd) || exit 1
program=$(realpath "${1:-$top/crates/confd/out/confd}") || exit 1
python=/usr/bin/python3
# (Debian's stubs, by which mypy knows the types of requests, can't be imported, so they are looked for by their folder)
if ! $python -c 'import click, flake8, jinja2, mypy, pytest, requests, rich, scipy, os, sys
sys.exit(not any(os.path.isdir(os.path.join(at, "requests-stubs")) for at in sys.path))' 2> /dev/null; then
    echo "the client isn't tried: checks/packages.sh installs what that needs"
    exit 0
fi
room=$(mktemp -d) || exit 1
trap 'rm -rf "$room"' EXIT
cd "$top/client" || exit 1
export PYTHONDONTWRITEBYTECODE=1
$python -m flake8 && $python -m mypy --cache-dir "$room/mypy" &&
    CONFD_PROGRAM=$program $python -m pytest -q -rs -p no:cacheprovider --basetemp "$room/tests"
