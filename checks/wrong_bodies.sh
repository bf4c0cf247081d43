#!/bin/sh
# SPDX-License-Identifier: Apache-2.0 OR MIT
# Wrong bodies that the gate leaves out, to stay short: each has to be refused by the proofs.
#
#     checks/wrong_bodies.sh [CRATE..]        all crates that have some in checks/wrong_bodies where none is told
#     checks/wrong_bodies.sh --check          only whether each text that is to be changed is there, once;
#                                             the gate's too
#
# Works on a copy of what is committed, and takes a minute or more a crate. Ends with status 0 where all were refused.
top=$(cd "$(dirname "$0")/.." && pwd) || exit 1
if [ "$1" = --check ]; then
    python3 - "$top" <<'CHECK'
import pathlib
import sys

top = pathlib.Path(sys.argv[1])


def lost(crate, edit):
    """Why the edit can't be made in the crate; none where it can."""
    path, old, texts = None, None, {}
    for line in edit.read_text().splitlines():
        key, _, told = line.partition(": ")
        if key == "file":
            path = crate / told
            if not path.is_file():
                return f"there is no {told}"
            texts.setdefault(path, path.read_text())
        elif key == "old":
            old = told
        elif key in ("new", "new:") and path and old:
            if texts[path].count(old) != 1:
                return f"{path.name} has the text {texts[path].count(old)} times: {old}"
            if old == told:
                return f"it changes nothing in {path.name}"
            texts[path], old = texts[path].replace(old, told), None
    return None if texts and not old else "it changes nothing"


edits = [(path.parent.name, path) for path in top.glob("checks/wrong_bodies/*/*.edit")]
edits += [(path.parent.parent.name, path) for path in top.glob("crates/*/must-fail/*.edit")]
missing = 0
for name, path in sorted(edits):
    why = lost(top / "crates" / name, path)
    if why:
        missing += 1
        print(f"{path.relative_to(top)}: {why}")
print(f"{len(edits)} wrong bodies, {missing} can't be planted")
sys.exit(missing > 0)
CHECK
    exit
fi
room=$(mktemp -d) || exit 1
trap 'rm -rf "$room"' EXIT
git clone -q "$top" "$room/confd" && cd "$room/confd" || exit 1
[ $# -gt 0 ] || set -- $(ls checks/wrong_bodies)
failed=0
for crate in "$@"; do
    rm -rf "crates/$crate/must-fail"
    cp -r "checks/wrong_bodies/$crate" "crates/$crate/must-fail"
    if rt must-fail "$crate" > "$room/$crate.log" 2>&1; then
        echo "$crate: all refused"
    else
        failed=1
        cat "$room/$crate.log"
        echo "$crate: not all refused"
    fi
done
exit $failed
