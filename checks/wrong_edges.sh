#!/bin/sh
# SPDX-License-Identifier: Apache-2.0 OR MIT
# Wrong bodies of the edge, where no clause says what the system does: the check that each names has to refuse it.
#
#     checks/wrong_edges.sh [NAME..]        all of checks/wrong_edges where none is told
#     checks/wrong_edges.sh --check         only whether each text that is to be changed is there, once
#
# Works on a copy of what is committed; builds the program with each body in turn, by `rt run`, which proves what has
# changed: some minutes each. Ends with status 0 where all were refused, by the check or by a proof. A file has the
# lines `crate:`, `check:` (a script of checks/ and the name of its check) and those of a must-fail edit.
top=$(cd "$(dirname "$0")/.." && pwd) || exit 1
cd "$top" || exit 1

build() {
    (cd crates/confd && rt run -- pipe < stdin) > "$room/build.log" 2>&1
}

# Plants the body in what stands here; with --check it changes nothing, and looks at all that are named.
plant() {
    python3 - "$@" <<'PLANT'
import pathlib
import sys

names = sys.argv[1:]
only_check = names[:1] == ["--check"]
lost = 0
for name in names[only_check:]:
    edit = pathlib.Path(f"checks/wrong_edges/{name}.edit")
    lines = [line.partition(": ")[::2] for line in edit.read_text().splitlines()] if edit.is_file() else []
    told = dict(lines)
    if "check" not in told:
        print(f"{name}: no such body")
        lost += 1
        continue
    path = pathlib.Path(f"crates/{told['crate']}/{told['file']}")
    text = path.read_text()
    for (key, old), (_, new) in zip(lines, lines[1:]):
        if key == "old":
            if text.count(old) != 1:
                print(f"{name}: {path} has the text {text.count(old)} times: {old}")
                lost += 1
                break
            text = text.replace(old, new)
    if not only_check:
        path.write_text(text)
if only_check:
    print(f"{len(names) - 1} wrong edges, {lost} can't be planted")
sys.exit(lost > 0)
PLANT
}

only_check=
if [ "$1" = --check ]; then
    only_check=yes
    shift
fi
[ $# -gt 0 ] || set -- $(cd checks/wrong_edges && ls | sed 's/\.edit$//')
# Ahead of all that takes minutes.
plant --check "$@" || exit 1
[ -z "$only_check" ] || exit 0

room=$(mktemp -d) || exit 1
trap 'rm -rf "$room"' EXIT
git clone -q "$top" "$room/confd" && cd "$room/confd" || exit 1
# So that what is refused below is the body's fault.
build || { cat "$room/build.log"; exit 1; }
failed=0
for name in "$@"; do
    check=$(sed -n 's/^check: //p' "checks/wrong_edges/$name.edit")
    if ! plant "$name"; then
        failed=1
    elif ! build; then
        echo "$name: refused before it ran"
        tail -n 5 "$room/build.log"
    elif python3 checks/$check > "$room/check.log" 2>&1; then
        echo "$name: NOT REFUSED by $check"
        failed=1
    else
        echo "$name: refused by $check"
        grep -A 1 '^FAILED' "$room/check.log"
    fi
    git checkout -q crates
done
exit $failed
