#!/bin/sh
# A hold can be neither copied nor cloned, neither dropped nor made outside the crate of the board:
# that is the compiler's word. Each text beside this script misuses a hold so. Puts one after the
# other in the place of the source of crates/hold_uses, in a copy of the repository, and expects
# the check to refuse it with the error that its first line names, and with no other; that takes no
# proof. The right uses are crates/hold_uses itself, which is proved with all other crates.
set -eu
here=$(cd "$(dirname "$0")" && pwd)
top=$(cd "$here/../.." && pwd)
copy=$(mktemp -d)
trap 'rm -rf "$copy"' EXIT
cp "$top/crates.txt" "$copy"
(cd "$top" && tar cf - --exclude=out crates) | (cd "$copy" && tar xf -)
crate=$copy/crates/hold_uses
for text in "$here"/*.txt; do
    name=$(basename "$text" .txt)
    error=$(sed -n '1s/^\/\/ Refused: \([^.]*\)\..*$/\1/p' "$text")
    cp "$text" "$crate/src/lib.rt"
    if (cd "$crate" && timeout 300 rt check) >"$copy/log" 2>&1; then
        echo "hold_uses/$name: passes, and should be refused" >&2
        exit 1
    fi
    if ! grep -q "^src/lib.rt:.* error\[$error\]" "$copy/log" ||
        grep ' error' "$copy/log" | grep -qv "^src/lib.rt:.* error\[$error\]"; then
        cat "$copy/log" >&2
        echo "hold_uses/$name: not refused with $error alone" >&2
        exit 1
    fi
done
