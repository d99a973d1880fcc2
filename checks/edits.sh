#!/bin/sh
# Tries by hand the wrong bodies that the gate leaves out: most stand under an exact clause, by which any wrong body is
# refused, so they tell little of the contract. Needed after a change of a definition, or of a contract's form.
#
#   checks/edits.sh [CRATE..]     those of these crates, of all where none is named
#
# Lays them into a copy of the tree, and has the prover refuse them there. A crate takes a check, and 6 to 40 seconds for
# each edit. Ends with the status of `rt must-fail`; an edit whose text stands no longer in the source is told as BAD EDIT.
here=$(dirname "$(readlink -f "$0")")
top=$(dirname "$here")
[ $# -gt 0 ] || set -- $(ls "$here/edits")
copy=$(mktemp -d) || exit 1
trap 'rm -rf "$copy"' EXIT
(cd "$top" && tar cf - --exclude=out crates crates.txt HANDLES) | tar xf - -C "$copy" || exit 1
for crate; do
    if [ ! -d "$here/edits/$crate" ]; then
        echo "edits.sh: no edits of $crate" >&2
        exit 2
    fi
    mkdir -p "$copy/crates/$crate/must-fail"
    cp "$here/edits/$crate"/*.edit "$copy/crates/$crate/must-fail/" || exit 1
done
cd "$copy" && rt must-fail "$@"
