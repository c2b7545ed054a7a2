#!/bin/sh
# Tries edits that the prover must refuse and that the gate leaves out, since each costs a check of its crate: those of
# tests/edits/CRATE, beside those of crates/CRATE/must-fail. In a copy of the repository, which goes at the end.
#
#     tests/edits.sh [CRATE..]          (in the repository, with the kit's rt on the path; with no crate, all of them,
#                                       which takes hours)
#
# It prints what rt must-fail says of each, and ends with its status: 0 where each was refused.
set -e
top=$(cd "$(dirname "$0")/.." && pwd)
copy=$(mktemp -d)
trap 'rm -rf "$copy"' EXIT
[ $# -gt 0 ] || set -- $(ls "$top/tests/edits")
cp -r "$top/crates" "$top/crates.txt" "$top/HANDLES" "$copy/"
for crate in "$@"; do
    mkdir -p "$copy/crates/$crate/must-fail"
    cp "$top/tests/edits/$crate"/*.edit "$copy/crates/$crate/must-fail/"
done
cd "$copy"
rt must-fail "$@"
