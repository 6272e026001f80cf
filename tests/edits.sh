#!/usr/bin/env bash
# Tries the must-fail edits that the gate leaves out for its time: edits.sh [CRATE ..]
#
# The edits that tell most of a crate stand in its own must-fail/, and the gate tries them. The others stand in
# tests/edits/, a folder for each crate. Here those of the crates that are named, or of all, are put into a copy of the
# repository, and tried there by `rt must-fail`: the prover must refuse each. It proves the crates first that
# are not proved yet, so for all it takes hours. Its status is 0 where each edit was refused.
set -u -o pipefail

root=$(dirname "$(dirname "$(readlink -f "${BASH_SOURCE[0]}")")")
copy=$(mktemp -d) || exit 1
trap 'rm -rf "$copy"' EXIT

crates=("$@")
[ $# -gt 0 ] || mapfile -t crates < <(cd "$root/tests/edits" && ls)
cp -a "$root/crates" "$root/crates.txt" "$root/HANDLES" "$copy" && rm -f "$copy"/crates/*/must-fail/*.edit || exit 1
for crate in "${crates[@]}"; do
    mkdir -p "$copy/crates/$crate/must-fail" && cp "$root/tests/edits/$crate/"*.edit "$copy/crates/$crate/must-fail" || exit 1
done
cd "$copy" && rt must-fail "${crates[@]}"
