#!/usr/bin/env bash
# Plays the random walk of test_random_steps, and after each step reads off the state what must hold between two steps,
# in stores of the walk's four slots and two anchors alone:
# readers, writers, freers and last tabs, the counters, what was seen, the place of each slot, the links of
# chains, turns and their holders, what cells hold, and which pieces were logged for them. Clauses say most of
# this of every step, so this tries the tools and not the code, and it is no part of the gate. It works on a
# copy, and proves the crates there that are not proved here, which takes many minutes; the walk itself takes
# seconds. The kit's command rt must be on the path. `state_walk.sh try` plays the walk by `rt try`, with no
# proof; it is slow then, and may take an hour.
set -eu -o pipefail

root=$(dirname "$(readlink -f "${BASH_SOURCE[0]}")")/..
copy=$(mktemp -d)
trap 'rm -rf "$copy"' EXIT

cd "$root"
git ls-files -z crates crates.txt HANDLES | xargs -0 cp --parents -t "$copy"
for built in crates/*/out/rlib/stamp; do
    [ -e "$built" ] && cp -a --parents "$(dirname "$built")" "$copy"
done
walk=$copy/crates/test_random_steps/src/walk
mkdir "$walk/checks"
for file in tests/state_walk/*.txt; do
    name=$(basename "$file" .txt)
    target=$walk/checks/$name.rt
    [ "$name" = checks ] && target=$walk/checks.rt
    cp "$file" "$target"
done
sed -i 's/^mod crashes;$/mod checks;\nmod crashes;/
    s/^\( *\)watch\.note_step(.*$/&\n\1if store.fillers == 0 {\n\1    checks::check(rt, \&core);\n\1}/' "$walk.rt"
grep -q 'checks::check' "$walk.rt"

cd "$copy/crates/test_random_steps"
if [ "${1:-}" = try ]; then
    rt try --test --seconds "${RT_SECONDS:-7200}"
else
    RT_SECONDS=${RT_SECONDS:-600} rt test
fi
