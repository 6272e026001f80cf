#!/usr/bin/env bash
# Times how ./rock builds the program: first_build.sh [PROCESSORS ..]
#
# With each number of processors that is named, or with 2 and then with 4, a copy of the repository's files is built from
# nothing. With the last number another copy is built that is interrupted twice, after two minutes each; then it is built
# anew after a comment was added to a crate at the top, and to one at the bottom by two builds at once. Prints the seconds
# of each, beside those of the processors that the host took away meanwhile (steal). It takes hours, works in a new folder
# below TMPDIR with a cache of its own, and wants a machine that is idle. Its status is 0 where each build went well.
set -u -o pipefail

root=$(dirname "$(dirname "$(readlink -f "${BASH_SOURCE[0]}")")")
folder=$(mktemp -d) || exit 1
trap 'rm -rf "$folder"' EXIT
export XDG_CACHE_HOME=$folder/cache
failed=0

# The files of the repository, in a folder of this name.
copy() {
    mkdir "$folder/$1" && (cd "$root" && git ls-files -z | xargs -0 cp --parents -t "$folder/$1")
}

stolen() { awk '/^cpu / { print $9 / 100 }' /proc/stat; }

# Says what a build took: timed NAME PROCESSORS COMMAND ..
timed() {
    local name=$1 count=$2 begun=$EPOCHREALTIME taken status
    taken=$(stolen)
    shift 2
    (taskset -cp "0-$((count - 1))" $BASHPID >/dev/null && "$@") >"$folder/printed" 2>"$folder/said"
    status=$?
    awk -v name="$name" -v count="$count" -v from="$begun" -v to="$EPOCHREALTIME" -v was="$taken" -v is="$(stolen)" -v status=$status \
        'BEGIN { printf "%s, %d processors: %.0f s, %.0f s stolen, status %d\n", name, count, to - from, is - was, status }'
    if [ $status -ne 0 ] || [ "$(sort -u "$folder/printed")" != 'rock 0.1.0' ]; then
        tail -n 20 "$folder/said"
        failed=1
    fi
}

# Builds that are interrupted after so many seconds, as by the keys, and one that is not.
interrupted() {
    local program=$1 seconds
    shift
    for seconds in "$@"; do
        timeout --signal=INT --kill-after=60 "$seconds" "$program" --version && return 1
    done
    "$program" --version
}

both() {
    "$1" --version &
    "$1" --version && wait $!
}

counts=("$@")
[ $# -gt 0 ] || counts=(2 4)
for count in "${counts[@]}"; do
    copy "from-$count" || exit 1
    timed 'from nothing' "$count" "$folder/from-$count/rock" --version
done
copy again || exit 1
timed 'interrupted twice' "$count" interrupted "$folder/again/rock" 120 120
printf '\n// Changed.\n' >>"$folder/again/crates/rock_main/src/main.rt"
timed 'after a change of rock_main' "$count" "$folder/again/rock" --version
printf '\n// Changed.\n' >>"$folder/again/crates/rock_io/src/lib.rt"
timed 'two at once, after a change of rock_io' "$count" both "$folder/again/rock"
exit $failed
