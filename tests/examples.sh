#!/usr/bin/env bash
# The examples: the commands of each stand in examples/README.md under its name. They are run in a temporary folder,
# and what they print is compared with what stands there. What a run prints is compared with the file of answers, and
# each status is to be 0, with nothing on standard error. Run it by hand; it builds the program first where it is out
# of date, or takes the one that the variable ROCK names. Its status is 0 where all examples are as they should be.
set -u -o pipefail

root=$(cd "$(dirname "${BASH_SOURCE[0]}")/.." && pwd)
program=${ROCK:-}
if [ -z "$program" ]; then
    "$root/rock" --version >/dev/null || exit 1
    program=$root/rock
fi
program=$(realpath "$program")
folder=$(mktemp -d) || exit 1
trap 'rm -rf "$folder"' EXIT
cp "$root"/examples/* "$folder" && cd "$folder" || exit 1

passed=0
failed=0

# The commands of an example and what they print, from the README.
told() {
    awk -v heading="## $1" '/^## / { on = $0 == heading } on && /^    / { print substr($0, 5) }' README.md
}

# Runs the commands among the lines of standard input, each behind a $, and prints the same lines anew. A run reads
# the script of the example, and what it prints goes to a file. Marks that are never set would let it wait for ever.
replay() {
    local line words
    while IFS= read -r line; do
        [ "${line#'$ rock '}" = "$line" ] && continue
        printf '%s\n' "$line"
        read -r -a words <<<"${line#'$ rock '}"
        if [ "${words[0]}" = run ]; then
            timeout 60 "$program" "${words[@]:0:5}" <"$1.script" >printed
        else
            "$program" "${words[@]}" </dev/null
        fi || printf 'status %d\n' $?
    done
}

# Prints what differs in two files, without the ends of long lines.
differ() {
    diff "$1" "$2" | cut -c 1-100 | head -n 10
}

# An example: its commands end with the run of its script and more, and all that is printed is as it should be.
example() {
    local name=$1
    rm -f printed && told "$name" >expected && replay "$name" <expected >replayed 2>said
    if grep -q "^\$ rock run $name.db .* <$name.script\$" expected && cmp -s expected replayed &&
        cmp -s "$name.answers" printed && [ ! -s said ]; then
        passed=$((passed + 1))
        return
    fi
    failed=$((failed + 1))
    printf 'FAILED: %s\n' "$name"
    differ expected replayed
    [ -e printed ] && differ "$name.answers" printed
    head -n 3 said
}

for script in *.script; do
    example "${script%.script}"
done
printf '%d examples passed, %d failed\n' "$passed" "$failed"
[ "$passed" -ge 5 ] && [ "$failed" -eq 0 ]
