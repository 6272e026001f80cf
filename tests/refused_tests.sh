#!/usr/bin/env bash
# Tests of crates with each of their allocations refused in turn: refused_tests.sh [CRATE ..]
#
# Each test of a crate is run by itself, first with no allocation refused, then with the first one refused, the second, and so on,
# until a run asks for fewer. It passes then, or ends by an error that it answers or by an assertion that does not hold: so a call that
# wanted memory said so. A test that does not end within a minute, or is ended by anything else, is a failure here, as is one that
# fails where no allocation is refused.
#
# The crates are those whose tests make cores, steps of cores, files in memory, marks, pages, scripts of benchmarks and caches over
# several files; or those that are named. The program of a crate's tests is what `rt test` leaves in the crate's folder, out/NAME_tests,
# and this builds it where it is not there; or the variable PROGRAMS names a folder that has it as NAME_tests. A test with more
# than MOST (or 3,000) allocations is run with MOST numbers that lie evenly among them, and with the last one.
#
# tests/refuse_alloc.c refuses them. It needs the kit and a C compiler. Run it by hand. It prints for each test how many allocations
# there were, with how many of them refused it passed, and with how many it ended. Its status is 0 where nothing failed.
set -u -o pipefail

. "$(dirname "${BASH_SOURCE[0]}")/rows.sh"
folder=$(mktemp -d) || exit 1
trap 'rm -rf "$folder"' EXIT
"${CC:-cc}" -O2 -shared -fPIC -o "$folder/refuse" "$root/tests/refuse_alloc.c" || exit 1
most=${MOST:-3000}
ulimit -c 0

# The program of a crate's tests.
program_of() {
    local built=${PROGRAMS:-$root/crates/$1/out}/$1_tests
    [ -x "$built" ] || (cd "$root/crates/$1" && rt test) >"$folder/built" 2>&1
    [ -x "$built" ] && printf '%s\n' "$built"
}

# Runs a test with the allocation of this number refused, and sets `ended`, the status, and `asked`, how many allocations there were.
run_test() {
    head -c 16 /dev/zero >"$folder/asked"
    # (the shell says of itself that a program was aborted)
    { (cd "$folder" && REFUSE_ALLOC=$3 ALLOC_COUNT=$folder/asked LD_PRELOAD=$folder/refuse timeout 60 "$1" "$2"); } >/dev/null 2>&1
    ended=$?
    read -r asked _ < <(od -An -t u8 "$folder/asked")
}

# A test of a program: with none refused, and with each one.
play() {
    local name=$3 all step number=1 passes=0 ends=0 before=$failed
    run_test "$1" "$2" 0
    all=$asked
    [ "$ended" -eq 0 ] || { fail "$name: status $ended with no allocation refused"; return; }
    step=$(((all + most - 1) / most))
    [ "$step" -gt 0 ] || step=1
    while [ "$number" -le "$all" ]; do
        run_test "$1" "$2" "$number"
        case $ended in
        0) passes=$((passes + 1)) ;;
        # what a test exits with that answers an error, and what an assertion ends it with
        101 | 134) ends=$((ends + 1)) ;;
        *) false ;;
        esac
        judge $? "$name, allocation $number: status $ended"
        [ "$number" -lt "$all" ] && [ $((number + step)) -gt "$all" ] && number=$all || number=$((number + step))
    done
    printf '%s: %d allocations; with one refused it passed %d times, and ended %d times; %d failed\n' \
        "$name" "$all" "$passes" "$ends" $((failed - before))
}

crates=("$@")
[ $# -gt 0 ] || crates=(test_core test_lives test_disks test_pools test_dirs)
for crate in "${crates[@]}"; do
    program=$(program_of "$crate") || { fail "$crate: its tests could not be built"; continue; }
    while read -r name; do
        play "$program" "$name" "$crate $name"
    done < <("$program" --list | sed -n "s/: test$//p")
done
printf '%d passed, %d failed\n' "$passed" "$failed"
[ "$failed" -eq 0 ]
