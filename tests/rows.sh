# What the scripts of this folder share: where the repository stands, the program, and how rows are counted. They source it.
root=$(cd "$(dirname "${BASH_SOURCE[0]}")/.." && pwd)
passed=0
failed=0
skipped=0

# Sets `program` to the one that the variable ROCK names, or to the one that ./rock builds where it is out of date.
find_program() {
    program=${ROCK:-}
    if [ -z "$program" ]; then
        "$root/rock" --version >/dev/null || exit 1
        program=$root/crates/rock_main/out/rock_main
    fi
}

fail() {
    printf 'FAILED: %s\n' "$1"
    failed=$((failed + 1))
}

skip() {
    printf 'SKIPPED: %s\n' "$1"
    skipped=$((skipped + 1))
}

# Counts a row: a status, which is 0 where the row is as it should be, and a name. The status stands first, since a command in
# the name would change it.
judge() {
    if [ "$1" -eq 0 ]; then passed=$((passed + 1)); else fail "$2"; fi
}
