#!/usr/bin/env bash
# The recipes of docs/RECIPES.md: all commands of the page are run one after the other in a temporary folder, and what they
# print is compared with what stands there. Each line behind a $ is a command, and lines behind a > go on with it. Then the
# locks of docs/OPERATING.md are tried. Run it by hand; it builds the program first where it is out of date, or takes the one
# that the variable ROCK names. Its status is 0 where all is as it should be.
set -u -o pipefail

. "$(dirname "${BASH_SOURCE[0]}")/rows.sh"
find_program
folder=$(mktemp -d) || exit 1
trap 'rm -rf "$folder"' EXIT
mkdir "$folder/bin" "$folder/here" && cp "$program" "$folder/bin/rock" && cd "$folder/here" || exit 1
PATH=$folder/bin:$PATH

# In place of the system's: noon of one day, and an hour more each time.
date() {
    printf '%s\n' "$*" >>"$folder/dates"
    printf '2026-11-30T%02d:00:00Z\n' $((11 + $(wc -l <"$folder/dates")))
}

# Runs the commands of the page, which stand in a file, and prints them with what they print, as the page has it.
replay() {
    local line command=''
    while IFS= read -r line <&3; do
        case $line in
        '$ '*)
            eval "$command" </dev/null 2>&1
            command=${line:2}
            ;;
        '> '*) command+=$'\n'${line:2} ;;
        *) continue ;;
        esac
        printf '%s\n' "$line"
    done 3<"$1"
    eval "$command" </dev/null 2>&1
}

sed -n 's/^    //p' "$root/docs/RECIPES.md" >"$folder/page"
[ "$(grep -c '^\$ ' "$folder/page")" -ge 20 ]
judge $? 'the page has 20 commands'
replay "$folder/page" >"$folder/printed"
diff "$folder/page" "$folder/printed"
judge $? 'the commands of docs/RECIPES.md print what stands there'
[ "$(sort -u "$folder/dates")" = '-u +%FT%TZ' ]
judge $? 'the time is asked for as the page has it'

# The locks: the commands of OPERATING.md, each once where nobody has the lock, and once while others have it.
mapfile -t lines < <(sed -n 's/^    \$ \(flock .*\)/\1/p' "$root/docs/OPERATING.md")
[ ${#lines[@]} -eq 3 ]
judge $? 'OPERATING.md has three commands with a lock'
rm -f cache.db && rock create cache.db 16384 8
printf '1 put http://a/b =x\n' >script
held() {
    local status=$1 line=$2
    shift 2
    "$@" bash -c "$line" >printed 2>&1 </dev/null
    [ $? -eq "$status" ] && { [ "$status" -eq 0 ] || [ ! -s printed ]; }
    judge $? "status $status of '$line' behind '$*': $(cat printed)"
}
for line in "${lines[@]//1024/8}"; do
    held 0 "$line" env
    held 1 "$line" flock cache.db.lock
    # What only reads comes through beside others that read, and a run does not.
    case $line in
    *' rock run '*) held 1 "$line" flock -s cache.db.lock ;;
    *) held 0 "$line" flock -s cache.db.lock ;;
    esac
done
[ "$(rock list cache.db 16384)" = 'ENTRY 0 1 1 1 http://a/b' ] && cmp -s cache.db copy.db
judge $? 'the run that had the lock stored a response, once'
flock -n cache.db.lock rock list gone.db 16384 2>/dev/null
[ $? -eq 8 ]
judge $? 'the status is that of the program'

printf '%d rows passed, %d failed\n' "$passed" "$failed"
[ "$failed" -eq 0 ]
