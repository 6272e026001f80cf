#!/usr/bin/env bash
# The program with each of its allocations refused in turn: refused_memory.sh [CASE ..]
#
# A case is a command line over a file, with a script where it is a run. It is carried out once with no allocation refused, then with
# the first one refused, the second, and so on, until a run asks for fewer. Each is over a file like the first. Where there are several
# workers, which ask in another order each time, each number is tried three times. Each ends
#
# - with status 3, `rock: Memory` on standard error, and nothing or a first part of the answers; or with status 0, nothing on standard
#   error, and exactly the answers;
# - and `list` of the file ends with 0 afterwards, and each entry that it tells has a URL and a length of the script, or was there.
#
# Where a thread can't be made its worker runs behind the others, and one that awaits a mark of it waits for ever (docs/OPERATING.md).
# So such a run need not end. It is told by the place in the program from which the refused call came, which is not that of the first
# one; it is ended after 20 seconds, and its file is looked at.
#
# tests/refuse_alloc.c refuses them. It needs a C compiler. Run it by hand; it builds the program first where it is out of date, or
# takes the one that the variable ROCK names. It prints for each case how many allocations there were, and how many of the runs ended
# with which status. Its status is 0 where nothing failed.
set -u -o pipefail

. "$(dirname "${BASH_SOURCE[0]}")/rows.sh"
find_program
folder=$(mktemp -d) || exit 1
trap 'rm -rf "$folder"' EXIT
"${CC:-cc}" -O2 -shared -fPIC -o "$folder/refuse" "$root/tests/refuse_alloc.c" || exit 1
cp "$program" "$folder/rock" && cd "$folder" || exit 1
: >none

# Carries out the command with the allocation of this number refused, over a file like the first, and sets `ended`, the status,
# `asked`, how many allocations there were, and `place`, from which place of the program the refused one came.
carry_out() {
    cp first db
    head -c 16 /dev/zero >asked
    REFUSE_ALLOC=$1 ALLOC_COUNT=$folder/asked LD_PRELOAD=$folder/refuse timeout 20 ./rock "${words[@]}" >printed 2>said <script
    ended=$?
    read -r asked place < <(od -An -t u8 asked)
}

# The URL and the length of each entry that `list` tells of the file, in order; fails where it does not end with 0.
listed() {
    ./rock list db "$slot" >list 2>list_said || return 1
    [ ! -s list_said ] && awk '{ print $6, $5 }' list | sort -u
}

# Whether the command ended as it may, and the file lists what it may.
is_as_it_may_be() {
    case $ended in
    0) cmp -s printed answers && [ ! -s said ] ;;
    124) [ "$place" -ne 0 ] && [ "$place" -ne "$usual" ] && [ ! -s printed ] && [ ! -s said ] ;;
    3) [[ $(head -n 1 said) = 'rock: Memory'* ]] && cmp -s printed <(head -c "$(stat -c %s printed)" answers) ;;
    *) false ;;
    esac || return 1
    listed >found && [ -z "$(comm -23 found offered)" ]
}

# A case: its name, the slot size, how many tries of each number, and the words of the command. `first` is the file, `script` its
# standard input, and `may` has the URLs and lengths that its lines offer.
play() {
    local name=$1 tries=$3 number=0 all try fewer ends_3=0 ends_0=0 endless=0 before=$failed
    slot=$2
    words=("${@:4}")
    cp first db && listed >found && sort -u found may >offered || { fail "$name: the file cannot be listed"; return; }
    carry_out 0
    mv printed answers
    all=$asked
    [ "$ended" -eq 0 ] || { fail "$name: status $ended with no allocation refused"; return; }
    while true; do
        number=$((number + 1))
        fewer=0
        for ((try = 0; try < tries; try++)); do
            carry_out "$number"
            [ "$number" -gt 1 ] || usual=$place
            if [ "$asked" -lt "$number" ]; then
                fewer=$((fewer + 1))
            else
                case $ended in
                3) ends_3=$((ends_3 + 1)) ;;
                124) endless=$((endless + 1)) ;;
                *) ends_0=$((ends_0 + 1)) ;;
                esac
            fi
            is_as_it_may_be
            judge $? "$name, allocation $number: status $ended, said '$(head -n 1 said)', printed '$(head -c 200 printed)', listed '$(tr '\n' ' ' <list)'"
        done
        [ "$fewer" -eq "$tries" ] && break
    done
    printf '%s: %d allocations where none is refused; of the runs with one refused %d ended with status 3, %d with 0, and %d did not end; %d failed\n' \
        "$name" "$all" "$ends_3" "$ends_0" "$endless" $((failed - before))
}

# A file of so many empty slots, as the first one.
empty_file() {
    rm -f first
    ./rock create first "$1" "$2" || exit 1
}

two_lines() {
    empty_file 512 4
    printf '1 put http://a/b =hello\n1 get http://a/b\n' >script
    echo 'http://a/b 5' >may
    play two_lines 512 1 run db 512 1 1
}

# A body of three slots that a tab of the same worker follows as it is written.
follower() {
    empty_file 512 8
    printf '%s\n' '1 begin 0 http://a/b #1300:0' '1 open 1 http://a/b' '1 add 0 900' '1 open 1 http://a/b' '1 more 1' '1 more 1' '1 end 0' \
        '1 more 1' '1 more 1' '1 close 1' >script
    echo 'http://a/b 1300' >may
    play follower 512 1 run db 512 2 1
}

# A body of eight slots that two workers follow as a third one writes it.
three_workers() {
    local url
    url=http://a/$(printf 'x%.0s' {1..191})
    empty_file 16384 64
    printf '%s\n' "1 begin 0 $url #120000:0" '1 add 0 60000' '1 mark 0' '2 await 0' "2 open 0 $url" '2 more 0' '2 mark 1' '3 await 0' \
        "3 open 0 $url" '3 more 0' '3 mark 2' '1 await 1' '1 await 2' '1 end 0' '1 mark 3' '2 await 3' '2 more 0' '2 close 0' '3 await 3' \
        '3 more 0' '3 close 0' >script
    echo "$url 120000" >may
    play three_workers 16384 3 run db 16384 16 3
}

# The commands that need no store, over a file with two entries.
reports() {
    empty_file 512 4
    printf '1 put http://a/b =hello\n1 put http://a/c #900:0\n' | ./rock run first 512 4 1 >answers || exit 1
    cp none script && cp none may
    play list 512 1 list db 512
    play check 512 1 check db 512 4
}

cases=("$@")
[ $# -gt 0 ] || cases=(two_lines follower reports three_workers)
for name in "${cases[@]}"; do
    case $name in
    two_lines | follower | three_workers | reports) "$name" ;;
    *) fail "$name is no case" ;;
    esac
done
printf '%d passed, %d failed\n' "$passed" "$failed"
[ "$failed" -eq 0 ]
