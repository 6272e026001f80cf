#!/usr/bin/env bash
# What a kill leaves of a file of the system: killed.sh [KILLS] [SEED]
#
# A first run saves an entry at each of 8 anchors. A second run, over a script of 4,000 lines of saves, puts, gets and purges at
# 8 other anchors by 4 workers, is ended by kill -9 after a delay that is drawn from none to the whole time of such a run. That is
# done until so many runs were killed, 200 where no number is given. After each,
#
# - `list` and `check` end with 0, and nothing stands on standard error;
# - each entry that is listed is read by a `run` of `get` lines, and has a body that one of both scripts offers under its URL. Where
#   an entry hides others at its anchor, its first slot is cleared in a copy, until all were read;
# - the entries of the first run are all there, each with its body;
# - the file is as long as it was.
#
# Then the same over a file system on a loop device. At the kill its backing file is copied, and the copy is attached and looked at.
# So what was not synced is lost where the system had not written it. Where the machine does not allow it, this half is skipped
# aloud.
#
# At last a run of one worker that saves an entry at each of the 8 other anchors, and prints much between them, is killed by a
# tracer before each of its calls of the system, one run a call: so behind each call there is a kill. Besides what holds after each
# kill, each entry whose STORED was printed is listed, with its body. It is printed how often a run was killed at which call, and
# how often STORED was seen. Where there is no strace, this part is skipped aloud.
#
# Run it by hand; it takes some minutes. It builds the program first where it is out of date, or takes the one that the variable
# ROCK names. The seed of the delays and of the script is printed, or is given. A failing case is kept with its file, and told. Its
# status is 0 where nothing failed.
set -u -o pipefail

kills=${1:-200}
seed=${2:-$((RANDOM * 32768 + RANDOM))}
. "$(dirname "${BASH_SOURCE[0]}")/rows.sh"
find_program
folder=$(mktemp -d) || exit 1
kept=${TMPDIR:-/tmp}/rock-killed-$seed
device=''

leave() {
    mountpoint -q "$folder/disk" && umount "$folder/disk"
    [ -n "$device" ] && losetup -d "$device"
    rm -rf "$folder"
}
trap leave EXIT
cp "$program" "$folder/rock" && cd "$folder" && mkdir disk || exit 1
PATH=$folder:$PATH

anchors=16
slot=512
slots=128
workers=4

# The anchor of a URL, of 16: the key is the MD5 of a byte 1 and the URL, and of the sum of its halves only the last byte of each
# counts, which is the first one in the file.
anchor_of() {
    local key
    key=$(printf '\001%s' "$1" | md5sum)
    echo $(((0x${key:0:2} + 0x${key:16:2}) % anchors))
}

# A URL for each of the first 8 anchors, and three for each of the others.
choose_urls() {
    local number=0 anchor wanted
    local -a found
    for ((anchor = 0; anchor < anchors; anchor++)); do found[anchor]=0; done
    : >first_urls
    : >second_urls
    while [ "$(cat first_urls second_urls | wc -l)" -lt 32 ]; do
        anchor=$(anchor_of "http://a/$number")
        if [ "$anchor" -lt 8 ]; then wanted=1; else wanted=3; fi
        if [ "${found[anchor]}" -lt "$wanted" ]; then
            found[anchor]=$((found[anchor] + 1))
            if [ "$wanted" -eq 1 ]; then echo "http://a/$number" >>first_urls; else echo "http://a/$number" >>second_urls; fi
        fi
        number=$((number + 1))
    done
}

# The first script saves bodies of one to three slots. In the second one a tenth are saves, the others are puts, gets and purges.
# The seed makes it.
make_scripts() {
    awk '{ printf "1 save %s #%d:%d\n", $1, NR * 150, NR }' first_urls >first
    awk -v seed="$seed" -v workers=$workers '
        { urls[NR - 1] = $1 }
        END {
            srand(seed)
            for (line = 0; line < 4000; line++) {
                worker = 1 + int(rand() * workers)
                url = urls[int(rand() * NR)]
                kind = rand()
                body = sprintf("#%d:%d", int(rand() * 1301), int(rand() * 26))
                if (kind < 0.1) print worker " save " url " " body
                else if (kind < 0.45) print worker " put " url " " body
                else if (kind < 0.8) print worker " get " url
                else print worker " purge " url
            }
        }' second_urls >second
    make_third || return 1
    cat first second third | awk '$2 == "save" || $2 == "put" { print $3, $4 }' >offers
}

# The third script saves at each of the other anchors once. The fifth body is long, and is got eight times before the others are
# saved, so that the answers are printed by several calls.
make_third() {
    local url anchor
    local -a taken
    while read -r url; do
        anchor=$(anchor_of "$url")
        [ -n "${taken[anchor]:-}" ] || { taken[anchor]=1; echo "$url"; }
    done <second_urls | awk '
        NR == 5 { print "1 save " $1 " #9000:4"; for (i = 0; i < 8; i++) print "1 get " $1; next }
        { printf "1 save %s #%d:%d\n", $1, NR * 170, NR }' >third
    [ "$(grep -c ' save ' third)" -eq 8 ]
}

# Judges what a run of `get` lines printed of entries that are listed: judged LISTED GOT LEFT. Each answer is the whole body of an
# entry that is listed, and one that is offered under its URL, or another URL of the anchor has it. What was hit is written to LEFT,
# an entry a line. At least one entry is hit.
judged() {
    awk -v left="$3" -v digits="$(awk 'BEGIN { for (i = 0; i < 26; i++) printf "%02x", 97 + i }')" '
        BEGIN {
            for (i = 0; i < 26; i++) {
                letter[substr(digits, 2 * i + 1, 2)] = i
                follows[substr(digits, 2 * i + 1, 2)] = substr(digits, 2 * ((i + 1) % 26) + 1, 2)
            }
        }
        FILENAME == "offers" { offered[$1 " " $2] = 1; split($2, made, ":"); if (made[1] == "#0") offered[$1 " empty"] = 1; next }
        FILENAME == ARGV[2] { listed[$6 " " $3 " " $5] = $0; if (!($6 in number)) { number[$6] = ++count; url[count] = $6 }; next }
        {
            of = url[$2]
            if ($3 == "MISS" && $4 == "other") { answers++; next }
            if ($3 != "HIT" || !((of " " $4 " " $5) in listed)) { print "no entry that is listed: " of ": " substr($0, 1, 60); wrong = 1; next }
            body = $6
            if ($5 == 0) name = "empty"
            else name = "#" $5 ":" letter[substr(body, 1, 2)]
            if ($5 > 0 && length(body) != 2 * $5) { print "another length: " of; wrong = 1 }
            for (i = 1; i < 2 * $5 - 1; i += 2)
                if (substr(body, i + 2, 2) != follows[substr(body, i, 2)]) { print "other bytes: " of; wrong = 1; break }
            if (!((of " " name) in offered)) { print "not offered: " of " " name; wrong = 1 }
            print listed[of " " $4 " " $5] >left
            answers++
            hits++
        }
        END {
            if (answers != count || !hits) { print answers + 0 " answers and " hits + 0 " hits of " count " URLs"; wrong = 1 }
            exit wrong
        }' offers "$1" "$2"
}

# Reads each entry of a copy of the file, and writes to the file `read` those that were read first, at their anchors.
read_all() {
    local round=0 first
    cp "$1" peeled || return 1
    rock list peeled $slot >listed.now 2>said && [ ! -s said ] || return 1
    while [ -s listed.now ]; do
        awk '!($6 in seen) { seen[$6] = 1; print "1 get " $6 }' listed.now >gets
        rock run peeled $slot $anchors 1 <gets >got 2>said && [ ! -s said ] || return 1
        : >left
        judged listed.now got left || return 1
        [ $round -gt 0 ] || cp left read
        read_entries=$((read_entries + $(wc -l <left)))
        while read -r _ first _; do
            dd if=/dev/zero of=peeled bs=$slot seek=$((16384 / slot + first)) count=1 conv=notrunc status=none || return 1
        done <left
        rock list peeled $slot >listed.now 2>said && [ ! -s said ] || return 1
        round=$((round + 1))
    done
}

# What holds of a file after a kill.
holds_of() {
    [ "$(stat -c %s "$1")" -eq "$length" ] || { echo 'the file has another length'; return 1; }
    rock list "$1" $slot >listed 2>said && [ ! -s said ] || { echo "list: $(head -n 1 said)"; return 1; }
    rock check "$1" $slot $anchors >checked 2>said && [ ! -s said ] || { echo "check: $(head -n 1 said)"; return 1; }
    [ "$(grep -Fxc -f listed listed.first)" -eq 8 ] || { echo 'an entry of the first run is gone'; return 1; }
    read_all "$1" || { echo "reading: $(head -n 1 said)"; return 1; }
    [ "$(grep -Fxc -f read listed.first)" -eq 8 ] || { echo 'an entry of the first run is not read'; return 1; }
    cmp -s "$1" base || changed=$((changed + 1))
}

# Keeps a failing case: its name, the file, and what was found.
keep() {
    mkdir -p "$kept" && cp "$2" "$kept/$1.db" && cp first second "$kept"
    fail "$1: $3; kept in $kept"
}

# A second run over a file, which is killed after so many seconds. Counts it as killed, or as done before.
kill_run() {
    local run status
    rock run "$1" $slot $anchors $workers <second >printed 2>said &
    run=$!
    sleep "$2"
    kill -9 "$run" 2>/dev/null
    wait "$run" 2>/dev/null
    status=$?
    case $status in
        137) killed=$((killed + 1)) ;;
        0) late=$((late + 1)) ;;
        *) fail "a run ended with $status: $(head -n 1 said)" ;;
    esac
    [ ! -s said ] || fail "a run said: $(head -n 1 said)"
}

# The whole time of a second run over a copy of the first file, in seconds.
time_run() {
    local begun=$EPOCHREALTIME
    rock run "$1" $slot $anchors $workers <second >printed 2>said && [ "$(wc -l <printed)" -eq 4000 ] || return 1
    awk -v from="$begun" -v to="$EPOCHREALTIME" 'BEGIN { print to - from }'
}

# The delay of this number: delay_of NUMBER WHOLE
delay_of() {
    awk -v seed="$seed" -v number="$1" -v whole="$2" 'BEGIN { srand(seed + 7919 * number); rand(); printf "%.4f", rand() * whole }'
}

# Runs over a file in a folder of this machine.
plain_half() {
    local number=0 whole delay killed=0 late=0
    cp base db && whole=$(time_run db) || { fail 'the whole run'; return; }
    while [ $killed -lt "$kills" ] && [ $number -lt $((kills * 4)) ]; do
        number=$((number + 1))
        delay=$(delay_of $number "$whole")
        cp base db
        kill_run db "$delay"
        holds_of db >told || keep "plain-$number" db "$(cat told)"
    done
    summary 'a file' "$killed" "$late" "$whole"
}

# Says what came of a half: what it ran over, the kills, the runs that were done before, and the whole time of a run.
summary() {
    printf '%s: %d kills, %d runs done before, delays up to %.2f s; %d files changed, %d entries read' "$1" "$2" "$3" "$4" \
        "$changed" "$read_entries"
    printf '%s\n' "${5:-}"
    [ "$2" -eq "$kills" ] && [ "$changed" -gt 0 ] && [ "$read_entries" -gt $((8 * kills)) ] ||
        fail 'there were too few kills, changes or entries to say anything'
}

# Attaches a file as a disk, and mounts it.
attach() {
    device=$(losetup --find --show "$1") && mount "$device" disk
}

detach() {
    umount disk && losetup -d "$device" && device=''
}

# The same over a file system on a loop device.
loop_half() {
    local number=0 whole delay killed=0 late=0 lost=0
    truncate -s 8M made.img && mkfs.ext4 -q made.img 2>/dev/null && attach made.img 2>/dev/null ||
        { echo 'SKIPPED: a loop device: this machine allows none'; return; }
    cp base disk/timed && whole=$(time_run disk/timed) && rm disk/timed && cp base disk/db && sync -f disk/db && detach ||
        { fail 'the whole run on a loop device'; return; }
    while [ $killed -lt "$kills" ] && [ $number -lt $((kills * 4)) ]; do
        number=$((number + 1))
        delay=$(delay_of $number "$whole")
        cp made.img used.img && attach used.img || { fail 'a disk is not attached'; return; }
        kill_run disk/db "$delay"
        # The copy is made again until the backing file did not change meanwhile.
        until cp used.img copy.img && cmp -s used.img copy.img; do :; done
        cp disk/db written
        detach && attach copy.img || { fail 'a copy is not attached'; return; }
        cp disk/db db
        cmp -s db written || lost=$((lost + 1))
        holds_of disk/db >told || keep "loop-$number" disk/db "$(cat told)"
        detach
    done
    summary 'a loop device' "$killed" "$late" "$whole" "; of $lost files something was lost"
    [ "$lost" -gt 0 ] || fail 'no kill lost anything that was not synced'
}

# Each entry of the third script whose STORED was printed is listed in `listed`, and was read. A last line without its end is not
# looked at. What was seen is added to `seen`.
seen_are_there() {
    awk '
        FILENAME == "third" { if ($2 == "save") { url[FNR] = $3; split(substr($4, 2), made, ":"); bytes[FNR] = made[1] } next }
        FILENAME == "listed" { is_listed[$3 " " $5 " " $6] = 1; next }
        FILENAME == "read" { is_read[$3 " " $5 " " $6] = 1; next }
        $3 == "STORED" {
            entry = $4 " " bytes[$2] " " url[$2]
            if (!(entry in is_listed) || !(entry in is_read)) { print "not there: " entry; wrong = 1 }
        }
        END { exit wrong }' third listed read whole_lines
}

# One run of the third script, killed before the call of a name for the time of a number. Its status is 1 where it was not killed.
traced_run() {
    local status
    cp base db
    # The shell that is told of the kill is not to say so.
    (
        strace -f -qq -o traced -e trace="$1" -e inject="$1:signal=KILL:when=$2" \
            rock run db $slot $anchors 1 <third >printed 2>said
        exit $?
    ) 2>/dev/null
    status=$?
    [ $status -ne 0 ] || return 1
    [ $status -eq 137 ] && [ ! -s said ] || { fail "a traced run ended with $status: $1 $2: $(head -n 1 said)"; return 1; }
    # What is behind the last end of a line is no line.
    awk -v RS='\n' '{ if (NR > 1) print last; last = $0 }' printed >whole_lines
    [ -z "$(tail -c 1 printed)" ] && tail -n 1 printed >>whole_lines
    seen=$((seen + $(grep -c ' STORED ' whole_lines)))
    [ -s whole_lines ] && printed_some=$((printed_some + 1))
    { holds_of db && seen_are_there; } >told || keep "traced-$1-$2" db "$(cat told)"
    return 0
}

# Runs that are killed at each call.
traced_part() {
    local name number killed=0 seen=0 printed_some=0 where=''
    command -v strace >/dev/null && strace -o traced true 2>/dev/null ||
        { echo 'SKIPPED: kills at each call of the system: there is no strace, or it may not trace'; return; }
    cp base db
    strace -f -qq -o calls rock run db $slot $anchors 1 <third >printed 2>said && [ "$(grep -c ' STORED ' printed)" -eq 8 ] &&
        [ "$(grep -c ' HIT ' printed)" -eq 8 ] || { fail 'the whole traced run'; return; }
    for name in $(sed -E 's/^[0-9]+ +//' calls | grep -oE '^[a-z][a-z0-9_]*\(' | tr -d '(' | sort -u); do
        [ "$name" = execve ] && continue
        number=0
        while traced_run "$name" $((number + 1)); do number=$((number + 1)); done
        killed=$((killed + number))
        [ $number -eq 0 ] || where+=" $name $number"
    done
    printf 'each call: %d kills:%s; %d files changed, %d entries read; STORED was seen %d times, of %d runs that printed\n' \
        "$killed" "$where" "$changed" "$read_entries" "$seen" "$printed_some"
    [[ $where == *' pwrite64 '* && $where == *' fdatasync '* && $where == *' write '* ]] && [ "$changed" -gt 0 ] &&
        [ "$seen" -gt 8 ] && [ "$printed_some" -gt 1 ] || fail 'there were too few kills, changes or answers to say anything'
}

printf 'seed %s, %s kills\n' "$seed" "$kills"
choose_urls && make_scripts
rock create base $slot $slots && rock run base $slot $anchors 1 <first >printed 2>said && [ "$(grep -c ' STORED ' printed)" -eq 8 ] &&
    rock list base $slot >listed.first && [ "$(wc -l <listed.first)" -eq 8 ] || { echo 'FAILED: the first run'; exit 1; }
length=$(stat -c %s base)
[ "$length" -eq $((16384 + slot * slots)) ] || { echo 'FAILED: the length of the file'; exit 1; }
changed=0
read_entries=0
plain_half
changed=0
read_entries=0
loop_half
changed=0
read_entries=0
traced_part
printf '%d failed\n' "$failed"
[ "$failed" -eq 0 ]
