#!/usr/bin/env bash
# The program over files of the system, in a temporary folder: each row runs it once and compares its
# status, its standard output and the first line on standard error. Run it by hand; it builds the program
# first where it is out of date, or takes the one that the variable ROCK names. Rows that the machine does not
# allow are skipped aloud. Its status is 0 where all rows that ran are as they should be.
set -u -o pipefail

. "$(dirname "${BASH_SOURCE[0]}")/rows.sh"
find_program
folder=$(mktemp -d) || exit 1
full=$folder/full
trap 'mountpoint -q "$full" && umount "$full"; chmod -R u+rwx "$folder"; rm -rf "$folder"' EXIT
chmod 755 "$folder"
install -m 755 "$program" "$folder/rock" || exit 1
cd "$folder" || exit 1

as=()

# Judges what the last command's status tells: a name for the row, and the status. A name with a command in it is given
# behind a status that was kept: the command has one of its own.
holds() {
    if [ "$2" -eq 0 ]; then passed=$((passed + 1)); else fail "$1"; fi
}

# A row: the status, what is printed, the first line on standard error, and the words.
row() {
    local status=$1 printed=$2 said=$3
    shift 3
    "${as[@]}" ./rock "$@" >printed 2>said </dev/null
    local ended=$?
    printf '%s' "$printed" | cmp -s - printed && [ "$ended" -eq "$status" ] && [ "$(head -n 1 said)" = "$said" ]
    local judged=$?
    holds "rock $*: status $ended, printed '$(head -c 200 printed)', said '$(head -n 1 said)'" $judged
}

# What rows share of the lines on standard error.
disk="could not be read, written or made; look at its disk and its permissions"
in_use='is in use by another program; try again when that has ended'
too_many='could not be opened, since too many files are open; raise the limit by ulimit -n, or take fewer workers'
usage='this is no command line; rock --help prints the lines that are'
output='rock: SinkFault: standard output did not take all of the answer; do not use what was printed'
unread='rock: SourceFault: standard input could not be read; see whether it is open, and no folder'
taken='already; choose another name, Rock writes over no file'
absent='look at the name, or make the file with rock create'
too_short='is shorter than the header area and one slot; name a whole file, or make one with rock create'
size_limits='is no multiple of 512 from 512 to 32768; give one that is, for a file that is there the one that it was made with'
anchor_limits='is not from 1 to the number of slots of'
counted='1 prints how many slots there are'
worker_limits='is not from 1 to 32; give one that is, for a script as many as it names'
slot_limits='is not from 1 to 1048576; give one that is, for a larger store with larger slots'
round_limit='is above 10000; take fewer rounds'
other_size='takes the size that is recorded, and so do check and run'
other_slots='records other slots than it has: it was cut or grew, or its header area is damaged; give a file that was cut its length again, as docs/OPERATING.md says'
unrecorded='does not record its slots; give the slot size that it was made with in place of -, or record it by rock migrate'
mend='mend this line, or take it out'

# A run: the status, what is printed, the first line on standard error, the script, and the words.
run_row() {
    local status=$1 printed=$2 said=$3 first
    printf '%s' "$4" >script
    shift 4
    "${as[@]}" ./rock run "$@" >printed 2>said <script
    local ended=$?
    first=$(head -n 1 said)
    printf '%s' "$printed" | cmp -s - printed && [ "$ended" -eq "$status" ] && [ "$first" = "$said" ]
    local judged=$?
    holds "rock run $*: script '$(head -c 200 script)', status $ended, printed '$(head -c 200 printed)', said '$first'" $judged
}

# The hexadecimal text of so many bytes of a made body, from a place on.
made() {
    awk -v from="$1" -v count="$2" 'BEGIN { for (i = from; i < from + count; i++) printf "%02x", 97 + i % 26 }'
}

# A run over a file that is there, by so many anchors and workers. Each line of standard input is a line of the
# script, a | and its answer. Behind an @ stand the place and the number of the bytes of a made body.
served() {
    local name=$1 slot=$2 anchors=$3 workers=$4 number=0 script='' answers='' line answer place count
    while IFS='|' read -r line answer; do
        number=$((number + 1))
        script+=$line$'\n'
        if [[ $answer == *@* ]]; then
            read -r place count <<<"${answer#*@}"
            answer=${answer%@*}$(made "$place" "$count")
        fi
        answers+="${line%% *} $number $answer"$'\n'
    done
    # The workers' answers come one worker after the other.
    answers=$(printf '%s' "$answers" | sort -s -n -k 1,1 && printf .)
    run_row 0 "${answers%.}" '' "$script" "$name" "$slot" "$anchors" "$workers"
}

# The same over a new file of so many slots of 512 bytes.
new_served() {
    rm -f new && row 0 '' '' create new 512 "$1" && served new 512 "$2" "$3"
}

# A file is made, read and summed up, and made once.
row 0 '' '' create db 512 4
{ printf 'RockSMP2\0\2\0\0\4\0\0\0' && head -c 18416 /dev/zero; } | cmp -s - db
holds 'a new file of four slots of 512 bytes records them, and its slots are zeros' $?
row 0 '' '' list db 512
row 0 '' '' list db -
row 0 $'slots=4 kept=0 used=0 free=4 version=0\n' '' check db 512 4
cp "$root/crates/rock_main/data/db" one && cp one copy
row 9 '' "rock: Exists: there is a file one $taken" create one 512 1
row 0 $'ENTRY 0 7 1 5 http://a/b\n' '' list one 512
row 0 $'slots=1 kept=1 used=1 free=0 version=7\n' '' check one 512 1
cmp -s one copy
holds 'a file that is there stays as it was' $?

# Numbers and words that are refused.
row 8 '' "rock: BadGeometry field=1: the slot size 500 $size_limits" create new 500 0
row 8 '' "rock: BadGeometry field=4: the number of slots 0 $slot_limits" create new 512 0
row 8 '' "rock: BadGeometry field=2: the number of anchors 5 $anchor_limits db; rock check db 512 $counted" check db 512 5
row 2 '' "rock: Usage: $usage" create new 512
[ ! -e new ]
holds 'a refused create makes no file' $?

# Names.
row 8 '' "rock: Missing: there is no file gone; $absent" list gone 512
row 0 '' '' create 'a name with spaces' 16384 2
row 0 $'slots=2 kept=0 used=0 free=2 version=0\n' '' check 'a name with spaces' 16384 1
mkdir pages && mkfifo pipe
row 6 '' "rock: DeviceFault: pages $disk" list pages 512
row 9 '' "rock: Exists: there is a file pages $taken" create pages 512 1
row 6 '' "rock: DeviceFault: pipe $disk" list pipe 512
row 6 '' "rock: DeviceFault: none/db $disk" create none/db 512 1

# The example of OPERATING.md as it stands there: each line behind a $ is run, and what it prints compared.
awk '/^## / { on = $0 == "## An example" } on && /^    / { print substr($0, 5) }' "$root/docs/OPERATING.md" >example
awk '/^\$/ { on = $0 == "$ cat script"; next } on' example >script
while IFS= read -r line; do
    case $line in '$ '*) printf '%s\n' "$line" && (set -e && PATH=$folder:$PATH && eval "${line#'$ '}" </dev/null) ;; esac
done <example >printed
[ "$(grep -c '^\$' example)" -eq 7 ] && cmp -s example printed
holds 'the example of OPERATING.md prints what stands there' $?

# The same run with every byte, and a later run, which finds what the first one left in the file. The slot of what
# was purged was not written anew.
new_served 8 8 1 <<'END'
1 put http://a/b =hello|STORED 1
1 get http://a/b|HIT 1 5 68656c6c6f
1 begin 0 http://a/c #1300:0|BEGUN 2
1 open 1 http://a/c|MISS writing 2.1
1 add 0 900|ADDED 900
1 open 1 http://a/c|OPEN 2
1 more 1|PART 2.2 430 @0 430
1 end 0|STORED 2
1 more 1|END 870 @430 870
1 close 1|CLOSED
1 purge http://a/b|PURGED 1.3d
1 get http://a/b|MISS absent 1.6d
END
row 0 $'ENTRY 0 1 1 5 http://a/b\nENTRY 1 2 3 1300 http://a/c\n' '' list new 512
row 0 $'slots=8 kept=2 used=4 free=4 version=2\n' '' check new 512 8
served new 512 8 1 <<'END'
1 get http://a/c|HIT 2 1300 @0 1300
1 get http://a/b|HIT 1 5 68656c6c6f
1 put http://a/b =again|STORED 3
END
row 0 $'ENTRY 0 3 1 5 http://a/b\nENTRY 1 2 3 1300 http://a/c\n' '' list new 512
run_row 0 '' '' '' new 512 8 1
row 0 $'slots=8 kept=2 used=4 free=4 version=3\n' '' check new 512 8

# A later run wipes what the file has: of three slots the first one, which has zeros then.
served new 512 8 1 <<'END'
1 wipe http://a/c|WIPED 2.3d
1 get http://a/c|MISS absent 2.6d
1 wipe http://a/d|NONE absent 0.0
END
row 0 $'ENTRY 0 3 1 5 http://a/b\n' '' list new 512
cmp -s -i $((16384 + 512)):0 -n 512 new /dev/zero
holds 'the first slot of what was wiped has zeros' $?
row 0 $'slots=8 kept=1 used=1 free=7 version=3\n' '' check new 512 8

# What was replaced before is not erased with what took its place. With two anchors http://a/02 is at the first, and http://a/00
# at the second.
new_served 4 2 1 <<'END'
1 put http://a/00 =x|STORED 1
1 put http://a/02 =y|STORED 2
1 purge http://a/00|PURGED 1.3d
1 put http://a/02 =z|STORED 3
END
row 0 $'ENTRY 0 3 1 1 http://a/02\nENTRY 1 2 1 1 http://a/02\n' '' list new 512
served new 512 2 1 <<'END'
1 wipe http://a/02|WIPED 3.3d
1 get http://a/02|MISS absent 3.6d
END
row 0 $'ENTRY 1 2 1 1 http://a/02\n' '' list new 512

# The examples of SCRIPT.md.
new_served 4 1 1 <<'END'
1 put http://a/b =hello|STORED 1
1 get http://a/b|HIT 1 5 68656c6c6f
END
new_served 4 1 1 <<'END'
1 put http://a/b =x|STORED 1
1 put http://a/c =y|STORED 2
1 get http://a/b|MISS other 2.3 4877c9348b6d7299e213896f839c80b8
1 get http://a/c|HIT 2 1 79
1 purge http://a/b|NONE other 2.3 4877c9348b6d7299e213896f839c80b8
END
row 0 $'ENTRY 0 2 1 1 http://a/c\n' '' list new 512
new_served 4 1 1 <<'END'
1 put http://a/b =x|STORED 1
1 open 0 http://a/b|OPEN 1
1 put http://a/b =y|BUSY 1.3/1 1.3/1
1 close 0|CLOSED
1 put http://a/b =y|STORED 2
END
new_served 4 1 1 <<'END'
1 put http://a/b =x|STORED 1
1 open 0 http://a/b|OPEN 1
1 purge http://a/b|PURGED 1.3d
1 get http://a/b|MISS leaving 1.3d
1 more 0|END 1 78
1 close 0|CLOSED
1 get http://a/b|MISS absent 1.6d
1 purge http://a/b|NONE absent 1.6d
END
new_served 4 1 1 <<'END'
1 save http://a/b =x|STORED 1
1 wipe http://a/b|WIPED 1.3d
1 get http://a/b|MISS absent 1.6d
END
row 0 '' '' list new 512
cmp -s new <(printf 'RockSMP2\0\2\0\0\4\0\0\0' && head -c 18416 /dev/zero)
holds 'the only slot of an entry that was wiped is zeros' $?
new_served 4 1 1 <<'END'
1 save http://a/b =x|STORED 1
1 purge http://a/b|PURGED 1.3d
1 get http://a/b|MISS absent 1.6d
END
row 0 $'ENTRY 0 1 1 1 http://a/b\n' '' list new 512
new_served 4 1 1 <<'END'
1 put http://a/b =x|STORED 1
1 open 0 http://a/b|OPEN 1
1 wipe http://a/b|LATER 1.3d
1 close 0|CLOSED
END
row 0 $'ENTRY 0 1 1 1 http://a/b\n' '' list new 512
# A later run wipes what a purge, or a wipe that was too early, left in the file.
served new 512 1 1 <<'END'
1 wipe http://a/b|WIPED 1.3d
1 wipe http://a/b|NONE absent 1.6d
END
row 0 '' '' list new 512
# Of an entry of four slots the first one is wiped.
new_served 4 1 1 <<'END'
1 put http://a/b #1500:0|STORED 1
1 wipe http://a/b|WIPED 1.3d
END
row 0 '' '' list new 512
[ "$(tail -c +16385 new | head -c 512 | tr -d '\0' | wc -c)" -eq 0 ] && [ "$(tail -c +16897 new | tr -d '\0' | wc -c)" -gt 1000 ]
holds 'of an entry of four slots that was wiped the first slot is zeros, and the others are not' $?
new_served 8 1 1 <<'END'
1 begin 0 http://a/b #1300:0|BEGUN 1
1 open 1 http://a/b|MISS writing 1.1
1 add 0 900|ADDED 900
1 open 1 http://a/b|OPEN 1
1 more 1|PART 1.2 430 @0 430
1 more 1|PART 1.2 0 -
1 end 0|STORED 1
1 more 1|END 870 @430 870
1 more 1|END 0 -
1 close 1|CLOSED
END
new_served 8 1 1 <<'END'
1 begin 0 http://a/b #1300:0|BEGUN 1
1 add 0 900|ADDED 900
1 open 1 http://a/b|OPEN 1
1 drop 0|DROPPED
1 more 1|HALTED 430 @0 430
1 get http://a/b|MISS leaving 1.4
1 close 1|CLOSED
1 get http://a/b|MISS absent 1.6
END

# The examples of SERVING.md. With two anchors http://a/02 is at the first, and http://a/00 at the second.
new_served 3 2 1 <<'END'
1 put http://a/02 #901:0|STORED 1
1 open 0 http://a/02|OPEN 1
1 put http://a/00 #901:0|FULL
1 get http://a/00|MISS absent 2.6
1 put http://a/00 =x|STORED 3
1 get http://a/00|HIT 3 1 78
END
new_served 2 2 1 <<'END'
1 put http://a/02 #901:0|STORED 1
1 put http://a/00 =x|STORED 2
1 get http://a/02|MISS absent 1.6
END
new_served 2 1 1 <<'END'
1 put http://a/b #902:0|STORED 1
1 put http://a/b #903:0|LARGE
1 get http://a/b|MISS absent 2.6
END
new_served 4 1 1 <<'END'
1 begin 0 http://a/b #900:0|BEGUN 1
1 add 0 900|ADDED 900
1 purge http://a/b|PURGED 1.2d
1 end 0|DOOMED 1
1 get http://a/b|MISS absent 1.6d
END
new_served 4 1 1 <<'END'
1 begin 0 http://a/b #900:0|BEGUN 1
1 wipe http://a/b|NONE writing 1.1
1 add 0 900|ADDED 900
1 wipe http://a/b|LATER 1.2d
1 end 0|DOOMED 1
1 put http://a/b =x|STORED 2
1 wipe http://a/b|WIPED 2.3d
1 get http://a/b|MISS absent 2.6d
END
row 0 '' '' list new 512
short=$(printf 'http://a/%431s' '' | tr ' ' u)
new_served 4 1 1 <<END
1 put ${short}u =x|LONGURL
1 put $short =x|STORED 1
1 get $short|HIT 1 1 78
END
row 0 "ENTRY 0 1 2 1 $short"$'\n' '' list new 512
new_served 4 1 1 <<'END'
1 add 0 5|TAB
1 more 0|TAB
1 begin 0 http://a/b =xy|BEGUN 1
1 open 0 http://a/b|TAB
1 close 0|TAB
1 add 0 1|ADDED 1
1 add 0 5|ADDED 1
1 end 0|STORED 1
END
new_served 4 1 1 <<'END'
1 await 5|UNMET
1 mark 5|MARKED
1 await 5|MET
END
new_served 4 2 1 <<'END'
1 put http://a/00 =x|STORED 1
1 put http://a/02 =y|STORED 2
1 get http://a/00|HIT 1 1 78
1 get http://a/02|HIT 2 1 79
END

# What a rebuild keeps, with fewer anchors than before, and a file with the last version there is.
new_served 2 2 1 <<'END'
1 put http://a/b =x|STORED 1
1 put http://a/c =y|STORED 2
END
served new 512 1 1 <<'END'
1 get http://a/b|MISS other 2.3 4877c9348b6d7299e213896f839c80b8
1 get http://a/c|HIT 2 1 79
END
cp "$root/crates/rock_main/data/db" new
printf '\0\0\377\377' | dd of=new bs=1 seek=16412 conv=notrunc status=none
served new 512 1 1 <<'END'
1 put http://a/b =x|SPENT 4294901760
1 get http://a/b|HIT 4294901760 5 68656c6c6f
END

# Several workers. Marks make the answers the same in every run.
new_served 4 1 2 <<'END'
1 mark 0|MARKED
2 mark 1|MARKED
1 await 1|MET
2 await 0|MET
END
new_served 8 8 2 <<'END'
2 put http://a/b =x|STORED 1
1 get http://a/c|MISS absent 0.0
2 get http://a/b|HIT 1 1 78
END
new_served 3 2 2 <<'END'
1 put http://a/02 #901:0|STORED 1
1 mark 0|MARKED
2 await 0|MET
2 get http://a/02|HIT 1 901 @0 901
2 put http://a/00 #901:0|STORED 2
2 get http://a/00|HIT 2 901 @0 901
2 get http://a/02|MISS absent 1.6
END
# Of so many workers each awaits the mark of the one before.
chain_of_marks() {
    local worker
    printf '1 put http://a/b =x|STORED 1\n1 mark 1|MARKED\n'
    for worker in $(seq 2 "$1"); do
        printf '%d await %d|MET\n%d get http://a/b|HIT 1 1 78\n' "$worker" $((worker - 1)) "$worker"
        printf '%d mark %d|MARKED\n' "$worker" "$worker"
    done
}
new_served 4 1 32 < <(chain_of_marks 32)
rm -f new && row 0 '' '' create new 16384 64
long=http://a/$(printf '%191s' '' | tr ' ' u)
served new 16384 16 3 <<END
1 begin 0 $long #120000:0|BEGUN 1
1 add 0 60000|ADDED 60000
1 mark 0|MARKED
2 await 0|MET
2 open 0 $long|OPEN 1
2 more 0|PART 1.2 48800 @0 48800
2 mark 1|MARKED
3 await 0|MET
3 open 0 $long|OPEN 1
3 more 0|PART 1.2 48800 @0 48800
3 mark 2|MARKED
1 await 1|MET
1 await 2|MET
1 end 0|STORED 1
1 mark 3|MARKED
2 await 3|MET
2 more 0|END 71200 @48800 71200
2 close 0|CLOSED
3 await 3|MET
3 more 0|END 71200 @48800 71200
3 close 0|CLOSED
END
row 0 "ENTRY 0 1 8 120000 $long"$'\n' '' list new 16384

# What is wrong with a line of a script, by its cause, as OPERATING.md says it.
wrong() {
    awk -F ' *[|] *' -v cause="$1" '
        /^#/ { on = $0 == "### Bad scripts" }
        on && $2 == cause { gsub("`", "", $3); print $3 }' "$root/docs/OPERATING.md"
}

# A bad line: its number, the cause, the script, and the workers, 1 where none are given.
bad() {
    run_row 7 '' "rock: BadScript line=$1 cause=$2: line $1 of the script is wrong: $(wrong "$2"); $mend" "$3" \
        "${5:-new}" "${6:-512}" "${7:-1}" "${4:-1}"
}

# Refusals of a run, in their order, and the file is as it was.
cp one new
slots_of_new="$anchor_limits new; rock check new 512 $counted"
bad 1 4 $'1 fetch http://a/b\n' 33 gone 500 0
run_row 8 '' "rock: BadGeometry field=1: the slot size 500 $size_limits" '' gone 500 0 33
run_row 8 '' "rock: BadGeometry field=3: the number of workers 33 $worker_limits" '' gone 512 0 33
run_row 8 '' "rock: BadGeometry field=3: the number of workers 0 $worker_limits" '' gone 512 0 0
run_row 8 '' "rock: BadGeometry field=3: the number of workers 33 $worker_limits" $'33 get http://a/b\n' gone 512 0 33
run_row 8 '' "rock: Missing: there is no file gone; $absent" '' gone 512 0 1
truncate -s 16895 small
run_row 8 '' "rock: Small bytes=16895: small $too_short" '' small 512 0 1
run_row 8 '' "rock: BadGeometry field=2: the number of anchors 0 $slots_of_new" '' new 512 0 1
run_row 8 '' "rock: BadGeometry field=2: the number of anchors 2 $slots_of_new" '' new 512 2 1
run_row 6 '' "rock: DeviceFault: pages $disk" '' pages 512 1 1
run_row 2 '' "rock: Usage: $usage" '' new 512 1
run_row 2 '' "rock: Usage: $usage" '' new 512 1 01

# What is wrong with a line.
spaces=$(printf '%8193s' '')
bad 1 1 "$spaces"$'\n'
bad 1 2 $'1\tget http://a/b\n'
bad 1 2 $'1 get http://a/b\r\n'
bad 1 3 $'2 get http://a/b\n'
bad 2 3 $'1 get http://a/b\n\n'
bad 1 3 $'1 get http://a/b\n' 0
bad 1 4 $'1  get http://a/b\n'
bad 1 5 $'1 put http://a/b\n'
bad 1 5 $'1 get'
bad 1 6 $'1 more 7\n'
bad 1 7 "1 get $(printf '%2049s' '' | tr ' ' u)"
bad 1 8 $'1 put http://a/b x\n'
bad 1 8 $'1 put http://a/b #4194305:0\n'
bad 1 9 $'1 mark 64\n'
bad 2 9 $'1 mark 3\n1 mark 3\n'
bad 4097 1 "$(yes '1 await 0' | head -n 4096)"$'\n1'
cmp -s one new
holds 'a run that is refused leaves the file as it was' $?
run_row 0 $'1 1 MISS other 7.3 1a68c10d6c8b326657c775f53c866dd1\n' '' '1 get -' new 512 1 1
cmp -s one new
holds 'a run that stores nothing leaves the file as it was' $?

# A script that can't be read.
./rock run new 512 1 1 <pages >printed 2>said
[ $? -eq 4 ] && [ ! -s printed ] && [ "$(cat said)" = "$unread" ]
holds 'a folder for a script is a fault of the source' $?
./rock run new 512 1 1 <&- >printed 2>said
[ $? -eq 4 ] && [ ! -s printed ] && [ "$(cat said)" = "$unread" ]
holds 'a closed standard input is a fault of the source' $?

# A script that comes slowly, by pieces that end within lines.
slow_script() {
    for piece in $'1 put http://a/b =he' $'llo\n1 ge' $'t http://a/b\n'; do
        printf '%s' "$piece"
        sleep 0.2
    done
}
rm -f new && ./rock create new 512 4
slow_script | ./rock run new 512 1 1 >printed 2>said
[ $? -eq 0 ] && [ ! -s said ] && printf '1 1 STORED 1\n1 2 HIT 1 5 68656c6c6f\n' | cmp -s - printed
holds 'a script from a slow pipe is read to its end' $?

# Waits until two entries of a file are listed in a copy, since the file itself is in use.
two_listed() {
    for _ in $(seq 1000); do
        sleep 0.01
        cp "$1" beside 2>/dev/null && [ "$(./rock list beside 512 2>/dev/null | head -n 2 | wc -l)" -eq 2 ] && return
    done
}

# Runs the program and kills it while it stores, as soon as two entries of its file are listed: what is run, in words,
# its standard input, and the words of its command line, of which the second one is the file.
killed() {
    local what=$1 from=$2 name=$4 run
    shift 2
    ./rock "$@" <"$from" >printed 2>said &
    run=$!
    two_listed "$name"
    kill -9 "$run"
    wait "$run" 2>ended
    [ $? -eq 137 ] && [ ! -s printed ] && [ ! -s said ]
    holds "$what that is killed ends with 137, printed nothing and said nothing" $?
}

# A run that is killed while it stores printed nothing. What is listed then are responses of its script, whole, and
# another run finds them. A body of the script has as many letters as its number, from the first letter on.
for number in $(seq 1 1200); do printf '1 save http://a/%d #%d:0\n' "$number" "$number"; done >many
rm -f new && ./rock create new 512 4096
killed 'a run' many run new 512 4096 1
./rock list new 512 >listed 2>said && [ ! -s said ] && [ -s listed ] && [ "$(wc -l <listed)" -lt 1200 ] &&
    awk '$6 != "http://a/" $5 { exit 1 }' listed
holds 'a run that was killed left responses of its script' $?
awk '{ print "1 get " $6 }' listed >gets
while read -r _ _ version _ length _; do
    printf 'HIT %d %d %s\n' "$version" "$length" "$(made 0 "$length")"
done <listed >wanted
./rock run new 512 4096 1 <gets 2>said | cut -d ' ' -f 3- >got
[ "${PIPESTATUS[0]}" -eq 0 ] && [ ! -s said ]
holds 'a file that a killed run left is served' $?
paste -d '|' wanted got | awk -F '|' '
    $2 == $1 { hits++; next }
    $2 !~ /^MISS other / { wrong = 1 }
    END { exit wrong || !hits }'
holds 'what a killed run left is served whole' $?

# One program at a time. Another program has the lock of the file for itself, or shares it.
cp one busy && cp busy copy
as=(flock -x busy)
row 6 '' "rock: DeviceFault: busy $in_use" list busy 512
row 6 '' "rock: DeviceFault: busy $in_use" check busy 512 1
row 9 '' "rock: Exists: there is a file busy $taken" create busy 512 1
run_row 6 '' "rock: DeviceFault: busy $in_use" '1 put http://a/b =x' busy 512 1 1
as=(flock -s busy)
row 0 $'ENTRY 0 7 1 5 http://a/b\n' '' list busy 512
row 0 $'slots=1 kept=1 used=1 free=0 version=7\n' '' check busy 512 1
run_row 6 '' "rock: DeviceFault: busy $in_use" '1 put http://a/b =x' busy 512 1 1
as=()
cmp -s copy busy
holds 'a file that is in use stays as it was' $?
served busy 512 1 1 <<'END'
1 get http://a/b|HIT 7 5 68656c6c6f
END

# Two runs at once: the second one is refused, and so are readers, until the first one has ended. It is stopped meanwhile.
rm -f new && ./rock create new 512 4096
./rock run new 512 4096 1 <many >first_printed 2>first_said &
first=$!
two_listed new
kill -STOP "$first"
run_row 6 '' "rock: DeviceFault: new $in_use" '1 put http://a/b =x' new 512 4096 1
row 6 '' "rock: DeviceFault: new $in_use" list new 512
row 6 '' "rock: DeviceFault: new $in_use" check new 512 1
kill -CONT "$first"
wait "$first"
[ $? -eq 0 ] && [ ! -s first_said ] && [ "$(wc -l <first_printed)" -eq 1200 ]
holds 'a run ends as ever where others were refused meanwhile' $?
served new 512 4096 1 <<'END'
1 put http://b =x|STORED 1201
END

# Files that are too short, or end within a slot.
truncate -s 16895 short
row 8 '' "rock: Small bytes=16895: short $too_short" list short 512
truncate -s 17508 short
row 0 $'slots=2 kept=0 used=0 free=2 version=0\n' '' check short 512 2

# Files that record one slot, or four, of 512 bytes in their header areas.
record() {
    printf 'RockSMP2\0\2\0\0\'"$2"'\0\0\0' | dd of="$1" bs=16 count=1 conv=notrunc status=none
}
row 8 '' "rock: BadGeometry field=7: the header area of one $unrecorded" list one -
cp one recorded && record recorded 1 && cp recorded kept
row 0 $'ENTRY 0 7 1 5 http://a/b\n' '' list recorded -
row 0 $'ENTRY 0 7 1 5 http://a/b\n' '' list recorded 512
row 0 $'slots=1 kept=1 used=1 free=0 version=7\n' '' check recorded - 1
row 8 '' "rock: BadGeometry field=2: the number of anchors 2 $anchor_limits recorded; rock check recorded - $counted" check recorded - 2
row 8 '' "rock: BadGeometry field=5: the header area of recorded records its slots already, of another size than 1024; rock list recorded - $other_size" list recorded 1024
run_row 8 '' "rock: BadGeometry field=5: the header area of recorded records its slots already, of another size than 1024; rock list recorded - $other_size" '' recorded 1024 1 1
run_row 0 $'1 1 HIT 7 5 68656c6c6f\n' '' '1 get http://a/b' recorded - 1 1
cmp -s recorded kept
holds 'a file that records its slots stays as it was' $?
for name in gone - --; do
    row 2 '' "rock: Usage: $usage" create "$name" - 4
    row 2 '' "rock: Usage: $usage" list - "$name"
done
row 8 '' "rock: Missing: there is no file gone; $absent" list gone -

# An older file is made to record its slots.
cp one old
row 8 '' "rock: BadGeometry field=7: the header area of old $unrecorded" list old -
row 0 $'MIGRATED slots=1\n' '' migrate old 512
cmp -s old recorded
holds 'a file that was migrated has the bytes of one that records its slots' $?
row 0 $'MIGRATED slots=1\n' '' migrate old 512
row 0 $'ENTRY 0 7 1 5 http://a/b\n' '' list old -
row 8 '' "rock: BadGeometry field=5: the header area of old records its slots already, of another size than 1024; rock list old - $other_size" migrate old 1024
row 2 '' "rock: Usage: $usage" migrate old -
row 8 '' "rock: Missing: there is no file gone; $absent" migrate gone 512
rm old

# A file that was cut is given its length again: first whole slots, and then zeros.
rm -f new && row 0 '' '' create new 512 4
run_row 0 $'1 1 STORED 1\n1 2 STORED 2\n' '' $'1 put http://a/b =hello\n1 put http://a/c #600:0' new - 4 1
truncate -s 17000 new
row 8 '' "rock: BadGeometry field=6: the header area of new $other_slots" list new -
row 8 '' "rock: BadGeometry field=6: the header area of new $other_slots" list new 1024
truncate -s 16896 new && truncate -s 18432 new
row 0 $'ENTRY 0 1 1 5 http://a/b\n' '' list new -
truncate -s 18944 new
row 8 '' "rock: BadGeometry field=6: the header area of new $other_slots" check new - 4
truncate -s 18432 new
row 0 $'slots=4 kept=1 used=1 free=3 version=1\n' '' check new - 4
dd if=/dev/zero of=new bs=16 count=1 conv=notrunc status=none
row 0 $'ENTRY 0 1 1 5 http://a/b\n' '' list new 512

# The greatest file takes no room to speak of, where the file system can leave gaps.
row 0 '' '' create great 32768 1048576
[ "$(stat -c %s great)" -eq 34359754752 ] && [ "$(stat -c %b great)" -lt 2048 ]
holds 'the greatest file has its length and no blocks' $?
rm great

# As many slots as there may be, with a run that stores in them. A slot more is ignored.
row 0 '' '' create great 512 1048576
served great 512 1048576 2 <<'END'
1 put http://a/b =hello|STORED 1
1 mark 0|MARKED
2 await 0|MET
2 get http://a/b|HIT 1 5 68656c6c6f
END
row 0 $'ENTRY 0 1 1 5 http://a/b\n' '' list great 512
truncate -s +512 great
row 0 $'slots=1048576 kept=1 used=1 free=1048575 version=1\n' '' check great 512 1048576
run_row 0 $'1 1 HIT 1 5 68656c6c6f\n' '' '1 get http://a/b' great 512 1 1
run_row 8 '' \
    "rock: BadGeometry field=2: the number of anchors 1048577 $anchor_limits great; rock check great 512 $counted" \
    '' great 512 1048577 1
(
    failed=0
    ulimit -v 65536
    run_row 3 '' 'rock: Memory: memory ran out; free some and try again' '1 get http://a/b' great 512 1 1
    [ "$failed" -eq 0 ]
)
holds 'the greatest file asks for more than 64 MiB' $?
rm great

# Too many open files: a run has its file open once, and once for each worker.
rm -f new && row 0 '' '' create new 512 4096
(
    failed=0
    ulimit -n 20
    run_row 6 '' "rock: DeviceFault: new $too_many" '1 get http://a/1' new 512 4096 32
    [ "$failed" -eq 0 ]
)
holds 'a limit of 20 open files is too low for 32 workers, and that is said' $?

# What a tracer shows: `list` and `check` open the file for reading alone, and a call of standard input or output that a signal
# interrupts is made again.
if command -v strace >/dev/null && strace -o traced true 2>/dev/null; then
    as=(strace -o traced)
    row 0 $'ENTRY 0 7 1 5 http://a/b\n' '' list busy 512
    ! grep -v O_RDONLY traced | grep -q '^open.*busy'
    holds 'list opens its file for reading alone' $?
    row 0 $'slots=1 kept=1 used=1 free=0 version=7\n' '' check busy 512 1
    ! grep -v O_RDONLY traced | grep -q '^open.*busy'
    holds 'check opens its file for reading alone' $?
    as=(strace -o traced -e inject=read:error=EINTR:when=2..4 -e inject=write:error=EINTR:when=1..2)
    run_row 0 $'1 1 HIT 7 5 68656c6c6f\n' '' '1 get http://a/b' busy 512 1 1
    [ "$(grep -c '^read(0.*EINTR' traced)" -eq 3 ] && [ "$(grep -c '^write(1.*EINTR' traced)" -eq 2 ]
    holds 'interrupted reads of the script and writes of the answers are made again' $?
    as=()
else
    skip 'what a tracer shows: there is no strace here'
fi

# Permissions, as another user where this one may do everything.
chmod 444 one && cp one secret && chmod 000 secret && mkdir closed && chmod 555 closed
if [ "$(id -u)" -eq 0 ]; then as=(setpriv --reuid=65534 --regid=65534 --clear-groups); fi
if "${as[@]}" true 2>/dev/null; then
    row 0 $'ENTRY 0 7 1 5 http://a/b\n' '' list one 512
    row 6 '' "rock: DeviceFault: secret $disk" list secret 512
    run_row 6 '' "rock: DeviceFault: secret $disk" '' secret 512 1 1
    # A file that may only be read is served, and nothing is stored.
    served one 512 1 1 <<'END'
1 get http://a/b|HIT 7 5 68656c6c6f
1 put http://a/b =x|FAULT
1 get http://a/b|MISS absent 8.6
END
    row 0 $'ENTRY 0 7 1 5 http://a/b\n' '' list one 512
    # Nor is anything wiped.
    served one 512 1 1 <<'END'
1 wipe http://a/b|FAULT
1 get http://a/b|MISS absent 7.6d
END
    served one 512 1 1 <<'END'
1 open 0 http://a/b|OPEN 7
1 wipe http://a/b|LATER 7.3d
1 more 0|END 5 68656c6c6f
1 wipe http://a/b|NONE leaving 7.3d
END
    row 0 $'ENTRY 0 7 1 5 http://a/b\n' '' list one 512
    row 6 '' "rock: DeviceFault: closed/db $disk" create closed/db 512 1
    # Of a file that another user owns counts what its mode gives to others.
    if [ "$(id -u)" -eq 0 ]; then
        cp copy theirs && chmod 600 theirs
        run_row 6 '' "rock: DeviceFault: theirs $disk" '1 get http://a/b' theirs 512 1 1
        chmod 644 theirs
        run_row 0 $'1 1 HIT 7 5 68656c6c6f\n1 2 FAULT\n' '' $'1 get http://a/b\n1 put http://a/b =x\n' theirs 512 1 1
        cmp -s copy theirs
        holds 'a file of another user that may only be read stays as it was' $?
        chmod 666 theirs
        run_row 0 $'1 1 STORED 8\n' '' '1 put http://a/b =x' theirs 512 1 1
        row 0 $'ENTRY 0 8 1 1 http://a/b\n' '' list theirs 512
    else
        skip 'a file of another user: only the superuser can make one'
    fi
else
    skip 'permissions: there is no other user to run as'
fi
as=()

# A disk that has no room for a slot is told by a line, and no status.
mkdir full
if mount -t tmpfs -o size=64k,nr_inodes=4 tmpfs full 2>/dev/null; then
    row 0 '' '' create full/db 16384 16
    # These URLs have six anchors of sixteen.
    for number in 1 2 3 6 8 9; do printf '1 put http://a/%d #16000:0\n' "$number"; done >script
    ./rock run full/db 16384 16 1 >printed 2>said <script
    [ $? -eq 0 ] && [ ! -s said ] && [ "$(head -n 1 printed)" = '1 1 STORED 1' ] &&
        [ "$(tail -n 1 printed)" = '1 6 FAULT' ]
    holds 'a full disk is the answer FAULT' $?
    [ "$(./rock list full/db 16384 | wc -l)" -eq "$(grep -c ' STORED ' printed)" ]
    holds 'what was stored before the disk was full is listed' $?
    umount full
    # A disk that is full in the middle of a slot leaves zeros in place of its header, and the next line tries this slot again.
    mount -t tmpfs -o size=76k,nr_inodes=4 tmpfs full && row 0 '' '' create full/db 16384 16
    ./rock run full/db 16384 16 1 >printed 2>said <script
    [ $? -eq 0 ] && [ ! -s said ] && [ "$(cut -d ' ' -f 3 printed | tr '\n' ' ')" = 'STORED STORED STORED FAULT FAULT FAULT ' ]
    holds 'a disk that is full in the middle of a slot is the answer FAULT' $?
    [ "$(tail -c +65537 full/db | head -c 40 | tr -d '\0' | wc -c)" -eq 0 ] &&
        [ "$(tail -c +65577 full/db | head -c 8000 | tr -d '\0' | wc -c)" -gt 7000 ]
    holds 'a slot that was written in part begins with a header of zeros' $?
    [ "$(./rock list full/db 16384 | wc -l)" -eq 3 ]
    holds 'a slot that was written in part is no entry' $?
    umount full
    # Room that a file was given before is there, however full the disk is then.
    mount -t tmpfs -o size=512k tmpfs full && row 0 '' '' create full/db 16384 16 && fallocate -l 278528 full/db
    yes | head -c 1048576 2>/dev/null >full/rest
    ./rock run full/db 16384 16 1 >printed 2>said <script
    [ $? -eq 0 ] && [ ! -s said ] && [ "$(grep -c ' STORED ' printed)" -eq 6 ] && [ "$(stat -f -c %f full)" -eq 0 ]
    holds 'a file that was given its room meets no full disk' $?
    umount full
else
    skip 'a full disk under a run: no file system can be mounted here'
fi

# A disk that has no room for one file more, and a file longer than the system allows.
if mount -t tmpfs -o size=64k,nr_inodes=1 tmpfs full 2>/dev/null; then
    row 6 '' "rock: DeviceFault: full/db $disk" create full/db 512 1
    umount full
    # Its header area does not fit: the file is there with its slots, all the same.
    mount -t tmpfs -o size=8k,nr_inodes=2 tmpfs full && row 6 '' "rock: DeviceFault: full/db $disk" create full/db 512 4
    row 0 $'slots=4 kept=0 used=0 free=4 version=0\n' '' check full/db 512 4
    umount full
else
    skip 'a full disk: no file system can be mounted here'
fi
(
    trap '' XFSZ
    ulimit -f 16
    ./rock create long 512 64 2>said
    [ $? -eq 6 ] && [ "$(cat said)" = "rock: DeviceFault: long $disk" ]
)
holds 'a file longer than the limit of the process is a fault of the disk' $?
(
    ulimit -c 0 -f 16
    ./rock create longer 512 64 >printed 2>said
    [ $? -eq 153 ] && [ ! -s printed ] && [ ! -s said ]
) 2>/dev/null
holds 'where the signal of the limit on the size of files is not ignored, it ends the program' $?
rm -f new && ./rock create new 512 64
printf '1 put http://a/b #1000:0\n1 put http://a/c =x\n' >script
(
    trap '' XFSZ
    ulimit -f 17
    ./rock run new 512 64 1 >printed 2>said <script
    [ $? -eq 0 ] && [ ! -s said ] && [ "$(cat printed)" = $'1 1 FAULT\n1 2 STORED 2' ]
)
holds 'a slot behind the limit of the process is a FAULT' $?
(
    ulimit -c 0 -f 17
    ./rock run new 512 64 1 >printed 2>said <script
    [ $? -eq 153 ] && [ ! -s printed ] && [ ! -s said ]
) 2>/dev/null
holds 'a run whose slot is behind the limit of the process is ended by the signal' $?

# A row where nothing is compared but the status: a name, the status, and what was to run.
ends() {
    local name=$1 status=$2
    shift 2
    "$@"
    local ended=$?
    [ "$ended" -eq "$status" ]
    holds "$name: status $ended" $?
}

# A standard error that takes nothing, or is closed, changes no status.
closed_error() { ./rock "$@" 2>&- >/dev/null; }
ends 'a closed standard error leaves the status of a file that is missing' 8 closed_error list gone 512
ends 'a closed standard error leaves the status of a faulty command line' 2 closed_error
ends 'a closed standard error leaves the status of what is done' 0 closed_error list one 512

# An output that takes nothing.
if [ -e /dev/full ]; then
    ./rock list one 512 2>said >/dev/full
    [ $? -eq 5 ] && [ "$(cat said)" = "$output" ]
    holds 'a full output is a fault of the sink' $?
    # A run whose output fails has served all lines.
    rm -f new && row 0 '' '' create new 512 4
    printf '1 put http://a/b =x\n' >script
    ./rock run new 512 4 1 2>said >/dev/full <script
    [ $? -eq 5 ] && [ "$(cat said)" = "$output" ]
    holds 'a full output is a fault of the sink for a run' $?
    row 0 $'ENTRY 0 1 1 1 http://a/b\n' '' list new 512
    full_output() { ./rock "$@" >/dev/full 2>/dev/null; }
    ends 'a full output is a fault of the sink for the help' 5 full_output --help
    ends 'a full output is a fault of the sink for the version' 5 full_output --version
    full_error() { ./rock "$@" 2>/dev/full >/dev/null; }
    ends 'a full standard error leaves the status of a file that is missing' 8 full_error list gone 512
    ends 'a full standard error leaves the status of a faulty command line' 2 full_error
    both_full() { ./rock "$@" >/dev/full 2>&1; }
    ends 'a full output is told by the status alone' 5 both_full list one 512
else
    skip 'a full output: there is no /dev/full'
fi
closed_pipe() {
    (
        trap '' PIPE
        sleep 0.3
        ./rock "$@" 2>/dev/null
        echo $? >ended
    ) | true
    return "$(cat ended)"
}
ends 'a reader that closed the pipe is a fault of the sink' 5 closed_pipe list one 512
printf '1 get http://a/b\n' >script
closed_output() { ./rock "$@" >&- 2>/dev/null <script; }
ends 'a closed output is a fault of the sink for a run' 5 closed_output run one 512 1 1
cmp -s one copy
holds 'answers that find no output are written to no file' $?

# A reader that ends in the middle of the answers, of which each get has 200,000 bytes. All lines were served.
rm -f new && row 0 '' '' create new 512 512
{
    printf '1 put http://a/b #100000:0\n'
    for number in 1 2 3 4; do printf '1 get http://a/b\n'; done
    printf '1 put http://a/c =x\n'
} >script
(
    ./rock run new 512 512 1 2>said <script
    echo $? >ended
) | head -c 30 >printed
[ "$(cat ended)" -eq 5 ] && [ "$(cat said)" = "$output" ] && [ "$(cat printed)" = $'1 1 STORED 1\n1 2 HIT 1 100000 ' ]
holds 'a reader that ends in the middle of a run is a fault of the sink' $?
row 0 $'slots=512 kept=2 used=213 free=299 version=2\n' '' check new 512 512

# A new file is brought to the disk before it is told as made.
if command -v strace >/dev/null && strace -o calls true 2>/dev/null; then
    strace -o calls -e trace=ftruncate,pwrite64,fsync,fdatasync ./rock create synced 512 4 2>said
    [ $? -eq 0 ] && grep -q '^ftruncate(.*, 18432) *= 0' calls && grep -q '^fsync(.*) *= 0' calls &&
        [ "$(grep -o '^ftruncate\|^fsync\|^pwrite64\|^fdatasync' calls | tr '\n' ' ')" = 'ftruncate fsync pwrite64 fdatasync ' ]
    holds 'a new file has its length and is synced, and then its header area is written and synced' $?
    # What put stores is written and not synced, and what save stores is synced behind each slot.
    rm -f new && row 0 '' '' create new 512 8
    printf '1 put http://a/b #431:0\n1 save http://a/b #431:0\n' >script
    strace -f -o calls -e trace=pwrite64,fsync,fdatasync ./rock run new 512 8 1 <script >printed 2>said
    [ $? -eq 0 ] && [ "$(grep -o 'pwrite64\|fdatasync\|fsync' calls | tr '\n' ' ')" = \
        'pwrite64 pwrite64 pwrite64 fdatasync pwrite64 fdatasync ' ]
    holds 'save syncs each slot, and put none' $?
    # A wipe writes the first of two slots, and syncs that. A purge writes nothing.
    printf '1 purge http://a/b\n1 put http://a/c #431:0\n1 wipe http://a/c\n' >script
    strace -f -o calls -e trace=pwrite64,fsync,fdatasync ./rock run new 512 8 1 <script >printed 2>said
    [ $? -eq 0 ] && [ "$(cut -d ' ' -f 3 printed | tr '\n' ' ')" = 'PURGED STORED WIPED ' ] &&
        [ "$(grep -o 'pwrite64\|fdatasync\|fsync' calls | tr '\n' ' ')" = 'pwrite64 pwrite64 pwrite64 fdatasync ' ]
    holds 'a wipe writes one slot and syncs it, and a purge writes nothing' $?
else
    skip 'the sync of a new file and of save: there is no strace that runs here'
fi

# A benchmark. Each URL of its script is http://bench/N, with N below 64 for each worker, and each body has at most 1,300
# bytes. What is listed behind it are such responses, each with the slots that its content needs: 32 bytes, the URL's and
# the body's, of which a slot has room for 472. So many were stored at most, and no version is above this.
listed_of_bench() {
    ./rock list "$1" 512 >listed 2>said && [ ! -s said ] &&
        awk -v urls=$((64 * $2)) -v stored="$3" '
            $1 != "ENTRY" || NF != 6 || $6 !~ /^http:\/\/bench\/(0|[1-9][0-9]*)$/ { exit 1 }
            substr($6, 14) + 0 >= urls + 0 || $5 > 1300 || $3 < 1 || $3 > stored + 0 { exit 1 }
            $4 != int((32 + length($6) + $5 + 471) / 472) { exit 1 }' listed
}

# What a check says of such a file: it has the slots, they are used or free, each anchor keeps one entry at most, and
# something is kept exactly where something is listed.
checked_of_bench() {
    local slots kept used free version
    ./rock check "$1" 512 $((16 * $2)) >checked 2>said && [ ! -s said ] &&
        IFS=' =' read -r _ slots _ kept _ used _ free _ version <checked &&
        [ "$slots" -eq $((64 * $2)) ] && [ $((used + free)) -eq "$slots" ] && [ "$used" -ge "$kept" ] &&
        [ "$kept" -le $((16 * $2)) ] && [ "$kept" -le "$(wc -l <listed)" ] &&
        [ $((kept > 0)) -eq $((version > 0)) ] && [ "$version" -le "$3" ] &&
        { [ "$2" -ne 1 ] || [ "$version" -eq "$3" ]; }
}

# A benchmark over a new file: its counts, and its seed, workers and rounds. One worker's last version is in the file.
benched() {
    local counts=$1 workers=$3 stored
    shift
    stored=${counts#*stored=}
    stored=${stored%% *}
    rm -f new && row 0 "bench $counts"$'\n' '' bench new "$@"
    [ "$(stat -c %s new)" -eq $((16384 + 64 * workers * 512)) ]
    holds "rock bench new $*: the file has 64 slots of 512 bytes for each worker" $?
    listed_of_bench new "$workers" "$stored"
    holds "rock bench new $*: what is listed are responses of its script" $?
    checked_of_bench new "$workers" "$stored"
    local judged=$?
    holds "rock bench new $*: a check says '$(head -c 200 checked)' of the file" $judged
}

# The line in OPERATING.md, and others, which come from a program in another language, by the definition of the script
# and the rules of one worker's store. No two workers share an anchor, and the file has room for all that they hold, so
# several workers have one line too.
nothing='requests=0 hits=0 misses=0 stored=0 purged=0 none=0 other=0 bytes=0'
counts=$(awk '/^    \$ rock bench bench.db 7 1 10000$/ { getline; print substr($0, 11) }' "$root/docs/OPERATING.md")
case $counts in *' other=0 '*) true ;; *) false ;; esac
holds 'no answer of the benchmark in OPERATING.md is another one' $?
[ "${counts%% *}" = requests=10000 ]
holds 'the benchmark in OPERATING.md has 10,000 requests' $?
benched "$counts" 7 1 10000
counts='requests=30 hits=0 misses=14 stored=10 purged=0 none=6 other=0 bytes=0'
benched "$counts" 7 1 30
mv new twin
benched "$counts" 7 1 30
cmp -s new twin
holds 'one worker leaves the same file twice' $?
# The file of a benchmark that stored nothing: it records 64 slots of 512 bytes, and they are zeros.
empty_bench() { printf 'RockSMP2\0\2\0\0\100\0\0\0' && head -c 49136 /dev/zero; }
benched "$nothing" 7 1 0
empty_bench | cmp -s - new
holds 'a benchmark of no round leaves a file whose slots are zeros' $?
benched "$nothing" 0 32 0
benched 'requests=1 hits=0 misses=1 stored=0 purged=0 none=0 other=0 bytes=0' 0 1 1
empty_bench | cmp -s - new
holds 'a benchmark that stores nothing leaves a file whose slots are zeros' $?
benched 'requests=120 hits=7 misses=48 stored=51 purged=2 none=12 other=0 bytes=2740' 18446744073709551615 3 40
for _ in 1 2; do
    benched 'requests=2000 hits=215 misses=759 stored=795 purged=46 none=185 other=0 bytes=137231' 7 4 500
    benched 'requests=3200 hits=238 misses=1333 stored=1240 purged=72 none=317 other=0 bytes=139527' 7 32 100
done

# The script of one worker's benchmark, by the definition: its seed and its rounds. All URLs are the worker's. The numbers
# of the shell are those of 64 bits.
bench_script() {
    local last=$1 round place url body drawn=()
    for ((round = 0; round < $2; round++)); do
        for place in 0 1 2; do
            last=$((last * 6364136223846793005 + 1442695040888963407))
            drawn[place]=$(((last >> 32) & 0xffffffff))
        done
        url=http://bench/$((drawn[0] % 64))
        body="#$((drawn[2] % 1301)):$((drawn[2] % 26))"
        case $((drawn[1] % 8)) in
        [0-3]) printf '1 get %s\n' "$url" ;;
        4 | 5) printf '1 put %s %s\n' "$url" "$body" ;;
        6) printf '1 save %s %s\n' "$url" "$body" ;;
        7) printf '1 purge %s\n' "$url" ;;
        esac
    done
}

# The line of a benchmark, by the answers of a run.
summed() {
    awk '{ kinds[$3]++ } $3 == "HIT" { bytes += $5 } END {
        printf "bench requests=%d hits=%d misses=%d", NR, kinds["HIT"], kinds["MISS"]
        told = kinds["HIT"] + kinds["MISS"] + kinds["STORED"] + kinds["PURGED"] + kinds["NONE"]
        printf " stored=%d purged=%d none=%d", kinds["STORED"], kinds["PURGED"], kinds["NONE"]
        printf " other=%d bytes=%d\n", NR - told, bytes }'
}

# A benchmark of one worker is a run of its script over a new file: it counts the same answers and leaves the same file.
bench_script 7 4096 >script
rm -f new ran && row 0 '' '' create ran 512 64
./rock run ran 512 16 1 <script 2>said | summed >wanted
[ "${PIPESTATUS[0]}" -eq 0 ] && [ ! -s said ] && grep -q '^bench requests=4096 .* other=0 ' wanted
holds 'a run of the script of a benchmark answers 4,096 lines' $?
row 0 "$(cat wanted)"$'\n' '' bench new 7 1 4096
cmp -s new ran
holds 'a benchmark leaves the file that a run of its script leaves' $?

# It reads no standard input.
printf '1 get http://a/b\n' >script
rm -f new && { ./rock bench new 7 1 10 >printed 2>said && cat; } <script | cmp -s - script
[ "${PIPESTATUS[0]}" -eq 0 ] && [ ! -s said ] && [ -s printed ]
holds 'a benchmark leaves standard input unread' $?
rm -f new && ./rock bench new 0 1 0 >printed 2>said <&-
[ $? -eq 0 ] && [ ! -s said ] && [ "$(cat printed)" = "bench $nothing" ]
holds 'a benchmark needs no standard input' $?

# Refusals of a benchmark, in their order: the words, the workers, the rounds, the name. The old file is as it was.
rm -f new
row 2 '' "rock: Usage: $usage" bench
row 2 '' "rock: Usage: $usage" bench new 7 1
row 2 '' "rock: Usage: $usage" bench new 7 1 10 10
row 2 '' "rock: Usage: $usage" bench new 07 1 10
row 2 '' "rock: Usage: $usage" bench new 7 01 10
row 2 '' "rock: Usage: $usage" bench new 7 1 010
row 2 '' "rock: Usage: $usage" bench new +7 1 10
row 2 '' "rock: Usage: $usage" bench new 7 1 ten
row 2 '' "rock: Usage: $usage" bench new 7 0 ''
row 2 '' "rock: Usage: $usage" bench '' 7 1 10
row 2 '' "rock: Usage: $usage" bench -new 7 1 10
row 2 '' "rock: Usage: $usage" bench new 18446744073709551616 1 10
row 2 '' "rock: Usage: $usage" bench new 7 4294967296 10
row 2 '' "rock: Usage: $usage" bench new 7 1 4294967296
for name in new one; do
    row 8 '' "rock: BadGeometry field=3: the number of workers 0 $worker_limits" bench $name 7 0 10001
    row 8 '' "rock: BadGeometry field=3: the number of workers 33 $worker_limits" bench $name 7 33 10
    row 8 '' "rock: BadGeometry field=3: the number of workers 4294967295 $worker_limits" bench $name 7 4294967295 10
    row 8 '' "rock: BadGeometry field=4: the number of rounds 10001 $round_limit" bench $name 7 1 10001
    row 8 '' "rock: BadGeometry field=4: the number of rounds 4294967295 $round_limit" bench $name 7 32 4294967295
done
row 8 '' "rock: BadGeometry field=4: the number of rounds 10001 $round_limit" bench none/db 7 1 10001
[ ! -e new ]
holds 'a refused benchmark makes no file' $?
row 9 '' "rock: Exists: there is a file one $taken" bench one 7 1 10
row 9 '' "rock: Exists: there is a file one $taken" bench one 7 1 0
row 9 '' "rock: Exists: there is a file twin $taken" bench twin 7 32 10000
row 9 '' "rock: Exists: there is a file pages $taken" bench pages 7 1 10
row 9 '' "rock: Exists: there is a file pipe $taken" bench pipe 7 1 10
ln -s nowhere link
row 9 '' "rock: Exists: there is a file link $taken" bench link 7 1 10
[ ! -e nowhere ] && cmp -s one copy
holds 'a benchmark of a name that is there leaves what is there' $?
row 6 '' "rock: DeviceFault: none/db $disk" bench none/db 7 1 10
row 6 '' "rock: DeviceFault: one/db $disk" bench one/db 7 1 10

# Permissions. The folder `closed` may not be written, `locked` may not be entered, and in `open` everybody may make files.
mkdir locked open && chmod 000 locked && chmod 777 open
if [ "$(id -u)" -eq 0 ]; then as=(setpriv --reuid=65534 --regid=65534 --clear-groups); fi
if "${as[@]}" true 2>/dev/null; then
    row 6 '' "rock: DeviceFault: closed/db $disk" bench closed/db 7 1 10
    row 6 '' "rock: DeviceFault: locked/db $disk" bench locked/db 7 1 10
    row 9 '' "rock: Exists: there is a file secret $taken" bench secret 7 1 10
    "${as[@]}" bash -c 'umask 027 && ./rock bench open/db 0 1 1' >printed 2>said </dev/null
    [ $? -eq 0 ] && [ ! -s said ] && [ "$(stat -c %a open/db)" = 640 ]
    holds 'a benchmark makes its file as the umask allows' $?
    # A name that another user has is taken, whatever may be done with the file.
    if [ "$(id -u)" -eq 0 ]; then
        for mode in 600 644 666; do
            rm -f open/theirs && cp copy open/theirs && chmod $mode open/theirs
            row 9 '' "rock: Exists: there is a file open/theirs $taken" bench open/theirs 7 1 10
            cmp -s copy open/theirs
            holds "a benchmark leaves a file of another user with mode $mode as it was" $?
        done
    else
        skip 'a benchmark of the name of another user: only the superuser can make such a file'
    fi
    # Where the system gives no threads the workers run one after another. Nobody else is to have this user's number.
    if [ "$(id -u)" -eq 0 ] && as=(setpriv --reuid=64137 --regid=64137 --clear-groups) && "${as[@]}" true 2>/dev/null; then
        "${as[@]}" bash -c 'ulimit -u 1 && exec ./rock bench open/alone 7 4 500' >printed 2>said </dev/null
        [ $? -eq 0 ] && [ ! -s said ] && [ "$(cat printed)" = \
            'bench requests=2000 hits=215 misses=759 stored=795 purged=46 none=185 other=0 bytes=137231' ]
        holds 'a benchmark without threads prints the same line' $?
        # Workers that await those with lower numbers end, however few threads there are, and however little address space.
        for workers in 2 8 32; do
            for limit in '-u 1' '-u 2' '-u 5' '-v 20000' '-v 200000'; do
                rm -f few && ./rock create few 512 4 && chmod 666 few
                as=(timeout 60 setpriv --reuid=64137 --regid=64137 --clear-groups bash -c "ulimit $limit"' && exec "$@"' bash)
                served few 512 1 "$workers" < <(chain_of_marks "$workers")
            done
        done
    else
        skip 'runs and benchmarks without threads: there is no other user to run as'
    fi
else
    skip 'permissions of a benchmark: there is no other user to run as'
fi
as=()
chmod 755 locked

# A disk that has no room for a slot is an answer that is counted, as a run has it, and no status.
if mount -t tmpfs -o size=24k tmpfs full 2>/dev/null; then
    bench_script 7 200 >script
    row 0 '' '' create full/db 512 64
    ./rock run full/db 512 16 1 <script 2>said >answers
    [ $? -eq 0 ] && [ ! -s said ] && [ "$(grep -c ' FAULT' answers)" -gt 1 ]
    holds 'a full disk is met by a run of the script of a benchmark' $?
    rm full/db && row 0 "$(summed <answers)"$'\n' '' bench full/db 7 1 200
    grep -q "^bench requests=200 .* other=$(grep -c ' FAULT' answers) " printed
    holds 'of a full disk each other answer of a benchmark is a FAULT' $?
    listed_of_bench full/db 1 200 && [ -s listed ]
    holds 'what a benchmark stored before the disk was full is listed' $?
    umount full
else
    skip 'a full disk under a benchmark: no file system can be mounted here'
fi
if mount -t tmpfs -o size=64k,nr_inodes=1 tmpfs full 2>/dev/null; then
    row 6 '' "rock: DeviceFault: full/db $disk" bench full/db 7 1 10
    umount full
else
    skip 'a benchmark on a disk that is full of files: no file system can be mounted here'
fi
(
    trap '' XFSZ
    ulimit -f 16
    ./rock bench cut 7 1 10 2>said >printed
    [ $? -eq 6 ] && [ ! -s printed ] && [ "$(cat said)" = "rock: DeviceFault: cut $disk" ]
)
holds 'a benchmark whose file is longer than the limit of the process is a fault of the disk' $?
(
    ulimit -c 0 -f 16
    ./rock bench cut_off 7 1 10 >printed 2>said
    [ $? -eq 153 ] && [ ! -s printed ] && [ ! -s said ]
) 2>/dev/null
holds 'a benchmark whose file is longer than the limit is ended by the signal where that is not ignored' $?
(
    ulimit -v 16384
    ./rock bench starved 7 32 10000 2>said >printed
    [ $? -eq 3 ] && [ ! -s printed ] && [ "$(cat said)" = 'rock: Memory: memory ran out; free some and try again' ]
)
holds 'a benchmark that finds too little memory says so and prints nothing' $?

# An output that takes nothing. All lines were served, so the file is the one of a benchmark that is done.
rm -f new && ./rock bench whole 7 1 200 >printed 2>said </dev/null
[ $? -eq 0 ] && [ ! -s said ] && [ "$(wc -l <printed)" -eq 1 ]
holds 'a benchmark of 200 rounds is done' $?
same_as_whole() {
    cmp -s new whole
    holds "$1 leaves the file of a benchmark that is done" $?
    rm -f new
}
if [ -e /dev/full ]; then
    ./rock bench new 7 1 200 2>said >/dev/full </dev/null
    [ $? -eq 5 ] && [ "$(cat said)" = "$output" ]
    holds 'a full output is a fault of the sink for a benchmark' $?
    row 9 '' "rock: Exists: there is a file new $taken" bench new 7 1 200
    same_as_whole 'a benchmark with a full output'
    both_out() { ./rock "$@" >/dev/full 2>&-; }
    ends 'a closed standard error leaves the status of a benchmark with a full output' 5 both_out bench new 7 1 200
    same_as_whole 'a benchmark with a full output and no standard error'
else
    skip 'a full output of a benchmark: there is no /dev/full'
fi
ends 'a reader that closed the pipe is a fault of the sink for a benchmark' 5 closed_pipe bench new 7 1 200
same_as_whole 'a benchmark whose reader closed the pipe'
ends 'a closed output is a fault of the sink for a benchmark' 5 closed_output bench new 7 1 200
same_as_whole 'a benchmark with a closed output'
ends 'a closed standard error leaves the status of a benchmark that is done' 0 closed_error bench new 7 1 200
same_as_whole 'a benchmark with a closed standard error'
ends 'a closed standard error leaves the status of a benchmark of too many rounds' 8 closed_error bench new 7 1 10001

# A benchmark that is killed while it stores printed nothing. What is listed then are responses of its script, and a run
# finds them whole: each body is letters in their order, round. The name is taken.
killed 'a benchmark' /dev/null bench half 7 32 10000
[ "$(stat -c %s half)" -eq 1064960 ] && listed_of_bench half 32 320000 && [ -s listed ]
holds 'a benchmark that was killed left responses of its script' $?
checked_of_bench half 32 320000
holds 'a check reads what a killed benchmark left' $?
awk '{ print "1 get " $6 }' listed >gets
./rock run half 512 512 1 <gets 2>said >got
[ $? -eq 0 ] && [ ! -s said ]
holds 'a file that a killed benchmark left is served' $?
paste -d ' ' gets got | awk -v letters="$(made 0 26)" '
    BEGIN { for (i = 1; i < 52; i += 2) follows[substr(letters, i, 2)] = substr(letters letters, i + 2, 2) }
    NR == FNR { has[$6 " " $3 " " $5]; next }
    $6 == "MISS" && $7 == "other" { next }
    $6 != "HIT" || !($3 " " $7 " " $8 in has) { wrong = 1 }
    { hits++ }
    $8 > 0 && length($9) != 2 * $8 { wrong = 1 }
    { for (i = 1; i < 2 * $8 - 1; i += 2) if (substr($9, i + 2, 2) != follows[substr($9, i, 2)]) wrong = 1 }
    END { exit wrong || !hits }' listed -
holds 'what a killed benchmark left is served whole' $?
row 9 '' "rock: Exists: there is a file half $taken" bench half 7 32 10000

# Help: on standard output where it is asked for, behind the line on standard error after a faulty line, and
# the same whatever the terminal.
./rock --help >help 2>said
[ $? -eq 0 ] && [ ! -s said ] && [ -s help ] && ! grep -q '[^ -~]' help && [ "$(wc -L <help)" -le 80 ]
holds 'the help is plain text of at most 80 columns' $?
./rock 2>said
[ $? -eq 2 ] && tail -n +2 said | cmp -s - help
holds 'the help follows a faulty command line' $?
NO_COLOR=1 TERM=xterm-256color COLUMNS=200 ./rock --help | cmp -s - help
holds 'the help does not depend on the terminal' $?
[ "$(./rock --version)" = 'rock 0.1.0' ]
holds 'the version' $?

printf '%d rows passed, %d failed, %d skipped\n' "$passed" "$failed" "$skipped"
[ "$failed" -eq 0 ]
