#!/usr/bin/env bash
# What tools/install.sh puts into a folder, and the completions for bash and zsh.
#
# The completions in docs/completions/ are compared with those that are made anew from the help text in test_help, which
# the gate compares with what the program prints, and where there is a program from its own help text. Then they are tried:
# each word of each command line is completed. Run it by hand. The program is the one that the variable ROCK names, or the
# one that is built; where there is none a stand-in is installed. Where there is no zsh, or no man, their rows are skipped
# aloud. Its status is 0 where all rows that ran are as they should be.
set -u -o pipefail

. "$(dirname "${BASH_SOURCE[0]}")/rows.sh"
folder=$(mktemp -d) || exit 1
trap 'rm -rf "$folder"' EXIT

program=${ROCK:-$root/crates/rock_main/out/rock_main}
if [ -x "$program" ]; then
    program=$(realpath "$program")
else
    skip 'the program and its help text: there is none, so a stand-in is installed'
    program=$folder/stand-in
    printf '#!/bin/sh\necho a stand-in\n' >"$program" && chmod 700 "$program"
fi
export ROCK=$program
cd "$folder" || exit 1

# The help text, which is the one of the program.
awk '/^const HELP: &str = "\\$/ { on = 1; next } on && /^";$/ { exit } on' "$root/crates/test_help/src/help.rt" >help
[ "$(wc -l <help)" -gt 30 ] && grep -q '^Usage: rock create' help
judge $? 'the help text stands in test_help'
if [ "$program" != "$folder/stand-in" ]; then
    "$program" --help | cmp -s - help
    judge $? 'the program prints this help text'
fi

# The completions are those that are made of it.
bash_words=$root/docs/completions/rock.bash
zsh_words=$root/docs/completions/_rock
"$root/tools/completions.py" bash <help | cmp - "$bash_words"
judge $? 'docs/completions/rock.bash is made from the help text'
"$root/tools/completions.py" zsh <help | cmp - "$zsh_words"
judge $? 'docs/completions/_rock is made from the help text'

# The maker refuses: a name, the status, what is said, a file for standard input, and the words.
refused() {
    local name=$1 status=$2 said=$3 from=$4
    shift 4
    "$root/tools/completions.py" "$@" <"$from" >printed 2>error
    [ $? -eq "$status" ] && [ ! -s printed ] && [ "$(cat error)" = "completions.py: $said" ]
    judge $? "$name: $(cat error)"
}
head -n 12 help >front
sed 's/^  check .*//' help >fewer
refused 'a help text without its words makes nothing' 1 'standard input is not the help text of rock' front bash
refused 'a help text without one command makes nothing' 1 'standard input is not the help text of rock' fewer zsh
refused 'another shell is none' 2 'the only word is bash, zsh or --help' help fish
refused 'no word is none' 2 'the only word is bash, zsh or --help' help

# What bash offers, one word a line in any order, or that it is told to offer files; the last word is completed.
offers() {
    local wanted=$1
    shift
    bash --norc -c 'compopt() { [ "$*" = "-o default" ] && printf "files\n"; }
        . "$0" && COMP_WORDS=("$@") COMP_CWORD=$(($# - 1)) && _rock && [ ${#COMPREPLY[@]} -eq 0 ] ||
        printf "%s\n" "${COMPREPLY[@]}"' "$bash_words" "$@" | sort >offered
    printf '%s' "$wanted" | sort | cmp -s - offered
    judge $? "bash behind '${*:1:$#-1}' with '${!#}': $(tr '\n' '|' <offered)"
}
offers $'create\nlist\ncheck\nmigrate\nrun\nbench\n--help\n--version\n' rock ''
offers $'create\ncheck\n' rock c
offers $'--help\n--version\n' rock --
offers '' rock x
for command in create list check migrate run bench; do
    offers $'files\n' rock $command d
    offers '' rock $command db d
done
offers '' rock run db 512 d
offers '' rock --help d
offers '' rock other d

# What zsh is told to offer, or says; the last word is completed. Its own functions are stood in for.
tells() {
    local wanted=$1
    shift
    zsh -f -c 'file=$1; shift; words=("$@") CURRENT=$#
        _describe() { print -rl -- "${(@P)@[-1]%%:*}" }
        _files() { print files }
        _message() { print -r -- "$1" }
        . "$file"' zsh "$zsh_words" "$@" >told
    printf '%s\n' "$wanted" | cmp -s - told
    judge $? "zsh behind '${*:1:$#-1}': $(tr '\n' '|' <told)"
}
if command -v zsh >/dev/null; then
    tells $'create\nlist\ncheck\nrun\nbench\nmigrate\n--help\n--version' rock ''
    for command in create list check migrate run bench; do tells files rock $command ''; done
    tells "SLOT: A slot's bytes: a multiple of 512 from 512 to 32768, - if recorded" rock list db ''
    tells 'SLOTS: The slots of a new file, from 1 to 1048576' rock create db 512 ''
    tells 'ANCHORS: The anchors of a store, from 1 to the slots of the file' rock run db 512 ''
    tells 'WORKERS: The workers of the script, each with a thread, from 1 to 32' rock run db 512 4 ''
    tells 'COUNT: The rounds of a benchmark, at most 10000' rock bench db 7 1 ''
else
    skip 'the completions for zsh: there is no zsh'
fi

# The folder has the four files, as they stand in the repository, and nothing else; also the second time.
installed() {
    (cd "$1" && find . -type f -printf '%m %P\n' | sort -k 2) >listed
    printf '%s\n' '755 bin/rock' '644 share/bash-completion/completions/rock' '644 share/man/man1/rock.1' \
        '644 share/zsh/site-functions/_rock' | cmp -s - listed && cmp -s "$program" "$1/bin/rock" &&
        cmp -s "$root/docs/rock.1" "$1/share/man/man1/rock.1" &&
        cmp -s "$bash_words" "$1/share/bash-completion/completions/rock" &&
        cmp -s "$zsh_words" "$1/share/zsh/site-functions/_rock"
    judge $? "the four files are in $1"
}
for place in 'a new/folder' 'a new/folder'; do
    "$root/tools/install.sh" "$place" >printed 2>error
    [ $? -eq 0 ] && [ ! -s error ] && (cd "$place" && find "$PWD" -type f | sort) |
        cmp -s - <(while read -r name; do realpath "$name"; done <printed | sort)
    judge $? "install.sh prints what it put there: $(cat printed error)"
    installed "$place"
    printf 'older' >"$place/bin/rock" && chmod 600 "$place/bin/rock"
done
"$program" --version >wanted && "$root/tools/install.sh" again >/dev/null && again/bin/rock --version | cmp -s - wanted
judge $? 'the installed program runs'
if command -v man >/dev/null; then
    [ "$(man -M "$folder/again/share/man" -w rock)" = "$folder/again/share/man/man1/rock.1" ]
    judge $? 'man finds the page in the folder'
else
    skip 'the man page: there is no man'
fi

# Refusals: a name, the status, what is said last, and the words.
not_installed() {
    local name=$1 status=$2 said=$3
    shift 3
    "$root/tools/install.sh" "$@" >printed 2>error
    [ $? -eq "$status" ] && [ ! -s printed ] && [ "$(tail -n 1 error)" = "install.sh: $said" ]
    judge $? "$name: $(cat error)"
}
not_installed 'no folder' 2 'the only word is the folder; --help says more'
not_installed 'two folders' 2 'the only word is the folder; --help says more' one two
not_installed 'an empty name' 2 'the folder is not to be empty, and not to begin with a hyphen; --help says more' ''
not_installed 'an option' 2 'the folder is not to be empty, and not to begin with a hyphen; --help says more' --prefix
not_installed 'a file for a folder' 1 'help/bin/rock could not be put there' help
ROCK=gone not_installed 'no program' 1 'new/bin/rock could not be put there' new
"$root/tools/install.sh" --help >printed && [ "$(grep -c '^  [012]  ' printed)" -eq 3 ] && ! grep -q '^#' printed
judge $? 'the help tells each status'

printf '%d rows passed, %d failed, %d skipped\n' "$passed" "$failed" "$skipped"
[ "$failed" -eq 0 ]
