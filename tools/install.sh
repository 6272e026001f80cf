#!/usr/bin/env bash
# Puts the program, the man page and the completions for bash and zsh into a folder.
#
#     tools/install.sh FOLDER
#     tools/install.sh --help
#
# The program is the one that the variable ROCK names; without it ./rock builds it first where that is needed. What is there
# already under these names is replaced. FOLDER gets
#
#     bin/rock
#     share/man/man1/rock.1
#     share/bash-completion/completions/rock
#     share/zsh/site-functions/_rock
#
# and the names of these four are printed.
#
# Exit status:
#   0  all four were put there
#   1  the program could not be built, or a file could not be put there
#   2  the words are wrong
# At 1 and 2 standard error says why.
set -u -o pipefail

root=$(dirname "$(dirname "$(readlink -f "${BASH_SOURCE[0]}")")")

say() { printf 'install.sh: %s\n' "$*" >&2; }

# The program to install.
program() {
    if [ -n "${ROCK:-}" ]; then
        printf '%s\n' "$ROCK"
    else
        "$root/rock" --version >/dev/null && printf '%s\n' "$root/crates/rock_main/out/rock_main"
    fi
}

# Puts a file into the folder, with its mode: put MODE FILE NAME
put() {
    install -D -m "$1" -- "$2" "$folder/$3" || { say "$folder/$3 could not be put there"; return 1; }
    printf '%s\n' "$folder/$3"
}

case $#:${1:-} in
1:--help)
    sed -n '2,/^[^#]/ s/^# \{0,1\}//p' "${BASH_SOURCE[0]}"
    exit
    ;;
1:-* | 1:)
    say "the folder is not to be empty, and not to begin with a hyphen; --help says more"
    exit 2
    ;;
1:*) folder=$1 ;;
*)
    say "the only word is the folder; --help says more"
    exit 2
    ;;
esac

from=$(program) || { say "there is no program to install"; exit 1; }
put 755 "$from" bin/rock &&
    put 644 "$root/docs/rock.1" share/man/man1/rock.1 &&
    put 644 "$root/docs/completions/rock.bash" share/bash-completion/completions/rock &&
    put 644 "$root/docs/completions/_rock" share/zsh/site-functions/_rock || exit 1
