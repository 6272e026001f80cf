# Completion of rock for bash, made from its help text by tools/completions.py.
_rock() {
    local word=${COMP_WORDS[COMP_CWORD]}
    COMPREPLY=()
    case ${COMP_WORDS[1]}:$COMP_CWORD in
    *:1) mapfile -t COMPREPLY < <(compgen -W 'create list check run bench migrate --help --version' -- "$word") ;;
    create:2 | list:2 | check:2 | run:2 | bench:2 | migrate:2) compopt -o default ;;
    esac
}
complete -F _rock rock
