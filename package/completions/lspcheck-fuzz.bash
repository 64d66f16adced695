# Completion of lspcheck-fuzz's command line for bash. Source this file in ~/.bashrc, or copy it
# as /usr/share/bash-completion/completions/lspcheck-fuzz.

_lspcheck_fuzz() {
    local options="--folder --jobs --json --language --only --program --seconds --seed --small --start --wait"
    options+=" --without --version --help -h"
    local features="two reopening past-last past-end astral separators combining cr mixed crlf long versions"
    features+=" range-length requests several whole emptied no-last-end undo bursts encodings deleting typing"
    local word=${COMP_WORDS[COMP_CWORD]} previous=${COMP_WORDS[COMP_CWORD - 1]}
    local given=" " option offered="" at others=0
    for ((at = 1; at < COMP_CWORD; at++)); do
        case ${COMP_WORDS[at]} in
            --help | --json | --version) given+="${COMP_WORDS[at]} " ;;
            --*) given+="${COMP_WORDS[at]} " && ((at++)) ;;
            *) ((others++)) ;;
        esac
    done
    COMPREPLY=()
    if ((others == 0)); then
        case $previous in
            --jobs | --language | --seconds | --seed | --wait) return ;;
            --only | --without) mapfile -t COMPREPLY < <(compgen -W "$features" -- "$word") && return ;;
            --program) mapfile -t COMPREPLY < <(compgen -c -- "$word") && return ;;
            --folder | --small | --start) compopt -o default && return ;;
        esac
        if [[ $word == -* ]]; then
            for option in $options; do
                [[ $given == *" $option "* ]] || offered+=" $option"
            done
            mapfile -t COMPREPLY < <(compgen -W "$offered" -- "$word")
            return
        fi
        mapfile -t COMPREPLY < <(compgen -c -- "$word")
        return
    fi
    compopt -o default
}

complete -F _lspcheck_fuzz lspcheck-fuzz
