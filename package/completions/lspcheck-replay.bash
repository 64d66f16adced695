# Completion of lspcheck-replay's command line for bash. Source this file in ~/.bashrc, or copy it
# as /usr/share/bash-completion/completions/lspcheck-replay.

_lspcheck_replay() {
    local options="--every --jobs --json --map --program --small --wait --with-settings --write --version"
    options+=" --help -h"
    local word=${COMP_WORDS[COMP_CWORD]} previous=${COMP_WORDS[COMP_CWORD - 1]}
    local given=" " option offered="" at others=0
    for ((at = 1; at < COMP_CWORD; at++)); do
        case ${COMP_WORDS[at]} in
            # bash splits `OLD=NEW` into three words.
            =) ((at++)) ;;
            --help | --json | --version | --with-settings) given+="${COMP_WORDS[at]} " ;;
            --*) given+="${COMP_WORDS[at]} " && ((at++)) ;;
            *) ((others++)) ;;
        esac
    done
    COMPREPLY=()
    if ((others == 0)); then
        case $previous in
            --every | --jobs | --wait) return ;;
            --program) mapfile -t COMPREPLY < <(compgen -c -- "$word") && return ;;
            --map | --small | --write) compopt -o default && return ;;
        esac
        if [[ $word == -* ]]; then
            # An option is given once, but for --map.
            for option in $options; do
                [[ $option != --map && $given == *" $option "* ]] || offered+=" $option"
            done
            mapfile -t COMPREPLY < <(compgen -W "$offered" -- "$word")
            return
        fi
    elif ((others == 1)); then
        mapfile -t COMPREPLY < <(compgen -c -- "$word")
        return
    fi
    compopt -o default
}

complete -F _lspcheck_replay lspcheck-replay
