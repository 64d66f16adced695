# Completion of lspcheck-page's command line for bash. Source this file in ~/.bashrc, or copy it as
# /usr/share/bash-completion/completions/lspcheck-page.

_lspcheck_page() {
    local options="-o --output --markdown --jobs --program --most-events --most-bytes --shrink --small"
    options+=" --with-checker --version --help -h"
    local word=${COMP_WORDS[COMP_CWORD]} previous=${COMP_WORDS[COMP_CWORD - 1]}
    local given=" " option offered="" at
    for ((at = 1; at < COMP_CWORD; at++)); do
        [[ ${COMP_WORDS[at]} != -* ]] || given+="${COMP_WORDS[at]} "
    done
    COMPREPLY=()
    # bash splits `--program=FILE` into three words.
    if [[ $word == "=" ]]; then
        word=""
    elif [[ $previous == "=" ]]; then
        previous=${COMP_WORDS[COMP_CWORD - 2]}
    fi
    case $previous in
        --most-events | --most-bytes | --jobs | --shrink) return ;;
        --output) compopt -o dirnames && return ;;
        --program) mapfile -t COMPREPLY < <(compgen -c -- "$word") && return ;;
    esac
    if [[ $previous != -o && $word == -* ]]; then
        # An option is given once.
        for option in $options; do
            [[ $given == *" $option "* ]] || offered+=" $option"
        done
        mapfile -t COMPREPLY < <(compgen -W "$offered" -- "$word")
        return
    fi
    compopt -o default
}

complete -F _lspcheck_page lspcheck-page
