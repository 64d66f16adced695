# Completion of lspcheck's command line for bash.
# Source this file in ~/.bashrc, or copy it as /usr/share/bash-completion/completions/lspcheck.

_lspcheck() {
    local commands="check explain show text event normal upgrade redact frames help"
    local word=${COMP_WORDS[COMP_CWORD]} previous=${COMP_WORDS[COMP_CWORD - 1]}
    local command="" given=" " options="" option offered="" at
    for ((at = 1; at < COMP_CWORD; at++)); do
        case ${COMP_WORDS[at]} in
            -*) given+="${COMP_WORDS[at]} " ;;
            *) command=${command:-${COMP_WORDS[at]}} ;;
        esac
    done
    COMPREPLY=()
    # bash splits `--as=kinds` into three words.
    [[ $word == "=" ]] && previous="=" word=""
    [[ $previous == "=" && $given == *" --as "* ]] && previous=--as
    case $command in
        "") options="--help --version -h -V" ;;
        check) options="--complete --all --every --compared --ignore-line-ends --json --quiet --help -h" ;;
        explain) options="--complete --all --notes --ignore-line-ends --by-messages --in-editor --json --quiet --help -h" ;;
        show) options="--all --long --json --quiet --help -h" ;;
        text) options="--all --quiet --help -h" ;;
        event | normal | upgrade) options="--quiet --help -h" ;;
        redact) options="--ignore-line-ends --quiet --help -h" ;;
        frames) options="--as --quiet --help -h" ;;
    esac
    if [[ $previous == --as ]]; then
        offered="lengths canonical kinds"
    elif [[ $word == -* ]]; then
        # An option is given once.
        for option in $options; do
            [[ $given == *" $option "* ]] || offered+=" $option"
        done
    elif [[ $command == "" || $command == help ]]; then
        offered=$commands
    else
        compopt -o default
        return
    fi
    mapfile -t COMPREPLY < <(compgen -W "$offered" -- "$word")
}

complete -F _lspcheck lspcheck
