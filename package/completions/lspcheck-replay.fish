# Completion of lspcheck-replay's command line for fish.
# Copy this file as ~/.config/fish/completions/lspcheck-replay.fish.

function __lspcheck_replay_option -d 'Whether an option is not given yet, or its value is due'
    set -l words (commandline -opc)
    not contains -- --$argv[1] $words; or test $words[-1] = --$argv[1]
end

complete -c lspcheck-replay -s h -l help -d 'Print help'
complete -c lspcheck-replay -n '__lspcheck_replay_option every' -l every -x -d 'Ask after each N-th change'
complete -c lspcheck-replay -n '__lspcheck_replay_option jobs' -l jobs -x -d 'Run at most N servers at a time'
complete -c lspcheck-replay -n 'not contains -- --json (commandline -opc)' -l json -d 'Write each line as a JSON object'
complete -c lspcheck-replay -l map -r -d 'Use another folder instead of one of the log'
complete -c lspcheck-replay -n '__lspcheck_replay_option program' -l program -r -d 'The lspcheck to run'
complete -c lspcheck-replay -n '__lspcheck_replay_option small' -l small -r -d 'Write the shortest session that shows the difference'
complete -c lspcheck-replay -n 'not contains -- --version (commandline -opc)' -l version -d 'Print the version'
complete -c lspcheck-replay -n '__lspcheck_replay_option wait' -l wait -x -d 'How long to wait for an answer'
complete -c lspcheck-replay -n 'not contains -- --with-settings (commandline -opc)' -l with-settings -d 'Send all of the log, also settings'
complete -c lspcheck-replay -n '__lspcheck_replay_option write' -l write -r -d 'Write the replayed session as a log'
