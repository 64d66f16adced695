# Completion of lspcheck-fuzz's command line for fish.
# Copy this file as ~/.config/fish/completions/lspcheck-fuzz.fish.

function __lspcheck_fuzz_option -d 'Whether an option is not given yet, or its value is due'
    set -l words (commandline -opc)
    not contains -- --$argv[1] $words; or test $words[-1] = --$argv[1]
end

set -l features two reopening past-last past-end astral separators combining cr mixed crlf long versions \
    range-length requests several whole emptied no-last-end undo bursts encodings deleting typing

complete -c lspcheck-fuzz -s h -l help -d 'Print help'
complete -c lspcheck-fuzz -n '__lspcheck_fuzz_option folder' -l folder -r -d 'The project that the server needs'
complete -c lspcheck-fuzz -n '__lspcheck_fuzz_option jobs' -l jobs -x -d 'Show a drift to at most N fresh servers at a time'
complete -c lspcheck-fuzz -n 'not contains -- --json (commandline -opc)' -l json -d 'Write each line as a JSON object'
complete -c lspcheck-fuzz -n '__lspcheck_fuzz_option language' -l language -x -d 'The languageId of the documents'
complete -c lspcheck-fuzz -n '__lspcheck_fuzz_option only' -l only -x -a "$features" -d 'Only these features'
complete -c lspcheck-fuzz -n '__lspcheck_fuzz_option program' -l program -r -d 'The lspcheck to run'
complete -c lspcheck-fuzz -n '__lspcheck_fuzz_option seconds' -l seconds -x -d 'Hunt for N seconds'
complete -c lspcheck-fuzz -n '__lspcheck_fuzz_option seed' -l seed -x -d 'Make the edits of this seed'
complete -c lspcheck-fuzz -n '__lspcheck_fuzz_option small' -l small -r -d 'Write the smallest session of a drift'
complete -c lspcheck-fuzz -n '__lspcheck_fuzz_option start' -l start -r -d 'Begin with the first lines of this file'
complete -c lspcheck-fuzz -n 'not contains -- --version (commandline -opc)' -l version -d 'Print the version'
complete -c lspcheck-fuzz -n '__lspcheck_fuzz_option wait' -l wait -x -d 'How long to wait for an answer'
complete -c lspcheck-fuzz -n '__lspcheck_fuzz_option without' -l without -x -a "$features" -d 'Not these features'
