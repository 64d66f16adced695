# Completion of lspcheck's command line for fish.
# Copy this file as ~/.config/fish/completions/lspcheck.fish.

function __lspcheck_command -d 'Whether the command is one of these'
    set -l words (commandline -opc)
    contains -- "$words[2]" $argv
end

function __lspcheck_option -d 'Whether an option of these commands is not given yet'
    __lspcheck_command $argv[2..-1]; and not contains -- --$argv[1] (commandline -opc)
end

set -l first 'test (count (commandline -opc)) -eq 1'
complete -c lspcheck -n $first -f
complete -c lspcheck -n $first -a check -d 'Judge a session and report the verdict'
complete -c lspcheck -n $first -a explain -d 'Judge a session and explain a no'
complete -c lspcheck -n $first -a show -d 'List the events of a session'
complete -c lspcheck -n $first -a text -d 'Write the text that the server should hold'
complete -c lspcheck -n $first -a event -d 'Write the content of one event'
complete -c lspcheck -n $first -a normal -d 'Write the normal form of a log'
complete -c lspcheck -n $first -a upgrade -d 'Write a log in format 2'
complete -c lspcheck -n $first -a redact -d 'Write a log with its words replaced'
complete -c lspcheck -n $first -a frames -d 'Read one raw stream of frames'
complete -c lspcheck -n $first -a help -d 'Print help'
complete -c lspcheck -n $first -s V -l version -d 'Print the version'
complete -c lspcheck -n 'not __lspcheck_command help' -s h -l help -d 'Print help'

complete -c lspcheck -n '__lspcheck_command help' -f -a 'check explain show text event normal upgrade redact frames help'
complete -c lspcheck -n '__lspcheck_option complete check explain' -l complete -d 'Require a complete session'
complete -c lspcheck -n '__lspcheck_option all check explain' -l all -d 'Every independent violation'
complete -c lspcheck -n '__lspcheck_option notes explain' -l notes -d 'With --all, write the notes too'
complete -c lspcheck -n '__lspcheck_option all text' -l all -d 'Skip each message that breaks a rule'
complete -c lspcheck -n '__lspcheck_option every check' -l every -d 'Every violation, consequences included'
complete -c lspcheck -n '__lspcheck_option compared check' -l compared -d 'Status 1 if a yes compared no snapshot'
complete -c lspcheck -n '__lspcheck_option ignore-line-ends check explain redact' -l ignore-line-ends -d 'Compare texts line by line'
complete -c lspcheck -n '__lspcheck_option by-messages explain' -l by-messages -d 'Write only the text that the messages produce'
complete -c lspcheck -n '__lspcheck_option in-editor explain' -l in-editor -d 'Write only the text of the editor'
complete -c lspcheck -n '__lspcheck_option all show' -l all -d 'Continue past each violation'
complete -c lspcheck -n '__lspcheck_option long show' -l long -d 'Add numbers, URIs and versions'
complete -c lspcheck -n '__lspcheck_option json check explain show' -l json -d 'Write each line as a JSON object'
complete -c lspcheck -n '__lspcheck_option quiet check explain show text event normal upgrade redact frames' -l quiet -d 'Show no progress on a terminal'
set -l as '__lspcheck_option as frames; or test (commandline -opc)[-1] = --as'
complete -c lspcheck -n $as -l as -x -a 'lengths canonical kinds' -d 'What to write for each frame'
