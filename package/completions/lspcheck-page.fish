# Completion of lspcheck-page's command line for fish.
# Copy this file as ~/.config/fish/completions/lspcheck-page.fish.

function __lspcheck_page_option -d 'Whether an option is not given yet, or its value is due'
    set -l words (commandline -opc)
    not contains -- $argv[1] $words; or test $words[-1] = $argv[1]
end

complete -c lspcheck-page -s h -l help -d 'Print help'
complete -c lspcheck-page -n 'not contains -- --version (commandline -opc)' -l version -d 'Print the version'
complete -c lspcheck-page -n 'not contains -- --small (commandline -opc)' -l small -d 'Show only the first violation and what led to it'
complete -c lspcheck-page -n 'not contains -- --with-checker (commandline -opc)' -l with-checker -d 'Put lspcheck itself into the page'
complete -c lspcheck-page -n '__lspcheck_page_option -o' -s o -r -d 'Write the page to this file'
complete -c lspcheck-page -n '__lspcheck_page_option --output' -l output -x -a '(__fish_complete_directories)' -d 'Write a page of each log and an index into this folder'
complete -c lspcheck-page -n 'not contains -- --markdown (commandline -opc)' -l markdown -d 'Print what the button of the page copies'
complete -c lspcheck-page -n '__lspcheck_page_option --jobs' -l jobs -x -d 'Read this many logs at once'
complete -c lspcheck-page -n '__lspcheck_page_option --shrink' -l shrink -x -d 'Look this many seconds for the smallest log'
complete -c lspcheck-page -n '__lspcheck_page_option --program' -l program -r -d 'The lspcheck to run'
complete -c lspcheck-page -n '__lspcheck_page_option --most-events' -l most-events -x -d 'Cut a log with more events'
complete -c lspcheck-page -n '__lspcheck_page_option --most-bytes' -l most-bytes -x -d 'Cut a log of more bytes'
