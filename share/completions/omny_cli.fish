# fish completion of omny_cli. The options are those of `omny_cli --help`.

# Files with this ending, then folders and other files. The word may be behind `--table=`.
function __omny_cli_files --argument-names ending
    set -l word (commandline -ct | string replace -r -- '^--[a-z]+=' '')
    __fish_complete_suffix "$word" $ending | string match -r ".+"
end

complete -c omny_cli -f
complete -c omny_cli -l table -x -k -d 'The fare table, and those from a date on' -a '(__omny_cli_files .toml)'
complete -c omny_cli -l settle -d 'Put the taps of all uploads in order before they are charged'
complete -c omny_cli -l live -d 'Charge taps as files are drawn, without a note'
complete -c omny_cli -l sorted -d 'Merge files that are in order already, with --settle'
complete -c omny_cli -l list -d 'List the taps, and charge nothing'
complete -c omny_cli -l workers -x -d 'How many threads post the uploads' -a '(seq 16)'
complete -c omny_cli -l shards -x -d 'Over how many shards the accounts are spread' \
    -a '1 2 4 8 16 32 64'
complete -c omny_cli -l token -x -d 'Print the statement of this token'
complete -c omny_cli -l explain -d 'Print the statement of --token with the reason of each line'
complete -c omny_cli -l json -d 'Print the explained statement as JSON'
complete -c omny_cli -l ledger -d 'Print the ledger: every entry, as CSV'
complete -c omny_cli -l traced -d 'Put class, upload and place behind each line of the settled ledger'
complete -c omny_cli -l tokens -x -d 'Charge the tokens of a range alone, with --sorted'
complete -c omny_cli -l made-by -r -F -d 'Make a file of what made the text'
complete -c omny_cli -l format -x -d 'The form of what is printed' -a 'text json csv'
complete -c omny_cli -l files-from -r -F -d 'Take the files that a list names'
complete -c omny_cli -s 0 -l null -d 'The names of the list end with NUL'
complete -c omny_cli -s h -l help -d 'Print help'
complete -c omny_cli -s V -l version -d 'Print the version'
complete -c omny_cli -k -a '(__omny_cli_files .tap)'
