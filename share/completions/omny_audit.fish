# fish completion of omny_audit. The options are those of its `--help`.

# Files with this ending, then folders and other files. The word may be behind `--table=`.
function __omny_audit_files --argument-names ending
    set -l word (commandline -ct | string replace -r -- '^--[a-z]+=' '')
    __fish_complete_suffix "$word" $ending | string match -r ".+"
end

# Whether uploads go on: the last option before the word is `--uploads`.
function __omny_audit_in_uploads
    set -l options (commandline -opc | string match -- '-*')
    test "$options[-1]" = --uploads
end

set -l uploads __omny_audit_in_uploads
complete -c omny_audit -f
complete -c omny_audit -l all -d 'Print each wrong line, each missing and each surplus tap'
complete -c omny_audit -l live -d 'Take a ledger that is not settled'
complete -c omny_audit -l table -x -k -d 'The fare table, and those from a date on' -a '(__omny_audit_files .toml)'
complete -c omny_audit -l uploads -x -k -d 'Uploads whose taps the ledger should have' \
    -a '(__omny_audit_files .tap)'
complete -c omny_audit -l files-from -r -F -d 'Take the uploads that a list names'
complete -c omny_audit -s 0 -l null -d 'The names of the list end with NUL'
complete -c omny_audit -l report -x -k -d 'The report of the ledger' -a '(__omny_audit_files .txt)'
complete -c omny_audit -l made-by -r -F -d 'The file of what made the text'
complete -c omny_audit -l format -x -d 'The form of what is printed' -a 'text json csv'
complete -c omny_audit -s h -l help -d 'Print help'
complete -c omny_audit -s V -l version -d 'Print the version'
complete -c omny_audit -n $uploads -k -a '(__omny_audit_files .tap)'
complete -c omny_audit -n "not $uploads" -k -a '(__omny_audit_files .csv)'
