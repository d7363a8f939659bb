# fish completion of omny_tools. The options are those of its `--help`.

# The subcommand that is not yet there.
function __omny_tools_no_task
    not __fish_seen_subcommand_from encode decode uploads table sort merge bounds corrections
end

# The fare table is not yet there: the subcommand is `table`, and no word ends in .toml.
function __omny_tools_no_table
    __fish_seen_subcommand_from table; and not string match -qr '\.toml$' -- (commandline -opc)
end

# Files with this ending, then folders and other files.
function __omny_tools_files --argument-names ending
    __fish_complete_suffix (commandline -ct) $ending | string match -r ".+"
end

set -l no_task __omny_tools_no_task
complete -c omny_tools -f
complete -c omny_tools -n $no_task -a encode -d 'Write the upload of a tap table'
complete -c omny_tools -n $no_task -a decode -d 'Write the taps of uploads as a table'
complete -c omny_tools -n $no_task -a uploads -d 'Show what uploads have'
complete -c omny_tools -n $no_task -a table -d 'Show a fare table as it is understood'
complete -c omny_tools -n $no_task -a sort -d 'Make one upload of all taps in canonical order'
complete -c omny_tools -n $no_task -a merge -d 'Merge the parts of a run'
complete -c omny_tools -n $no_task -a bounds -d 'Print the tokens at which to divide a run'
complete -c omny_tools -n $no_task -a corrections -d 'Write what a later ledger charges otherwise'
complete -c omny_tools -n $no_task -s V -l version -d 'Print the version'
complete -c omny_tools -s h -l help -d 'Print help'
set -l encode '__fish_seen_subcommand_from encode'
complete -c omny_tools -n $encode -l columns -x -d 'Read any CSV with these columns'
complete -c omny_tools -n $encode -l validators -x -k -d 'Take the validators by the names of devices' \
    -a '(__omny_tools_files .csv)'
complete -c omny_tools -n $encode -l validators-make -x -k -d 'The same, and number new devices' \
    -a '(__omny_tools_files .csv)'
complete -c omny_tools -n $encode -l from -x -a 'littlepay tides' -d 'Read a published export'
complete -c omny_tools -n $encode -l only -x -d 'Keep only the rows with this value'
complete -c omny_tools -n $encode -l drop -x -d 'Leave out the rows with this value'
complete -c omny_tools -n $encode -l count -x -d 'Refuse rows that are not of one rider'
complete -c omny_tools -n $encode -l token-hash -d 'Take the SHA-256 of any text as token'
complete -c omny_tools -n $encode -l token-key -r -d 'Make tokens of any text by the key in this file'
complete -c omny_tools -n $encode -l separator -x -a ', ";" tab' -d 'The byte between two fields'
complete -c omny_tools -n $encode -l unit -x -a 's ms us' -d 'What a plain number of a moment counts'
complete -c omny_tools -n $encode -l moment-format -x -d 'How moments are written'
complete -c omny_tools -n $encode -l zone -x -d 'The zone of local times'
complete -c omny_tools -n $encode -l fold -x -a 'first second' -d 'Which time is meant of two'
complete -c omny_tools -n $encode -l refused -r -d 'Make a file of the rows that are no taps'
complete -c omny_tools -n $encode -l out -r -d 'Make this file of the upload'
set -l uploads '__fish_seen_subcommand_from uploads'
complete -c omny_tools -n $uploads -l good-part -r -d 'Make a file of what stands before the fault'
complete -c omny_tools -n $uploads -l tokens -d 'Print how many tokens the uploads share'
complete -c omny_tools -n $uploads -l look -d 'Look for near doubles and repeated uploads, too'
complete -c omny_tools -n $uploads -l within -x -d 'How many seconds later a near double is at most'
complete -c omny_tools -n $uploads -l from -x -d 'Look for taps before this moment'
complete -c omny_tools -n $uploads -l until -x -d 'Look for taps at this moment or after it'
complete -c omny_tools -n $uploads -l table -x -k -d 'Look for validators that have no tap on a day' \
    -a '(__omny_tools_files .toml)'
complete -c omny_tools -n $uploads -l list -d 'Write all that is found as CSV'
complete -c omny_tools -n $uploads -l format -x -a 'text json csv' -d 'The form of what is printed'
complete -c omny_tools -n '__fish_seen_subcommand_from corrections' -l tokens \
    -d "Write the sums of each token's corrections"
set -l table '__fish_seen_subcommand_from table'
complete -c omny_tools -n $table -l strict -d 'Let the status be 1 if there is a warning'
complete -c omny_tools -n $table -l riders -d 'Show each rider with its class'
complete -c omny_tools -n $table -l sql -d 'Write the table as SQL tables'
complete -c omny_tools -n $table -l from -x -d 'Show the changes of clocks after this moment'
complete -c omny_tools -n $table -l table -x -k -d 'Show a table that is valid from a date on, too' \
    -a '(__omny_tools_files .toml)'
complete -c omny_tools -n __omny_tools_no_table -k -a '(__omny_tools_files .toml)'
complete -c omny_tools -n "$table; and not __omny_tools_no_table" -k -a '(__omny_tools_files .tap)'
set -l sort '__fish_seen_subcommand_from sort'
complete -c omny_tools -n $sort -l merge -d 'Merge uploads that are in canonical order already'
complete -c omny_tools -n $sort -l out -r -d 'The file that is made'
complete -c omny_tools -n $sort -l ends -r -d 'Make a file of how the uploads ended'
complete -c omny_tools -n '__fish_seen_subcommand_from bounds' -l parts -x -d 'How many parts'
complete -c omny_tools -n '__fish_seen_subcommand_from merge' -F
set -l lists '__fish_seen_subcommand_from decode uploads sort merge bounds'
complete -c omny_tools -n $lists -l files-from -r -F -d 'Take the files that a list names'
complete -c omny_tools -n $lists -s 0 -l null -d 'The names of the list end with NUL'
complete -c omny_tools -n '__fish_seen_subcommand_from encode corrections' -k \
    -a '(__omny_tools_files .csv)'
complete -c omny_tools -n '__fish_seen_subcommand_from decode uploads sort bounds' -k \
    -a '(__omny_tools_files .tap)'
