# bash completion of omny_cli. The options are those of `omny_cli --help`.

_omny_cli() {
    local word=${COMP_WORDS[COMP_CWORD]} before=${COMP_WORDS[COMP_CWORD - 1]} given
    local options=(
        --table --settle --live --sorted --list --ledger --workers --shards --token --explain
        --json --traced --tokens --made-by --format --files-from -0 --null -h --help -V
        --version
    )
    # bash splits a word at `=`, so that `--table=F` is the words `--table`, `=` and `F`
    if [[ $word == = ]]; then
        word=
    elif [[ $before == = && $COMP_CWORD -gt 1 ]]; then
        before=${COMP_WORDS[COMP_CWORD - 2]}
    fi
    COMPREPLY=()
    # behind `--` there are only files
    for given in "${COMP_WORDS[@]:1:COMP_CWORD - 1}"; do
        [[ $given == -- ]] && before=--
    done
    case $before in
    --table) _omny_cli_files "$word" toml ;;
    --workers) mapfile -t COMPREPLY < <(compgen -W "$(seq -s ' ' 16)" -- "$word") ;;
    --shards) mapfile -t COMPREPLY < <(compgen -W '1 2 4 8 16 32 64' -- "$word") ;;
    --token | --tokens) ;;
    --format) mapfile -t COMPREPLY < <(compgen -W 'text json csv' -- "$word") ;;
    --files-from | --made-by)
        compopt -o filenames 2> /dev/null
        mapfile -t COMPREPLY < <(compgen -f -- "$word")
        ;;
    *)
        if [[ $word == -* && $before != -- ]]; then
            mapfile -t COMPREPLY < <(compgen -W "${options[*]}" -- "$word")
        else
            _omny_cli_files "$word" tap
        fi
        ;;
    esac
}

# The folders that begin with the word, and the files that do and have this ending; if there is
# none with the ending, all files that begin with the word.
_omny_cli_files() {
    compopt -o filenames 2> /dev/null
    mapfile -t COMPREPLY < <(compgen -f -X "!*.$2" -- "$1"; compgen -d -- "$1")
    [ ${#COMPREPLY[@]} -gt 0 ] || mapfile -t COMPREPLY < <(compgen -f -- "$1")
}

complete -F _omny_cli omny_cli
