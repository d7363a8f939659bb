# bash completion of omny_audit. The options are those of its `--help`.

_omny_audit() {
    local word=${COMP_WORDS[COMP_CWORD]} before=${COMP_WORDS[COMP_CWORD - 1]} given ending=csv
    local options=(--all --live --table --uploads --report --made-by --format --files-from -0 --null
        -h --help -V --version)
    # bash splits a word at `=`, so that `--table=F` is the words `--table`, `=` and `F`
    if [[ $word == = ]]; then
        word=
    elif [[ $before == = && $COMP_CWORD -gt 1 ]]; then
        before=${COMP_WORDS[COMP_CWORD - 2]}
    fi
    COMPREPLY=()
    # uploads follow `--uploads`, up to the next option; behind `--` there is only the ledger
    for given in "${COMP_WORDS[@]:1:COMP_CWORD - 1}"; do
        case $given in
        --uploads) ending=tap ;;
        --) ending=csv before=-- ;;
        -*) ending=csv ;;
        esac
        [[ $before != -- ]] || break
    done
    if [[ $word == -* && $before != -- ]]; then
        mapfile -t COMPREPLY < <(compgen -W "${options[*]}" -- "$word")
    elif [[ $before == --format ]]; then
        mapfile -t COMPREPLY < <(compgen -W 'text json csv' -- "$word")
    elif [[ $before == --files-from || $before == --made-by ]]; then
        compopt -o filenames 2> /dev/null
        mapfile -t COMPREPLY < <(compgen -f -- "$word")
    else
        [[ $before != --table ]] || ending=toml
        [[ $before != --report ]] || ending=txt
        # files with this ending and folders; if there is none with the ending, all files
        compopt -o filenames 2> /dev/null
        mapfile -t COMPREPLY < <(compgen -f -X "!*.$ending" -- "$word"; compgen -d -- "$word")
        [ ${#COMPREPLY[@]} -gt 0 ] || mapfile -t COMPREPLY < <(compgen -f -- "$word")
    fi
}

complete -F _omny_audit omny_audit
