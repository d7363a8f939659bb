# bash completion of omny_tools. The options are those of its `--help`.

_omny_tools() {
    local word=${COMP_WORDS[COMP_CWORD]} before=${COMP_WORDS[COMP_CWORD - 1]} task= given ending=tap
    local words=
    # bash splits a word at `=`, so that `--ends=F` is the words `--ends`, `=` and `F`
    if [[ $word == = ]]; then
        word=
    elif [[ $before == = && $COMP_CWORD -gt 1 ]]; then
        before=${COMP_WORDS[COMP_CWORD - 2]}
    fi
    COMPREPLY=()
    for given in "${COMP_WORDS[@]:1:COMP_CWORD - 1}"; do
        case $given in
        encode | decode | uploads | table | sort | merge | bounds | corrections)
            task=$given && break
            ;;
        esac
    done
    # the options of the task, and the ending of its files: * is any name
    case $task in
    '') words='-V --version' ;;
    encode)
        words='--columns --from --validators --validators-make --only --drop --count --token-hash --token-key'
        words+=' --separator --unit --moment-format --zone --fold --refused --out'
        ending=csv
        ;;
    corrections) words='--tokens' ending=csv ;;
    uploads) words='--good-part --tokens --look --within --from --until --table --list --format' ;;
    table)
        words='--strict --riders --from --sql --table'
        [[ ${COMP_WORDS[*]:1:COMP_CWORD - 1} == *.toml* ]] || ending=toml
        ;;
    sort) words='--merge --out --ends' ;;
    merge) ending='*' ;;
    bounds) words='--parts' ;;
    esac
    case $task in
    decode | uploads | sort | merge | bounds) words+=' --files-from -0 --null' ;;
    esac
    # behind `--` there are only files
    for given in "${COMP_WORDS[@]:1:COMP_CWORD - 1}"; do
        [[ $given == -- ]] && before=--
    done
    case $task$before in
    sort--ends) ending='*' ;;
    uploads--table | table--table) ending=toml ;;
    esac
    case $before in
    --from | --until | --within | --parts | --columns | --only | --drop | --count | --separator | --unit | --moment-format | --zone | --fold) return ;;
    --good-part | --refused | --token-key | --files-from) ending='*' ;;
    --format)
        mapfile -t COMPREPLY < <(compgen -W 'text json csv' -- "$word")
        return
        ;;
    esac
    if [[ $word == -* && $before != -- ]]; then
        mapfile -t COMPREPLY < <(compgen -W "$words -h --help" -- "$word")
    elif [[ -z $task ]]; then
        words='encode decode uploads table sort merge bounds corrections'
        mapfile -t COMPREPLY < <(compgen -W "$words" -- "$word")
    else
        _omny_tools_files "$word" "$ending"
    fi
}

# The folders that begin with the word, and the files that do and have this ending; if there is
# none with the ending, all files that begin with the word. The ending * is any name.
_omny_tools_files() {
    compopt -o filenames 2> /dev/null
    [[ $2 == '*' ]] && mapfile -t COMPREPLY < <(compgen -f -- "$1") && return
    mapfile -t COMPREPLY < <(compgen -f -X "!*.$2" -- "$1"; compgen -d -- "$1")
    [ ${#COMPREPLY[@]} -gt 0 ] || mapfile -t COMPREPLY < <(compgen -f -- "$1")
}

complete -F _omny_tools omny_tools
