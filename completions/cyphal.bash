# Completion of cyphal's words for bash. What isn't known here is completed as the name of a file, behind < too.
# Nothing of the line and no name of a file is expanded, and of types plain names alone are offered.

_cyphal()
{
    local word=${COMP_WORDS[COMP_CWORD]} before=${COMP_WORDS[COMP_CWORD - 1]} command=${COMP_WORDS[1]}
    COMPREPLY=()
    if [[ $word == [\<\>]* || $before == [\<\>]* ]]; then
        return
    fi
    local commands=(run json explain survey nodes order gen monitor allocate fetch bound migrate compile compat versions changes encode decode)
    if [ "$COMP_CWORD" -eq 1 ]; then
        _cyphal_offer "$word" "${commands[@]}" --help --version
        return
    fi
    if [[ $COMP_CWORD -eq 2 && $word == -* ]]; then
        if [[ " ${commands[*]} " == *" $command "* ]]; then
            _cyphal_offer "$word" --help
        fi
        return
    fi
    case $command:$COMP_CWORD in
        run:2 | json:2 | bound:2 | migrate:2 | explain:2 | compile:2 | compat:2 | versions:2 | changes:[23] | encode:2 | decode:2)
            compopt -o plusdirs
            _cyphal_offer "$word" none
            ;;
        compat:3 | compat:4)
            _cyphal_types "$word" "${COMP_WORDS[2]}" whole
            ;;
        encode:3 | decode:3)
            _cyphal_types "$word" "${COMP_WORDS[2]}"
            ;;
    esac
}

# Offers those of the words behind the first one that begin with it.
_cyphal_offer()
{
    local word=$1 offered
    for offered in "${@:2}"; do
        if [[ $offered == "$word"* ]]; then
            COMPREPLY+=("$offered")
        fi
    done
}

# Offers what has values below a folder: messages, and of services both halves; with a third argument, services too.
_cyphal_types()
{
    local folder messages services
    _cyphal_folder "$2" || return
    mapfile -t messages < <(_cyphal_files "$folder" -L)
    mapfile -t services < <(_cyphal_files "$folder" -l)
    _cyphal_offer "$1" "${messages[@]}" "${services[@]/%/.Request}" "${services[@]/%/.Response}"
    if [ -n "$3" ]; then
        _cyphal_offer "$1" "${services[@]}"
    fi
}

# Sets folder to the path that a word of the line says. It may have quotes, and a tilde in front; one with a $ or a
# backquote would have to be expanded, and says none.
_cyphal_folder()
{
    local word=$1 quote='' n char
    folder=
    if [[ $word == \~ || $word == \~/* ]]; then
        folder=$HOME word=${word:1}
    fi
    for ((n = 0; n < ${#word}; n++)); do
        char=${word:n:1}
        case $quote:$char in
            \':\' | \":\") quote= ;;
            \':*) folder+=$char ;;
            *:[\$\`]) return 1 ;;
            :[\'\"]) quote=$char ;;
            *:\\)
                ((n++))
                [[ -z $quote || ${word:n:1} == [\$\`\"\\] ]] || folder+=$char
                folder+=${word:n:1}
                ;;
            *) folder+=$char ;;
        esac
    done
    [[ -n $folder ]] || return
    [[ $folder == /* ]] || folder=./$folder
    [ -d "$folder" ]
}

# The names of the types whose files below a folder have a line --- (-l), or have none (-L). Read are regular files of at
# most 2^20 bytes, and links to such, whose path has letters, digits, _ and . alone.
_cyphal_files()
{
    (
        export LC_ALL=C
        builtin cd -- "$1" || exit
        command find -L . -mindepth 1 \( -name '*[!A-Za-z0-9_.]*' -o -type d -xtype l \) -prune \
            -o -name '*.dsdl' -type f -size -1048577c \
            -exec grep "$2" -D skip -E '^[[:blank:]]*---+[[:blank:]]*(#.*)?$' {} + |
            command sed -n -E -e 's,^\./(([A-Za-z_][A-Za-z0-9_]*/)+)([0-9]+\.)?([A-Za-z_][A-Za-z0-9_]*\.[0-9]+\.[0-9]+)\.dsdl$,\1\4,' \
                -e T -e 's,/,.,gp'
    ) < /dev/null 2> /dev/null
}

complete -o bashdefault -o default -F _cyphal cyphal
