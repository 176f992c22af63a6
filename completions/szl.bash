# Completion of szl for bash: commands, options, their words, and names of files.
_szl() {
    local word=${COMP_WORDS[COMP_CWORD]} before=${COMP_WORDS[COMP_CWORD-1]}
    [ "$before" = "=" ] && before=${COMP_WORDS[COMP_CWORD-2]}
    [ "$word" = "=" ] && word=
    COMPREPLY=()
    if [ "$COMP_CWORD" -eq 1 ]; then
        mapfile -t COMPREPLY < <(compgen -W "run resume check merge selftest" -- "$word")
        return
    fi
    case $before in
    --frame) mapfile -t COMPREPLY < <(compgen -W "lines delimited" -- "$word") ;;
    --workers | --budget | --skip | --shard | --attempts | --kill | --twice) ;;
    *)
        if [[ $word == -* && ${COMP_WORDS[1]} == run ]]; then
            mapfile -t COMPREPLY < <(compgen -W "--frame --workers --budget --skip --shard --attempts --kill --twice --ignore-undefs --proto --save" -- "$word")
        elif [[ $word == -* && ${COMP_WORDS[1]} == resume ]]; then
            mapfile -t COMPREPLY < <(compgen -W "--frame --workers --budget --skip --shard --attempts --kill --twice --ignore-undefs --proto" -- "$word")
        elif [[ $word == -* && ${COMP_WORDS[1]} == check ]]; then
            mapfile -t COMPREPLY < <(compgen -W "--proto" -- "$word")
        elif [[ $word == -* && ${COMP_WORDS[1]} == merge ]]; then
            mapfile -t COMPREPLY < <(compgen -W "--save" -- "$word")
        elif [ "${COMP_WORDS[1]}" != selftest ]; then
            compopt -o filenames
            mapfile -t COMPREPLY < <(compgen -f -- "$word")
        fi
        ;;
    esac
}
complete -F _szl szl

# Completion of szl-explain: one name of a file.
_szl_explain() {
    compopt -o filenames
    mapfile -t COMPREPLY < <(compgen -f -- "${COMP_WORDS[COMP_CWORD]}")
}
complete -F _szl_explain szl-explain

# Completion of szl-cut: the name of a file, and then a size.
_szl_cut() {
    COMPREPLY=()
    [ "$COMP_CWORD" -eq 1 ] || return
    compopt -o filenames
    mapfile -t COMPREPLY < <(compgen -f -- "${COMP_WORDS[COMP_CWORD]}")
}
complete -F _szl_cut szl-cut

# Completion of szl-proto: folders, and names of files in the working directory and in these folders.
_szl_proto() {
    local word=${COMP_WORDS[COMP_CWORD]} before=${COMP_WORDS[COMP_CWORD-1]} at
    [ "$before" = "=" ] && before=${COMP_WORDS[COMP_CWORD-2]}
    [ "$word" = "=" ] && word=
    COMPREPLY=()
    if [[ $word == -* ]]; then
        mapfile -t COMPREPLY < <(compgen -W "-I --proto_path" -- "$word")
        return
    fi
    compopt -o filenames
    if [[ $before == -I || $before == --proto_path ]]; then
        mapfile -t COMPREPLY < <(compgen -d -- "$word")
        return
    fi
    mapfile -t COMPREPLY < <(compgen -f -- "$word")
    for ((at = 1; at < COMP_CWORD; at++)); do
        [ "${COMP_WORDS[at-1]}" = -I ] && mapfile -t -O ${#COMPREPLY[@]} COMPREPLY < <(cd "${COMP_WORDS[at]}" 2>/dev/null && compgen -f -- "$word")
    done
}
complete -F _szl_proto szl-proto

# Completion of szl-rows.
_szl_rows() {
    local word=${COMP_WORDS[COMP_CWORD]}
    COMPREPLY=()
    [ "${COMP_WORDS[COMP_CWORD-1]}" = --table ] && return
    if [[ $word == -* ]]; then
        mapfile -t COMPREPLY < <(compgen -W "--json --csv --tsv --back --table" -- "$word")
    else
        compopt -o filenames
        mapfile -t COMPREPLY < <(compgen -f -- "$word")
    fi
}
complete -F _szl_rows szl-rows
