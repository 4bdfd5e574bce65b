# Completion of leireg for bash.

_leireg_words() {
    mapfile -t COMPREPLY < <(compgen -W "$1" -- "$word")
}

# Files and folders whose names begin with the word. Readline escapes what the shell reads in a name.
_leireg_files() {
    compopt -o filenames 2>/dev/null
    mapfile -t COMPREPLY < <(compgen -f -- "$word")
}

_leireg() {
    local word=${COMP_WORDS[COMP_CWORD]} before=${COMP_WORDS[COMP_CWORD - 1]} command=${COMP_WORDS[1]}
    local tables='lei rr repex' forms='csv json'
    COMPREPLY=()
    if [[ $COMP_CWORD == 1 ]]; then
        _leireg_words 'apply check demo digits group lines mirror search serve'
        return
    fi
    case $command:$COMP_CWORD in
    apply:2) _leireg_words "$tables" ;;
    apply:3 | group:3 | search:2) _leireg_words "$forms" ;;
    apply:[45] | group:[45] | search:3) _leireg_files ;;
    group:2) _leireg_words ALL ;;
    lines:* | serve:*)
        case $before in
        --store) _leireg_files ;;
        --port | --workers | --connections) ;;
        *) _leireg_options "$command" ;;
        esac
        ;;
    esac
}

# The options of a command that the line doesn't have yet.
_leireg_options() {
    local option left=()
    local options=(--store)
    [[ $1 == lines ]] || options+=(--port --workers --connections)
    for option in "${options[@]}"; do
        [[ " ${COMP_WORDS[*]:2:COMP_CWORD-2} " == *" $option "* ]] || left+=("$option")
    done
    _leireg_words "${left[*]}"
}

complete -F _leireg leireg
