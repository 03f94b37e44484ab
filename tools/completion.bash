# Completion in bash of the words of pump_program, pumpd and mow-cc. It is installed under the name of each, and bash-completion reads
# it when one is first completed; without bash-completion: . tools/completion.bash

# The files of the host complete the current word, as bash does it by itself.
_mowhairu_files() {
    COMPREPLY=()
    compopt -o default 2> /dev/null
    return 0
}

# Words complete the current word.
_mowhairu_words() {
    mapfile -t COMPREPLY < <(compgen -W "$1" -- "${COMP_WORDS[COMP_CWORD]}")
}

# Whether the word in front of the current one sends a stream to a file.
_mowhairu_redirected() {
    [[ ${COMP_WORDS[COMP_CWORD - 1]} == *[\<\>] ]]
}

# The flags behind the order that aren't there yet.
_mowhairu_flags() {
    local flag flags=
    for flag in --hosts -j --budget; do
        [[ " ${COMP_WORDS[*]:3:COMP_CWORD-3} " == *" $flag "* ]] || flags+=" $flag"
    done
    _mowhairu_words "$flags"
}

_mowhairu_pump_program() {
    _mowhairu_redirected && { _mowhairu_files; return; }
    case $COMP_CWORD,${COMP_WORDS[1]} in
        1,*) _mowhairu_words 'order --help --version' ;;
        2,order) _mowhairu_words - ;;
        *,order)
            case ${COMP_WORDS[COMP_CWORD - 1]} in
                --hosts) mapfile -t COMPREPLY < <(compgen -A hostname -W localhost -- "${COMP_WORDS[COMP_CWORD]}") ;;
                -j) _mowhairu_words "1 2 4 8 16 32 64" ;;
                --budget) _mowhairu_words 4096 ;;
                *) _mowhairu_flags ;;
            esac
            ;;
        *) COMPREPLY=() ;;
    esac
}

_mowhairu_pumpd() {
    _mowhairu_redirected && { _mowhairu_files; return; }
    COMPREPLY=()
    [[ $COMP_CWORD == 1 ]] && _mowhairu_words '--inetd --help --version'
    return 0
}

# A compiler's words: files, or, where the first one is a compiler, what bash-completion knows of it.
_mowhairu_mow_cc() {
    if _mowhairu_redirected; then
        _mowhairu_files
    elif [[ $COMP_CWORD == 1 && ${COMP_WORDS[1]} == -* ]]; then
        _mowhairu_words '--help --version'
    elif [[ $COMP_CWORD == 1 && -n ${COMP_WORDS[1]} ]]; then
        mapfile -t COMPREPLY < <(compgen -c -- "${COMP_WORDS[1]}"; compgen -f -- "${COMP_WORDS[1]}")
        compopt -o filenames 2> /dev/null
    elif declare -F _command_offset > /dev/null && type -P "${COMP_WORDS[1]}" > /dev/null; then
        _command_offset 1
    else
        _mowhairu_files
    fi
}

complete -F _mowhairu_pump_program pump_program
complete -F _mowhairu_pumpd pumpd
complete -F _mowhairu_mow_cc mow-cc
