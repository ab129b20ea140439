# Completion of jp for bash: its subcommands and its flags. A query can't be completed.

_jp() {
    local word=${COMP_WORDS[COMP_CWORD]}
    COMPREPLY=()
    # What follows one of these is the shell's, which completes it as a file's name.
    if [[ ${COMP_WORDS[COMP_CWORD - 1]} =~ ^[0-9]*[\<\>]+$ ]]; then
        compopt -o default
    elif [ "$COMP_CWORD" -eq 1 ]; then
        mapfile -t COMPREPLY < <(compgen -W "check canon eval paths both" -- "$word")
    elif [[ $word == -* ]]; then
        mapfile -t COMPREPLY < <(compgen -W "$(_jp_flags)" -- "$word")
    fi
}

# The flags that the words before this one don't have, each of which is taken once; none after `--`.
_jp_flags() {
    local flag before=" ${COMP_WORDS[*]:2:COMP_CWORD-2} " own=()
    [[ $before != *" -- "* ]] || return 0
    [[ ! ${COMP_WORDS[1]} =~ ^(eval|paths|both)$ ]] || own=(--first --exit-status)
    [[ ! ${COMP_WORDS[1]} =~ ^(eval|both)$ ]] || own+=(--raw)
    for flag in --extended --decimals --explain "${own[@]}"; do
        [[ $before == *" $flag "* ]] || echo "$flag"
    done
}

complete -F _jp jp
