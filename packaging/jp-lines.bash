# Completion of jp-lines for bash: its subcommands, its flags, and behind a query or an expression files. These
# themselves and the values of flags can't be completed.

_jp_lines() {
    local word=${COMP_WORDS[COMP_CWORD]} before=${COMP_WORDS[COMP_CWORD - 1]}
    COMPREPLY=()
    # What follows one of these is the shell's, which completes it as a file's name.
    if [[ $before =~ ^[0-9]*[\<\>]+$ ]]; then
        compopt -o default
    elif [ "$COMP_CWORD" -eq 1 ]; then
        mapfile -t COMPREPLY < <(compgen -W "eval paths both count keep columns" -- "$word")
    elif [[ $word == -* ]]; then
        mapfile -t COMPREPLY < <(compgen -W "$(_jp_lines_flags)" -- "$word")
    elif _jp_lines_is_asked && [[ ! $before =~ ^--(limit|max-nodes|max-bytes|reports)$ ]]; then
        compopt -o default
    fi
}

# Whether a query or an expression stands before this word. Bash takes a `=` for a word of its own.
_jp_lines_is_asked() {
    local word before=
    for word in "${COMP_WORDS[@]:2:COMP_CWORD-2}"; do
        [[ $word == -?* || $word == = || $before =~ ^(--limit|--max-nodes|--max-bytes|--reports|=)$ ]] || return 0
        before=$word
    done
    return 1
}

# The flags that the words before this one don't have, each of which is taken once; none after `--`.
_jp_lines_flags() {
    local flag before=" ${COMP_WORDS[*]:2:COMP_CWORD-2} " own=(--first)
    [[ $before != *" -- "* ]] || return 0
    [[ ! ${COMP_WORDS[1]} =~ ^(eval|both)$ ]] || own=(--first --raw)
    [ "${COMP_WORDS[1]}" != keep ] || own=()
    [ "${COMP_WORDS[1]}" != columns ] || own=(--csv --raw --names)
    for flag in --extended --whole --number "${own[@]}" --keep-going --line-buffered --explain --exit-status \
        --summary --reports --limit --max-nodes --max-bytes; do
        [[ $before == *" $flag "* ]] || echo "$flag"
    done
}

complete -F _jp_lines jp-lines
