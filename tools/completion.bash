# Completes commands, options and files of ./tower and ./memory_map in bash, from their own help:
#     . tools/completion.bash
_tower_words() {
    local words
    words=$(TOWER_QUIET=1 timeout 2 "$1" "${COMP_WORDS[@]:1:COMP_CWORD-1}" --help 2>/dev/null |
        grep -oE '^ +(-h, )?--[a-z]+|^  [a-z]+ ' | grep -oE -- '(--)?[a-z]{2,}')
    mapfile -t COMPREPLY < <(compgen -W "$words" -f -- "$2")
}
complete -o filenames -F _tower_words ./tower ./memory_map tower memory_map
